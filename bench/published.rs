// engeom's published functions, over the stand-ins of oracle/, for bench/section.rs to time.
#![allow(dead_code)]
#[path = "../oracle/leaves.rs"]
mod leaves;

use AngleDir::Ccw;
pub use leaves::Result;
use leaves::*;
use std::error::Error;
use std::fmt::{Display, Formatter};
use std::ops::Index;
use std::sync::atomic::Ordering;

include!(concat!(env!("ORACLE_OUT"), "/published.rs"));

pub fn curve(section: &[f64], section_tol: f64) -> Curve2 {
    let points: Vec<Point2> = section.chunks_exact(2).map(|p| Point2::new(p[0], p[1])).collect();
    let curve = Curve2::from_points(&points, section_tol, false).unwrap();
    assert_eq!(curve.count(), points.len());
    curve
}

// The nearest station: point, direction and fraction, and its edge.
pub fn closest(curve: &Curve2, x: f64, y: f64) -> ([f64; 5], usize) {
    let s = curve.at_closest_to_point(&Point2::new(x, y));
    let ([x, y], [dx, dy]) = (s.point().coords.0, s.direction().into_inner().0);
    ([x, y, dx, dy, s.fraction()], s.index())
}

// The points of a stretch.
pub fn between(curve: &Curve2, l0: f64, l1: f64) -> Option<Vec<f64>> {
    Some(curve.between_lengths(l0, l1)?.points().iter().flat_map(|p| p.coords.0).collect())
}

fn line_at(n: &[f64]) -> Line2 {
    Line2::new(Point2::new(n[0], n[1]), SVector([n[2], n[3]]))
}

pub fn crossing(curve: &Curve2, tol: f64, line: [f64; 4]) -> Option<[f64; 4]> {
    let k = SectionInput::new(curve, tol).crossing_line(&line_at(&line))?;
    let ([ox, oy], [dx, dy]) = (k.origin.coords.0, k.direction.0);
    Some([ox, oy, dx, dy])
}

// The units of the run just made: lines tried, less those of start lines and probes.
fn units(free: u64) -> u32 {
    (TRIED.load(Ordering::Relaxed) - SHIFTED.load(Ordering::Relaxed) - free) as u32
}

fn forget_units() {
    TRIED.store(0, Ordering::Relaxed);
    SHIFTED.store(0, Ordering::Relaxed);
}

fn half(input: &SectionInput, line: &Line2) -> InscribedVec {
    extract_half_circles(input, &input.crossing_line(line).unwrap()).unwrap()
}

pub fn march(curve: &Curve2, tol: f64, line: &[f64]) -> (Vec<Inscribed>, u32) {
    forget_units();
    let list = half(&SectionInput::new(curve, tol), &line_at(line));
    (list.take_vec(), units(1))
}

// March, turn order and contacts, drop the last, march from the reversed line.
pub fn extraction(curve: &Curve2, tol: f64, line: &[f64]) -> (Vec<Inscribed>, u32) {
    forget_units();
    let input = SectionInput::new(curve, tol);
    let line = line_at(line);
    let mut list = half(&input, &line);
    list.reverse_order();
    list.pop();
    list.extend(half(&input, &line.reversed()));
    (list.take_vec(), units(2))
}

pub fn open_edge(curve: &Curve2, tol: f64, circles: Vec<Inscribed>, at_front: bool) -> (Vec<Inscribed>, u32, [f64; 2]) {
    forget_units();
    let fit = fit_open_edge(&SectionInput::new(curve, tol), circles, at_front).unwrap();
    (fit.circles, units(0), fit.edge.point.coords.0)
}

pub fn circle_at(n: &[f64]) -> Inscribed {
    Inscribed::new(Circle2::from_point(Point2::new(n[0], n[1]), n[2]), Point2::new(n[3], n[4]), Point2::new(n[5], n[6]))
}

pub fn circle_numbers(c: &Inscribed) -> [f64; crate::WIDTH] {
    let ([x, y], [p0x, p0y], [p1x, p1y]) = (c.c.center.coords.0, c.p0.coords.0, c.p1.coords.0);
    [x, y, c.c.radius, p0x, p0y, p1x, p1y, crate::UNKNOWN, crate::UNKNOWN]
}
