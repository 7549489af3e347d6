// What the published functions stand on, written from document 01's four leaf rules, the fifth of document 02 and 01's list of small leaves, and from docs/DECISIONS.md
// where these leave a form open. Nothing here is engeom's text. Each operation is one of Rust's f64 operations, which rounds once.
use crate::{Curve2, CurveStation2, dist};
use std::ops::{Add, Mul, Neg, Sub};
use std::sync::atomic::{AtomicU64, Ordering};

pub type Result<T> = std::result::Result<T, Box<dyn std::error::Error>>;

// How often a line was tried against a section, and how often a ray was shifted: a run's units are counted by them.
pub static TRIED: AtomicU64 = AtomicU64::new(0);
pub static SHIFTED: AtomicU64 = AtomicU64::new(0);
// How many distances were taken: how many points a walk gave the cleaning is known by them. Where functions are timed they are not counted.
pub static DISTANCES: AtomicU64 = AtomicU64::new(0);

// ---- vectors and points

#[derive(Clone, Copy, Debug, PartialEq)]
pub struct SVector<T, const D: usize>(pub [T; D]);

#[derive(Clone, Copy, Debug, PartialEq)]
pub struct Point<T, const D: usize> {
    pub coords: SVector<T, D>,
}

pub type Vector2 = SVector<f64, 2>;
pub type Point2 = Point<f64, 2>;

impl<const D: usize> SVector<f64, D> {
    // x times x plus y times y.
    pub fn dot(&self, other: &Self) -> f64 {
        let mut sum = self.0[0] * other.0[0];
        for i in 1..D {
            sum += self.0[i] * other.0[i];
        }
        sum
    }

    pub fn norm(&self) -> f64 {
        #[cfg(not(published))]
        DISTANCES.fetch_add(1, Ordering::Relaxed);
        self.dot(self).sqrt()
    }

    // Normalising divides by the length.
    pub fn normalized(&self) -> Self {
        let length = self.dot(self).sqrt();
        SVector(self.0.map(|x| x / length))
    }
}

impl<const D: usize> Add for SVector<f64, D> {
    type Output = Self;
    fn add(self, other: Self) -> Self {
        SVector(std::array::from_fn(|i| self.0[i] + other.0[i]))
    }
}

impl<const D: usize> Sub for SVector<f64, D> {
    type Output = Self;
    fn sub(self, other: Self) -> Self {
        SVector(std::array::from_fn(|i| self.0[i] - other.0[i]))
    }
}

impl<const D: usize> Mul<f64> for SVector<f64, D> {
    type Output = Self;
    fn mul(self, factor: f64) -> Self {
        SVector(self.0.map(|x| x * factor))
    }
}

impl Neg for Vector2 {
    type Output = Self;
    fn neg(self) -> Self {
        SVector(self.0.map(|x| -x))
    }
}

impl Neg for &Vector2 {
    type Output = Vector2;
    fn neg(self) -> Vector2 {
        -*self
    }
}

impl Point2 {
    pub fn new(x: f64, y: f64) -> Self {
        Point { coords: SVector([x, y]) }
    }
}

impl<const D: usize> From<SVector<f64, D>> for Point<f64, D> {
    fn from(coords: SVector<f64, D>) -> Self {
        Point { coords }
    }
}

impl<const D: usize> Sub for Point<f64, D> {
    type Output = SVector<f64, D>;
    fn sub(self, other: Self) -> SVector<f64, D> {
        self.coords - other.coords
    }
}

impl<const D: usize> Add<SVector<f64, D>> for Point<f64, D> {
    type Output = Self;
    fn add(self, v: SVector<f64, D>) -> Self {
        Point { coords: self.coords + v }
    }
}

pub trait PCoords<const D: usize> {
    fn coords(&self) -> SVector<f64, D>;
}

impl<const D: usize> PCoords<D> for Point<f64, D> {
    fn coords(&self) -> SVector<f64, D> {
        self.coords
    }
}

#[derive(Clone, Copy, Debug)]
pub struct Unit<T>(T);

pub type UnitVec2 = Unit<Vector2>;

impl Unit<Vector2> {
    pub fn new_normalize(v: Vector2) -> Self {
        Unit(v.normalized())
    }

    pub fn into_inner(self) -> Vector2 {
        self.0
    }
}

// ---- the quarter turn: clockwise (x, y) to (y, -x), the other way (-y, x)

#[derive(Clone, Copy, Debug, PartialEq)]
pub enum AngleDir {
    Cw,
    Ccw,
}

pub struct Turn(AngleDir);

pub fn rot90(dir: AngleDir) -> Turn {
    Turn(dir)
}

impl Mul<Vector2> for Turn {
    type Output = Vector2;
    fn mul(self, v: Vector2) -> Vector2 {
        let [x, y] = v.0;
        match self.0 {
            AngleDir::Cw => SVector([y, -x]),
            AngleDir::Ccw => SVector([-y, x]),
        }
    }
}

impl Mul<UnitVec2> for Turn {
    type Output = UnitVec2;
    fn mul(self, v: UnitVec2) -> UnitVec2 {
        Unit(self * v.0)
    }
}

impl CurveStation2<'_> {
    pub fn normal(&self) -> UnitVec2 {
        rot90(AngleDir::Cw) * self.direction()
    }
}

// ---- lines and surface points

pub trait LineOps2 {
    fn origin(&self) -> Point2;
    fn dir(&self) -> Vector2;

    fn at(&self, t: f64) -> Point2 {
        self.origin() + self.dir() * t
    }
}

impl<T: LineOps2> LineOps2 for &T {
    fn origin(&self) -> Point2 {
        (*self).origin()
    }

    fn dir(&self) -> Vector2 {
        (*self).dir()
    }
}

#[derive(Clone, Copy, Debug)]
pub struct Line2 {
    pub origin: Point2,
    pub direction: Vector2,
}

impl LineOps2 for Line2 {
    fn origin(&self) -> Point2 {
        self.origin
    }

    fn dir(&self) -> Vector2 {
        self.direction
    }
}

impl<T: LineOps2> From<&T> for Line2 {
    fn from(line: &T) -> Self {
        Line2::new(line.origin(), line.dir())
    }
}

impl Line2 {
    pub fn new(origin: Point2, direction: Vector2) -> Self {
        Line2 { origin, direction }
    }

    pub fn new_normalize(origin: Point2, direction: Vector2) -> Self {
        Line2::new(origin, direction.normalized())
    }

    pub fn from_points(a: &Point2, b: &Point2) -> Self {
        Line2::new(*a, *b - *a)
    }

    pub fn reversed(&self) -> Self {
        Line2::new(self.origin, -self.direction)
    }

    pub fn scalar_project(&self, p: &impl PCoords<2>) -> f64 {
        self.direction.dot(&(p.coords() - self.origin.coords))
    }

    // Positive to the right of the direction.
    pub fn signed_distance_to(&self, p: &impl PCoords<2>) -> f64 {
        (rot90(AngleDir::Cw) * self.direction.normalized()).dot(&(p.coords() - self.origin.coords))
    }

    // The fractions along both lines where they meet; a determinant below 1e-12 in size is none.
    pub fn intersection_params(&self, other: &Line2) -> Option<(f64, f64)> {
        let [dx, dy] = self.direction.0;
        let [ex, ey] = other.direction.0;
        let [wx, wy] = (other.origin - self.origin).0;
        let det = ex * dy - ey * dx;
        if det.abs() < 1e-12 {
            return None;
        }
        Some(((wy * ex - wx * ey) / det, (wy * dx - wx * dy) / det))
    }
}

#[derive(Clone, Copy, Debug)]
pub struct SurfacePoint2 {
    pub point: Point2,
    pub normal: UnitVec2,
}

impl LineOps2 for SurfacePoint2 {
    fn origin(&self) -> Point2 {
        self.point
    }

    fn dir(&self) -> Vector2 {
        self.normal.0
    }
}

impl PCoords<2> for SurfacePoint2 {
    fn coords(&self) -> Vector2 {
        self.point.coords
    }
}

impl SurfacePoint2 {
    pub fn new(point: Point2, normal: UnitVec2) -> Self {
        SurfacePoint2 { point, normal }
    }

    pub fn new_normalize(point: Point2, v: Vector2) -> Self {
        SurfacePoint2::new(point, Unit::new_normalize(v))
    }

    pub fn scalar_projection(&self, p: &impl PCoords<2>) -> f64 {
        self.normal.0.dot(&(p.coords() - self.point.coords))
    }

    pub fn at_distance(&self, distance: f64) -> Point2 {
        self.point + self.normal.0 * distance
    }

    pub fn shifted(&self, distance: f64) -> Self {
        SHIFTED.fetch_add(1, Ordering::Relaxed);
        SurfacePoint2::new(self.at_distance(distance), self.normal)
    }

    pub fn normal_rotated_90(&self, dir: AngleDir) -> Self {
        SurfacePoint2::new(self.point, rot90(dir) * self.normal)
    }

    // The halfway ray: point a + (b - a) times 0.5, normal the normalised sum of both normals.
    pub fn slerp(&self, other: &Self, fraction: f64) -> Self {
        assert!(fraction == 0.5);
        let point = self.point + (other.point - self.point) * fraction;
        SurfacePoint2::new_normalize(point, self.normal.0 + other.normal.0)
    }
}

#[derive(Clone, Copy, Debug)]
pub struct Segment2 {
    pub a: Point2,
    pub b: Point2,
}

impl Segment2 {
    pub fn new(a: &Point2, b: &Point2) -> Result<Self> {
        Ok(Segment2 { a: *a, b: *b })
    }

    pub fn to_line(&self) -> Line2 {
        Line2::from_points(&self.a, &self.b)
    }
}

// ---- an average sums in order and divides once

pub struct Averager {
    sum: f64,
    count: usize,
}

impl Averager {
    pub fn new() -> Self {
        Averager { sum: 0.0, count: 0 }
    }

    pub fn add(&mut self, x: f64) {
        self.sum += x;
        self.count += 1;
    }

    pub fn average(&self) -> Option<f64> {
        if self.count == 0 { None } else { Some(self.sum / self.count as f64) }
    }
}

// ---- the polyline, and what is asked of its edges

#[derive(Clone)]
pub struct Polyline(Vec<Point2>);

impl Polyline {
    pub fn new(points: Vec<Point2>, _indices: Option<()>) -> Self {
        Polyline(points)
    }

    pub fn vertices(&self) -> &[Point2] {
        &self.0
    }
}

impl Curve2 {
    // Nearest point: the least squared distance wins, the lower edge on a tie.
    pub fn at_closest_to_point(&self, p: &impl PCoords<2>) -> CurveStation2<'_> {
        let mut best = (f64::INFINITY, self.vtx(0), 0, 0.0);
        for i in 0..self.count() - 1 {
            let (v0, v1) = (self.vtx(i), self.vtx(i + 1));
            let d = v1 - v0;
            let s = (p.coords() - v0.coords).dot(&d) / d.dot(&d);
            let (q, fraction) = if s <= 0.0 {
                (v0, 0.0)
            } else if s >= 1.0 {
                (v1, 1.0)
            } else {
                (v0 + d * s, s)
            };
            let v = p.coords() - q.coords;
            let square = v.dot(&v);
            if square < best.0 {
                best = (square, q, i, fraction);
            }
        }
        let (_, point, index, fraction) = best;
        CurveStation2::new(point, self.dir_of_edge(index), index, fraction, self)
    }

    // Hits: every edge in edge order, both ends count; sorted, ties in edge order; a neighbour on the same edge nearer than 1e-8 is dropped.
    pub fn intersections_with_line(&self, line: &impl LineOps2) -> Vec<(f64, usize)> {
        TRIED.fetch_add(1, Ordering::Relaxed);
        let line = Line2::new(line.origin(), line.dir());
        let mut hits = Vec::new();
        for i in 0..self.count() - 1 {
            let edge = Line2::from_points(&self.vtx(i), &self.vtx(i + 1));
            if let Some((t, s)) = line.intersection_params(&edge)
                && (0.0..=1.0).contains(&s)
            {
                hits.push((t, i));
            }
        }
        hits.sort_by(|a, b| a.0.partial_cmp(&b.0).unwrap());
        hits.dedup_by(|a, b| a.1 == b.1 && (a.0 - b.0).abs() < 1e-8);
        hits
    }
}

// ---- the samples of a camber: its ends, and between them those at length times i / 49, product first

pub struct ByCount(pub usize);

pub struct Samples(Vec<Point2>);

impl Samples {
    pub fn points(&self) -> &[Point2] {
        &self.0
    }
}

impl Curve2 {
    pub fn resample(&self, ByCount(n): ByCount) -> Result<Samples> {
        let last = n - 1;
        let inside = (1..last).map(|i| self.at_length(self.length() * i as f64 / last as f64).unwrap().point());
        let ends = (self.vtx(0), self.vtx(self.count() - 1));
        Ok(Samples(std::iter::once(ends.0).chain(inside).chain([ends.1]).collect()))
    }
}

// ---- the residuals of an edge fit, of which an open edge has none

#[derive(Clone, Debug)]
pub struct DVector(Vec<f64>);

impl DVector {
    pub fn zeros(n: usize) -> Self {
        DVector(vec![0.0; n])
    }

    pub fn mean(&self) -> f64 {
        self.0.iter().sum::<f64>() / self.0.len() as f64
    }
}

// A distance by coordinates, for the inputs.
pub fn gap(ax: f64, ay: f64, bx: f64, by: f64) -> f64 {
    dist(&Point2::new(ax, ay), &Point2::new(bx, by))
}
