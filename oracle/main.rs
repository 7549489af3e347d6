// Runs the published functions of engeom, over the stand-ins of leaves.rs, and the proved functions on the same inputs of a fixed generator, and compares every
// value, count and stored number by its bits. Lengths along of contacts, which no published circle has, are compared with the published `at_closest_to_point` and `length_along` of circles that a call made. An input that the proved function refuses by a number which is no answer of the Rust is counted and not compared.
#![allow(dead_code)]
mod inputs;
mod interface;
mod leaves;
mod port;
mod sample;

use AngleDir::Ccw;
use leaves::*;
use port::{CELL_SLOTS, Call, PUBLISHED, REST, WIDTH};
use std::collections::BTreeMap;
use std::error::Error;
use std::fmt::{Display, Formatter};
use std::ops::Index;
use std::sync::atomic::Ordering;

include!(concat!(env!("ORACLE_OUT"), "/published.rs"));

// ---- the published functions, called as the proved ones are

// What the Rust answers: the number of its None or Err (0 for a value), then the words and numbers to be found.
struct Wanted {
    number: u64,
    // The edges of a crossing.
    edges: Option<[usize; 2]>,
    words: Vec<u64>,
    numbers: Vec<f64>,
    // The circles in use afterwards, where there is a store.
    circles: Option<Vec<Inscribed>>,
    // The lengths along of the contacts of the circles, in the numbers or in use, where all of them were made; those of circles handed in are no answer of the Rust.
    lengths: Vec<[f64; 2]>,
}

impl Wanted {
    fn none(number: u64) -> Self {
        Wanted { number, edges: None, words: vec![], numbers: vec![], circles: None, lengths: vec![] }
    }

    fn value(words: Vec<u64>, numbers: Vec<f64>) -> Self {
        Wanted { number: 0, edges: None, words, numbers, circles: None, lengths: vec![] }
    }

    fn run(circles: Vec<Inscribed>, units: u64, numbers: Vec<f64>) -> Self {
        Wanted { number: 0, edges: None, words: vec![circles.len() as u64, units], numbers, circles: Some(circles), lengths: vec![] }
    }

    // Of a list that has no room in the cell: 15 with its first circles, whose count alone is known of the words.
    fn cut(self) -> Self {
        let circles = self.circles.map(|list| list[..CELL_SLOTS].to_vec());
        let lengths = self.lengths.iter().take(CELL_SLOTS).copied().collect();
        Wanted { number: 15, words: vec![CELL_SLOTS as u64], circles, lengths, ..self }
    }

    fn list(circles: Vec<Inscribed>, words: Vec<u64>) -> Self {
        Wanted { number: 0, edges: None, words, numbers: vec![], circles: Some(circles), lengths: vec![] }
    }
}

// 01's number of an error, by the published message.
fn number_of(e: Box<dyn Error>) -> Wanted {
    let message = e.to_string();
    let known = [
        ("NotEnoughPoints", 5),
        ("fewer than 2", 7),
        ("Not enough inscribed", 7),
        ("Expected at least", 7),
        ("empty collection", 7),
        ("Failed to advance", 13),
        ("on a closed section", 17),
        ("does not lie ahead", 18),
        ("is parallel to", 19),
        ("does not project", 20),
    ];
    for (part, number) in known {
        if message.contains(part) {
            return Wanted::none(number);
        }
    }
    panic!("an error that has no number: {message}")
}

fn or_number(answer: Result<Wanted>) -> Wanted {
    answer.unwrap_or_else(number_of)
}

fn point(p: Point2) -> Vec<f64> {
    p.coords.0.to_vec()
}

fn points_of(numbers: &[f64]) -> Vec<Point2> {
    numbers.chunks_exact(2).map(|p| Point2::new(p[0], p[1])).collect()
}

fn line_at(n: &[f64]) -> Line2 {
    Line2::new(Point2::new(n[0], n[1]), SVector([n[2], n[3]]))
}

fn line_numbers(line: Line2) -> Vec<f64> {
    [line.origin.coords.0, line.direction.0].concat()
}

fn circle_at(n: &[f64]) -> Inscribed {
    Inscribed::new(Circle2::from_point(Point2::new(n[0], n[1]), n[2]), Point2::new(n[3], n[4]), Point2::new(n[5], n[6]))
}

fn circle_numbers(c: &Inscribed) -> Vec<f64> {
    [&c.c.center.coords.0[..], &[c.c.radius], &c.p0.coords.0, &c.p1.coords.0].concat()
}

// The lengths along of the curve's nearest points to both contacts.
fn lengths_of(curve: &Curve2, c: &Inscribed) -> [f64; 2] {
    [c.p0, c.p1].map(|p| curve.at_closest_to_point(&p).length_along())
}

// What is wanted of circles that were all made on the curve: their lengths along too.
fn made_on(curve: &Curve2, want: Wanted) -> Wanted {
    let lengths: Vec<[f64; 2]> = match &want.circles {
        Some(circles) => circles.iter().map(|c| lengths_of(curve, c)).collect(),
        None => want.numbers.chunks_exact(PUBLISHED).map(|n| lengths_of(curve, &circle_at(n))).collect(),
    };
    // This is run and not proved.
    assert!(lengths.iter().flatten().all(|l| *l <= curve.length()), "a length along above the whole");
    Wanted { lengths, ..want }
}

fn circles_of(store: &[f64], count: usize) -> Vec<Inscribed> {
    store.chunks_exact(WIDTH).take(count).map(circle_at).collect()
}

fn curve_answer(c: Curve2) -> Wanted {
    let numbers = c.points().iter().flat_map(|p| p.coords.0).collect();
    Wanted::value(vec![c.count() as u64, c.is_closed() as u64], numbers)
}

// How many distances a function takes, and what it answers.
fn counted<T>(f: impl FnOnce() -> T) -> (T, u64) {
    let before = DISTANCES.load(Ordering::Relaxed);
    let answer = f();
    (answer, DISTANCES.load(Ordering::Relaxed) - before)
}

// The words and numbers of a piece. Its walk takes one distance, from the end to the last point; cleaning takes one less than it was given points, one between the ends and one for
// each edge that it keeps: given and kept in all.
fn piece((piece, distances): (Option<Curve2>, u64)) -> Option<(Vec<u64>, Vec<f64>)> {
    let c = piece?;
    let kept = c.count() as u64;
    Some((vec![kept, c.is_closed() as u64, distances - kept], c.points().iter().flat_map(|p| p.coords.0).collect()))
}

// Of a None: 9 where a length is off the curve, else 21.
fn no_piece(curve: &Curve2, l0: f64, l1: f64) -> Wanted {
    let off = |l: f64| curve.at_length(l).is_none();
    Wanted::none(if off(l0) || off(l1) { 9 } else { 21 })
}

fn between(curve: &Curve2, l0: f64, l1: f64) -> Wanted {
    piece(counted(|| curve.between_lengths(l0, l1))).map_or_else(|| no_piece(curve, l0, l1), |(words, numbers)| Wanted::value(words, numbers))
}

// A split by the published function; how many points were given for each piece is known by its two stretches.
fn split(curve: &Curve2, answer: Result<(Curve2, Curve2)>, first: [f64; 2], second: [f64; 2]) -> Wanted {
    match answer {
        Ok((a, b)) => {
            let room = 2 * curve.count() + 2;
            let (mut words, mut numbers) = (vec![], vec![]);
            for (whole, [l0, l1]) in [(a, first), (b, second)] {
                let (told, found) = piece(counted(|| curve.between_lengths(l0, l1))).unwrap();
                assert!(same(&found, &whole.points().iter().flat_map(|p| p.coords.0).collect::<Vec<_>>()));
                words.extend(told);
                numbers.extend(&found);
                numbers.resize(words.len() / 3 * room, REST);
            }
            Wanted::value(words, numbers)
        }
        Err(e) if e.to_string().starts_with("Cannot") => Wanted::none(22),
        Err(_) => {
            let [l0, l1] = if curve.between_lengths(first[0], first[1]).is_none() { first } else { second };
            no_piece(curve, l0, l1)
        }
    }
}

fn station_answer(s: CurveStation2) -> Wanted {
    let numbers = [point(s.point()), s.direction().into_inner().0.to_vec(), vec![s.fraction()]].concat();
    Wanted::value(vec![s.index() as u64], numbers)
}

fn circle_answer(c: Option<Inscribed>, number: u64) -> Wanted {
    c.map_or(Wanted::none(number), |c| Wanted::value(vec![], circle_numbers(&c)))
}

// One march from a line: the crossing first.
fn half(input: &SectionInput, line: &Line2) -> Result<Option<InscribedVec>> {
    let Some(start) = input.crossing_line(line) else { return Ok(None) };
    Ok(Some(extract_half_circles(input, &start)?))
}

fn march(input: &SectionInput, line: &Line2) -> Result<Wanted> {
    let Some(list) = half(input, line)? else { return Ok(Wanted::none(8)) };
    Ok(Wanted::run(list.take_vec(), units(1), vec![]))
}

// 01's steps of an extraction: march, turn order and contacts, drop the last, march from the reversed line.
fn extraction(input: &SectionInput, line: &Line2) -> Result<Wanted> {
    let Some(mut list) = half(input, line)? else { return Ok(Wanted::none(8)) };
    list.reverse_order();
    list.pop();
    let Some(second) = half(input, &line.reversed())? else { return Ok(Wanted::none(8)) };
    list.extend(second);
    Ok(Wanted::run(list.take_vec(), units(2), vec![]))
}

// The steps of a thinning over the published trial, from the front: the circles that are kept, with the lengths along that they had.
fn thinning(input: &SectionInput, store: &[f64], count: usize) -> Wanted {
    let list = circles_of(store, count);
    let mut kept: Vec<usize> = (0..count.min(1)).collect();
    for k in 1..count.max(1) {
        if k == count - 1 || input.inscribed_refined(&list[*kept.last().unwrap()], &list[k + 1]).is_some() {
            kept.push(k);
        }
    }
    let lengths = kept.iter().map(|k| [store[WIDTH * k + PUBLISHED], store[WIDTH * k + PUBLISHED + 1]]).collect();
    let circles: Vec<Inscribed> = kept.iter().map(|k| list[*k].clone()).collect();
    Wanted { lengths, ..Wanted::run(circles, units(0), vec![]) }
}

// The edges of the hits that `crossing_line` counts and drops.
fn with_edges(want: Wanted, input: &SectionInput, line: &Line2) -> Wanted {
    let hits = input.section.intersections_with_line(line);
    let edges = if hits.len() == 2 { Some([hits[0].1, hits[1].1]) } else { None };
    Wanted { edges, ..want }
}

// The units of the run just made: lines tried, less those of start lines and probes.
fn units(free: u64) -> u64 {
    TRIED.load(Ordering::Relaxed) - SHIFTED.load(Ordering::Relaxed) - free
}

fn wanted(call: Call, section: &[f64], args: &[f64], store: &[f64]) -> Wanted {
    TRIED.store(0, Ordering::Relaxed);
    SHIFTED.store(0, Ordering::Relaxed);
    match call {
        Call::FromPoints(force) => return or_number(Curve2::from_points(&points_of(section), args[0], force).map(curve_answer)),
        Call::Tmax(_) | Call::Spacing(_) | Call::ClipLine(_) | Call::FrontAndBack(_) | Call::ReversePoints(_) | Call::ReverseOrder(_)
        | Call::ReverseOrderOnly(_) | Call::CamberCurve(_) | Call::MakeCamberCurve(_) | Call::OrientFwdAft(..) | Call::OrientUpperLower(..) => {
            return or_number(list_wanted(call, args, store));
        }
        _ => {}
    }
    let curve = Curve2::from_points(&points_of(section), args[0], false).unwrap();
    assert_eq!(curve.count(), section.len() / 2);
    let input = SectionInput::new(&curve, args[1]);
    let crossed = |want: Wanted| with_edges(want, &input, &line_at(&args[2..]));
    match call {
        Call::Reversed => curve_answer(curve.reversed()),
        Call::IsClosed => Wanted::value(vec![curve.is_closed() as u64], vec![]),
        Call::Length => Wanted::value(vec![], vec![curve.length()]),
        Call::AtFront => station_answer(curve.at_front()),
        Call::AtBack => station_answer(curve.at_back()),
        Call::AtVertex(i) => station_answer(curve.at_vertex(i)),
        Call::AtLength => curve.at_length(args[2]).map_or(Wanted::none(9), station_answer),
        Call::LengthAlong(i) => {
            let s = CurveStation2::new(curve.vtx(i), curve.dir_of_edge(i), i, args[2], &curve);
            Wanted::value(vec![], vec![s.length_along()])
        }
        Call::Between => between(&curve, args[2], args[3]),
        Call::SplitOpen => split(&curve, curve.split_open_at_length(args[2]), [0.0, args[2]], [args[2], curve.length()]),
        Call::SplitClosed => split(&curve, curve.split_closed_at_lengths(args[2], args[3]), [args[2], args[3]], [args[3], args[2]]),
        Call::Closest => station_answer(curve.at_closest_to_point(&Point2::new(args[2], args[3]))),
        Call::CrossingLine => crossed(input.crossing_line(&line_at(&args[2..])).map_or(Wanted::none(8), |l| Wanted::value(vec![], line_numbers(l)))),
        Call::FromCrossing => made_on(&curve, circle_answer(Some(input.inscribed_from_crossing(&line_at(&args[2..]))), 0)),
        Call::TryInscribed => made_on(&curve, crossed(circle_answer(input.try_inscribed(&line_at(&args[2..])), 8))),
        Call::Refined => made_on(&curve, circle_answer(input.inscribed_refined(&circle_at(&args[2..]), &circle_at(&args[2 + WIDTH..])), 99)),
        Call::RefineAndPush(count) | Call::RefineAndPushCell(count) => {
            let mut list = InscribedVec::new(circles_of(store, count));
            list.refine_and_push(circle_at(&args[2..]), &input);
            Wanted::run(list.take_vec(), units(0), vec![])
        }
        Call::RefineAll(count) | Call::RefineAllCell(count) => {
            let mut list = InscribedVec::new(circles_of(store, count));
            for c in circles_of(&args[2..], args.len() / WIDTH) {
                list.refine_and_push(c, &input);
            }
            Wanted::run(list.take_vec(), units(0), vec![])
        }
        Call::March | Call::MarchCell => made_on(&curve, crossed(or_number(march(&input, &line_at(&args[2..]))))),
        Call::Extract => made_on(&curve, or_number(extraction(&input, &line_at(&args[2..])))),
        Call::Thin(count) => thinning(&input, store, count),
        Call::FitOpenEdge(count, front) => or_number(
            fit_open_edge(&input, circles_of(store, count), front).map(|fit| Wanted::run(fit.circles, units(0), point(fit.edge.point))),
        ),
        Call::IsOpenAtEnd(count, front) => {
            or_number(is_open_at_end(&input, &circles_of(store, count), front).map(|yes| Wanted::value(vec![yes as u64], vec![])))
        }
        _ => unreachable!(),
    }
}

fn list_wanted(call: Call, args: &[f64], store: &[f64]) -> Result<Wanted> {
    let changed = |count: usize, f: fn(&mut InscribedVec)| {
        let mut list = InscribedVec::new(circles_of(store, count));
        f(&mut list);
        Wanted::list(list.take_vec(), vec![])
    };
    let list = |count: usize| InscribedVec::new(circles_of(store, count));
    let vector = || SVector([args[2], args[3]]);
    Ok(match call {
        Call::Tmax(count) => Wanted::value(vec![list(count).index_of_tmax() as u64], vec![]),
        Call::Spacing(count) => Wanted::value(vec![], vec![list(count).average_spacing()?]),
        Call::ClipLine(count) => Wanted::value(vec![], line_numbers(list(count).end_clip_line()?)),
        Call::FrontAndBack(count) => {
            let list = list(count);
            let (front, back) = list.front_and_back()?;
            Wanted::value(vec![], [circle_numbers(front), circle_numbers(back)].concat())
        }
        Call::ReversePoints(count) => changed(count, InscribedVec::reverse_points),
        Call::ReverseOrder(count) => changed(count, InscribedVec::reverse_order),
        Call::ReverseOrderOnly(count) => changed(count, InscribedVec::reverse_order_only),
        Call::CamberCurve(count) => curve_answer(list(count).camber_curve(args[0])?),
        Call::MakeCamberCurve(count) => {
            let (le, te) = (Point2::new(args[2], args[3]), Point2::new(args[4], args[5]));
            curve_answer(make_camber_curve(le, te, &circles_of(store, count), args[0])?)
        }
        Call::OrientFwdAft(how, count) => {
            let how = [OrientFwdAft::TmaxFwd, OrientFwdAft::Airflow(vector()), OrientFwdAft::Fwd(vector())][how as usize];
            let circles = how.apply(circles_of(store, count))?;
            let turned = match how {
                OrientFwdAft::TmaxFwd => check_tmax_fwd(&list(count))?,
                OrientFwdAft::Airflow(v) => check_dir_fwd(&list(count), -v)?,
                OrientFwdAft::Fwd(v) => check_dir_fwd(&list(count), v)?,
            };
            Wanted::list(circles, vec![turned as u64])
        }
        Call::OrientUpperLower(how, count) => {
            let how = [OrientUpperLower::Upper(vector()), OrientUpperLower::Lower(vector()), OrientUpperLower::Curvature][how as usize];
            let circles = how.apply(circles_of(store, count))?;
            let swapped = match how {
                OrientUpperLower::Upper(v) => check_dir_upper(&list(count), v)?,
                OrientUpperLower::Lower(v) => check_dir_upper(&list(count), -v)?,
                OrientUpperLower::Curvature => check_curvature_upper(&list(count))?,
            };
            Wanted::list(circles, vec![swapped as u64])
        }
        _ => unreachable!(),
    })
}

// ---- the comparison

// How often a call was made: with a value in both, with no value in both, refused by a number that is no answer of the Rust, and different.
#[derive(Default)]
pub struct Tally {
    rows: BTreeMap<String, [u64; 4]>,
    outside: BTreeMap<u64, u64>,
    refused: BTreeMap<u64, u64>,
    told: u64,
    most_rounds: u64,
    most_circles: u64,
    cut: u64,
    again: u64,
    paused: u64,
    pieces: u64,
}

// The numbers of 01's "Domain" that are added, and 02 (e)'s 23: no answer of the Rust.
fn is_added(number: u64) -> bool {
    matches!(number, 1..=4 | 6 | 10..=12 | 14..=16 | 23)
}

// The numbers that a march is refused by on entry.
fn is_entry(number: u64) -> bool {
    matches!(number, 1..=4 | 6 | 23)
}

fn same(a: &[f64], b: &[f64]) -> bool {
    a.len() == b.len() && a.iter().zip(b).all(|(x, y)| x.to_bits() == y.to_bits())
}

// The circles of the published functions in the port's width, with the lengths along that are wanted, or where none are, those that the port has.
fn with_lengths(numbers: &[f64], lengths: &[[f64; 2]], got: &[f64]) -> Vec<f64> {
    let along = |i: usize| lengths.get(i).map_or(&got[WIDTH * i + PUBLISHED..WIDTH * (i + 1)], |l| &l[..]);
    numbers.chunks_exact(PUBLISHED).enumerate().flat_map(|(i, c)| [c, along(i)].concat()).collect()
}

// The run by the entry whose store holds more circles, where an entry for the cell ended for want of a slot behind its last one.
fn larger(call: Call, got: &port::Answer) -> Option<Call> {
    if got.told[..2] != [15, CELL_SLOTS as u64] {
        return None;
    }
    match call {
        Call::MarchCell => Some(Call::March),
        Call::RefineAndPushCell(count) => Some(Call::RefineAndPush(count)),
        Call::RefineAllCell(count) => Some(Call::RefineAll(count)),
        _ => None,
    }
}

// Where the port's answer differs from what is wanted.
fn difference(call: Call, got: &port::Answer, want: &Wanted, store: &[f64]) -> Option<String> {
    if got.told[0] != want.number {
        return Some(format!("number {} wanted {}", got.told[0], want.number));
    }
    if got.edges != want.edges {
        return Some(format!("edges {:?} wanted {:?}", got.edges, want.edges));
    }
    let is_run = matches!(
        call,
        Call::RefineAndPush(_) | Call::RefineAndPushCell(_) | Call::RefineAll(_) | Call::RefineAllCell(_) | Call::March | Call::MarchCell | Call::Extract | Call::Thin(_) | Call::FitOpenEdge(..)
    );
    if want.number != 0 && want.circles.is_none() {
        // A refusal after the entry leaves accepted circles behind in a run; the Rust gives none to compare with.
        let clean = same(&got.out, &vec![REST; got.out.len()]) && (is_run || got.told[1..] == [0; port::WORDS - 1] && same(&got.store, store));
        return if clean { None } else { Some("memory changed by a refusal".into()) };
    }
    if got.told[1..1 + want.words.len()] != want.words {
        return Some(format!("words {:?} wanted {:?}", got.told, want.words));
    }
    let is_circle = matches!(call, Call::FromCrossing | Call::TryInscribed | Call::Refined | Call::FrontAndBack(_));
    let mut out = if is_circle { with_lengths(&want.numbers, &want.lengths, &got.out) } else { want.numbers.clone() };
    out.resize(got.out.len(), REST);
    if !same(&got.out, &out) {
        return Some(format!("numbers {:?} wanted {:?}", &got.out[..want.numbers.len().min(got.out.len())], want.numbers));
    }
    let mut after = store.to_vec();
    if let Some(circles) = &want.circles {
        let numbers: Vec<f64> = circles.iter().flat_map(circle_numbers).collect();
        let used = with_lengths(&numbers, &want.lengths, &got.store);
        after[..used.len()].copy_from_slice(&used);
        // the slots that a thinning frees become zero
        if let Call::Thin(count) = call {
            after[used.len()..WIDTH * count].fill(0.0);
        }
    }
    if same(&got.store, &after) { None } else { Some("store differs".into()) }
}

impl Tally {
    // Makes one call in both, and gives back the port's answer.
    pub fn compare(&mut self, call: Call, section: &[f64], args: &[f64], store: &[f64]) -> port::Answer {
        let got = port::call(call, section, args, store);
        let name = format!("{call:?}").split('(').next().unwrap().to_string();
        let row = self.rows.entry(name).or_default();
        let number = got.told[0];
        // A list that is cut at the cell's slots is compared where the whole one is a result.
        let whole = larger(call, &got).map(|more| port::call(more, section, args, store)).filter(|more| more.told[0] == 0);
        if is_added(number) && whole.is_none() {
            row[2] += 1;
            *self.outside.entry(number).or_default() += 1;
            return got;
        }
        let mut want = wanted(call, section, args, store);
        if let Some(more) = &whole {
            assert!(got.told[2] <= more.told[2], "more units into fewer slots");
            self.cut += 1;
            want = want.cut();
        }
        row[if number == 0 || whole.is_some() { 0 } else { 1 }] += 1;
        self.most_rounds = self.most_rounds.max(SHIFTED.load(Ordering::Relaxed));
        self.most_circles = self.most_circles.max(want.circles.as_ref().map_or(0, |c| c.len() as u64));
        if number != 0 && whole.is_none() {
            *self.refused.entry(number).or_default() += 1;
        }
        if let Some(what) = difference(call, &got, &want, store) {
            row[3] += 1;
            self.told += 1;
            if self.told <= 10 {
                println!("DIFFERENT: {call:?}: {what}\n  args {args:?}\n  {} points {:?}", section.len() / 2, &section[..section.len().min(80)]);
                println!("  store {:?}", &store[..store.len().min(70)]);
            }
        }
        got
    }

    // The circles that a march left, offered again to an empty store with as many slots, by the same entry; unless the march was refused on entry, they have to be the same, for one unit fewer.
    pub fn offer_again(&mut self, march: Call, section: &[f64], tolerances: [f64; 2], marched: &port::Answer) {
        let count = marched.told[1] as usize;
        let call = if march == Call::MarchCell { Call::RefineAllCell(0) } else { Call::RefineAll(0) };
        let list = &marched.store[..WIDTH * count];
        let got = self.compare(call, section, &[&tolerances[..], list].concat(), &vec![REST; marched.store.len()]);
        if !is_entry(marched.told[0]) {
            assert!(got.told[..3] == [0, count as u64, count.saturating_sub(1) as u64] && same(&got.store, &marched.store), "a march offered again is another list");
            self.again += 1;
        }
    }

    // A march in pieces of so many units each, from 1 to 40 by its own units, tells and leaves what it does at once.
    pub fn in_pieces(&mut self, march: Call, section: &[f64], args: &[f64], store: &[f64], marched: &port::Answer) {
        let limit = 1 + (marched.told[2] % 40) as u32;
        let (got, pieces) = port::march_in_pieces(march, section, args, store, limit);
        assert!(got.told == marched.told && got.edges == marched.edges && same(&got.store, &marched.store), "a march in pieces is another march");
        if 1 < pieces {
            self.paused += 1;
            self.pieces += pieces;
        }
    }

    fn report(&self) -> bool {
        println!("{:<20}{:>10}{:>10}{:>14}{:>11}", "", "values", "refused", "not compared", "different");
        let mut sum = [0u64; 4];
        for (name, row) in &self.rows {
            println!("{:<20}{:>10}{:>10}{:>14}{:>11}", name, row[0], row[1], row[2], row[3]);
            for i in 0..4 {
                sum[i] += row[i];
            }
        }
        println!("{:<20}{:>10}{:>10}{:>14}{:>11}", "all", sum[0], sum[1], sum[2], sum[3]);
        println!("refused in both, by number: {:?}", self.refused);
        println!("not compared, by number: {:?}", self.outside);
        println!("most rounds of an edge fit: {}; most circles of a run: {}", self.most_rounds, self.most_circles);
        println!("of the values, lists cut at the cell's {CELL_SLOTS} circles: {}", self.cut);
        println!("lists of one march, offered again and found the same: {}", self.again);
        println!("marches in pieces that were found the same as at once: {}, in {} pieces", self.paused, self.pieces);
        println!("{} comparisons, {} different", sum[0] + sum[1], sum[3]);
        sum[3] == 0
    }
}

fn main() {
    let mut args = std::env::args().skip(1).peekable();
    if args.peek().is_some_and(|x| x == "table") {
        sample::print_table();
        return;
    }
    let rounds: u64 = args.next().map_or(3000, |x| x.parse().unwrap());
    let seed: u64 = args.next().map_or(1, |x| x.parse().unwrap());
    let mut tally = Tally::default();
    let mut g = inputs::Generator::new(seed);
    for i in 0..rounds {
        inputs::one_round(&mut g, i, &mut tally);
    }
    std::process::exit(if tally.report() { 0 } else { 1 });
}
