// The C interface beside engeom's published functions (where they were cut, `--cfg published`) and beside plain Rust of the same tests and steps, which watches no
// value. All get the same sections and questions, in turn, round after round in one run, and must give the same bits, but for the lengths along, which the published ones don't have; the least time counts. Stores are cleared, and
// the circles of an edge fit put back, before each round and outside the time. The port and plain Rust make the entry tests of every call within it; the published
// functions make none, and their curve is made beforehand but in the row `tests`, where that is what is timed.
// `section` prints times; `section once` runs everything once through `counted`, for callgrind, and says in which order.
#[allow(dead_code)]
#[path = "../oracle/interface.rs"]
mod interface;
mod plain;
#[cfg(published)]
mod published;
use interface::*;
use plain::{Circle, Line};
#[cfg(published)]
use published::{Curve2, CurveStation2, Result, dist};
use std::hint::black_box;
use std::time::Instant;

// The section tolerance and the general tolerance.
const T: f64 = 0.000001;
const G: f64 = 0.01;
const SLOTS: usize = 1024;
const CELL_SLOTS: usize = 256;
// How many numbers a circle has.
const WIDTH: usize = 9;
// Stands for a number that the published functions don't have: the lengths along.
const UNKNOWN: f64 = f64::INFINITY;
// A row is run this often at least, and for this long at least.
const ROUNDS: usize = 25;
const SECONDS: f64 = 0.6;

// A blade-like section: an ellipse of chord 100 and thickness 12 on a parabola, closed at its tip or open there.
fn blade(edges: usize, open: bool) -> Vec<f64> {
    let gap = if open { 0.2 } else { 0.0 };
    let mut out = Vec::new();
    for i in 0..=edges {
        let k = if open { i } else { i % edges };
        let a = gap + k as f64 / edges as f64 * (std::f64::consts::TAU - 2.0 * gap);
        let x = 50.0 * a.cos();
        out.push(x);
        out.push(6.0 * a.sin() + 8.0 * (1.0 - x * x / 2500.0));
    }
    out
}

// ---- what a program answers, and how long it takes

// The numbers that an answer leaves, and the units of a run.
struct Left {
    numbers: Vec<f64>,
    units: u32,
}

impl Left {
    fn same(&self, other: &Left) -> bool {
        let same = |(x, y): (&f64, &f64)| *x == UNKNOWN || x.to_bits() == y.to_bits();
        self.units == other.units && self.numbers.len() == other.numbers.len() && self.numbers.iter().zip(&other.numbers).all(same)
    }
}

// All that is timed goes through here, and callgrind counts what is done within.
#[unsafe(no_mangle)]
#[inline(never)]
fn counted(f: &mut dyn FnMut()) {
    f();
    std::hint::black_box(());
}

fn timed<T>(f: impl FnOnce() -> T) -> (f64, T) {
    let mut f = Some(f);
    let mut answer = None;
    let start = Instant::now();
    counted(&mut || answer = Some((f.take().unwrap())()));
    (start.elapsed().as_nanos() as f64, answer.unwrap())
}

// One program's run of a row, which makes ready first: its time and what it leaves.
type Column<'a> = Box<dyn FnMut() -> (f64, Left) + 'a>;

// What a time is given for: one of so many edges passed over, one of a run's units, or a whole fit, whose probes take no unit.
enum Per {
    Edge(usize),
    Unit,
    Fit,
}

struct Row<'a> {
    name: &'a str,
    shape: &'a str,
    edges: usize,
    per: Per,
}

// Runs a row's columns: the port, the published functions if they are there, plain Rust.
fn run_row(row: Row, mut columns: Vec<Column>, once: bool) -> Left {
    let mut least = vec![f64::INFINITY; columns.len()];
    let mut first: Option<Left> = None;
    let start = Instant::now();
    let mut rounds = 0;
    while rounds == 0 || !once && (rounds < ROUNDS || start.elapsed().as_secs_f64() < SECONDS) {
        rounds += 1;
        for (i, column) in columns.iter_mut().enumerate() {
            let (time, left) = column();
            least[i] = least[i].min(time);
            match &first {
                None => first = Some(left),
                Some(wanted) => assert!(left.same(wanted), "{} {} {}: column {} differs", row.name, row.shape, row.edges, i),
            }
        }
    }
    let first = first.unwrap();
    let (unit, per) = match row.per {
        Per::Edge(passed) => ("edge", passed as f64),
        Per::Unit => ("unit", first.units as f64),
        Per::Fit => ("fit", 1.0),
    };
    let is_run = !matches!(row.per, Per::Edge(_));
    assert!(!is_run || first.units > 0, "{} {} {}: no result", row.name, row.shape, row.edges);
    if once {
        println!("{} {} {} {} {} {}", row.name, row.shape, row.edges, unit, per, columns.len());
        return first;
    }
    let units = if is_run { first.units.to_string() } else { String::new() };
    let cells: String = least.iter().map(|x| format!("{:>13.2}", x / per)).collect();
    let ratios: String = least[1..].iter().map(|x| format!("{:>13.2}", least[0] / x)).collect();
    println!("{:<12}{:<8}{:>6}{:>7}  {:<4}{}{}", row.name, row.shape, row.edges, units, unit, cells, ratios);
    first
}

// ---- passes over a section

fn line_at(l: &[f64]) -> Line {
    Line { ox: l[0], oy: l[1], dx: l[2], dy: l[3] }
}

// Sums over questions: of tolerances, whether the section is closed; of points, the squared distance, the direction, the fraction and the edge of the nearest
// station; of lines, the direction of the crossing.
fn tests(tols: &[f64], is_closed: impl Fn(f64) -> Option<bool>) -> f64 {
    tols.iter().fold(0.0, |sum, t| sum + is_closed(*t).map_or(2.0, |yes| yes as u32 as f64))
}

fn nearest(ps: &[f64], station: impl Fn(f64, f64) -> Option<([f64; 5], usize)>) -> f64 {
    ps.chunks_exact(2).fold(0.0, |sum, p| {
        let Some(([x, y, dx, dy, f], i)) = station(p[0], p[1]) else { return sum };
        let (vx, vy) = (p[0] - x, p[1] - y);
        sum + (vx * vx + vy * vy) + (dx + dy) + f + i as f64
    })
}

fn crossings(lines: &[f64], crossing: impl Fn(Line) -> Option<[f64; 4]>) -> f64 {
    lines.chunks_exact(4).fold(0.0, |sum, l| sum + crossing(line_at(l)).map_or(0.0, |k| k[2] + k[3]))
}

fn stretches(lengths: &[f64], mut stretch: impl FnMut(f64, f64) -> f64) -> f64 {
    lengths.chunks_exact(2).fold(0.0, |sum, l| sum + stretch(l[0], l[1]))
}

// Of a stretch the sum of its numbers, and of how many points it has.
fn sum_of(points: &[f64]) -> f64 {
    points.iter().fold(points.len() as f64, |sum, x| sum + x)
}

fn port_between(section: &[f64], l0: f64, l1: f64, out: &mut [f64]) -> f64 {
    let (mut count, mut closed, mut given) = (0, false, 0);
    let number = unsafe { rummyteak_between_lengths(section.as_ptr(), section.len(), T, l0, l1, out.as_mut_ptr(), out.len(), &mut count, &mut closed, &mut given) };
    if number == 0 { sum_of(&out[..2 * count]) } else { 0.0 }
}

fn port_is_closed(section: &[f64], tol: f64) -> Option<bool> {
    let mut yes = false;
    let number = unsafe { rummyteak_is_closed(section.as_ptr(), section.len(), tol, &mut yes) };
    (number == 0).then_some(yes)
}

fn port_station(section: &[f64], x: f64, y: f64) -> Option<([f64; 5], usize)> {
    let (mut station, mut index) = ([0.0; 5], 0);
    let number = unsafe { rummyteak_at_closest_to_point(section.as_ptr(), section.len(), T, x, y, station.as_mut_ptr(), &mut index) };
    (number == 0).then_some((station, index))
}

fn port_crossing(section: &[f64], l: Line) -> Option<[f64; 4]> {
    let (mut crossing, mut edges) = ([0.0; 4], [0; 2]);
    let number = unsafe { rummyteak_crossing_line(section.as_ptr(), section.len(), T, l.ox, l.oy, l.dx, l.dy, crossing.as_mut_ptr(), &mut edges) };
    (number == 0).then_some(crossing)
}

// Every question alone first, compared by bits, then all of them for the time.
fn pass<'a>(row: Row<'a>, asked: &[f64], each: usize, answers: &[&dyn Fn(&[f64]) -> f64], once: bool) {
    for q in asked.chunks_exact(each) {
        let wanted = answers[0](q).to_bits();
        assert!(answers.iter().all(|f| f(q).to_bits() == wanted), "{} {} {}: {:?} differs", row.name, row.shape, row.edges, q);
    }
    let mut columns: Vec<Column> = Vec::new();
    for f in answers {
        columns.push(Box::new(move || {
            let (time, sum) = timed(|| f(asked));
            (time, Left { numbers: vec![sum], units: 0 })
        }));
    }
    run_row(row, columns, once);
}

fn passes(edges: usize, open: bool, once: bool) {
    let section = blade(edges, open);
    let shape = shape_of(open);
    let k = 200_000 / edges;
    let (mut ps, mut lines) = (Vec::new(), Vec::new());
    for i in 0..k {
        let x = -45.0 + 90.0 * i as f64 / k as f64;
        let y = 8.0 * (1.0 - x * x / 2500.0);
        ps.extend([x, y]);
        lines.extend([x, y, 0.03, 1.0]);
    }
    let tols = vec![T; k];
    let passed = k * edges;
    let port = |tols: &[f64]| tests(tols, |t| port_is_closed(&section, t));
    let plain = |tols: &[f64]| tests(tols, |t| plain::is_closed(black_box(&section), t));
    #[cfg(published)]
    let rust = |tols: &[f64]| tests(tols, |t| Some(published::curve(black_box(&section), t).is_closed()));
    let answers: &[&dyn Fn(&[f64]) -> f64] = &[
        &port,
        #[cfg(published)]
        &rust,
        &plain,
    ];
    pass(Row { name: "tests", shape, edges, per: Per::Edge(passed) }, &tols, 1, answers, once);
    let port = |ps: &[f64]| nearest(ps, |x, y| port_station(&section, x, y));
    let plain = |ps: &[f64]| nearest(ps, |x, y| plain::closest(black_box(&section), T, x, y));
    #[cfg(published)]
    let curve = published::curve(&section, T);
    #[cfg(published)]
    let rust = |ps: &[f64]| nearest(ps, |x, y| Some(published::closest(&curve, x, y)));
    let answers: &[&dyn Fn(&[f64]) -> f64] = &[
        &port,
        #[cfg(published)]
        &rust,
        &plain,
    ];
    pass(Row { name: "nearest", shape, edges, per: Per::Edge(passed) }, &ps, 2, answers, once);
    let port = |lines: &[f64]| crossings(lines, |l| port_crossing(&section, l));
    let plain = |lines: &[f64]| crossings(lines, |l| plain::crossing_line(black_box(&section), T, l).map(|k| [k.ox, k.oy, k.dx, k.dy]));
    #[cfg(published)]
    let rust = |lines: &[f64]| crossings(lines, |l| published::crossing(&curve, G, [l.ox, l.oy, l.dx, l.dy]));
    let answers: &[&dyn Fn(&[f64]) -> f64] = &[
        &port,
        #[cfg(published)]
        &rust,
        &plain,
    ];
    pass(Row { name: "crossing", shape, edges, per: Per::Edge(passed) }, &lines, 4, answers, once);
}

// Stretches of nearly the whole section; a section of 4,096 points has none.
fn stretch(edges: usize, open: bool, once: bool) {
    let edges = edges.min(4094);
    let section = blade(edges, open);
    let k = 200_000 / edges;
    let whole = section.windows(4).step_by(2).fold(0.0, |l, p| (p[2] - p[0]).hypot(p[3] - p[1]) + l);
    let lengths: Vec<f64> = (0..k).flat_map(|i| [0.0001, 0.9999].map(|x| whole * (x + 0.00002 * i as f64 / k as f64))).collect();
    let room = std::cell::RefCell::new(vec![0.0; section.len() + 2]);
    let port = |ls: &[f64]| stretches(ls, |l0, l1| port_between(&section, l0, l1, &mut room.borrow_mut()));
    let plain = |ls: &[f64]| {
        stretches(ls, |l0, l1| {
            let out = &mut room.borrow_mut()[..];
            plain::between(black_box(&section), T, l0, l1, out).map_or(0.0, |(count, _)| sum_of(&out[..2 * count]))
        })
    };
    #[cfg(published)]
    let curve = published::curve(&section, T);
    #[cfg(published)]
    let rust = |ls: &[f64]| stretches(ls, |l0, l1| published::between(&curve, l0, l1).map_or(0.0, |points| sum_of(&points)));
    let answers: &[&dyn Fn(&[f64]) -> f64] = &[
        &port,
        #[cfg(published)]
        &rust,
        &plain,
    ];
    pass(Row { name: "stretch", shape: shape_of(open), edges, per: Per::Edge(k * edges) }, &lengths, 2, answers, once);
}

fn shape_of(open: bool) -> &'static str {
    if open { "open" } else { "closed" }
}

// ---- runs

// A store with circles in its first slots, and NaN behind them.
fn store_of(circles: impl Iterator<Item = [f64; WIDTH]>) -> Vec<f64> {
    let mut store: Vec<f64> = circles.flatten().collect();
    store.resize(WIDTH * SLOTS, f64::NAN);
    store
}

fn plain_numbers(c: &Circle) -> [f64; WIDTH] {
    [c.x, c.y, c.r, c.p0.0, c.p0.1, c.p1.0, c.p1.1, c.along.0, c.along.1]
}

fn plain_circle(n: &[f64]) -> Circle {
    Circle { x: n[0], y: n[1], r: n[2], p0: (n[3], n[4]), p1: (n[5], n[6]), along: (n[7], n[8]) }
}

// Which run: a march, one by the entry for the cell, or an extraction.
#[derive(Clone, Copy, PartialEq)]
enum Which {
    March,
    Cell,
    Extraction,
}

impl Which {
    fn name(self) -> &'static str {
        match self {
            Which::March => "march",
            Which::Cell => "march-cell",
            Which::Extraction => "extraction",
        }
    }
}

// A march, by either entry, or an extraction.
fn run(edges: usize, open: bool, which: Which, once: bool) -> Left {
    let section = &blade(edges, open)[..];
    let line = [1.0, 8.0, 0.03, 1.0];
    #[cfg(published)]
    let curve = &published::curve(section, T);
    let columns: Vec<Column> = vec![
        Box::new(move || {
            let mut store = store_of(std::iter::empty());
            let (mut count, mut units) = (0, 0);
            let [ox, oy, dx, dy] = line;
            let (p, n, s, l) = (section.as_ptr(), section.len(), store.as_mut_ptr(), store.len());
            let (mut edges, mut found, mut state) = ([0; 2], false, MarchState::none());
            let (time, number) = timed(|| unsafe {
                match which {
                    Which::Extraction => rummyteak_extract_circles(p, n, T, G, ox, oy, dx, dy, s, l, u32::MAX, &mut count, &mut units),
                    Which::March => rummyteak_march(p, n, T, G, ox, oy, dx, dy, s, l, u32::MAX, &mut count, &mut units, &mut edges, &mut found, &mut state),
                    Which::Cell => rummyteak_march_cell(p, n, T, G, ox, oy, dx, dy, s, l, u32::MAX, &mut count, &mut units, &mut edges, &mut found, &mut state),
                }
            });
            assert_eq!(number, 0);
            (time, Left { numbers: store, units })
        }),
        #[cfg(published)]
        Box::new(move || {
            let (time, (list, units)) = timed(|| if which == Which::Extraction { published::extraction(curve, G, &line) } else { published::march(curve, G, &line) });
            (time, Left { numbers: store_of(list.iter().map(published::circle_numbers)), units })
        }),
        Box::new(move || {
            let mut units = 0;
            let (time, list) = timed(|| {
                assert!(plain::enters_run(section, T, G, &line));
                match which {
                    Which::Extraction => plain::extraction(section, G, line_at(&line), SLOTS, u32::MAX, &mut units),
                    Which::March => plain::march(section, G, line_at(&line), SLOTS, u32::MAX, &mut units).0,
                    Which::Cell => plain::march(section, G, line_at(&line), CELL_SLOTS, u32::MAX, &mut units).0,
                }
            });
            (time, Left { numbers: store_of(list.iter().map(plain_numbers)), units })
        }),
    ];
    run_row(Row { name: which.name(), shape: shape_of(open), edges, per: Per::Unit }, columns, once)
}

// The open edge, at the front where the open blade has its gap, from the circles of an extraction. The numbers are those of the store and the point.
fn edge(edges: usize, extracted: &Left, once: bool) {
    let section = &blade(edges, true)[..];
    let store = &extracted.numbers[..];
    let count = store.iter().filter(|x| !x.is_nan()).count() / WIDTH;
    let circles = move || store.chunks_exact(WIDTH).take(count);
    #[cfg(published)]
    let curve = &published::curve(section, T);
    let columns: Vec<Column> = vec![
        Box::new(move || {
            let (mut store, mut point, mut left, mut units) = (store.to_vec(), [f64::NAN; 2], 0, 0);
            let (p, n, s, l, o) = (section.as_ptr(), section.len(), store.as_mut_ptr(), store.len(), point.as_mut_ptr());
            let (time, number) = timed(|| unsafe { rummyteak_fit_open_edge(p, n, T, G, s, l, count, true, u32::MAX, o, &mut left, &mut units) });
            assert_eq!(number, 0);
            store.extend(point);
            (time, Left { numbers: store, units })
        }),
        #[cfg(published)]
        Box::new(move || {
            let list: Vec<_> = circles().map(published::circle_at).collect();
            let (time, (list, units, point)) = timed(|| published::open_edge(curve, G, list, true));
            let mut numbers = store_of(list.iter().map(published::circle_numbers));
            numbers.extend(point);
            (time, Left { numbers, units })
        }),
        Box::new(move || {
            let mut list: Vec<_> = circles().map(plain_circle).collect();
            let (time, (point, units)) = timed(|| {
                assert!(plain::enters_run(section, T, G, &store[..WIDTH * count]));
                plain::open_edge(section, G, &mut list, true, SLOTS, u32::MAX)
            });
            let mut numbers = store_of(list.iter().map(plain_numbers));
            numbers.extend([point.0, point.1]);
            (time, Left { numbers, units })
        }),
    ];
    run_row(Row { name: "open-edge", shape: "open", edges, per: Per::Fit }, columns, once);
}

fn main() {
    let once = std::env::args().nth(1).is_some_and(|x| x == "once");
    let published: &[&str] = if cfg!(published) { &["published"] } else { &[] };
    if !once {
        let names: String = [&["port"], published, &["plain"]].concat().iter().map(|x| format!("{x:>13}")).collect();
        let beside: String = [published, &["plain"]].concat().iter().map(|x| format!("{:>13}", format!("/{x}"))).collect();
        println!("\nns an edge, a unit or a fit, least of {ROUNDS} rounds or more, stores cleared before each; the ratios are the port's time by the others'");
        println!("{:<12}{:<8}{:>6}{:>7}  {:<4}{}{}", "", "", "edges", "units", "per", names, beside);
    }
    for edges in [100usize, 1000, 4095] {
        for open in [false, true] {
            passes(edges, open, once);
            stretch(edges, open, once);
        }
    }
    for edges in [100usize, 1000, 4095] {
        run(edges, false, Which::March, once);
        run(edges, true, Which::March, once);
        run(edges, false, Which::Cell, once);
        run(edges, false, Which::Extraction, once);
        let extracted = run(edges, true, Which::Extraction, once);
        edge(edges, &extracted, once);
    }
}
