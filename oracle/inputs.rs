// Inputs of a fixed generator: blade-like sections, rectangles, slivers, wedges, rings, zigzags and points of a small grid; tolerances over their range;
// lines that hit and miss; circles found on the sections and made up.
use crate::Tally;
use crate::leaves::gap;
use crate::port::{Call, REST, SLOTS, WIDTH};

pub struct Generator(u64);

impl Generator {
    pub fn new(seed: u64) -> Self {
        Generator(0x9e37_79b9_7f4a_7c15 ^ seed.wrapping_mul(0x2545_f491_4f6c_dd1d))
    }

    fn next(&mut self) -> u64 {
        self.0 ^= self.0 << 13;
        self.0 ^= self.0 >> 7;
        self.0 ^= self.0 << 17;
        self.0.wrapping_mul(0x2545_f491_4f6c_dd1d) >> 11
    }

    // A whole number below n.
    fn below(&mut self, n: usize) -> usize {
        (self.next() % n as u64) as usize
    }

    // A number from a up to b.
    fn from(&mut self, a: f64, b: f64) -> f64 {
        a + (b - a) * (self.next() as f64 / (1u64 << 53) as f64)
    }

    fn one_in(&mut self, n: usize) -> bool {
        self.below(n) == 0
    }

    fn pick(&mut self, xs: &[f64]) -> f64 {
        xs[self.below(xs.len())]
    }

    fn sign(&mut self) -> f64 {
        if self.one_in(2) { 1.0 } else { -1.0 }
    }

    // A power of ten with an exponent from a up to b.
    fn power(&mut self, a: f64, b: f64) -> f64 {
        10f64.powf(self.from(a, b))
    }
}

// Points, and the frame that they were made in: its middle, its first axis, its half length and half width.
struct Shape {
    points: Vec<f64>,
    x: f64,
    y: f64,
    ux: f64,
    uy: f64,
    long: f64,
    wide: f64,
    camber: f64,
}

impl Shape {
    fn new(g: &mut Generator, long: f64, wide: f64, camber: f64) -> Self {
        let (x, y) = if g.one_in(3) { (0.0, 0.0) } else { (g.from(-500.0, 500.0), g.from(-500.0, 500.0)) };
        let a = if g.one_in(3) { 0.0 } else { g.from(0.0, std::f64::consts::TAU) };
        Shape { points: vec![], x, y, ux: a.cos(), uy: a.sin(), long, wide, camber }
    }

    fn place(&self, u: f64, v: f64) -> (f64, f64) {
        (self.x + u * self.ux - v * self.uy, self.y + u * self.uy + v * self.ux)
    }

    fn push(&mut self, u: f64, v: f64) {
        let (x, y) = self.place(u, v);
        self.points.extend([x, y]);
    }
}

fn count_of(g: &mut Generator, i: u64) -> usize {
    match i % 60 {
        0 => 1000 + g.below(3001),
        1..=7 => 200 + g.below(300),
        _ => 20 + g.below(100),
    }
}

// An ellipse, or a drop with a thin tip, on a parabola; noisy or not, closed or open at its tip, either way round.
fn blade(g: &mut Generator, i: u64) -> Shape {
    let long = if g.one_in(8) { g.power(-2.0, 5.5) } else { g.power(0.0, 2.7) };
    let wide = long * g.from(0.02, 0.5);
    let camber = if g.one_in(4) { 0.0 } else { long * g.from(-0.4, 0.4) };
    let mut s = Shape::new(g, long, wide, camber);
    let n = count_of(g, i);
    let open = g.one_in(2);
    let gap = if open { g.from(0.02, 0.9) } else { 0.0 };
    let drop = g.one_in(2);
    let noise = if g.one_in(3) { wide * g.power(-5.0, -1.5) } else { 0.0 };
    let turn = g.sign();
    for k in 0..=n {
        let k = if open || k < n { k } else { 0 };
        let a = turn * (gap + k as f64 / n as f64 * (std::f64::consts::TAU - 2.0 * gap));
        let c = a.cos();
        let u = long * c;
        let thin = if drop { 0.5 - 0.45 * c } else { 1.0 };
        let v = wide * a.sin() * thin + camber * (1.0 - c * c);
        let (e, f) = if noise > 0.0 && k > 0 { (g.from(-noise, noise), g.from(-noise, noise)) } else { (0.0, 0.0) };
        s.push(u + e, v + f);
    }
    s
}

// A rectangle or a sliver, with points along its sides; open or closed.
fn rectangle(g: &mut Generator) -> Shape {
    let long = if g.one_in(2) { (1 + g.below(8)) as f64 } else { g.power(0.0, 2.5) };
    let wide = if g.one_in(4) { long * g.power(-6.0, -2.0) } else if g.one_in(2) { 1.0 } else { long * g.from(0.05, 1.0) };
    let mut s = Shape::new(g, long, wide, 0.0);
    let parts = 1 + g.below(6);
    let corners = [(-long, -wide), (long, -wide), (long, wide), (-long, wide), (-long, -wide)];
    let sides = if g.one_in(2) { 4 } else { 3 };
    for k in 0..sides {
        let ((a, b), (c, d)) = (corners[k], corners[k + 1]);
        for j in 0..parts {
            let f = j as f64 / parts as f64;
            s.push(a + (c - a) * f, b + (d - b) * f);
        }
    }
    let (a, b) = corners[sides];
    s.push(a, b);
    if g.one_in(3) {
        s.points.truncate(s.points.len() - 2);
    }
    s
}

// A wedge: two sides that come together, open at the thick end or closed there.
fn wedge(g: &mut Generator) -> Shape {
    let long = g.power(0.0, 2.5);
    let wide = long * g.from(0.02, 0.6);
    let mut s = Shape::new(g, long, wide, 0.0);
    let n = 1 + g.below(30);
    let tip = if g.one_in(2) { 0.0 } else { wide * g.from(0.1, 0.9) };
    let turn = g.sign();
    for k in 0..n {
        let f = k as f64 / n as f64;
        s.push(long - 2.0 * long * f, turn * (wide + (tip - wide) * f));
    }
    s.push(-long, turn * tip);
    if tip > 0.0 {
        s.push(-long, -turn * tip);
    }
    for k in 1..=n {
        let f = k as f64 / n as f64;
        s.push(-long + 2.0 * long * f, -turn * (tip + (wide - tip) * f));
    }
    if g.one_in(2) {
        s.push(long, turn * wide);
    }
    s
}

// A channel that is open at one end, its two lips cut back by different lengths.
fn channel(g: &mut Generator) -> Shape {
    let long = if g.one_in(2) { 8.0 } else { g.power(0.0, 2.5) };
    let wide = if g.one_in(2) { 1.0 } else { long * g.from(0.05, 0.5) };
    let mut s = Shape::new(g, long, wide, 0.0);
    if g.one_in(2) {
        (s.x, s.y, s.ux, s.uy) = (0.0, 0.0, 1.0, 0.0);
    }
    let b = long * g.pick(&[1.0, 1.0, 0.5, 0.0]);
    let a = if g.one_in(3) { b } else { long * g.from(0.0, 1.0) };
    let turn = g.sign();
    let parts = 1 + g.below(8);
    for k in 0..parts {
        s.push(a + (-long - a) * (k as f64 / parts as f64), turn * wide);
    }
    s.push(-long, turn * wide);
    s.push(-long, -turn * wide);
    for k in 1..=parts {
        s.push(-long + (b + long) * (k as f64 / parts as f64), -turn * wide);
    }
    s
}

// A channel whose width falls at once, to a half or to some other part of it; closed, or open at an end.
fn stepped(g: &mut Generator) -> Shape {
    let (long, wide) = (4.0 + g.below(8) as f64, 1.0 + g.below(2) as f64);
    let mut s = Shape::new(g, long, wide, 0.0);
    if !g.one_in(3) {
        (s.x, s.y, s.ux, s.uy) = (0.0, 0.0, 1.0, 0.0);
    }
    let narrow = wide * g.pick(&[0.5, 0.5, 0.5, 0.25, 0.75, 0.48, 0.52]);
    let step = long * g.from(-0.2, 0.8);
    let around = [(-long, wide), (-long, -wide), (step, -wide), (step, -narrow), (long, -narrow), (long, narrow), (step, narrow), (step, wide), (-long, wide)];
    let first = g.below(2);
    let last = around.len() - if first > 0 { 0 } else { g.below(2) };
    for (u, v) in &around[first..last] {
        s.push(*u, *v);
    }
    s
}

// Points of a small grid: corners are met, edges lie on lines, distances tie.
fn grid(g: &mut Generator) -> Shape {
    let mut s = Shape { points: vec![], x: 0.0, y: 0.0, ux: 1.0, uy: 0.0, long: 4.0, wide: 2.0, camber: 0.0 };
    let n = 2 + g.below(20);
    for _ in 0..n {
        let (x, y) = (g.below(9) as f64 - 4.0, g.below(5) as f64 - 2.0);
        s.points.extend([x, y]);
    }
    if g.one_in(2) {
        let (x, y) = (s.points[0], s.points[1]);
        s.points.extend([x, y]);
    }
    s
}

// A ring about the middle with a radius that varies: not convex, many hits.
fn star(g: &mut Generator, i: u64) -> Shape {
    let long = g.power(-1.0, 3.0);
    let mut s = Shape::new(g, long, long, 0.0);
    let n = count_of(g, i).min(400);
    let deep = g.from(0.0, 0.8);
    let arms = 1 + g.below(7);
    for k in 0..=n {
        let a = (k % n) as f64 / n as f64 * std::f64::consts::TAU;
        let r = long * (1.0 - deep * 0.5 * (1.0 + (arms as f64 * a).cos()));
        s.push(r * a.cos(), r * a.sin());
    }
    if g.one_in(3) {
        s.points.truncate(s.points.len() - 4);
    }
    s
}

fn shape(g: &mut Generator, i: u64) -> Shape {
    match i % 10 {
        0..=4 => blade(g, i),
        5 => rectangle(g),
        6 => wedge(g),
        7 => grid(g),
        8 if i % 20 == 8 => channel(g),
        8 => stepped(g),
        _ => star(g, i),
    }
}

// ---- tolerances, points and lines

fn section_tolerance(g: &mut Generator, s: &Shape) -> f64 {
    match g.below(6) {
        0 => 0.0,
        1 => g.power(-12.0, -6.0),
        2 => 0.001,
        3 => s.wide * g.power(-4.0, -2.0),
        _ => 1e-6,
    }
}

fn general_tolerance(g: &mut Generator, s: &Shape) -> f64 {
    let t = match g.below(8) {
        0 => g.power(-6.0, 3.0),
        1 => 0.01,
        2 => s.wide * g.power(-4.0, -3.0),
        _ => s.wide * g.power(-3.0, -0.7),
    };
    t.clamp(1e-6, 1000.0)
}

// A line across the frame, tilted or not; its direction long or short, to either side.
fn across(g: &mut Generator, s: &Shape) -> [f64; 4] {
    let f = if g.one_in(3) { 0.0 } else { g.from(-0.8, 0.8) };
    let tilt = if g.one_in(2) { 0.0 } else { g.from(-0.3, 0.3) };
    let size = if g.one_in(2) { g.sign() } else { g.sign() * g.power(-2.0, 2.0) };
    let off = if g.one_in(2) { 0.0 } else { g.from(-3.0, 3.0) * s.wide };
    let (x, y) = s.place(f * s.long, s.camber * (1.0 - f * f) + off);
    let (dx, dy) = (tilt * s.ux - s.uy, tilt * s.uy + s.ux);
    [x, y, dx * size, dy * size]
}

// A line through two points on edges or vertices, one that misses, or one of the grid.
fn any_line(g: &mut Generator, s: &Shape, section: &[f64]) -> [f64; 4] {
    let n = section.len() / 2;
    let mut on = || {
        let i = g.below(n - 1);
        let f = match g.below(4) {
            0 => 0.0,
            1 => 1.0,
            _ => g.from(0.0, 1.0),
        };
        (
            section[2 * i] + (section[2 * i + 2] - section[2 * i]) * f,
            section[2 * i + 1] + (section[2 * i + 3] - section[2 * i + 1]) * f,
        )
    };
    let ((ax, ay), (bx, by)) = (on(), on());
    match g.below(8) {
        0 => {
            let far = s.long * g.from(3.0, 9.0);
            let (x, y) = s.place(far, 0.0);
            [x, y, -s.uy, s.ux]
        }
        1 => [(g.below(9) as f64) - 4.0, (g.below(5) as f64) - 2.0, (g.below(3) as f64) - 1.0, (g.below(3) as f64) - 1.0],
        2 | 3 => across(g, s),
        4 => [ax, ay, bx - ax, by - ay],
        _ => {
            let k = g.sign() * g.power(-2.0, 1.0);
            let t = g.from(-2.0, 2.0);
            [ax + (bx - ax) * t, ay + (by - ay) * t, (bx - ax) * k, (by - ay) * k]
        }
    }
}

fn any_point(g: &mut Generator, s: &Shape, section: &[f64]) -> (f64, f64) {
    match g.below(5) {
        0 => (g.below(17) as f64 / 2.0 - 4.0, g.below(9) as f64 / 2.0 - 2.0),
        1 => {
            let i = g.below(section.len() / 2);
            (section[2 * i], section[2 * i + 1])
        }
        2 => s.place(g.from(-4.0, 4.0) * s.long, g.from(-4.0, 4.0) * s.wide),
        _ => s.place(g.from(-1.1, 1.1) * s.long, g.from(-1.1, 1.1) * s.wide),
    }
}

// A circle that was not found on the section.
fn any_circle(g: &mut Generator, s: &Shape) -> [f64; WIDTH] {
    let (x, y) = s.place(g.from(-0.9, 0.9) * s.long, g.from(-0.3, 0.3) * s.wide);
    let r = if g.one_in(4) { g.below(3) as f64 } else { s.wide * g.from(0.1, 1.2) };
    let a = if g.one_in(2) { 0.0 } else { g.from(-0.6, 0.6) };
    let (cx, cy) = (s.ux * a.sin() + s.uy * a.cos(), s.uy * a.sin() - s.ux * a.cos());
    let k = g.sign() * r.max(s.wide * 0.01);
    [x, y, r, x + cx * k, y + cy * k, x - cx * k, y - cy * k, s.long, 2.0 * s.long]
}

fn join(tolerances: [f64; 2], numbers: &[f64]) -> Vec<f64> {
    [&tolerances[..], numbers].concat()
}

// ---- one section, and all that is asked of it

pub fn one_round(g: &mut Generator, i: u64, tally: &mut Tally) {
    let s = shape(g, i);
    let tol = section_tolerance(g, &s);
    let wide_tol = match g.below(3) {
        0 => s.long * g.power(-2.0, 1.0),
        1 => (g.below(4)) as f64,
        _ => g.power(-9.0, 6.0),
    };
    for t in [wide_tol, tol] {
        tally.compare(Call::FromPoints(true), &s.points, &[t, 1.0], &[]);
        tally.compare(Call::FromPoints(false), &s.points, &[t, 1.0], &[]);
    }
    let cleaned = tally.compare(Call::FromPoints(g.one_in(4)), &s.points, &[tol, 1.0], &[]);
    if cleaned.told[0] != 0 {
        return;
    }
    let section = cleaned.out[..2 * cleaned.told[1] as usize].to_vec();
    stations(g, &s, tol, &section, tally);
    circles(g, &s, tol, &section, tally);
    made_up_fits(g, &s, tol, &section, tally);
    runs(g, &s, tol, &section, tally);
}

fn stations(g: &mut Generator, s: &Shape, tol: f64, section: &[f64], tally: &mut Tally) {
    let t = [tol, 1.0];
    let n = section.len() / 2;
    for call in [Call::Reversed, Call::IsClosed, Call::AtFront, Call::AtBack] {
        tally.compare(call, section, &t, &[]);
    }
    let whole = tally.compare(Call::Length, section, &t, &[]).out[0];
    for _ in 0..3 {
        let i = g.below(n);
        tally.compare(Call::AtVertex(i), section, &t, &[]);
    }
    // A vertex's own length, its neighbours among the numbers, both ends and beyond, and anywhere.
    let k = g.below(n);
    let mut at = 0.0;
    for i in 0..k {
        at += gap(section[2 * i + 2], section[2 * i + 3], section[2 * i], section[2 * i + 1]);
    }
    let ends = [at, at.next_up(), at.next_down(), 0.0, -0.0, whole, whole.next_up(), whole.next_down(), -0.5];
    for _ in 0..5 {
        let l = if g.one_in(2) { g.pick(&ends) } else { g.from(-0.05, 1.05) * whole };
        tally.compare(Call::AtLength, section, &join(t, &[l]), &[]);
    }
    // Stretches between any two such lengths, near each other too; their order decides where the section is open.
    for _ in 0..6 {
        let one = |g: &mut Generator| if g.one_in(2) { g.pick(&ends) } else { g.from(-0.02, 1.02) * whole };
        let l0 = one(g);
        let l1 = match g.below(6) {
            0 => l0,
            1 => l0.next_up(),
            2 => l0 + t[0],
            _ => one(g),
        };
        tally.compare(Call::Between, section, &join(t, &[l0, l1]), &[]);
        tally.compare(Call::SplitOpen, section, &join(t, &[l0]), &[]);
        tally.compare(Call::SplitClosed, section, &join(t, &[l0, l1]), &[]);
    }
    for _ in 0..3 {
        let f = if g.one_in(3) { g.pick(&[0.0, 1.0, 0.5]) } else { g.from(0.0, 1.0) };
        tally.compare(Call::LengthAlong(g.below(n - 1)), section, &join(t, &[f]), &[]);
    }
    for _ in 0..8 {
        let (x, y) = any_point(g, s, section);
        tally.compare(Call::Closest, section, &join(t, &[x, y]), &[]);
    }
    for _ in 0..12 {
        let l = any_line(g, s, section);
        tally.compare(Call::CrossingLine, section, &join(t, &l), &[]);
    }
}

fn circles(g: &mut Generator, s: &Shape, tol: f64, section: &[f64], tally: &mut Tally) {
    let mut found: Vec<Vec<f64>> = vec![];
    for _ in 0..6 {
        let t = [tol, general_tolerance(g, s)];
        let l = any_line(g, s, section);
        tally.compare(Call::FromCrossing, section, &join(t, &l), &[]);
        let l = if g.one_in(2) { across(g, s) } else { any_line(g, s, section) };
        let a = tally.compare(Call::TryInscribed, section, &join(t, &l), &[]);
        if a.told[0] == 0 {
            found.push(a.out[..WIDTH].to_vec());
        }
        found.push(any_circle(g, s).to_vec());
    }
    for _ in 0..8 {
        let t = [tol, general_tolerance(g, s)];
        let (a, b) = (g.below(found.len()), g.below(found.len()));
        tally.compare(Call::Refined, section, &join(t, &[&found[a][..], &found[b]].concat()), &[]);
    }
    for _ in 0..3 {
        let t = [tol, general_tolerance(g, s).max(s.wide * 1e-3).clamp(1e-6, 1000.0)];
        let count = g.below(4);
        let mut store = vec![REST; WIDTH * 300 + g.below(WIDTH)];
        for k in 0..count {
            let c = &found[g.below(found.len())];
            store[WIDTH * k..][..WIDTH].copy_from_slice(c);
        }
        let c = &found[g.below(found.len())];
        tally.compare(Call::RefineAndPush(count), section, &join(t, c), &store);
        tally.compare(Call::RefineAndPushCell(count), section, &join(t, c), &store);
        // The same behind copies of the first circle, so that the cell is nearly full before.
        let before = 250 + 2 * count;
        store.copy_within(0..WIDTH * count, WIDTH * (before - count));
        for k in 0..before - count {
            store[WIDTH * k..][..WIDTH].copy_from_slice(&found[0]);
        }
        tally.compare(Call::RefineAndPush(before), section, &join(t, c), &store);
        tally.compare(Call::RefineAndPushCell(before), section, &join(t, c), &store);
        // Any list of them, offered to these and to none.
        let some: Vec<f64> = (0..g.below(5)).flat_map(|_| found[g.below(found.len())].clone()).collect();
        tally.compare(Call::RefineAll(0), section, &join(t, &some), &store);
        tally.compare(Call::RefineAllCell(before), section, &join(t, &some), &store);
    }
    let mut list = vec![REST; WIDTH * found.len() + 3];
    for (k, c) in found.iter().enumerate() {
        list[WIDTH * k..][..WIDTH].copy_from_slice(c);
    }
    let count = if g.one_in(3) { g.below(4) } else { g.below(found.len() + 1) };
    lists(g, s, &list, count, tally);
    for front in [false, true] {
        let t = [tol, general_tolerance(g, s)];
        tally.compare(Call::IsOpenAtEnd(count, front), section, &t, &list);
        tally.compare(Call::Thin(count), section, &t, &list);
    }
}

// Fits with circles that were not found on the section: along the frame, near the gap or not, the contacts across or, for a parallel ray, square to the gap.
fn made_up_fits(g: &mut Generator, s: &Shape, tol: f64, section: &[f64], tally: &mut Tally) {
    let n = section.len();
    let (gx, gy) = (section[n - 2] - section[0], section[n - 1] - section[1]);
    for _ in 0..4 {
        let t = [tol, general_tolerance(g, s)];
        let count = 1 + g.below(4);
        let mut store = vec![REST; WIDTH * 300];
        let (mut start, mut step) = (g.from(-0.9, 0.9) * s.long, g.sign() * s.long * g.from(0.05, 0.3));
        let off = match g.below(4) {
            0 | 1 => 0.0,
            2 => g.sign() * s.wide,
            _ => g.from(-0.9, 0.9) * s.wide,
        };
        // The last of them, or the first, level with a lip of the gap.
        if g.one_in(2) {
            let i = if g.one_in(2) { 0 } else { n - 2 };
            start = (section[i] - s.x) * s.ux + (section[i + 1] - s.y) * s.uy;
            if g.one_in(2) {
                step = -0.25 * step.signum();
                start -= step * (count - 1) as f64;
            }
        }
        let square = g.one_in(4);
        let tilt = if g.one_in(2) { 0.0 } else { g.from(-0.5, 0.5) };
        for k in 0..count {
            let (x, y) = s.place(start + step * k as f64, off);
            let (cx, cy) = if square { (-gy, gx) } else { ((tilt * s.ux - s.uy) * s.wide, (tilt * s.uy + s.ux) * s.wide) };
            store[WIDTH * k..][..WIDTH].copy_from_slice(&[x, y, s.wide, x - cx, y - cy, x + cx, y + cy, 0.0, s.long]);
        }
        for front in [false, true] {
            tally.compare(Call::IsOpenAtEnd(count, front), section, &t, &store);
            tally.compare(Call::FitOpenEdge(count, front), section, &t, &store);
        }
    }
}

fn lists(g: &mut Generator, s: &Shape, store: &[f64], count: usize, tally: &mut Tally) {
    for call in [
        Call::Tmax(count),
        Call::Spacing(count),
        Call::ClipLine(count),
        Call::FrontAndBack(count),
        Call::ReversePoints(count),
        Call::ReverseOrder(count),
        Call::ReverseOrderOnly(count),
        Call::OrientFwdAft(0, count),
        Call::OrientUpperLower(2, count),
    ] {
        tally.compare(call, &[], &[0.0; 4], store);
    }
    for how in 0..3 {
        let v = if g.one_in(3) { [g.below(3) as f64 - 1.0, g.below(3) as f64 - 1.0] } else { [g.from(-2.0, 2.0), g.from(-2.0, 2.0)] };
        let args = [0.0, 0.0, v[0], v[1]];
        if how > 0 {
            tally.compare(Call::OrientFwdAft(how, count), &[], &args, store);
        }
        if how < 2 {
            tally.compare(Call::OrientUpperLower(how, count), &[], &args, store);
        }
    }
    for _ in 0..2 {
        let t = if g.one_in(4) { 0.0 } else { s.long * g.power(-6.0, 1.0) };
        tally.compare(Call::CamberCurve(count), &[], &[t, 1.0], store);
        let ((ax, ay), (bx, by)) = (s.place(-s.long, g.from(-1.0, 1.0)), s.place(s.long, g.from(-1.0, 1.0)));
        tally.compare(Call::MakeCamberCurve(count), &[], &[t, 1.0, ax, ay, bx, by], store);
    }
}

fn runs(g: &mut Generator, s: &Shape, tol: f64, section: &[f64], tally: &mut Tally) {
    let fine = if section.len() > 400 { 3e-3 } else { 1e-4 };
    for k in 0..3 {
        let mut t = [tol, general_tolerance(g, s).max(s.wide * fine).clamp(1e-6, 1000.0)];
        let l = if g.one_in(5) { any_line(g, s, section) } else { across(g, s) };
        // A first step as long as the general tolerance: the radius is the same where both take as many halvings.
        if g.one_in(8) {
            t[1] = (s.wide * g.pick(&[0.125, 0.09375])).clamp(1e-6, 1000.0);
            for _ in 0..2 {
                let r = tally.compare(Call::TryInscribed, section, &join(t, &l), &[]).out[2];
                if r > 0.0 {
                    t[1] = (r * 0.125).clamp(1e-6, 1000.0);
                }
            }
        }
        let store = vec![REST; WIDTH * SLOTS + g.below(WIDTH)];
        let marched = tally.compare(Call::March, section, &join(t, &l), &store);
        tally.compare(Call::Thin(marched.told[1] as usize), section, &t, &marched.store);
        tally.offer_again(Call::March, section, t, &marched);
        tally.in_pieces(Call::March, section, &join(t, &l), &store, &marched);
        let marched = tally.compare(Call::MarchCell, section, &join(t, &l), &store);
        tally.offer_again(Call::MarchCell, section, t, &marched);
        tally.in_pieces(Call::MarchCell, section, &join(t, &l), &store, &marched);
        // A finer tolerance, by which a march may leave more circles than the cell holds.
        if k == 0 && section.len() < 80 {
            let finer = [tol, (t[1] / 64.0).max(tol).max(1e-6)];
            let marched = tally.compare(Call::March, section, &join(finer, &l), &store);
            tally.in_pieces(Call::March, section, &join(finer, &l), &store, &marched);
            let marched = tally.compare(Call::MarchCell, section, &join(finer, &l), &store);
            tally.offer_again(Call::MarchCell, section, finer, &marched);
            tally.in_pieces(Call::MarchCell, section, &join(finer, &l), &store, &marched);
        }
        let whole = tally.compare(Call::Extract, section, &join(t, &l), &store);
        let count = whole.told[1] as usize;
        if whole.told[0] != 0 || count == 0 {
            continue;
        }
        tally.compare(Call::Thin(count), section, &t, &whole.store);
        // The circles of both sides, offered to an empty list, and behind the first of them.
        let list = join(t, &whole.store[..WIDTH * count]);
        tally.compare(Call::RefineAll(0), section, &list, &store);
        tally.compare(Call::RefineAllCell(1), section, &list, &whole.store);
        if k == 0 {
            lists(g, s, &whole.store, count, tally);
        }
        for front in [false, true] {
            tally.compare(Call::IsOpenAtEnd(count, front), section, &t, &whole.store);
            tally.compare(Call::FitOpenEdge(count, front), section, &t, &whole.store);
            // From a part of the circles: the last or first few are taken off, so that the camber line stops short of the gap.
            let less = (1 + g.below(count)).max(count.min(2));
            let from = if front { count - less } else { 0 };
            let mut store = vec![REST; whole.store.len()];
            store[..WIDTH * less].copy_from_slice(&whole.store[WIDTH * from..][..WIDTH * less]);
            tally.compare(Call::FitOpenEdge(less, front), section, &t, &store);
        }
    }
}
