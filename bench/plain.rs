// The calls that bench/section.rs times, in plain Rust: the port's entry tests and its steps, which watch no value and end early only where a store is full or a
// limit is spent.

// ---- entry tests

// Of a section: the count of its numbers, their size, the tolerance, and that neighbours are apart and lengths rise. `bad` is whether another argument fails.
pub fn enters(section: &[f64], tol: f64, bad: bool) -> bool {
    let n = section.len();
    if n % 2 != 0 || n / 2 < 2 || 4096 < n / 2 || bad || !(0.0..=1e6).contains(&tol) || !section.iter().all(|x| (-1e6..=1e6).contains(x)) {
        return false;
    }
    let mut l = 0.0;
    for i in (0..n - 2).step_by(2) {
        let d = length(section[i + 2] - section[i], section[i + 3] - section[i + 1]);
        let next = d + l;
        if d <= tol || !(l < next) {
            return false;
        }
        l = next;
    }
    true
}

// Of a run: a finite line or finite circles beside the section, and the general tolerance, which is no finer than the section's.
pub fn enters_run(section: &[f64], section_tol: f64, tol: f64, numbers: &[f64]) -> bool {
    enters(section, section_tol, !numbers.iter().all(|x| x.is_finite()) || !(1e-6..=1e3).contains(&tol) || tol < section_tol)
}

// ---- calls

// Whether the ends meet.
pub fn is_closed(section: &[f64], tol: f64) -> Option<bool> {
    if !enters(section, tol, false) {
        return None;
    }
    let n = section.len();
    Some(length(section[n - 2] - section[0], section[n - 1] - section[1]) <= tol)
}

// A station: point, direction and fraction, and its edge.
pub fn closest(section: &[f64], tol: f64, px: f64, py: f64) -> Option<([f64; 5], usize)> {
    if !enters(section, tol, !px.is_finite() || !py.is_finite()) {
        return None;
    }
    let (i, x, y, f, _) = nearest(section, px, py);
    let (dx, dy) = normalized(section[2 * i + 2] - section[2 * i], section[2 * i + 3] - section[2 * i + 1]);
    Some(([x, y, dx, dy, f], i))
}

pub fn crossing_line(section: &[f64], tol: f64, l: Line) -> Option<Line> {
    if !enters(section, tol, ![l.ox, l.oy, l.dx, l.dy].iter().all(|x| x.is_finite())) {
        return None;
    }
    crossing(section, l)
}

// The stretch between two lengths, cleaned, and how many points were given. Points given stand in an array first.
pub fn between(section: &[f64], tol: f64, l0: f64, l1: f64, out: &mut [f64]) -> Option<(usize, usize)> {
    if section.len() > 2 * 4095 || !enters(section, tol, !l0.is_finite() || !l1.is_finite()) || out.len() < section.len() + 2 {
        return None;
    }
    let (start, end) = (at_length(section, tol, l0)?, at_length(section, tol, l1)?);
    let last = section.len() / 2 - 1;
    let closed = length(section[2 * last] - section[0], section[2 * last + 1] - section[1]) <= tol;
    let wrap = end.along() < start.along();
    if (l1 - l0).abs() < tol || !closed && wrap {
        return None;
    }
    let mut points = [0.0; 2 * 4096];
    let mut given = put(&mut points, 0, start.x, start.y);
    let last_index = if closed { last - 1 } else { last };
    let (mut i, mut at, mut again) = (start.index, start.along(), wrap);
    // the length at the vertex behind the edge
    let mut n = start.n;
    loop {
        if i + 1 > last_index {
            if !again {
                break;
            }
            again = false;
            vertex_direction(section, closed, 0)?;
            given = put(&mut points, given, section[0], section[1]);
            (i, at, n) = (0, 0.0, length(section[2] - section[0], section[3] - section[1]));
        } else if at <= end.along() && i + 1 > end.index {
            break;
        } else {
            i += 1;
            vertex_direction(section, closed, i)?;
            given = put(&mut points, given, section[2 * i], section[2 * i + 1]);
            at = n;
            if i < last {
                n = length(section[2 * i + 2] - section[2 * i], section[2 * i + 3] - section[2 * i + 1]) + n;
            }
        }
    }
    if length(end.x - points[2 * given - 2], end.y - points[2 * given - 1]) > tol {
        given = put(&mut points, given, end.x, end.y);
    }
    let kept = clean(&points[..2 * given], tol, out);
    (kept >= 2).then_some((kept, given))
}

// ---- steps

// A place by its length: its point and edge, the lengths at both vertices of the edge, and the fraction.
struct Place {
    x: f64,
    y: f64,
    index: usize,
    m: f64,
    n: f64,
    fraction: f64,
}

impl Place {
    fn along(&self) -> f64 {
        self.m + (self.n - self.m) * self.fraction
    }
}

fn at_length(section: &[f64], tol: f64, l: f64) -> Option<Place> {
    let last = section.len() / 2 - 1;
    let closed = length(section[2 * last] - section[0], section[2 * last + 1] - section[1]) <= tol;
    let mut m = 0.0;
    for i in 0..last {
        let (x, y) = (section[2 * i], section[2 * i + 1]);
        let (dx, dy) = (section[2 * i + 2] - x, section[2 * i + 3] - y);
        let n = length(dx, dy) + m;
        if m == l {
            vertex_direction(section, closed, i)?;
            return Some(Place { x, y, index: i, m, n, fraction: 0.0 });
        }
        if l < n {
            if l < m {
                return None;
            }
            let (ux, uy) = normalized(dx, dy);
            return Some(Place { x: x + ux * (l - m), y: y + uy * (l - m), index: i, m, n, fraction: (l - m) / (n - m) });
        }
        if i + 1 == last && n == l {
            vertex_direction(section, closed, last)?;
            return Some(Place { x: section[2 * last], y: section[2 * last + 1], index: i, m, n, fraction: 1.0 });
        }
        m = n;
    }
    None
}

// The direction at a vertex; there is none where the section doubles back.
fn vertex_direction(section: &[f64], closed: bool, i: usize) -> Option<(f64, f64)> {
    let last = section.len() / 2 - 1;
    let edge = |k: usize| normalized(section[2 * k + 2] - section[2 * k], section[2 * k + 3] - section[2 * k + 1]);
    let (a, b) = if closed && (i == 0 || i == last) {
        (edge(0), edge(last - 1))
    } else if i == 0 {
        return Some(edge(0));
    } else if i == last {
        return Some(edge(last - 1));
    } else {
        (edge(i - 1), edge(i))
    };
    let (x, y) = (a.0 + b.0, a.1 + b.1);
    (length(x, y) != 0.0).then(|| std::hint::black_box(normalized(x, y)))
}

fn put(points: &mut [f64], count: usize, x: f64, y: f64) -> usize {
    points[2 * count] = x;
    points[2 * count + 1] = y;
    count + 1
}

// A point no farther than the tolerance from the last kept one is dropped.
fn clean(points: &[f64], tol: f64, out: &mut [f64]) -> usize {
    let mut kept = put(out, 0, points[0], points[1]);
    for p in points[2..].chunks_exact(2) {
        if length(p[0] - out[2 * kept - 2], p[1] - out[2 * kept - 1]) > tol {
            kept = put(out, kept, p[0], p[1]);
        }
    }
    kept
}

// The least square wins, the lower edge on a tie.
pub fn nearest(section: &[f64], px: f64, py: f64) -> (usize, f64, f64, f64, f64) {
    let mut best = (0usize, 0.0f64, 0.0f64, 0.0f64, f64::INFINITY);
    for i in 0..section.len() / 2 - 1 {
        let (ax, ay, bx, by) = (section[2 * i], section[2 * i + 1], section[2 * i + 2], section[2 * i + 3]);
        let (dx, dy) = (bx - ax, by - ay);
        let s = ((px - ax) * dx + (py - ay) * dy) / (dx * dx + dy * dy);
        let (qx, qy, f) = if s <= 0.0 {
            (ax, ay, 0.0)
        } else if s >= 1.0 {
            (bx, by, 1.0)
        } else {
            (ax + dx * s, ay + dy * s, s)
        };
        let square = (px - qx) * (px - qx) + (py - qy) * (py - qy);
        if square < best.4 {
            best = (i, qx, qy, f, square);
        }
    }
    std::hint::black_box(best)
}

#[derive(Clone, Copy)]
pub struct Line {
    pub ox: f64,
    pub oy: f64,
    pub dx: f64,
    pub dy: f64,
}

impl Line {
    fn at(self, t: f64) -> (f64, f64) {
        (self.ox + self.dx * t, self.oy + self.dy * t)
    }
}

pub fn crossing(section: &[f64], l: Line) -> Option<Line> {
    let Line { ox, oy, dx, dy } = l;
    let mut hits = [(0.0, 0); 2];
    let mut n = 0;
    for i in 0..section.len() / 2 - 1 {
        let (ax, ay, bx, by) = (section[2 * i], section[2 * i + 1], section[2 * i + 2], section[2 * i + 3]);
        let (ex, ey) = (bx - ax, by - ay);
        let det = ex * dy - ey * dx;
        if det.abs() < 1e-12 {
            continue;
        }
        let (wx, wy) = (ax - ox, ay - oy);
        let t = (wy * ex - wx * ey) / det;
        let s = (wy * dx - wx * dy) / det;
        if s >= 0.0 && s <= 1.0 {
            if n < 2 {
                hits[n] = (t, i);
            }
            n += 1;
        }
    }
    if n != 2 {
        return None;
    }
    let (t0, t1) = if hits[1].0 < hits[0].0 { (hits[1].0, hits[0].0) } else { (hits[0].0, hits[1].0) };
    let (ax, ay) = l.at(t0);
    let (bx, by) = l.at(t1);
    Some(Line { ox: ax, oy: ay, dx: bx - ax, dy: by - ay })
}

#[derive(Clone, Copy)]
pub struct Circle {
    pub x: f64,
    pub y: f64,
    pub r: f64,
    pub p0: (f64, f64),
    pub p1: (f64, f64),
    // The lengths along of the nearest points to both.
    pub along: (f64, f64),
}

// A point and a unit vector.
#[derive(Clone, Copy)]
struct Ray {
    x: f64,
    y: f64,
    nx: f64,
    ny: f64,
}

fn normalized(x: f64, y: f64) -> (f64, f64) {
    let l = length(x, y);
    (x / l, y / l)
}

fn length(x: f64, y: f64) -> f64 {
    (x * x + y * y).sqrt()
}

fn camber_point(c: &Circle) -> Ray {
    let (dx, dy) = (c.p1.0 - c.p0.0, c.p1.1 - c.p0.1);
    let (nx, ny) = normalized(dy, -dx);
    Ray { x: c.x, y: c.y, nx, ny }
}

// The lengths along of the nearest points to two, in one pass up to the later edge.
fn lengths_along(section: &[f64], p: (f64, f64), q: (f64, f64)) -> (f64, f64) {
    let (i, _, _, f, _) = nearest(section, p.0, p.1);
    let (j, _, _, g, _) = nearest(section, q.0, q.1);
    let mut m = 0.0;
    let (mut at_p, mut at_q) = (0.0, 0.0);
    for k in 0..=i.max(j) {
        let n = length(section[2 * k + 2] - section[2 * k], section[2 * k + 3] - section[2 * k + 1]) + m;
        if k == i {
            at_p = m + (n - m) * f;
        }
        if k == j {
            at_q = m + (n - m) * g;
        }
        m = n;
    }
    (at_p, at_q)
}

pub fn from_crossing(section: &[f64], tol: f64, l: Line) -> Circle {
    let resolve = tol * 0.1;
    let len = length(l.dx, l.dy);
    let mut pos = (1.0, 0.0, l.at(1.0));
    let mut neg = (0.0, 0.0, l.at(0.0));
    while resolve < (pos.0 - neg.0) * len {
        let f = (pos.0 + neg.0) * 0.5;
        let w = l.at(f);
        let (_, qx, qy, _, _) = nearest(section, w.0, w.1);
        let (vx, vy) = (qx - w.0, qy - w.1);
        let end = (f, length(vx, vy), (qx, qy));
        if 0.0 < vx * l.dx + vy * l.dy {
            pos = end;
        } else {
            neg = end;
        }
    }
    let (x, y) = l.at((pos.0 + neg.0) * 0.5);
    let along = lengths_along(section, neg.2, pos.2);
    Circle { x, y, r: (pos.1 + neg.1) * 0.5, p0: neg.2, p1: pos.2, along }
}

pub fn trial(section: &[f64], tol: f64, a: &Circle, b: &Circle) -> Option<Circle> {
    let (ca, cb) = (camber_point(a), camber_point(b));
    let (x, y) = (ca.x + (cb.x - ca.x) * 0.5, ca.y + (cb.y - ca.y) * 0.5);
    let (nx, ny) = normalized(ca.nx + cb.nx, ca.ny + cb.ny);
    let k = crossing(section, Line { ox: x, oy: y, dx: -ny, dy: nx })?;
    let c = from_crossing(section, tol, k);
    let e_radius = (c.r - ((b.r - a.r) * 0.5 + a.r)).abs();
    let e_pos = length(x - c.x, y - c.y);
    if a.r.max(b.r) < c.r || tol < e_radius || tol < e_pos {
        Some(c)
    } else {
        None
    }
}

// How a run ends: true where it is spent or the store is full.
pub fn refine(section: &[f64], tol: f64, list: &mut Vec<Circle>, slots: usize, circle: Circle, limit: u32, units: &mut u32) -> bool {
    let mut waiting = vec![circle];
    while let Some(top) = waiting.last().copied() {
        if let Some(last) = list.last().copied() {
            if limit <= *units {
                return true;
            }
            *units += 1;
            if let Some(d) = trial(section, tol, &last, &top) {
                waiting.push(d);
                continue;
            }
        }
        if slots <= list.len() {
            return true;
        }
        list.push(top);
        waiting.pop();
    }
    false
}

fn remaining(section: &[f64], ray: Ray) -> f64 {
    let mut most = f64::NEG_INFINITY;
    for p in section.chunks_exact(2) {
        let (vx, vy) = (p[0] - ray.x, p[1] - ray.y);
        if !(ray.nx * vx + ray.ny * vy).is_sign_negative() {
            most = f64::max(most, length(vx, vy));
        }
    }
    most
}

// The next circle, if the march goes on; true in the second place where it is spent.
fn advance(section: &[f64], tol: f64, c: &Circle, limit: u32, units: &mut u32) -> (Option<Circle>, bool) {
    let ray = camber_point(c);
    if remaining(section, ray) - c.r < c.r * 0.375 {
        return (None, false);
    }
    for f in [0.125, 0.09375, 0.0703125, 0.052734375] {
        let step = f * c.r;
        if step < tol {
            return (None, false);
        }
        if limit <= *units {
            return (None, true);
        }
        *units += 1;
        let l = Line { ox: ray.x + ray.nx * step, oy: ray.y + ray.ny * step, dx: -ray.ny, dy: ray.nx };
        if let Some(k) = crossing(section, l) {
            if length(k.dx, k.dy) >= 0.5 * length(c.p0.0 - c.p1.0, c.p0.1 - c.p1.1) {
                return (Some(from_crossing(section, tol, k)), false);
            }
        }
    }
    (None, true)
}

// The circles of a march and whether it is over before its end.
pub fn march(section: &[f64], tol: f64, l: Line, slots: usize, limit: u32, units: &mut u32) -> (Vec<Circle>, bool) {
    let mut list = Vec::new();
    let Some(k) = crossing(section, l) else { return (list, true) };
    let mut next = from_crossing(section, tol, k);
    loop {
        if refine(section, tol, &mut list, slots, next, limit, units) {
            return (list, true);
        }
        match advance(section, tol, &list[list.len() - 1], limit, units) {
            (Some(c), _) => next = c,
            (None, over) => return (list, over),
        }
    }
}

pub fn extraction(section: &[f64], tol: f64, l: Line, slots: usize, limit: u32, units: &mut u32) -> Vec<Circle> {
    let (mut list, over) = march(section, tol, l, slots, limit, units);
    if over {
        return list;
    }
    list.reverse();
    for c in list.iter_mut() {
        std::mem::swap(&mut c.p0, &mut c.p1);
        c.along = (c.along.1, c.along.0);
    }
    list.pop();
    let back = Line { ox: l.ox, oy: l.oy, dx: -l.dx, dy: -l.dy };
    let (second, _) = march(section, tol, back, slots - list.len(), limit, units);
    list.extend(second);
    list
}

// The ray on which the camber line leaves the last circle.
fn end_ray(list: &[Circle]) -> Ray {
    let (last, before) = (&list[list.len() - 1], &list[list.len() - 2]);
    let (fx, fy) = (last.x - before.x, last.y - before.y);
    let (nx, ny) = normalized(-(last.p1.1 - last.p0.1), last.p1.0 - last.p0.0);
    let (nx, ny) = if fx * nx + fy * ny < 0.0 { (-nx, -ny) } else { (nx, ny) };
    let (nx, ny) = normalized(nx, ny);
    Ray { x: last.x, y: last.y, nx, ny }
}

// Where the camber line meets the line of the gap.
fn gap_point(list: &[Circle], gap: Line) -> (f64, f64) {
    let ray = end_ray(list);
    let (wx, wy) = (gap.ox - ray.x, gap.oy - ray.y);
    let t = (wy * gap.dx - wx * gap.dy) / (gap.dx * ray.ny - gap.dy * ray.nx);
    Line { ox: ray.x, oy: ray.y, dx: ray.nx, dy: ray.ny }.at(t)
}

// The point of the open edge and its units; the circles are those of the fit afterwards.
pub fn open_edge(section: &[f64], tol: f64, list: &mut Vec<Circle>, at_front: bool, slots: usize, limit: u32) -> ((f64, f64), u32) {
    if at_front {
        list.reverse();
    }
    let (ax, ay) = (section[0], section[1]);
    let (bx, by) = (section[section.len() - 2], section[section.len() - 1]);
    let gap = Line { ox: ax, oy: ay, dx: bx - ax, dy: by - ay };
    let mut point = gap_point(list, gap);
    let mut drift = f64::INFINITY;
    let mut units = 0;
    for _ in 0..20 {
        if drift <= tol {
            break;
        }
        let ray = end_ray(list);
        let project = |x: f64, y: f64| ray.nx * (x - ray.x) + ray.ny * (y - ray.y);
        let step = f64::min(project(ax, ay), project(bx, by)) * 0.5;
        let last = &list[list.len() - 1];
        let across = -ray.ny * (last.p1.0 - last.p0.0) + ray.nx * (last.p1.1 - last.p0.1);
        let (dx, dy) = if across < 0.0 { (ray.ny, -ray.nx) } else { (-ray.ny, ray.nx) };
        let Some(k) = crossing(section, Line { ox: ray.x + ray.nx * step, oy: ray.y + ray.ny * step, dx, dy }) else { break };
        let c = from_crossing(section, tol, k);
        if refine(section, tol, list, slots, c, limit, &mut units) {
            break;
        }
        let next = gap_point(list, gap);
        drift = length(point.0 - next.0, point.1 - next.1);
        point = next;
    }
    if at_front {
        list.reverse();
    }
    (point, units)
}
