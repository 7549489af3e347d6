// The proved functions, by the C interface (include/rummyteak.h). Each call gives the words told and the numbers put out.
use crate::interface::*;

// How many numbers a circle has, how many of them the published functions have (all but the lengths along), and how many circles a store holds, and holds by the entries for the cell.
pub const WIDTH: usize = 9;
pub const PUBLISHED: usize = WIDTH - 2;
pub const SLOTS: usize = 1024;
pub const CELL_SLOTS: usize = 256;
const NO_LIMIT: u32 = u32::MAX;

// The function asked, with what it takes beside the section and the numbers of `args`.
#[derive(Clone, Copy, Debug, PartialEq)]
pub enum Call {
    FromPoints(bool),
    Reversed,
    IsClosed,
    Length,
    AtFront,
    AtBack,
    AtVertex(usize),
    AtLength,
    LengthAlong(usize),
    Between,
    SplitOpen,
    SplitClosed,
    Closest,
    CrossingLine,
    FromCrossing,
    TryInscribed,
    Refined,
    RefineAndPush(usize),
    RefineAndPushCell(usize),
    // The circles among the arguments, offered to a store that holds as many.
    RefineAll(usize),
    RefineAllCell(usize),
    March,
    MarchCell,
    Extract,
    Thin(usize),
    FitOpenEdge(usize, bool),
    IsOpenAtEnd(usize, bool),
    Tmax(usize),
    Spacing(usize),
    ClipLine(usize),
    FrontAndBack(usize),
    ReversePoints(usize),
    ReverseOrder(usize),
    ReverseOrderOnly(usize),
    CamberCurve(usize),
    MakeCamberCurve(usize),
    OrientFwdAft(u64, usize),
    OrientUpperLower(u64, usize),
}

// How many words are told at most.
pub const WORDS: usize = 7;

// What a call leaves: the words told (the number first, 99 where a trial adds nothing), the edges of a crossing where they are told, the numbers put out, and the store.
// Of a piece the words are its count, whether it is closed, and how many points were given; of a split both pieces have them, and the outputs stand one behind the other.
pub struct Answer {
    pub told: [u64; WORDS],
    pub edges: Option<[usize; 2]>,
    pub out: Vec<f64>,
    pub store: Vec<f64>,
}

// What stands in every place that no answer is written to.
pub const REST: f64 = -7.25;

pub fn call(call: Call, section: &[f64], args: &[f64], store: &[f64]) -> Answer {
    let room = match call {
        Call::FromPoints(_) | Call::Reversed => section.len() + 4,
        Call::Between => section.len() + 2,
        Call::SplitOpen | Call::SplitClosed => 2 * section.len() + 4,
        Call::CamberCurve(count) | Call::MakeCamberCurve(count) => 2 * count + 8,
        _ => 2 * WIDTH,
    };
    let mut out = vec![REST; room];
    let mut store = store.to_vec();
    let (mut count, mut units, mut yes) = (0usize, 0u32, false);
    let (mut edges, mut state) = ([0; 2], MarchState::none());
    let (mut counts, mut closed, mut given) = ([0usize; 2], [false; 2], [0usize; 2]);
    let (p, n, s, l, o, m) = (section.as_ptr(), section.len(), store.as_mut_ptr(), store.len(), out.as_mut_ptr(), out.len());
    // The two tolerances, then a length, a point, a vector or a line; or circles.
    let [t, g, x, y, dx, dy] = std::array::from_fn(|i| args.get(i).copied().unwrap_or(f64::NAN));
    let circle = |k: usize| args[2 + k * WIDTH..][..WIDTH].as_ptr();
    let (offered, offered_len) = (args[2.min(args.len())..].as_ptr(), args.len().saturating_sub(2));
    let offered_count = offered_len / WIDTH;
    let number = unsafe {
        match call {
            Call::FromPoints(force) => rummyteak_from_points(p, n, t, force, o, m, &mut count, &mut yes),
            Call::Reversed => rummyteak_reversed(p, n, t, o, m, &mut count, &mut yes),
            Call::IsClosed => rummyteak_is_closed(p, n, t, &mut yes),
            Call::Length => rummyteak_length(p, n, t, o),
            Call::AtFront => rummyteak_at_front(p, n, t, o, &mut count),
            Call::AtBack => rummyteak_at_back(p, n, t, o, &mut count),
            Call::AtVertex(index) => rummyteak_at_vertex(p, n, t, index, o, &mut count),
            Call::AtLength => rummyteak_at_length(p, n, t, x, o, &mut count),
            Call::LengthAlong(index) => rummyteak_length_along(p, n, t, index, x, o),
            Call::Between => rummyteak_between_lengths(p, n, t, x, y, o, m, &mut counts[0], &mut closed[0], &mut given[0]),
            Call::SplitOpen => rummyteak_split_open_at_length(p, n, t, x, o, m / 2, o.add(m / 2), m / 2, &mut counts, &mut closed, &mut given),
            Call::SplitClosed => rummyteak_split_closed_at_lengths(p, n, t, x, y, o, m / 2, o.add(m / 2), m / 2, &mut counts, &mut closed, &mut given),
            Call::Closest => rummyteak_at_closest_to_point(p, n, t, x, y, o, &mut count),
            Call::CrossingLine => rummyteak_crossing_line(p, n, t, x, y, dx, dy, o, &mut edges),
            Call::FromCrossing => rummyteak_inscribed_from_crossing(p, n, t, g, x, y, dx, dy, o),
            Call::TryInscribed => rummyteak_try_inscribed(p, n, t, g, x, y, dx, dy, o, &mut edges),
            Call::Refined => match rummyteak_inscribed_refined(p, n, t, g, circle(0), circle(1), o, &mut yes) {
                0 if !yes => 99,
                number => number,
            },
            Call::RefineAndPush(stated) => rummyteak_refine_and_push(p, n, t, g, s, l, stated, circle(0), NO_LIMIT, &mut count, &mut units),
            Call::RefineAndPushCell(stated) => rummyteak_refine_and_push_cell(p, n, t, g, s, l, stated, circle(0), NO_LIMIT, &mut count, &mut units),
            Call::RefineAll(stated) => {
                rummyteak_refine_all(p, n, t, g, s, l, stated, offered, offered_len, offered_count, NO_LIMIT, &mut count, &mut units)
            }
            Call::RefineAllCell(stated) => {
                rummyteak_refine_all_cell(p, n, t, g, s, l, stated, offered, offered_len, offered_count, NO_LIMIT, &mut count, &mut units)
            }
            Call::March => rummyteak_march(p, n, t, g, x, y, dx, dy, s, l, NO_LIMIT, &mut count, &mut units, &mut edges, &mut yes, &mut state),
            Call::MarchCell => rummyteak_march_cell(p, n, t, g, x, y, dx, dy, s, l, NO_LIMIT, &mut count, &mut units, &mut edges, &mut yes, &mut state),
            Call::Extract => rummyteak_extract_circles(p, n, t, g, x, y, dx, dy, s, l, NO_LIMIT, &mut count, &mut units),
            Call::Thin(stated) => rummyteak_thin(p, n, t, g, s, l, stated, NO_LIMIT, &mut count, &mut units),
            Call::FitOpenEdge(stated, front) => rummyteak_fit_open_edge(p, n, t, g, s, l, stated, front, NO_LIMIT, o, &mut count, &mut units),
            Call::IsOpenAtEnd(stated, front) => rummyteak_is_open_at_end(p, n, t, g, s, l, stated, front, &mut yes),
            Call::Tmax(stated) => rummyteak_index_of_tmax(s, l, stated, &mut count),
            Call::Spacing(stated) => rummyteak_average_spacing(s, l, stated, o),
            Call::ClipLine(stated) => rummyteak_end_clip_line(s, l, stated, o),
            Call::FrontAndBack(stated) => rummyteak_front_and_back(s, l, stated, o, o.add(WIDTH)),
            Call::ReversePoints(stated) => rummyteak_reverse_points(s, l, stated),
            Call::ReverseOrder(stated) => rummyteak_reverse_order(s, l, stated),
            Call::ReverseOrderOnly(stated) => rummyteak_reverse_order_only(s, l, stated),
            Call::CamberCurve(stated) => rummyteak_camber_curve(s, l, stated, t, o, m, &mut count, &mut yes),
            Call::MakeCamberCurve(stated) => rummyteak_make_camber_curve(x, y, dx, dy, s, l, stated, t, o, m, &mut count, &mut yes),
            Call::OrientFwdAft(0, stated) => rummyteak_orient_tmax_fwd(s, l, stated, &mut yes),
            Call::OrientFwdAft(1, stated) => rummyteak_orient_airflow(x, y, s, l, stated, &mut yes),
            Call::OrientFwdAft(_, stated) => rummyteak_orient_fwd(x, y, s, l, stated, &mut yes),
            Call::OrientUpperLower(0, stated) => rummyteak_orient_upper(x, y, s, l, stated, &mut yes),
            Call::OrientUpperLower(1, stated) => rummyteak_orient_lower(x, y, s, l, stated, &mut yes),
            Call::OrientUpperLower(_, stated) => rummyteak_orient_curvature(s, l, stated, &mut yes),
        }
    };
    let piece = |k: usize| [counts[k] as u64, closed[k] as u64, given[k] as u64];
    let mut told = [0; WORDS];
    told[0] = number as u64;
    let words = match call {
        Call::Between => piece(0).to_vec(),
        Call::SplitOpen | Call::SplitClosed => [piece(0), piece(1)].concat(),
        Call::FromPoints(_) | Call::Reversed | Call::CamberCurve(_) | Call::MakeCamberCurve(_) => vec![count as u64, yes as u64],
        Call::IsClosed | Call::IsOpenAtEnd(..) | Call::OrientFwdAft(..) | Call::OrientUpperLower(..) => vec![yes as u64],
        _ => vec![count as u64, units as u64],
    };
    told[1..1 + words.len()].copy_from_slice(&words);
    let has_edges = match call {
        Call::CrossingLine | Call::TryInscribed => number == 0,
        Call::March | Call::MarchCell => yes,
        _ => false,
    };
    Answer { told, edges: has_edges.then_some(edges), out, store }
}

// A march by either entry in pieces of so many units each: what the last one leaves, with the units of all, the edges that the first one told, and how many pieces there were.
pub fn march_in_pieces(march: Call, section: &[f64], args: &[f64], store: &[f64], limit: u32) -> (Answer, u64) {
    let mut store = store.to_vec();
    let (mut count, mut units, mut all, mut found, mut pieces) = (0usize, 0u32, 0u64, false, 1);
    let (mut edges, mut state) = ([0; 2], MarchState::none());
    let (p, n, s, l) = (section.as_ptr(), section.len(), store.as_mut_ptr(), store.len());
    let [t, g, x, y, dx, dy] = std::array::from_fn(|i| args[i]);
    let cell = march == Call::MarchCell;
    let mut number = unsafe {
        if cell {
            rummyteak_march_cell(p, n, t, g, x, y, dx, dy, s, l, limit, &mut count, &mut units, &mut edges, &mut found, &mut state)
        } else {
            rummyteak_march(p, n, t, g, x, y, dx, dy, s, l, limit, &mut count, &mut units, &mut edges, &mut found, &mut state)
        }
    };
    all += units as u64;
    while number == 14 {
        number = unsafe {
            if cell {
                rummyteak_go_on_cell(p, n, t, g, s, l, count, &mut state, limit, &mut count, &mut units)
            } else {
                rummyteak_go_on(p, n, t, g, s, l, count, &mut state, limit, &mut count, &mut units)
            }
        };
        all += units as u64;
        pieces += 1;
    }
    let mut told = [0; WORDS];
    told[..3].copy_from_slice(&[number as u64, count as u64, all]);
    (Answer { told, edges: found.then_some(edges), out: vec![REST; 2 * WIDTH], store }, pieces)
}
