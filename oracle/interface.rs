// The C interface, as include/rummyteak.h has it: slices are a pointer and a length, p with n a section, s with l a store, o with m an output.
pub type In = *const f64;
pub type Out = *mut f64;

// The state of a spent march.
#[repr(C)]
#[derive(Clone)]
pub struct MarchState {
    pub refining: u64,
    pub fraction: u64,
    pub count: u64,
    pub waiting: [f64; 64 * 9],
}

impl MarchState {
    pub fn none() -> MarchState {
        MarchState { refining: 0, fraction: 0, count: 0, waiting: [0.0; 64 * 9] }
    }
}

unsafe extern "C" {
    pub fn rummyteak_from_points(p: In, n: usize, tol: f64, force_closed: bool, o: Out, m: usize, count: &mut usize, is_closed: &mut bool) -> u32;
    pub fn rummyteak_reversed(p: In, n: usize, tol: f64, o: Out, m: usize, count: &mut usize, is_closed: &mut bool) -> u32;
    pub fn rummyteak_is_closed(p: In, n: usize, tol: f64, is_closed: &mut bool) -> u32;
    pub fn rummyteak_length(p: In, n: usize, tol: f64, length: Out) -> u32;
    pub fn rummyteak_at_front(p: In, n: usize, tol: f64, station: Out, index: &mut usize) -> u32;
    pub fn rummyteak_at_back(p: In, n: usize, tol: f64, station: Out, index: &mut usize) -> u32;
    pub fn rummyteak_at_vertex(p: In, n: usize, tol: f64, vertex: usize, station: Out, index: &mut usize) -> u32;
    pub fn rummyteak_at_length(p: In, n: usize, tol: f64, length: f64, station: Out, index: &mut usize) -> u32;
    pub fn rummyteak_at_closest_to_point(p: In, n: usize, tol: f64, x: f64, y: f64, station: Out, index: &mut usize) -> u32;
    pub fn rummyteak_length_along(p: In, n: usize, tol: f64, index: usize, fraction: f64, length: Out) -> u32;
    pub fn rummyteak_crossing_line(p: In, n: usize, tol: f64, ox: f64, oy: f64, dx: f64, dy: f64, crossing: Out, edges: &mut [usize; 2]) -> u32;
    pub fn rummyteak_inscribed_from_crossing(p: In, n: usize, section_tol: f64, tol: f64, ox: f64, oy: f64, dx: f64, dy: f64, circle: Out) -> u32;
    pub fn rummyteak_try_inscribed(
        p: In, n: usize, section_tol: f64, tol: f64, ox: f64, oy: f64, dx: f64, dy: f64, circle: Out, edges: &mut [usize; 2],
    ) -> u32;
    pub fn rummyteak_inscribed_refined(p: In, n: usize, section_tol: f64, tol: f64, a: In, b: In, circle: Out, added: &mut bool) -> u32;
    pub fn rummyteak_refine_and_push(
        p: In, n: usize, section_tol: f64, tol: f64, s: Out, l: usize, stated: usize, circle: In, limit: u32, count: &mut usize, units: &mut u32,
    ) -> u32;
    pub fn rummyteak_march(
        p: In, n: usize, section_tol: f64, tol: f64, ox: f64, oy: f64, dx: f64, dy: f64, s: Out, l: usize, limit: u32, count: &mut usize,
        units: &mut u32, edges: &mut [usize; 2], found: &mut bool, state: &mut MarchState,
    ) -> u32;
    pub fn rummyteak_refine_and_push_cell(
        p: In, n: usize, section_tol: f64, tol: f64, s: Out, l: usize, stated: usize, circle: In, limit: u32, count: &mut usize, units: &mut u32,
    ) -> u32;
    pub fn rummyteak_march_cell(
        p: In, n: usize, section_tol: f64, tol: f64, ox: f64, oy: f64, dx: f64, dy: f64, s: Out, l: usize, limit: u32, count: &mut usize,
        units: &mut u32, edges: &mut [usize; 2], found: &mut bool, state: &mut MarchState,
    ) -> u32;
    pub fn rummyteak_go_on(
        p: In, n: usize, section_tol: f64, tol: f64, s: Out, l: usize, stated: usize, state: &mut MarchState, limit: u32, count: &mut usize,
        units: &mut u32,
    ) -> u32;
    pub fn rummyteak_go_on_cell(
        p: In, n: usize, section_tol: f64, tol: f64, s: Out, l: usize, stated: usize, state: &mut MarchState, limit: u32, count: &mut usize,
        units: &mut u32,
    ) -> u32;
    pub fn rummyteak_extract_circles(
        p: In, n: usize, section_tol: f64, tol: f64, ox: f64, oy: f64, dx: f64, dy: f64, s: Out, l: usize, limit: u32, count: &mut usize,
        units: &mut u32,
    ) -> u32;
    pub fn rummyteak_refine_all(
        p: In, n: usize, section_tol: f64, tol: f64, s: Out, l: usize, stated: usize, offered: In, offered_len: usize, offered_count: usize, limit: u32,
        count: &mut usize, units: &mut u32,
    ) -> u32;
    pub fn rummyteak_refine_all_cell(
        p: In, n: usize, section_tol: f64, tol: f64, s: Out, l: usize, stated: usize, offered: In, offered_len: usize, offered_count: usize, limit: u32,
        count: &mut usize, units: &mut u32,
    ) -> u32;
    pub fn rummyteak_thin(
        p: In, n: usize, section_tol: f64, tol: f64, s: Out, l: usize, stated: usize, limit: u32, count: &mut usize, units: &mut u32,
    ) -> u32;
    pub fn rummyteak_between_lengths(
        p: In, n: usize, tol: f64, l0: f64, l1: f64, o: Out, m: usize, count: &mut usize, is_closed: &mut bool, given: &mut usize,
    ) -> u32;
    pub fn rummyteak_split_open_at_length(
        p: In, n: usize, tol: f64, at: f64, o: Out, m: usize, second: Out, second_len: usize, counts: &mut [usize; 2], are_closed: &mut [bool; 2],
        given: &mut [usize; 2],
    ) -> u32;
    pub fn rummyteak_split_closed_at_lengths(
        p: In, n: usize, tol: f64, l0: f64, l1: f64, o: Out, m: usize, second: Out, second_len: usize, counts: &mut [usize; 2],
        are_closed: &mut [bool; 2], given: &mut [usize; 2],
    ) -> u32;
    pub fn rummyteak_front_and_back(s: In, l: usize, count: usize, front: Out, back: Out) -> u32;
    pub fn rummyteak_index_of_tmax(s: In, l: usize, count: usize, place: &mut usize) -> u32;
    pub fn rummyteak_average_spacing(s: In, l: usize, count: usize, spacing: Out) -> u32;
    pub fn rummyteak_end_clip_line(s: In, l: usize, count: usize, line: Out) -> u32;
    pub fn rummyteak_reverse_points(s: Out, l: usize, count: usize) -> u32;
    pub fn rummyteak_reverse_order_only(s: Out, l: usize, count: usize) -> u32;
    pub fn rummyteak_reverse_order(s: Out, l: usize, count: usize) -> u32;
    pub fn rummyteak_camber_curve(s: In, l: usize, count: usize, tol: f64, o: Out, m: usize, kept: &mut usize, is_closed: &mut bool) -> u32;
    pub fn rummyteak_make_camber_curve(
        le_x: f64, le_y: f64, te_x: f64, te_y: f64, s: In, l: usize, count: usize, tol: f64, o: Out, m: usize, kept: &mut usize,
        is_closed: &mut bool,
    ) -> u32;
    pub fn rummyteak_orient_tmax_fwd(s: Out, l: usize, count: usize, turned: &mut bool) -> u32;
    pub fn rummyteak_orient_airflow(x: f64, y: f64, s: Out, l: usize, count: usize, turned: &mut bool) -> u32;
    pub fn rummyteak_orient_fwd(x: f64, y: f64, s: Out, l: usize, count: usize, turned: &mut bool) -> u32;
    pub fn rummyteak_orient_curvature(s: Out, l: usize, count: usize, swapped: &mut bool) -> u32;
    pub fn rummyteak_orient_upper(x: f64, y: f64, s: Out, l: usize, count: usize, swapped: &mut bool) -> u32;
    pub fn rummyteak_orient_lower(x: f64, y: f64, s: Out, l: usize, count: usize, swapped: &mut bool) -> u32;
    pub fn rummyteak_is_open_at_end(p: In, n: usize, section_tol: f64, tol: f64, s: In, l: usize, count: usize, at_front: bool, is_open: &mut bool) -> u32;
    pub fn rummyteak_fit_open_edge(
        p: In, n: usize, section_tol: f64, tol: f64, s: Out, l: usize, stated: usize, at_front: bool, limit: u32, point: Out, count: &mut usize,
        units: &mut u32,
    ) -> u32;
}
