// The C interface's `write_record` and `read_record` beside plain Rust of the same format, with the same tests. Both get the same 1,024 circles, in turn, round after
// round in one run, and must give the same bytes or numbers; the least time counts. `full` circles have no number that is +0, of `mixed` ones every third is.
// `record` prints times; `record once` runs everything once through `counted`, for callgrind, and says in which order.
use std::hint::black_box;
use std::time::Instant;

const CIRCLES: usize = 1024;
const WIDTH: usize = 9;
const LONGEST: usize = 75778;
const ROUNDS: usize = 25;
const SECONDS: f64 = 0.6;

unsafe extern "C" {
    fn rummyteak_write_record(store: *const f64, store_len: usize, count: usize, out: *mut u8, out_len: usize, written: *mut usize) -> u32;
    fn rummyteak_read_record(bytes: *const u8, bytes_len: usize, store: *mut f64, store_len: usize, count: *mut usize) -> u32;
}

fn port_write(store: &[f64], out: &mut [u8], written: &mut usize) -> u32 {
    unsafe { rummyteak_write_record(store.as_ptr(), store.len(), CIRCLES, out.as_mut_ptr(), out.len(), written) }
}

fn port_read(bytes: &[u8], store: &mut [f64], count: &mut usize) -> u32 {
    unsafe { rummyteak_read_record(bytes.as_ptr(), bytes.len(), store.as_mut_ptr(), store.len(), count) }
}

// ---- plain Rust

fn slots(numbers: usize) -> usize {
    (numbers / WIDTH).min(CIRCLES)
}

fn is_bad(i: usize, x: f64) -> bool {
    !x.is_finite() || matches!(i, 2 | 7 | 8) && x < 0.0
}

fn map_of(circle: &[f64]) -> u16 {
    circle.iter().enumerate().map(|(i, x)| ((x.to_bits() != 0) as u16) << i).sum()
}

fn put(out: &mut [u8], place: &mut usize, bytes: &[u8]) {
    out[*place..*place + bytes.len()].copy_from_slice(bytes);
    *place += bytes.len();
}

#[inline(never)]
fn plain_write(store: &[f64], out: &mut [u8], written: &mut usize) -> u32 {
    let count = CIRCLES;
    if slots(store.len()) < count {
        return 4;
    }
    let circles = store[..count * WIDTH].chunks_exact(WIDTH);
    let length = 2 + circles.clone().map(|c| 2 + 8 * map_of(c).count_ones() as usize).sum::<usize>();
    if out.len() < length {
        return 4;
    }
    if circles.clone().any(|c| c.iter().enumerate().any(|(i, x)| is_bad(i, *x))) {
        return 2;
    }
    let mut place = 0;
    put(out, &mut place, &(count as u16).to_le_bytes());
    for circle in circles {
        put(out, &mut place, &map_of(circle).to_le_bytes());
        for x in circle {
            if x.to_bits() != 0 {
                put(out, &mut place, &x.to_bits().to_le_bytes());
            }
        }
    }
    *written = length;
    0
}

fn taken<const N: usize>(bytes: &[u8], place: &mut usize) -> Option<[u8; N]> {
    let part = bytes.get(*place..*place + N)?;
    *place += N;
    part.try_into().ok()
}

fn read_circles(bytes: &[u8], most: usize, aside: &mut [f64]) -> Result<usize, u32> {
    let mut place = 0;
    let count = u16::from_le_bytes(taken(bytes, &mut place).ok_or(24u32)?) as usize;
    if most < count {
        return Err(4);
    }
    for circle in aside[..count * WIDTH].chunks_exact_mut(WIDTH) {
        let map = u16::from_le_bytes(taken(bytes, &mut place).ok_or(24u32)?);
        if map > 511 {
            return Err(25);
        }
        for (i, x) in circle.iter_mut().enumerate() {
            *x = 0.0;
            if map >> i & 1 == 0 {
                continue;
            }
            let field = u64::from_le_bytes(taken(bytes, &mut place).ok_or(24u32)?);
            if field == 0 {
                return Err(25);
            }
            *x = f64::from_bits(field);
            if is_bad(i, *x) {
                return Err(2);
            }
        }
    }
    if place < bytes.len() { Err(24) } else { Ok(count) }
}

#[inline(never)]
fn plain_read(bytes: &[u8], store: &mut [f64], count: &mut usize) -> u32 {
    let mut aside = [0.0; CIRCLES * WIDTH];
    match read_circles(bytes, slots(store.len()), &mut aside) {
        Ok(n) => {
            store[..n * WIDTH].copy_from_slice(&aside[..n * WIDTH]);
            *count = n;
            0
        }
        Err(number) => number,
    }
}

// ---- times

// All that is timed goes through here, and callgrind counts what is done within.
#[unsafe(no_mangle)]
#[inline(never)]
fn counted(f: &mut dyn FnMut()) {
    f();
    black_box(());
}

// Reads or writes, and says how many circles or bytes.
type Column<A, B> = fn(&[A], &mut [B], &mut usize) -> u32;

// Runs a row: the port, then plain Rust. Gives what was written from `fresh`, as far as it was said to be.
fn run_row<A, B: Clone + PartialEq>(name: &str, shape: &str, given: &[A], fresh: &[B], columns: &[Column<A, B>], once: bool) -> (Vec<B>, usize) {
    let mut least = vec![f64::INFINITY; columns.len()];
    let mut first: Option<(Vec<B>, usize)> = None;
    let start = Instant::now();
    let mut rounds = 0;
    while rounds == 0 || !once && (rounds < ROUNDS || start.elapsed().as_secs_f64() < SECONDS) {
        rounds += 1;
        for (least, column) in least.iter_mut().zip(columns) {
            let (mut out, mut said, mut ending) = (fresh.to_vec(), 0, 99);
            let began = Instant::now();
            counted(&mut || ending = column(black_box(given), black_box(&mut out), &mut said));
            *least = least.min(began.elapsed().as_nanos() as f64);
            assert!(ending == 0, "{name}: no result");
            let answer = (out, said);
            assert!(first.get_or_insert_with(|| answer.clone()) == &answer, "{name}: columns differ");
        }
    }
    let per = CIRCLES as f64;
    if once {
        println!("{name} {shape} {CIRCLES} circle {per} {}", columns.len());
    } else {
        let cells: String = least.iter().map(|x| format!("{:>13.2}", x / per)).collect();
        let ratios: String = least[1..].iter().map(|x| format!("{:>13.2}", least[0] / x)).collect();
        println!("{:<12}{:<8}{:>6}  {:<8}{}{}", name, shape, CIRCLES, "circle", cells, ratios);
    }
    first.unwrap()
}

fn main() {
    let once = std::env::args().nth(1).is_some_and(|word| word == "once");
    if !once {
        println!("ns a circle; the ratios are the port's time by the others'");
        println!("{:<36}{:>13}{:>13}{:>13}", "", "port", "plain", "/plain");
    }
    for (shape, has_zeros) in [("full", false), ("mixed", true)] {
        let store: Vec<f64> = (0..CIRCLES * WIDTH).map(|k| if has_zeros && k % 3 == 1 { 0.0 } else { (1.0 + k as f64 / 7.0).sqrt() }).collect();
        let (bytes, length) = run_row("write", shape, &store, &[0xa5; LONGEST], &[port_write, plain_write], once);
        let (back, count) = run_row("read", shape, &bytes[..length], &[7.5; CIRCLES * WIDTH], &[port_read, plain_read], once);
        assert!(count == CIRCLES && back == store);
    }
}
