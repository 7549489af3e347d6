// The C interface's `shuffle` and `unshuffle` beside plain Rust of the same, with the same tests: byte after byte, as the port did it before 02 (i), and eight numbers at a time by the same turn. All get the same 9,216 numbers, in turn, round
// after round in one run, and must give the same bytes; the least time counts.
// `shuffle` prints times; `shuffle once` runs everything once through `counted`, for callgrind, and says in which order.
use std::hint::black_box;
use std::time::Instant;

const NUMBERS: usize = 9216;
const ROUNDS: usize = 25;
const SECONDS: f64 = 0.6;

unsafe extern "C" {
    fn rummyteak_shuffle(bytes: *const u8, bytes_len: usize, out: *mut u8, out_len: usize) -> u32;
    fn rummyteak_unshuffle(bytes: *const u8, bytes_len: usize, out: *mut u8, out_len: usize) -> u32;
}

fn port_shuffle(bytes: &[u8], out: &mut [u8]) -> u32 {
    unsafe { rummyteak_shuffle(bytes.as_ptr(), bytes.len(), out.as_mut_ptr(), out.len()) }
}

fn port_unshuffle(bytes: &[u8], out: &mut [u8]) -> u32 {
    unsafe { rummyteak_unshuffle(bytes.as_ptr(), bytes.len(), out.as_mut_ptr(), out.len()) }
}

// ---- plain Rust

fn tested(bytes: &[u8], out: &[u8]) -> u32 {
    if bytes.len() % 8 != 0 || bytes.len() > 8 * NUMBERS {
        return 26;
    }
    if out.len() < bytes.len() { 4 } else { 0 }
}

#[inline(never)]
fn bytes_shuffle(bytes: &[u8], out: &mut [u8]) -> u32 {
    let ending = tested(bytes, out);
    if ending != 0 {
        return ending;
    }
    let n = bytes.len() / 8;
    let out = &mut out[..8 * n];
    for (k, number) in bytes.chunks_exact(8).enumerate() {
        for (i, byte) in number.iter().enumerate() {
            out[i * n + k] = *byte;
        }
    }
    0
}

#[inline(never)]
fn bytes_unshuffle(bytes: &[u8], out: &mut [u8]) -> u32 {
    let ending = tested(bytes, out);
    if ending != 0 {
        return ending;
    }
    let n = bytes.len() / 8;
    for (k, number) in out[..8 * n].chunks_exact_mut(8).enumerate() {
        for (i, byte) in number.iter_mut().enumerate() {
            *byte = bytes[i * n + k];
        }
    }
    0
}

// Eight numbers at a time by the turn of eight words, the rest byte after byte.

fn exchanged(a: u64, b: u64, shift: u32, mask: u64) -> (u64, u64) {
    let apart = ((a >> shift) ^ b) & mask;
    (a ^ (apart << shift), b ^ apart)
}

fn turned(w: [u64; 8]) -> [u64; 8] {
    let [w0, w1, w2, w3, w4, w5, w6, w7] = w;
    let (w0, w4) = exchanged(w0, w4, 32, 0x0000_0000_ffff_ffff);
    let (w1, w5) = exchanged(w1, w5, 32, 0x0000_0000_ffff_ffff);
    let (w2, w6) = exchanged(w2, w6, 32, 0x0000_0000_ffff_ffff);
    let (w3, w7) = exchanged(w3, w7, 32, 0x0000_0000_ffff_ffff);
    let (w0, w2) = exchanged(w0, w2, 16, 0x0000_ffff_0000_ffff);
    let (w1, w3) = exchanged(w1, w3, 16, 0x0000_ffff_0000_ffff);
    let (w4, w6) = exchanged(w4, w6, 16, 0x0000_ffff_0000_ffff);
    let (w5, w7) = exchanged(w5, w7, 16, 0x0000_ffff_0000_ffff);
    let (w0, w1) = exchanged(w0, w1, 8, 0x00ff_00ff_00ff_00ff);
    let (w2, w3) = exchanged(w2, w3, 8, 0x00ff_00ff_00ff_00ff);
    let (w4, w5) = exchanged(w4, w5, 8, 0x00ff_00ff_00ff_00ff);
    let (w6, w7) = exchanged(w6, w7, 8, 0x00ff_00ff_00ff_00ff);
    [w0, w1, w2, w3, w4, w5, w6, w7]
}

fn word_at(bytes: &[u8], at: usize) -> u64 {
    u64::from_le_bytes(bytes[at..at + 8].try_into().unwrap())
}

#[inline(never)]
fn words_shuffle(bytes: &[u8], out: &mut [u8]) -> u32 {
    let ending = tested(bytes, out);
    if ending != 0 {
        return ending;
    }
    let n = bytes.len() / 8;
    let out = &mut out[..8 * n];
    for g in 0..n / 8 {
        let words = turned(std::array::from_fn(|j| word_at(bytes, 64 * g + 8 * j)));
        for (i, word) in words.iter().enumerate() {
            out[i * n + 8 * g..i * n + 8 * g + 8].copy_from_slice(&word.to_le_bytes());
        }
    }
    for k in n / 8 * 8..n {
        for i in 0..8 {
            out[i * n + k] = bytes[8 * k + i];
        }
    }
    0
}

#[inline(never)]
fn words_unshuffle(bytes: &[u8], out: &mut [u8]) -> u32 {
    let ending = tested(bytes, out);
    if ending != 0 {
        return ending;
    }
    let n = bytes.len() / 8;
    for g in 0..n / 8 {
        let words = turned(std::array::from_fn(|i| word_at(bytes, i * n + 8 * g)));
        for (j, word) in words.iter().enumerate() {
            out[64 * g + 8 * j..64 * g + 8 * j + 8].copy_from_slice(&word.to_le_bytes());
        }
    }
    for k in n / 8 * 8..n {
        for i in 0..8 {
            out[8 * k + i] = bytes[i * n + k];
        }
    }
    0
}

// ---- times

// All that is timed goes through here, and callgrind counts what is done within.
#[unsafe(no_mangle)]
#[inline(never)]
fn counted(f: &mut dyn FnMut()) {
    f();
    black_box(());
}

type Column = fn(&[u8], &mut [u8]) -> u32;

// Runs a row: the port, then plain Rust.
fn run_row(name: &str, bytes: &[u8], columns: &[Column], once: bool) -> Vec<u8> {
    let mut least = vec![f64::INFINITY; columns.len()];
    let mut first: Option<Vec<u8>> = None;
    let start = Instant::now();
    let mut rounds = 0;
    while rounds == 0 || !once && (rounds < ROUNDS || start.elapsed().as_secs_f64() < SECONDS) {
        rounds += 1;
        for (least, column) in least.iter_mut().zip(columns) {
            let mut out = vec![0xa5; bytes.len()];
            let mut ending = 99;
            let began = Instant::now();
            counted(&mut || ending = column(black_box(bytes), black_box(&mut out)));
            *least = least.min(began.elapsed().as_nanos() as f64);
            assert!(ending == 0, "{name}: no result");
            assert!(first.get_or_insert_with(|| out.clone()) == &out, "{name}: columns differ");
        }
    }
    let per = NUMBERS as f64;
    if once {
        println!("{name} bytes {NUMBERS} number {per} {}", columns.len());
    } else {
        let cells: String = least.iter().map(|x| format!("{:>13.3}", x / per)).collect();
        let ratios: String = least[1..].iter().map(|x| format!("{:>13.2}", least[0] / x)).collect();
        println!("{:<12}{:<8}{:>6}  {:<8}{}{}", name, "bytes", NUMBERS, "number", cells, ratios);
    }
    first.unwrap()
}

fn main() {
    let once = std::env::args().nth(1).is_some_and(|word| word == "once");
    let bytes: Vec<u8> = (0..NUMBERS).flat_map(|k| (1.0 + k as f64 / 7.0).sqrt().to_le_bytes()).collect();
    if !once {
        println!("ns a number; the ratios are the port's time by the others'");
        println!("{:<34}{:>13}{:>13}{:>13}{:>13}{:>13}", "", "port", "bytes", "words", "/bytes", "/words");
    }
    let sorted = run_row("shuffle", &bytes, &[port_shuffle, bytes_shuffle, words_shuffle], once);
    let back = run_row("unshuffle", &sorted, &[port_unshuffle, bytes_unshuffle, words_unshuffle], once);
    assert!(back == bytes);
}
