// The sample that crates/cases replays: inputs from one seed each, and the checksums of the published functions' answers to them.
// The steps of `section` and `args` are those of crates/cases/src/samples/inputs.rt, number for number.
use crate::port::{Call, PUBLISHED, WIDTH};
use crate::{Wanted, circle_numbers, is_added, port, wanted};

const KINDS: u64 = 15;
const CASES: u64 = 240;
const STORE: usize = 64 * WIDTH;
const OUT: usize = 130;

fn next(x: u64) -> u64 {
    let a = x ^ (x << 13);
    let b = a ^ (a >> 7);
    b ^ (b << 17)
}

fn grain(word: u64) -> f64 {
    (word % 1024) as f64 / 1024.0
}

fn side(x: f64, bend: f64, thick: f64) -> f64 {
    let h = x * (10.0 - x) / 25.0;
    let q = 1.0 - x * 0.04;
    bend * h + thick * h * q
}

fn section(seed: u64) -> Vec<f64> {
    let w1 = next(seed);
    let w2 = next(w1);
    let w3 = next(w2);
    let (lower, upper, bend) = (0.25 + grain(w1), 0.5 + grain(w2), grain(w3) - 0.5);
    let mut numbers = vec![0.0; 42];
    for j in 0..11 {
        let x = j as f64;
        let k = 40 - 2 * j;
        numbers[k] = x;
        numbers[k + 1] = side(x, bend, upper);
        numbers[2 * j] = x;
        numbers[2 * j + 1] = side(x, bend, -lower);
    }
    if seed % 2 == 0 { numbers } else { numbers[2..40].to_vec() }
}

fn args(seed: u64) -> [f64; 2 + 2 * WIDTH] {
    let w1 = next(seed ^ 0x5555_5555);
    let w2 = next(w1);
    let w3 = next(w2);
    let w4 = next(w3);
    let w5 = next(w4);
    let up = if w4 / 1024 % 2 == 0 { 1.0 } else { -1.0 };
    [
        0.001,
        0.002 + grain(w1) * 0.0625,
        grain(w2) * 10.0,
        grain(w3) - 0.5,
        grain(w4) - 0.5,
        up + grain(w5),
        -1.0,
        grain(w1),
        1.0 + grain(w2),
        grain(w3),
        grain(w4),
        2.0 + grain(w5) * 8.0,
        grain(w4) - 0.5,
        grain(w3),
        grain(w4),
        -0.5 - grain(w5),
        grain(w2),
        1.0,
        grain(w5),
        grain(w1),
    ]
}

fn mixed(sum: u64, word: u64) -> u64 {
    let low = word % 0x8000_0000;
    let high = word / 0x8000_0000 % 0x8000_0000;
    (sum % 0x7fff_ffff * 69069 + low * 3 + high) % 0x7fff_ffff
}

// What a sequence of calls leaves: words, numbers and store.
struct Left {
    told: [u64; 3],
    out: Vec<f64>,
    store: Vec<f64>,
}

impl Left {
    // What the published function answers, put where the proved one puts it; none where that refuses by a number which is no answer of the Rust.
    fn ask(&mut self, call: Call, section: &[f64], args: &[f64]) -> Option<()> {
        let number = port::call(call, section, args, &self.store).told[0];
        if is_added(number) {
            return None;
        }
        let Wanted { number, words, numbers, circles, .. } = wanted(call, section, args, &self.store);
        self.told[0] = number;
        self.told[1..1 + words.len()].copy_from_slice(&words);
        self.out[..numbers.len()].copy_from_slice(&numbers);
        for (i, c) in circles.into_iter().flatten().enumerate() {
            self.store[WIDTH * i..][..PUBLISHED].copy_from_slice(&circle_numbers(&c));
        }
        Some(())
    }

    fn checksum(&self) -> u64 {
        let sum = mixed(1, self.told[0]);
        if self.told[0] != 0 {
            return sum;
        }
        let sum = mixed(mixed(sum, self.told[1]), self.told[2]);
        let circles = self.store.chunks_exact(WIDTH).flat_map(|c| &c[..PUBLISHED]);
        self.out.iter().chain(circles).fold(sum, |s, x| mixed(s, x.to_bits()))
    }
}

fn answer(kind: u64, seed: u64) -> Option<Left> {
    let (section, args) = (section(seed), args(seed));
    let mut left = Left { told: [0; 3], out: vec![0.0; OUT], store: vec![0.0; STORE] };
    let first = match kind {
        0 => Call::CrossingLine,
        1 => Call::TryInscribed,
        2 => Call::FromCrossing,
        3 => Call::Refined,
        4 => Call::Closest,
        5 => Call::AtLength,
        6 => Call::March,
        _ => Call::Extract,
    };
    left.ask(first, &section, &args)?;
    if kind <= 7 {
        return Some(left);
    }
    // What is asked of an extraction's circles needs them.
    if left.told[0] != 0 {
        return None;
    }
    let count = left.told[1] as usize;
    let second = match kind {
        8 => Call::FitOpenEdge(count, false),
        9 => Call::FitOpenEdge(count, true),
        10 => Call::OrientFwdAft(0, count),
        11 => Call::OrientUpperLower(1, count),
        12 => Call::CamberCurve(count),
        13 => Call::ClipLine(count),
        _ => Call::Spacing(count),
    };
    left.ask(second, &section, &args)?;
    Some(left)
}

// What is asked, by kind: the functions' names, as crates/cases/src/asked.rt has them.
const NAMES: [&str; KINDS as usize] = [
    "crossing_line",
    "try_inscribed",
    "inscribed_from_crossing",
    "inscribed_refined",
    "at_closest_to_point",
    "at_length",
    "march",
    "extract_circles",
    "extract_circles fit_open_edge 0",
    "extract_circles fit_open_edge 1",
    "extract_circles tmax_fwd",
    "extract_circles lower",
    "extract_circles camber_curve",
    "extract_circles end_clip_line",
    "extract_circles average_spacing",
];

// Prints the lines of the sample, the last ones of crates/cases/stdin. Of each kind every third input at most ends without a value.
pub fn print_table() {
    let mut seeds = vec![];
    let mut sums = vec![];
    let mut seed = 0x1234_5678_9abc_def1u64;
    let mut empty = [0u64; KINDS as usize];
    while (seeds.len() as u64) < CASES {
        let kind = seeds.len() as u64 % KINDS;
        seed = next(seed);
        let word = seed >> 13;
        let Some(left) = answer(kind, word) else { continue };
        if left.told[0] != 0 {
            let k = kind as usize;
            if 3 * (empty[k] + 1) > seeds.len() as u64 / KINDS + 1 {
                continue;
            }
            empty[k] += 1;
        }
        seeds.push(word);
        sums.push(left.checksum());
    }
    for (i, (seed, sum)) in seeds.iter().zip(&sums).enumerate() {
        println!("sample {seed} {sum} {}", NAMES[i % KINDS as usize]);
    }
    eprintln!("without a value, by kind: {empty:?}");
}
