//! Times the port's numbers against Rust's, from one driver on the same inputs.
//!
//!     (cd crates/numbers_c && rt lib)
//!     rustc -O --edition 2021 oracle/bench_numbers.rs -L crates/numbers_c/out -l static=numbers_c -o OUT
//!     OUT
//!
//! Every answer is compared as well. The time is that of a loop over one million inputs that stand in a
//! slice, the best of nine rounds; what an empty loop over them takes is printed first. None of the functions
//! is inlined: the port's cannot be, and Rust's are marked so.

use std::hint::black_box;
use std::time::Instant;

extern "C" {
    fn numbers_c_length(n: u64) -> f64;
    fn numbers_c_read_place(bits: u64) -> u32;
    fn numbers_c_write_place(place: u32) -> u64;
}

const OFF: u32 = u32::MAX;
const ORIGIN: i64 = 4096 * 1024;

/// The machine's root: on the grid it is the nearest, as IEEE 754 asks.
#[inline(never)]
fn length_by_sqrt(n: u64) -> f64 {
    (n as f64).sqrt() / 1024.0
}

/// What the published planner calls. It is not always the nearest.
#[inline(never)]
fn length_by_hypot(x: f64, y: f64) -> f64 {
    x.hypot(y)
}

/// Check 7 with floats.
#[inline(never)]
fn place(bits: u64) -> u32 {
    let x = f64::from_bits(bits);
    let steps = x * 1024.0;
    if !(-4096.0..=4096.0).contains(&x) || steps.fract() != 0.0 {
        return OFF;
    }
    (steps as i64 + ORIGIN) as u32
}

#[inline(never)]
fn pattern(place: u32) -> u64 {
    ((i64::from(place) - ORIGIN) as f64 / 1024.0).to_bits()
}

/// xorshift64*, so that the inputs are the same in every run.
struct Random(u64);

impl Random {
    fn next(&mut self) -> u64 {
        self.0 ^= self.0 >> 12;
        self.0 ^= self.0 << 25;
        self.0 ^= self.0 >> 27;
        self.0.wrapping_mul(0x2545_F491_4F6C_DD1D)
    }
}

fn time<T: Copy, R>(name: &str, inputs: &[T], f: impl Fn(T) -> R) {
    let mut best = f64::INFINITY;
    for _ in 0..9 {
        let start = Instant::now();
        for &x in inputs {
            black_box(f(black_box(x)));
        }
        best = best.min(start.elapsed().as_secs_f64());
    }
    println!("{name:40} {:6.1} ns", best * 1e9 / inputs.len() as f64);
}

fn main() {
    let mut random = Random(0x9E37_79B9_7F4A_7C15);
    let count = 1_000_000;
    let steps: Vec<(u64, u64)> = (0..count).map(|_| (random.next() >> 41, random.next() >> 41)).collect();
    let squares: Vec<u64> = steps.iter().map(|&(x, y)| x * x + y * y).collect();
    let floats: Vec<(f64, f64)> = steps.iter().map(|&(x, y)| (x as f64 / 1024.0, y as f64 / 1024.0)).collect();
    let places: Vec<u32> = (0..count).map(|_| (random.next() % (2 * ORIGIN as u64 + 1)) as u32).collect();
    let patterns: Vec<u64> = places.iter().map(|&p| pattern(p)).collect();
    // One bit of each flipped: most are off the grid.
    let damaged: Vec<u64> = patterns.iter().map(|&b| b ^ (1 << (random.next() % 64))).collect();

    let mut wrong = 0;
    let mut not_nearest = 0;
    for i in 0..count {
        unsafe {
            wrong += usize::from(numbers_c_length(squares[i]).to_bits() != length_by_sqrt(squares[i]).to_bits());
            wrong += usize::from(numbers_c_read_place(patterns[i]) != place(patterns[i]));
            wrong += usize::from(numbers_c_read_place(damaged[i]) != place(damaged[i]));
            wrong += usize::from(numbers_c_write_place(places[i]) != patterns[i]);
        }
        let (x, y) = floats[i];
        not_nearest += usize::from(length_by_hypot(x, y).to_bits() != length_by_sqrt(squares[i]).to_bits());
    }
    println!("{count} inputs each: {wrong} answers differ; the C library's hypot differs on {not_nearest}");

    time("empty loop", &squares, |n| n);
    time("length, port", &squares, |n| unsafe { numbers_c_length(n) });
    time("length, Rust, the machine's root", &squares, length_by_sqrt);
    time("length, Rust, hypot", &floats, |(x, y)| length_by_hypot(x, y));
    time("coordinate to place, port", &patterns, |b| unsafe { numbers_c_read_place(b) });
    time("coordinate to place, Rust", &patterns, place);
    time("the same, damaged, port", &damaged, |b| unsafe { numbers_c_read_place(b) });
    time("the same, damaged, Rust", &damaged, place);
    time("place to coordinate, port", &places, |p| unsafe { numbers_c_write_place(p) });
    time("place to coordinate, Rust", &places, pattern);
}
