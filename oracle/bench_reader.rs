//! Times the proved reader and the harness's reader on the same files, in one program.
//!
//! Build, from the repository's folder, after `rt lib` in crates/file_c:
//!   rustc -O --edition 2024 oracle/bench_reader.rs -L crates/file_c/out -l static=file_c -o bench_reader
//! Both answers are compared on every file before anything is timed.
#[allow(dead_code)]
mod reader;

use std::hint::black_box;
use std::time::Instant;

unsafe extern "C" {
    // A `&[u8]` passes as a pointer and a length.
    fn reader_refusal(file: *const u8, len: usize) -> u32;
}

fn proved(file: &[u8]) -> u32 {
    // The pointer and the length are those of one slice, which the callee only reads.
    unsafe { reader_refusal(file.as_ptr(), file.len()) }
}

fn harness(file: &[u8]) -> u32 {
    match reader::read(file) {
        Ok(drawing) => {
            black_box(&drawing);
            0
        }
        Err(number) => number,
    }
}

fn record(kind: u16, body: &[u8]) -> Vec<u8> {
    let mut out = (body.len() as u32).to_le_bytes().to_vec();
    out.extend(kind.to_le_bytes());
    out.extend(body);
    out
}

fn settings() -> Vec<u8> {
    record(1, &[10, 0, 0, 0, 10, 0, 0, 0, 0, 0])
}

fn coordinates(values: &[f64]) -> Vec<u8> {
    values.iter().flat_map(|v| v.to_le_bytes()).collect()
}

/// The largest file that is accepted: 256 lines of 4 points, 255 links.
fn largest() -> Vec<u8> {
    let mut file = settings();
    for i in 0..256 {
        let x = f64::from(i) - 100.5;
        file.extend(record(2, &coordinates(&[x, 1.0, x, -2.0, x, 3.25, x, 4.0])));
    }
    for i in 0..255u16 {
        let mut body: Vec<u8> = [i, 1, i + 1, 2].iter().flat_map(|v| v.to_le_bytes()).collect();
        body.extend(coordinates(&[f64::from(i), 0.5, 2.0, -7.0]));
        file.extend(record(3, &body));
    }
    file
}

/// 65,536 bytes, refused by check 6: empty lines, and a last one that fills up.
fn full() -> Vec<u8> {
    let mut file = settings();
    while file.len() < 65_400 || (65_536 - 6 - file.len()) % 16 != 0 {
        file.extend(record(2, &[]));
    }
    let rest = 65_536 - file.len() - 6;
    file.extend(record(2, &vec![0; rest]));
    file
}

/// The shortest of nine rounds of a call, in microseconds.
fn time(read: fn(&[u8]) -> u32, file: &[u8]) -> f64 {
    let calls = 400;
    let round = |_| {
        let start = Instant::now();
        for _ in 0..calls {
            black_box(read(black_box(file)));
        }
        start.elapsed().as_secs_f64() * 1e6 / f64::from(calls)
    };
    (0..9).map(round).fold(f64::INFINITY, f64::min)
}

fn main() {
    let mut off = largest();
    let last = off.len() - 8;
    off[last..].copy_from_slice(&f64::NAN.to_le_bytes());
    for (name, file) in [("largest accepted", largest()), ("its last coordinate off the grid", off), ("64 KB of lines", full()), ("settings alone", settings())] {
        let (a, b) = (proved(&file), harness(&file));
        assert_eq!(a, b, "{name}");
        println!("{name}: {} bytes, answer {a}; proved {:.2} us, harness {:.2} us", file.len(), time(proved, &file), time(harness, &file));
    }
}
