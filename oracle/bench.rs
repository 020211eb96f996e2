//! Times the published planner and the proved one on the same drawings, in one process.

use crate::handed::next_handed;
use crate::{counts, library_hypot, machine_root, next_drawing, port, port_writer, reader, writer, Lent};
use std::cell::RefCell;
use std::hint::black_box;

#[repr(C)]
struct Clock {
    seconds: i64,
    nanoseconds: i64,
}

unsafe extern "C" {
    fn clock_gettime(clock: i32, now: *mut Clock) -> i32;
}

/// Processor time of this thread in nanoseconds, which other work on the machine moves less than the time of day.
fn now() -> f64 {
    let mut clock = Clock { seconds: 0, nanoseconds: 0 };
    // 3 is CLOCK_THREAD_CPUTIME_ID.
    let failed = unsafe { clock_gettime(3, &mut clock) };
    assert!(failed == 0, "no clock");
    clock.seconds as f64 * 1e9 + clock.nanoseconds as f64
}

const ROUNDS: usize = 9;
/// Differences of times stray more than times.
const PHASE_ROUNDS: usize = 41;
/// What a round takes at least, unless a single call takes longer.
const ROUND: f64 = 4e6;

/// Nanoseconds a call of each, the least of several rounds in which they take turns.
fn times(rounds: usize, calls: &mut [Box<dyn FnMut() + '_>]) -> Vec<f64> {
    let spent = |call: &mut dyn FnMut(), count: usize| {
        let start = now();
        for _ in 0..count {
            call();
        }
        now() - start
    };
    let counts: Vec<usize> = calls
        .iter_mut()
        .map(|call| {
            let mut count = 1;
            while spent(call, count) < ROUND / 2.0 {
                count *= 2;
            }
            count
        })
        .collect();
    let mut least = vec![f64::INFINITY; calls.len()];
    for round in 0..rounds {
        for (i, call) in calls.iter_mut().enumerate() {
            // Calls that take a good part of a second are made a few times only.
            if round < 3 || least[i] < 25.0 * ROUND {
                least[i] = least[i].min(spent(call, counts[i]) / counts[i] as f64);
            }
        }
    }
    least
}

pub fn run(what: &str) {
    match what {
        "--bench" => whole(),
        "--bench-saved" => saved(),
        "--stack-saved" => stack_saved(),
        "--phases" => phases(),
        _ => stack(),
    }
}

/// One line for each drawing: sizes of its graph, then nanoseconds: the port, the published planner with the C
/// library's `hypot`, and with the machine's root.
fn whole() {
    while let Some((lent, file)) = next_drawing() {
        let mut memory = Memory::new(lent);
        let found = times(ROUNDS, &mut [
            Box::new(|| drop(black_box(memory.plan(black_box(&file))))),
            Box::new(|| drop(black_box(library_hypot::plan(black_box(&file), lent)))),
            Box::new(|| drop(black_box(machine_root::plan(black_box(&file), lent)))),
        ]);
        println!("{} | {}", counts(&file, lent), words(&found));
    }
}

/// One line for each drawing that is handed to both writers: the answer and the bytes of its file; then nanoseconds: the port's
/// writer and writer.rs; then reader.rs and the port's reader, if it is linked in, on the file that a writer without checks makes
/// of the drawing, if there is such a file.
fn saved() {
    while let Some((handed, room)) = next_handed() {
        let (mut one, mut other) = (vec![1; room], vec![1; room]);
        let answer = port_writer::saved(&handed, &mut one);
        assert!(answer == writer::save(&handed, &mut other) && one == other, "the two writers differ");
        let mut found = times(ROUNDS, &mut [
            Box::new(|| {
                black_box(port_writer::saved(black_box(&handed), &mut one));
            }),
            Box::new(|| {
                black_box(writer::save(black_box(&handed), &mut other));
            }),
        ]);
        let file = writer::unchecked(&handed);
        if let Some(file) = &file {
            found.extend(times(ROUNDS, &mut readers(file)));
        }
        println!("{} {} | {}", answer.refusal, file.map_or(0, |file| file.len()), words(&found));
    }
}

#[cfg(reader)]
unsafe extern "C" {
    fn reader_refusal(file: *const u8, file_len: usize) -> u32;
}

fn readers<'a>(file: &'a [u8]) -> Vec<Box<dyn FnMut() + 'a>> {
    let mut calls: Vec<Box<dyn FnMut() + 'a>> = vec![Box::new(move || drop(black_box(reader::read(black_box(file)))))];
    // The pointer and the length are those of the slice.
    #[cfg(reader)]
    calls.push(Box::new(move || {
        black_box(unsafe { reader_refusal(black_box(file).as_ptr(), file.len()) });
    }));
    calls
}

/// One line for each drawing: nanoseconds of each phase of the published planner, with the C library's `hypot`, then
/// with the machine's root; then of the port, and of all of it, if its phases are linked in.
fn phases() {
    while let Some((lent, file)) = next_drawing() {
        let memory = RefCell::new(Memory::new(lent));
        let rust = [library_hypot::phase_ends, machine_root::phase_ends].map(|ends| least_phases(|| ends(black_box(&file), now)));
        let mut port = times(PHASE_ROUNDS, &mut port_phases(&file, &memory));
        // The port's go from the start; the last is the whole planner.
        for i in (1..port.len().saturating_sub(1)).rev() {
            port[i] -= port[i - 1];
        }
        println!("{} | {} | {} | {}", counts(&file, lent), words(&rust[0]), words(&rust[1]), words(&port));
    }
}

/// The least time of each phase, what reading the clock takes left out.
fn least_phases(ends: impl Fn() -> Vec<f64>) -> Vec<f64> {
    let clock = (0..1000).map(|_| -(now() - now())).fold(f64::INFINITY, f64::min);
    let mut least: Vec<f64> = Vec::new();
    let (start, mut runs) = (now(), 0);
    while runs < 3 || now() - start < PHASE_ROUNDS as f64 * ROUND {
        runs += 1;
        for (i, pair) in ends().windows(2).enumerate() {
            let spent = (pair[1] - pair[0] - clock).max(0.0);
            if i < least.len() {
                least[i] = least[i].min(spent);
            } else {
                least.push(spent);
            }
        }
    }
    // The retraces search once more, on graphs that grow by copies.
    if least.len() > 5 {
        least[5] = (least[5] - least[4]).max(0.0);
    }
    least
}

/// What a call of the port is lent.
struct Memory {
    floats: Vec<f64>,
    bytes: Vec<u8>,
    output: Vec<u8>,
}

impl Memory {
    fn new(lent: Lent) -> Self {
        Memory { floats: vec![1.0; lent.f64_entries], bytes: vec![1; lent.byte_entries], output: vec![1; lent.output_bytes] }
    }

    fn plan(&mut self, file: &[u8]) -> port::Outcome {
        port::planned(file, &mut self.floats, &mut self.bytes, &mut self.output)
    }
}

#[cfg(not(phases))]
fn port_phases<'a>(_: &'a [u8], _: &'a RefCell<Memory>) -> Vec<Box<dyn FnMut() + 'a>> {
    Vec::new()
}

#[cfg(phases)]
#[repr(C)]
#[derive(Debug)]
struct Phase {
    refusal: u32,
    first: usize,
    second: usize,
    total: f64,
}

#[cfg(phases)]
unsafe extern "C" {
    // Goes from the start to the end of the phase `last`: read, graph, odd nodes, pairs, searches, repair, line. The
    // searches are made for each pair on the graph as it was drawn, and lay no copy.
    fn plan_up_to(
        file: *const u8, file_len: usize, floats: *mut f64, floats_len: usize, bytes: *mut u8, bytes_len: usize, last: u32,
    ) -> Phase;
}

#[cfg(phases)]
const PAIRS: u32 = 3;
#[cfg(phases)]
const LINE: u32 = 6;

#[cfg(phases)]
impl Memory {
    /// Up to the end of a phase. The first three use no table, and are lent none, since all that is lent is cleared.
    fn plan_up_to(&mut self, file: &[u8], last: u32) -> Phase {
        let (floats, bytes): (&mut [f64], &mut [u8]) =
            if last < PAIRS { (&mut [], &mut []) } else { (&mut self.floats, &mut self.bytes) };
        // The pointers and lengths are those of the slices.
        unsafe {
            plan_up_to(file.as_ptr(), file.len(), floats.as_mut_ptr(), floats.len(), bytes.as_mut_ptr(), bytes.len(), last)
        }
    }
}

/// Each phase from the start to its end, and then the whole planner.
#[cfg(phases)]
fn port_phases<'a>(file: &'a [u8], memory: &'a RefCell<Memory>) -> Vec<Box<dyn FnMut() + 'a>> {
    let line = memory.borrow_mut().plan_up_to(file, LINE);
    let planned = memory.borrow_mut().plan(file);
    let same = (line.refusal, line.first, line.total.to_bits()) == (planned.refusal, planned.points, planned.retrace.to_bits());
    // A refusal for the output alone is none of a phase.
    assert!(same || planned.refusal == 14, "the phases are of another planner: {line:?}");
    let mut calls: Vec<Box<dyn FnMut() + 'a>> = Vec::new();
    for last in 0..=LINE {
        calls.push(Box::new(move || drop(black_box(memory.borrow_mut().plan_up_to(black_box(file), last)))));
    }
    calls.push(Box::new(move || drop(black_box(memory.borrow_mut().plan(black_box(file))))));
    calls
}

fn words(numbers: &[f64]) -> String {
    numbers.iter().map(|n| format!("{n:.0}")).collect::<Vec<_>>().join(" ")
}

const PAINT: u64 = 0xA5C3_96E1_5A3C_691E;
const PAINTED: usize = 3 << 20;

/// One line for each drawing: the bytes of stack that a call of the port reaches down to.
fn stack() {
    with_stack(|| {
        while let Some((lent, file)) = next_drawing() {
            let mut memory = Memory::new(lent);
            println!("{} | {}", counts(&file, lent), deepest(|| drop(black_box(memory.plan(black_box(&file))))));
        }
    });
}

/// The same for each drawing that is handed to the port's writer.
fn stack_saved() {
    with_stack(|| {
        while let Some((handed, room)) = next_handed() {
            let mut destination = vec![1; room];
            let deepest = deepest(|| {
                black_box(port_writer::saved(black_box(&handed), &mut destination));
            });
            println!("{deepest}");
        }
    });
}

fn with_stack(work: impl FnOnce() + Send + 'static) {
    std::thread::Builder::new().stack_size(8 << 20).spawn(work).expect("a thread").join().expect("its end");
}

#[inline(never)]
fn deepest(mut call: impl FnMut()) -> usize {
    let top: *mut u64;
    unsafe {
        std::arch::asm!("mov {}, rsp", out(reg) top);
        let room = PAINTED / 8;
        // Some words below the stack pointer may be in use; all below them is painted, then looked at from below.
        for i in 32..room {
            top.sub(i).write_volatile(PAINT);
        }
        call();
        (32..room).rev().find(|&i| top.sub(i).read_volatile() != PAINT).map_or(0, |i| 8 * i)
    }
}
