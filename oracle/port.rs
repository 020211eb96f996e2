//! The proved planner, called through the static library it is exported in, with memory that shows every byte it
//! touches: a page that can't be read or written lies next to each slice that is lent.

use crate::Lent;
use std::sync::atomic::{AtomicPtr, AtomicUsize, Ordering};

/// What the exported function answers.
#[repr(C)]
pub struct Outcome {
    pub refusal: u32,
    pub retrace: f64,
    pub before: usize,
    pub after: usize,
    pub points: usize,
}

unsafe extern "C" {
    // A slice passes as a pointer and a length.
    fn plan(
        file: *const u8, file_len: usize, floats: *mut f64, floats_len: usize, bytes: *mut u8, bytes_len: usize,
        output: *mut u8, output_len: usize,
    ) -> Outcome;

    fn mmap(address: *mut u8, length: usize, protection: i32, flags: i32, file: i32, offset: i64) -> *mut u8;
    fn mprotect(address: *mut u8, length: usize, protection: i32) -> i32;
    fn signal(number: i32, handler: extern "C" fn(i32)) -> usize;
    fn write(file: i32, bytes: *const u8, length: usize) -> isize;
    fn _exit(status: i32) -> !;
}

/// A call on plain slices, for timing.
pub fn planned(file: &[u8], floats: &mut [f64], bytes: &mut [u8], output: &mut [u8]) -> Outcome {
    // The pointers and lengths are those of the slices.
    unsafe {
        plan(
            file.as_ptr(), file.len(), floats.as_mut_ptr(), floats.len(), bytes.as_mut_ptr(), bytes.len(),
            output.as_mut_ptr(), output.len(),
        )
    }
}

pub const PAGE: usize = 4096;
const READ_WRITE: i32 = 3;
const PRIVATE_ANONYMOUS: i32 = 0x22;

/// Room for a slice between two pages that can't be touched.
pub struct Guarded {
    start: *mut u8,
    size: usize,
}

impl Guarded {
    pub fn new(most: usize) -> Self {
        // A page more, so that bytes before a slice at the upper end can be looked at.
        let size = most.next_multiple_of(PAGE) + PAGE;
        unsafe {
            let all = mmap(std::ptr::null_mut(), size + 2 * PAGE, READ_WRITE, PRIVATE_ANONYMOUS, -1, 0);
            assert!(all as isize != -1, "mmap");
            assert!(mprotect(all, PAGE, 0) == 0 && mprotect(all.add(PAGE + size), PAGE, 0) == 0, "mprotect");
            // A fault in a guard page is SIGSEGV or SIGBUS.
            signal(11, touched);
            signal(7, touched);
            Guarded { start: all.add(PAGE), size }
        }
    }

    /// A slice of this many bytes that touches the upper page, or the lower one.
    pub fn place(&self, length: usize, upper: bool) -> *mut u8 {
        assert!(length + PAGE <= self.size);
        unsafe { self.start.add(if upper { self.size - length } else { 0 }) }
    }

    /// The bytes of the room beside the slice, up to a page of them.
    pub fn beside(&self, length: usize, upper: bool) -> &'static mut [u8] {
        let at = if upper { self.size - length - PAGE } else { length };
        unsafe { std::slice::from_raw_parts_mut(self.start.add(at), PAGE) }
    }
}

// The file of the call that runs, or the drawing in batch form that is handed to a writer, for the message when it touches what
// it was not lent.
static FILE: AtomicPtr<u8> = AtomicPtr::new(std::ptr::null_mut());
static FILE_LEN: AtomicUsize = AtomicUsize::new(0);

extern "C" fn touched(_: i32) {
    unsafe {
        let text = b"\nmemory was touched that was not lent; the file, or the drawing handed over:\n";
        write(2, text.as_ptr(), text.len());
        let digits = b"0123456789abcdef";
        for i in 0..FILE_LEN.load(Ordering::Relaxed) {
            let byte = *FILE.load(Ordering::Relaxed).add(i);
            write(2, [digits[usize::from(byte >> 4)], digits[usize::from(byte & 15)]].as_ptr(), 2);
        }
        write(2, b"\n".as_ptr(), 1);
        _exit(3);
    }
}

/// Has a touch of memory that was not lent print these bytes, which are left where they are until the call is over.
pub fn watch(bytes: *const u8, length: usize) {
    FILE.store(bytes.cast_mut(), Ordering::Relaxed);
    FILE_LEN.store(length, Ordering::Relaxed);
}

/// What lent memory is full of before a call: so many u64, zeros of both signs, infinities and NaNs among them.
pub fn rubbish(entries: usize) -> Vec<u8> {
    let mut state = 0x9E37_79B9_7F4A_7C15u64;
    (0..entries)
        .flat_map(|i| {
            state ^= state >> 12;
            state ^= state << 25;
            state ^= state >> 27;
            let odd_one = [0, 1 << 63, 0x7ff0 << 48, 0xfff0 << 48, 0x7ff8 << 48, 1, u64::MAX][i % 7];
            (if i % 5 == 0 { odd_one } else { state.wrapping_mul(0x2545_F491_4F6C_DD1D) }).to_le_bytes()
        })
        .collect()
}

/// The lent memory of many calls.
pub struct Lender {
    file: Guarded,
    floats: Guarded,
    bytes: Guarded,
    output: Guarded,
    rubbish: Vec<u8>,
    calls: usize,
}

pub const MOST_FILE: usize = 80_000;
pub const MOST_ENTRIES: usize = (1 << 20) + 1024;
const MOST_OUTPUT: usize = 6 + 16 * 4100;

impl Lender {
    pub fn new() -> Self {
        Lender {
            file: Guarded::new(MOST_FILE),
            floats: Guarded::new(8 * MOST_ENTRIES),
            bytes: Guarded::new(MOST_ENTRIES),
            output: Guarded::new(MOST_OUTPUT),
            // As long as the largest table, and some to start at different places.
            rubbish: rubbish(MOST_ENTRIES + 1024),
            calls: 0,
        }
    }

    /// One call with rubbish lent. Gives the outcome and the bytes written; stops the program where the later state
    /// of the file, the tables, the output or the memory beside them is not what document 01 says.
    pub fn plan(&mut self, file: &[u8], lent: Lent) -> (Outcome, &[u8]) {
        self.calls += 1;
        // Every second call has its slices at the other end of their rooms.
        let upper = self.calls % 2 == 0;
        let shift = 8 * (self.calls % 1000);
        let rooms = [&self.file, &self.floats, &self.bytes, &self.output];
        let lengths = [file.len(), 8 * lent.f64_entries, lent.byte_entries, lent.output_bytes];
        let places: [*mut u8; 4] = std::array::from_fn(|i| rooms[i].place(lengths[i], upper));
        let before = &self.rubbish[shift..];
        for i in 0..4 {
            rooms[i].beside(lengths[i], upper).copy_from_slice(&before[..PAGE]);
            unsafe { std::ptr::copy_nonoverlapping(if i == 0 { file } else { before }.as_ptr(), places[i], lengths[i]) }
        }
        watch(places[0], file.len());
        let [file_at, floats_at, bytes_at, output_at] = places;
        let outcome = unsafe {
            plan(
                file_at, file.len(), floats_at.cast(), lent.f64_entries, bytes_at, lent.byte_entries, output_at,
                lent.output_bytes,
            )
        };
        let after: [&[u8]; 4] = std::array::from_fn(|i| unsafe { std::slice::from_raw_parts(places[i], lengths[i]) });
        let written = if outcome.refusal == 0 { 6 + 16 * outcome.points } else { 0 };
        let fault = if after[0] != file {
            "the file has changed"
        } else if !is_zero(after[1]) {
            "the f64 table is not zero"
        } else if !is_zero(after[2]) {
            "the byte table is not zero"
        } else if written > lent.output_bytes {
            "more points than the output has room for"
        } else if after[3][written..] != before[written..lent.output_bytes] {
            "later bytes of the output have changed"
        } else if (0..4).any(|i| *rooms[i].beside(lengths[i], upper) != before[..PAGE]) {
            "bytes beside a lent slice have changed"
        } else {
            return (outcome, &after[3][..written]);
        };
        panic!("{fault}: lent {lent:?}, file {}", crate::against::hex(file));
    }
}

fn is_zero(bytes: &[u8]) -> bool {
    // In blocks, which the compiler makes fast.
    bytes.chunks(4096).all(|block| block.iter().fold(0, |all, &byte| all | byte) == 0)
}
