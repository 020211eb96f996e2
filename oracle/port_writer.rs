//! The proved writer, called through the static library it is exported in, with memory that shows every byte it touches, as
//! port.rs lends it to the planner.

use crate::handed::{hex, Handed, Saved};
use crate::port::{rubbish, watch, Guarded, PAGE};

unsafe extern "C" {
    // A slice passes as a pointer and a length. The bits of coordinates are doubles to a caller in C.
    fn save_drawing(
        width: u32, height: u32, pairing: u8, flags: u8, sizes: *const u32, sizes_len: usize, coordinates: *const u64,
        coordinates_len: usize, segments: *const u32, segments_len: usize, ends: *const u64, ends_len: usize,
        destination: *mut u8, destination_len: usize,
    ) -> Saved;
}

/// A call on plain slices, for timing.
pub fn saved(h: &Handed, destination: &mut [u8]) -> Saved {
    // The pointers and lengths are those of the slices.
    unsafe {
        save_drawing(
            h.width, h.height, h.pairing, h.flags, h.sizes.as_ptr(), h.sizes.len(), h.coordinates.as_ptr(), h.coordinates.len(),
            h.segments.as_ptr(), h.segments.len(), h.ends.as_ptr(), h.ends.len(), destination.as_mut_ptr(), destination.len(),
        )
    }
}

/// The lent memory of many calls: sizes, coordinates, segments, ends, destination.
pub struct Saver {
    rooms: [Guarded; 5],
    rubbish: Vec<u8>,
}

// Enough for 65,537 lines, points or links, whose numbers have more than two bytes.
const MOST_ENTRIES: usize = 65_600;
pub const MOST_DESTINATION: usize = 70_000;

impl Saver {
    pub fn new() -> Self {
        let most = [4 * MOST_ENTRIES, 16 * MOST_ENTRIES, 16 * MOST_ENTRIES, 32 * MOST_ENTRIES, MOST_DESTINATION];
        Saver { rooms: most.map(Guarded::new), rubbish: rubbish(MOST_DESTINATION / 8 + 1024) }
    }

    /// What a destination holds that is lent in call `number`.
    pub fn before(&self, number: usize, room: usize) -> Vec<u8> {
        self.rubbish[8 * (number % 1000)..][..room].to_vec()
    }

    /// One call, with every slice at the upper end of its room or at the lower one. Leaves in `destination` what became of it; stops the
    /// program where a slice that was only lent for reading, or the memory beside a slice, has changed.
    pub fn save(&self, h: &Handed, destination: &mut [u8], upper: bool) -> Saved {
        let given = [bytes_of(&h.sizes), bytes_of(&h.coordinates), bytes_of(&h.segments), bytes_of(&h.ends), destination.to_vec()];
        let lengths: [usize; 5] = std::array::from_fn(|i| given[i].len());
        let places: [*mut u8; 5] = std::array::from_fn(|i| self.rooms[i].place(lengths[i], upper));
        let beside = &self.rubbish[..PAGE];
        for i in 0..5 {
            self.rooms[i].beside(lengths[i], upper).copy_from_slice(beside);
            unsafe { std::ptr::copy_nonoverlapping(given[i].as_ptr(), places[i], lengths[i]) }
        }
        let batched = h.batched(destination.len());
        watch(batched.as_ptr(), batched.len());
        // The pointer of an empty slice may be null; the other one lies at a page that can't be touched.
        let lent = std::array::from_fn(|i| if lengths[i] == 0 && !upper { std::ptr::null_mut() } else { places[i] });
        let [sizes, coordinates, segments, ends, written] = lent;
        let saved = unsafe {
            save_drawing(
                h.width, h.height, h.pairing, h.flags, sizes.cast(), h.sizes.len(), coordinates.cast(), h.coordinates.len(),
                segments.cast(), h.segments.len(), ends.cast(), h.ends.len(), written, destination.len(),
            )
        };
        let after: [&[u8]; 5] = std::array::from_fn(|i| unsafe { std::slice::from_raw_parts(places[i], lengths[i]) });
        let names = ["sizes", "coordinates", "segments", "ends"];
        if let Some(i) = (0..4).find(|&i| after[i] != given[i]) {
            panic!("the {} have changed: {}", names[i], hex(&batched));
        }
        if (0..5).any(|i| self.rooms[i].beside(lengths[i], upper) != beside) {
            panic!("bytes beside a lent slice have changed: {}", hex(&batched));
        }
        destination.copy_from_slice(after[4]);
        saved
    }
}

fn bytes_of<T: Copy>(slice: &[T]) -> Vec<u8> {
    // Numbers of four or eight bytes have no bytes between them.
    unsafe { std::slice::from_raw_parts(slice.as_ptr().cast::<u8>(), size_of_val(slice)).to_vec() }
}
