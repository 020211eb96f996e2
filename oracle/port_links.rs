//! The links that the port makes, through `made_link` of crates/links_c: one link a call, so that they can be judged by themselves.
//! An answer of the planner does not show a link of length 0, nor which of two ends at one place a link names.

use crate::{in_steps, links};

/// As crates/links_c has it.
#[repr(C)]
struct MadeLink {
    refusal: u32,
    links: u32,
    first_line: u32,
    first_segment: u32,
    second_line: u32,
    second_segment: u32,
    first_x: f64,
    first_y: f64,
    second_x: f64,
    second_y: f64,
}

unsafe extern "C" {
    // A slice passes as a pointer and a length.
    fn made_link(file: *const u8, file_len: usize, j: u32) -> MadeLink;
}

fn link(file: &[u8], j: u32) -> MadeLink {
    // The pointer and the length are those of the slice.
    unsafe { made_link(file.as_ptr(), file.len(), j) }
}

/// The same lines as `--links`: of a file without flag 4 no link is made.
pub fn made_links(file: &[u8]) -> Vec<String> {
    let none = link(file, u32::MAX);
    if none.refusal != 0 {
        return vec![format!("refused {}", none.refusal)];
    }
    // The flags of a file that was taken are its sixteenth byte.
    let count = if file[15] & 4 == 0 { 0 } else { none.links };
    let row = |j: u32| {
        let l = link(file, j);
        let (a, b) = ((l.first_x, l.first_y), (l.second_x, l.second_y));
        format!(
            "{} {} {} {} {} {} {}",
            l.first_line, l.first_segment, in_steps(a), l.second_line, l.second_segment, in_steps(b), links::squared(a, b)
        )
    };
    std::iter::once(format!("made {count}")).chain((0..count).map(row)).collect()
}
