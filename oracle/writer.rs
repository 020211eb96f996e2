//! The writer of drawing files, from the words of document 01 and of change requests 1 to 3: a drawing becomes the one file without minus
//! zeros that reads back as it, or is refused with 5, 6, 15, 7, 8 or 16, in this order. Before them 4, for slices that do not fit one
//! another, is docs/DECISIONS.md's. It shares no rule with reader.rs.

use crate::handed::{Handed, Saved};

const MOST_SIDE: u32 = 8192;
const MOST_PAIRING: u8 = 1;
const MOST_FLAGS: u8 = 7;
const MOST_LINES: usize = 256;
const MOST_POINTS: usize = 1024;
const MOST_LINKS: usize = 255;
/// 4,096 in grid steps.
const MOST_STEPS: u64 = 4096 * 1024;
/// The flag that has the planner make the links.
const LINK: u8 = 4;

/// Lines and links, taken apart.
struct Parts<'a> {
    /// Of each line, the coordinates of its points.
    lines: Vec<&'a [u64]>,
    links: Vec<Link<'a>>,
}

struct Link<'a> {
    /// Line and segment of both ends.
    names: &'a [u32],
    /// x and y of both ends.
    ends: &'a [u64],
}

/// Writes the file to the front of the destination, unless there is a refusal.
pub fn save(handed: &Handed, destination: &mut [u8]) -> Saved {
    let refused = |refusal| Saved { refusal, bytes: 0 };
    let Some(parts) = parts(handed) else {
        return refused(4);
    };
    if settings_wrong(handed) {
        return refused(5);
    }
    if too_many(&parts) {
        return refused(6);
    }
    if own_links(handed, &parts) {
        return refused(15);
    }
    if off_grid(&parts) {
        return refused(7);
    }
    if astray(&parts) {
        return refused(8);
    }
    let file = file_of(handed, &parts);
    if destination.len() < file.len() {
        return refused(16);
    }
    destination[..file.len()].copy_from_slice(&file);
    Saved { refusal: 0, bytes: file.len() }
}

/// The file that a writer without any check would write; none where the slices are no drawing, or where a line or a segment
/// has a number of more than two bytes.
pub fn unchecked(handed: &Handed) -> Option<Vec<u8>> {
    let parts = parts(handed)?;
    let fits = handed.segments.iter().all(|&n| n <= 0xffff);
    fits.then(|| file_of(handed, &parts))
}

/// None where the slices do not fit one another.
fn parts(handed: &Handed) -> Option<Parts<'_>> {
    let points: u128 = handed.sizes.iter().map(|&n| u128::from(n)).sum();
    if 2 * points != handed.coordinates.len() as u128 {
        return None;
    }
    if handed.segments.len() % 4 != 0 || handed.ends.len() != handed.segments.len() {
        return None;
    }
    let mut rest: &[u64] = &handed.coordinates;
    let mut lines = Vec::new();
    for &size in &handed.sizes {
        let (line, later) = rest.split_at(2 * size as usize);
        lines.push(line);
        rest = later;
    }
    let links = handed.segments.chunks(4).zip(handed.ends.chunks(4)).map(|(names, ends)| Link { names, ends }).collect();
    Some(Parts { lines, links })
}

/// Check 5.
fn settings_wrong(handed: &Handed) -> bool {
    handed.width > MOST_SIDE || handed.height > MOST_SIDE || handed.pairing > MOST_PAIRING || handed.flags > MOST_FLAGS
}

/// Check 6.
fn too_many(parts: &Parts) -> bool {
    let points: usize = parts.lines.iter().map(|line| line.len() / 2).sum();
    parts.lines.len() > MOST_LINES || points > MOST_POINTS || parts.links.len() > MOST_LINKS
}

/// Check 15.
fn own_links(handed: &Handed, parts: &Parts) -> bool {
    handed.flags & LINK != 0 && !parts.links.is_empty()
}

/// Check 7.
fn off_grid(parts: &Parts) -> bool {
    let in_lines = parts.lines.iter().flat_map(|line| line.iter());
    let in_links = parts.links.iter().flat_map(|link| link.ends.iter());
    in_lines.chain(in_links).any(|&bits| !on_grid(bits))
}

/// Whether the bits are those of a whole multiple of 1/1024 from -4,096 to 4,096, a zero of either sign among them. In whole numbers.
fn on_grid(bits: u64) -> bool {
    let exponent = bits >> 52 & 0x7ff;
    let fraction = bits & ((1 << 52) - 1);
    match exponent {
        // Zero, or a number far smaller than a step.
        0 => fraction == 0,
        // The value is (2^52 + fraction) * 2^(exponent - 1075). In steps the power is 10 higher, and with none left it would be
        // 2^52 steps at least.
        1013..=1064 => {
            let (digits, shift) = ((1u64 << 52) + fraction, 1065 - exponent);
            digits % (1 << shift) == 0 && digits >> shift <= MOST_STEPS
        }
        // Less than a step, at least 2^52 steps, infinite or no number.
        _ => false,
    }
}

/// Check 8.
fn astray(parts: &Parts) -> bool {
    let names = parts.links.iter().flat_map(|link| link.names.chunks(2));
    names.into_iter().any(|name| !is_there(parts, name[0] as usize, name[1] as usize))
}

/// Whether the line is there, has a point, and has this segment: the last one is its points less 2, and 0 for a dot.
fn is_there(parts: &Parts, line: usize, segment: usize) -> bool {
    let points = parts.lines.get(line).map_or(0, |line| line.len() / 2);
    points > 0 && (segment == 0 || segment + 2 <= points)
}

/// The settings, then all lines, then all links.
fn file_of(handed: &Handed, parts: &Parts) -> Vec<u8> {
    let mut file = Vec::new();
    record(&mut file, 1, &settings_body(handed));
    for line in &parts.lines {
        record(&mut file, 2, &line_body(line));
    }
    for link in &parts.links {
        record(&mut file, 3, &link_body(link));
    }
    file
}

/// The body's length in four bytes, the kind in two, the body.
fn record(file: &mut Vec<u8>, kind: u16, body: &[u8]) {
    file.extend((body.len() as u32).to_le_bytes());
    file.extend(kind.to_le_bytes());
    file.extend(body);
}

fn settings_body(handed: &Handed) -> Vec<u8> {
    let mut body = Vec::new();
    body.extend(handed.width.to_le_bytes());
    body.extend(handed.height.to_le_bytes());
    body.push(handed.pairing);
    body.push(handed.flags);
    body
}

fn line_body(line: &[u64]) -> Vec<u8> {
    line.iter().flat_map(|&bits| stored(bits)).collect()
}

/// A coordinate's bytes: those of plain zero for both zeros.
fn stored(bits: u64) -> [u8; 8] {
    let is_zero = bits << 1 == 0;
    (if is_zero { 0 } else { bits }).to_le_bytes()
}

/// Numbers of two bytes each, then coordinates.
fn link_body(link: &Link) -> Vec<u8> {
    let mut body = Vec::new();
    for &name in link.names {
        body.extend((name as u16).to_le_bytes());
    }
    for &bits in link.ends {
        body.extend(stored(bits));
    }
    body
}
