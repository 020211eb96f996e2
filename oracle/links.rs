//! The links that flag 4 asks for, from the request's words: every candidate in a list, the list sorted by rank, and each
//! one kept whose two lines those kept before do not lead between yet (Kruskal). Plain and slow on purpose.

use crate::reader::{self, Drawing, Link};

type Point = (f64, f64);

/// An end of a line that has points.
#[derive(Clone, Copy)]
struct End {
    line: usize,
    is_last: bool,
    segment: usize,
    at: Point,
}

/// A link that could be made, between an end of one line and an end of a line with a higher number.
struct Candidate {
    lower: End,
    higher: End,
}

/// What a file says to plan: with flag 4 the made links are in it, as if the file had held them.
pub fn drawing_of(file: &[u8]) -> Result<Drawing, u32> {
    let mut drawing = reader::read(file)?;
    if drawing.link {
        drawing.links = made(&drawing.lines);
    }
    Ok(drawing)
}

/// The links for these lines, in the order of their ranks, the lower line's end first.
fn made(lines: &[Vec<Point>]) -> Vec<Link> {
    let mut candidates = candidates(lines);
    candidates.sort_by_key(rank);
    // What is kept leads between two lines whose numbers here are the same.
    let mut group: Vec<usize> = (0..lines.len()).collect();
    let mut kept = Vec::new();
    for Candidate { lower, higher } in candidates {
        let (one, other) = (group[lower.line], group[higher.line]);
        if one != other {
            group.iter_mut().filter(|g| **g == other).for_each(|g| *g = one);
            kept.push(link(lower, higher));
        }
    }
    kept
}

/// Four for each two lines that have points.
fn candidates(lines: &[Vec<Point>]) -> Vec<Candidate> {
    let ends: Vec<End> = lines.iter().enumerate().flat_map(|(number, line)| ends_of(number, line)).collect();
    let mut all = Vec::new();
    for &lower in &ends {
        all.extend(ends.iter().filter(|higher| higher.line > lower.line).map(|&higher| Candidate { lower, higher }));
    }
    all
}

/// A line's start, which lies on segment 0, and its end, which lies on the last one; none of an empty line.
fn ends_of(line: usize, points: &[Point]) -> Vec<End> {
    let (Some(&start), Some(&end)) = (points.first(), points.last()) else {
        return Vec::new();
    };
    let last = points.len().saturating_sub(2);
    vec![End { line, is_last: false, segment: 0, at: start }, End { line, is_last: true, segment: last, at: end }]
}

/// No two candidates have the same rank.
fn rank(c: &Candidate) -> (i64, usize, usize, bool, bool) {
    (squared(c.lower.at, c.higher.at), c.lower.line, c.higher.line, c.lower.is_last, c.higher.is_last)
}

fn link(a: End, b: End) -> Link {
    Link { line_a: a.line, segment_a: a.segment, line_b: b.line, segment_b: b.segment, a: a.at, b: b.at }
}

/// The square of the length between two points of the grid, in grid steps.
pub fn squared(a: Point, b: Point) -> i64 {
    let steps = |x: f64| (x * 1024.0) as i64;
    let (across, down) = (steps(a.0) - steps(b.0), steps(a.1) - steps(b.1));
    across * across + down * down
}

/// The file with its made links written into it and flag 4 taken away, so that a planner without that flag can be run
/// on it. A file that is not flagged, or that its reader refuses, comes out as it is.
pub fn written_into(file: &[u8]) -> Vec<u8> {
    let mut copy = file.to_vec();
    if let Ok(drawing) = drawing_of(file)
        && drawing.link
    {
        copy[FLAGS_AT] &= !4;
        copy.extend(drawing.links.iter().flat_map(record));
    }
    copy
}

/// The flags are the last byte of the settings, the first record.
const FLAGS_AT: usize = 15;

/// A kind 3 record.
fn record(l: &Link) -> Vec<u8> {
    let mut bytes = 40u32.to_le_bytes().to_vec();
    bytes.extend(3u16.to_le_bytes());
    bytes.extend([l.line_a, l.segment_a, l.line_b, l.segment_b].into_iter().flat_map(|n| (n as u16).to_le_bytes()));
    bytes.extend([l.a.0, l.a.1, l.b.0, l.b.1].into_iter().flat_map(f64::to_le_bytes));
    bytes
}
