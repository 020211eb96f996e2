//! The planner for Rust: slices in, a `Result` out, no crates. It plans drawing files, and writes them.
//!
//! The archive is made by `rt lib` in crates/planner_c (crates/planner_c/out/libplanner_c.a, for x86-64 Linux). Take this
//! file in as a module (`mod planner;`) and link the archive:
//!
//! ```text
//! rustc -O --edition 2021 program.rs -L crates/planner_c/out -l static=planner_c
//! ```
//!
//! With cargo, two lines of build.rs say it, with the folder that the archive is in:
//!
//! ```text
//! println!("cargo:rustc-link-search=/the/folder");
//! println!("cargo:rustc-link-lib=static=planner_c");
//! ```
//!
//! It asks for rustc 1.82 or later in edition 2021, and 1.85 in edition 2024. bindings/example.rs is such a program.
//! docs/DRAWING-FILE.md has the drawing file and what each refusal means.
#![allow(dead_code)]

/// Why a drawing is refused: the first condition that holds, in this order. 16 is of saving alone, and 4 says something else
/// there. 10 is given no more: it refused optimal pairing with more than 20 odd points, and such drawings are planned now.
#[derive(Clone, Copy, Debug, PartialEq, Eq)]
pub enum Refusal {
    /// More than 65,536 bytes.
    FileTooLong = 1,
    /// A record's head or body passes the end of the file.
    RecordCutOff = 2,
    /// Not one settings, then lines, then links.
    RecordsOutOfOrder = 3,
    /// A body has not the length that its kind asks; of `save_drawing`: the lists do not fit one another.
    RecordLength = 4,
    /// Width, height, pairing or flags.
    SettingOutOfRange = 5,
    /// More than 256 lines, 1,024 points or 255 links.
    TooMuch = 6,
    /// Flag 4 asks for links, and the file has links of its own.
    OwnLinks = 15,
    /// A coordinate is no multiple of 1/1024 from -4,096 to 4,096.
    OffTheGrid = 7,
    /// A link names a line or a segment that is not there.
    LinkAstray = 8,
    /// Some part can't be reached from the first point; never with flag 4.
    Unlinked = 9,
    /// Optimal pairing, and tables too short for the odd points: see `floats_for`.
    TablesTooSmall = 11,
    /// Proved never to happen.
    NoWayBack = 12,
    /// With its retraces the drawing has more than 4,000 strokes.
    TooManySteps = 13,
    /// Less than 6 bytes and 16 for each point of the line.
    OutputTooSmall = 14,
    /// Of `save_drawing`, never of `plan`: the destination is shorter than the file.
    DestinationTooSmall = 16,
}

impl Refusal {
    const ALL: [Refusal; 15] = [
        Refusal::FileTooLong,
        Refusal::RecordCutOff,
        Refusal::RecordsOutOfOrder,
        Refusal::RecordLength,
        Refusal::SettingOutOfRange,
        Refusal::TooMuch,
        Refusal::OwnLinks,
        Refusal::OffTheGrid,
        Refusal::LinkAstray,
        Refusal::Unlinked,
        Refusal::TablesTooSmall,
        Refusal::NoWayBack,
        Refusal::TooManySteps,
        Refusal::OutputTooSmall,
        Refusal::DestinationTooSmall,
    ];

    /// The refusal with this number, 1 to 16 but for 10.
    pub fn of_number(number: u32) -> Option<Refusal> {
        Refusal::ALL.into_iter().find(|r| *r as u32 == number)
    }
}

/// What `plan` and `save_drawing` say, in words: 'refused 9: some part can't be reached from the first point'.
impl std::fmt::Display for Refusal {
    fn fmt(&self, f: &mut std::fmt::Formatter) -> std::fmt::Result {
        let words = match self {
            Refusal::FileTooLong => "the file has more than 65,536 bytes",
            Refusal::RecordCutOff => "a record passes the end of the file",
            Refusal::RecordsOutOfOrder => "the records are not one settings, then lines, then links",
            Refusal::RecordLength => "a body has not the length that its kind asks, or lists do not fit one another",
            Refusal::SettingOutOfRange => "width, height, pairing or flags are out of range",
            Refusal::TooMuch => "there are more than 256 lines, 1,024 points or 255 links",
            Refusal::OwnLinks => "flag 4 asks for links, and there are links already",
            Refusal::OffTheGrid => "a coordinate is not on the grid",
            Refusal::LinkAstray => "a link names a line or a segment that is not there",
            Refusal::Unlinked => "some part can't be reached from the first point",
            Refusal::TablesTooSmall => "the tables are too short for the odd points",
            Refusal::NoWayBack => "no way back was found",
            Refusal::TooManySteps => "with its retraces the drawing has more than 4,000 strokes",
            Refusal::OutputTooSmall => "the output is too short for the line",
            Refusal::DestinationTooSmall => "the destination is shorter than the file",
        };
        write!(f, "refused {}: {words}", *self as u32)
    }
}

impl std::error::Error for Refusal {}

/// A planned drawing. `line` is the part of the lent output that holds the line's points.
#[derive(Clone, Copy, Debug, PartialEq)]
pub struct Plan<'a> {
    /// The length, in pixels, of what is gone over again.
    pub retrace: f64,
    /// Odd points before repair.
    pub odd_before: usize,
    /// Odd points after it: 0 or 2.
    pub odd_after: usize,
    /// The body of the record written: x and y of each point, little-endian.
    pub line: &'a [u8],
}

impl<'a> Plan<'a> {
    /// The points of the line, in pixels.
    pub fn points(&self) -> impl Iterator<Item = (f64, f64)> + 'a {
        self.line.chunks_exact(16).map(|point| {
            let number = |at: usize| f64::from_le_bytes(point[at..at + 8].try_into().unwrap());
            (number(0), number(8))
        })
    }
}

/// With 4 to so many odd points optimal pairing compares all choices of pairs, and none that leaves two points out costs less
/// than the one taken. A pair costs the least distance along the strokes from its earlier point in the drawing to its later; the
/// pairs are added from 0.0 on, in falling order of their earlier points, each sum rounded. What `CLOSE` adds is not in that sum;
/// `Plan::retrace` is added piece by piece, along ways that fit the least distances within 1e-10, so it can differ from it by that
/// little; and with more odd points nothing of the kind is promised (docs/DRAWING-FILE.md, 'The line').
pub const MOST_OPTIMAL: usize = 20;
/// The most odd points that a drawing has.
pub const MOST_ODD: usize = 1022;
/// The most points of the line that `plan` answers; a drawing may have `MOST_DRAWN_POINTS`.
pub const MOST_POINTS: usize = 4001;

/// Entries of the f64 table for optimal pairing of a drawing with n odd points, n from 4 to `MOST_ODD`; otherwise none are
/// needed. Tables for more than 20 have no bytes, so they are not enough for 4 to 20; those of `ENOUGH_FLOATS` and `ENOUGH_BYTES`
/// are enough for every drawing.
pub const fn floats_for(n: usize) -> usize {
    bytes_for(n) + n * n
}

/// Entries of the byte table, likewise: none above `MOST_OPTIMAL` odd points.
pub const fn bytes_for(n: usize) -> usize {
    if n > MOST_OPTIMAL { 0 } else { 1 << n }
}

/// Entries of an f64 table for every drawing: it is the one for 20 odd points. Whoever lends so many floats (8.4 MB) and
/// `ENOUGH_BYTES` is never given `TablesTooSmall`.
pub const ENOUGH_FLOATS: usize = floats_for(MOST_OPTIMAL);
/// Entries of a byte table for every drawing, likewise.
pub const ENOUGH_BYTES: usize = bytes_for(MOST_OPTIMAL);

/// Bytes of the output for a line of so many points.
pub const fn output_for(points: usize) -> usize {
    6 + 16 * points
}

/// Plans a drawing file with the tables and the output that are lent. A coordinate that is -0.0 there is read as 0.0, and the
/// line has no -0.0.
///
/// Planned: the front of the output holds the line as a record of kind 4, and later bytes keep their values. Refused:
/// all of the output keeps its values. In both cases both tables are zero afterwards, whatever they held before.
/// The planner's arrays stand on the stack of the calling thread: 331,320 bytes were the most that a drawing of those
/// tried took, where a thread has 2 MB by default.
pub fn plan<'a>(file: &[u8], floats: &mut [f64], bytes: &mut [u8], output: &'a mut [u8]) -> Result<Plan<'a>, Refusal> {
    // SAFETY: each pointer and length are those of one slice, a `&mut` overlaps no other, and the callee keeps no
    // pointer. That it stays inside them is proved.
    let outcome = unsafe {
        exported::plan(
            file.as_ptr(),
            file.len(),
            floats.as_mut_ptr(),
            floats.len(),
            bytes.as_mut_ptr(),
            bytes.len(),
            output.as_mut_ptr(),
            output.len(),
        )
    };
    if outcome.refusal != 0 {
        // The contract names no other number.
        return Err(Refusal::of_number(outcome.refusal).expect("a refusal from 1 to 16"));
    }
    Ok(Plan {
        retrace: outcome.retrace,
        odd_before: outcome.before,
        odd_after: outcome.after,
        line: &output[6..output_for(outcome.points)],
    })
}

// ---- saving a drawing

/// Pairing greedy (docs/DRAWING-FILE.md, 'The line').
pub const GREEDY: u8 = 0;
/// Pairing optimal, likewise; `MOST_OPTIMAL` says what it promises.
pub const OPTIMAL: u8 = 1;
/// A flag: the line ends where it began. Flags are added up, 0 is none.
pub const CLOSE: u8 = 1;
/// A flag: the line starts near the centre.
pub const INSIDE: u8 = 2;
/// A flag: the planner makes the links.
pub const LINK: u8 = 4;

/// The most lines that a drawing may have.
pub const MOST_LINES: usize = 256;
/// The most points, in all lines together.
pub const MOST_DRAWN_POINTS: usize = 1024;
/// The most links.
pub const MOST_LINKS: usize = 255;
/// The bytes of the largest file: a destination of so many is never too short.
pub const MOST_FILE: usize = 29_666;

/// The settings of a drawing.
#[derive(Clone, Copy, Debug, PartialEq, Eq)]
pub struct Settings {
    pub width: u32,
    pub height: u32,
    pub pairing: u8,
    pub flags: u8,
}

/// Writes the one drawing file that the planner reads as this drawing, and answers the part of the destination that holds
/// it. A coordinate that is -0.0 is saved as 0.0, as the planner reads it: the file has no -0.0, and of the files without -0.0
/// no other is read as this drawing.
///
/// `sizes` has, for each line, how many points it has; `coordinates` has x and y of each point, all lines one behind the
/// other. `segments` has, for each link, the line and the segment of its first end and the line and the segment of its
/// second; `ends` has x and y of its first end and x and y of its second.
///
/// Saved: later bytes of the destination keep their values. Refused: all of it does. The numbers are, in this order: 4,
/// where the lists do not fit one another (coordinates are not two for each point, or segments and ends not four each for
/// each link; this is all that it says here); 5, 6, 15, 7 and 8, as the planner would give them of the file, each asked of the
/// whole drawing before the next; 16. 9 to 14 are not asked: a drawing can be saved while its lines are not linked yet.
///
/// Several threads may call it at once. 256 bytes of stack were enough for every drawing tried.
pub fn save_drawing<'a>(
    settings: Settings,
    sizes: &[u32],
    coordinates: &[f64],
    segments: &[u32],
    ends: &[f64],
    destination: &'a mut [u8],
) -> Result<&'a [u8], Refusal> {
    // SAFETY: each pointer and length are those of one slice, the `&mut` overlaps no other, and the callee keeps no
    // pointer. That it stays inside them, and writes to the destination alone, is proved.
    let saved = unsafe {
        exported::save_drawing(
            settings.width,
            settings.height,
            settings.pairing,
            settings.flags,
            sizes.as_ptr(),
            sizes.len(),
            coordinates.as_ptr(),
            coordinates.len(),
            segments.as_ptr(),
            segments.len(),
            ends.as_ptr(),
            ends.len(),
            destination.as_mut_ptr(),
            destination.len(),
        )
    };
    if saved.refusal != 0 {
        // The contract names no other number.
        return Err(Refusal::of_number(saved.refusal).expect("a refusal from 1 to 16"));
    }
    Ok(&destination[..saved.bytes])
}

/// An end of a link: the line and the segment that it names, counted from 0, and its point.
#[derive(Clone, Copy, Debug, PartialEq)]
pub struct End {
    pub line: usize,
    pub segment: usize,
    pub point: (f64, f64),
}

/// A drawing made step by step, for a program that has no such lists. This is plain Rust, tested and not proved; what it hands
/// to `save_drawing` is saved as proved.
///
/// ```ignore
/// let mut drawing = Drawing::new(10, 10);
/// let line = drawing.line(&[(0.0, 0.0), (8.0, 0.0)]);
/// let dot = drawing.line(&[(4.0, 4.0)]);
/// drawing.link(End { line, segment: 0, point: (4.0, 0.0) }, End { line: dot, segment: 0, point: (4.0, 4.0) });
/// let file = drawing.save();
/// ```
///
/// Nothing is checked before it is saved; that answers as `save_drawing` does, and never 4.
#[derive(Clone, Debug, PartialEq)]
pub struct Drawing {
    settings: Settings,
    sizes: Vec<u32>,
    coordinates: Vec<f64>,
    segments: Vec<u32>,
    ends: Vec<f64>,
}

impl Drawing {
    /// A drawing without lines and links, greedy pairing and no flags.
    pub fn new(width: u32, height: u32) -> Drawing {
        Drawing {
            settings: Settings { width, height, pairing: GREEDY, flags: 0 },
            sizes: Vec::new(),
            coordinates: Vec::new(),
            segments: Vec::new(),
            ends: Vec::new(),
        }
    }

    /// Chooses `GREEDY` or `OPTIMAL`.
    pub fn pairing(&mut self, pairing: u8) {
        self.settings.pairing = pairing;
    }

    /// Chooses flags: 0, or the sum of some of `CLOSE`, `INSIDE` and `LINK`.
    pub fn flags(&mut self, flags: u8) {
        self.settings.flags = flags;
    }

    /// Adds a line, and answers its number, which links name. Any points may be handed in; what is not on the grid of 1/1024
    /// is refused with 7 when the drawing is saved, and -0.0 is saved as 0.0. `on_grid` of bindings/example.rs rounds to the grid.
    ///
    /// Of a drawing that has too many points one too many is kept: the writer refuses it with 6 all the same, and nothing of
    /// it is written. So a line's size always fits a u32.
    pub fn line(&mut self, points: &[(f64, f64)]) -> usize {
        let room = MOST_DRAWN_POINTS + 1 - self.coordinates.len() / 2;
        let kept = &points[..points.len().min(room)];
        self.sizes.push(number(kept.len()));
        self.coordinates.extend(kept.iter().flat_map(|(x, y)| [*x, *y]));
        self.sizes.len() - 1
    }

    /// Adds a link. The lines that it names may come later.
    pub fn link(&mut self, first: End, second: End) {
        for end in [first, second] {
            self.segments.extend([number(end.line), number(end.segment)]);
            self.ends.extend([end.point.0, end.point.1]);
        }
    }

    /// The drawing's file.
    pub fn save(&self) -> Result<Vec<u8>, Refusal> {
        self.save_into(&mut [0; MOST_FILE]).map(<[u8]>::to_vec)
    }

    /// Writes the drawing's file to the front of the destination, and answers that part of it.
    pub fn save_into<'a>(&self, destination: &'a mut [u8]) -> Result<&'a [u8], Refusal> {
        save_drawing(self.settings, &self.sizes, &self.coordinates, &self.segments, &self.ends, destination)
    }
}

/// A number as a u32. One that is too large becomes the largest, which is no line's or segment's number, so it is refused as
/// the number itself would be.
fn number(n: usize) -> u32 {
    u32::try_from(n).unwrap_or(u32::MAX)
}

mod exported {
    #[repr(C)]
    pub struct Outcome {
        pub refusal: u32,
        pub retrace: f64,
        pub before: usize,
        pub after: usize,
        pub points: usize,
    }

    #[repr(C)]
    pub struct Saved {
        pub refusal: u32,
        pub bytes: usize,
    }

    // A slice passes as a pointer, then a length. (Edition 2024 asks for the word `unsafe` here, and 2021 takes it.)
    unsafe extern "C" {
        pub fn plan(
            file: *const u8,
            file_length: usize,
            floats: *mut f64,
            floats_length: usize,
            bytes: *mut u8,
            bytes_length: usize,
            output: *mut u8,
            output_length: usize,
        ) -> Outcome;
        pub fn save_drawing(
            width: u32,
            height: u32,
            pairing: u8,
            flags: u8,
            sizes: *const u32,
            sizes_length: usize,
            coordinates: *const f64,
            coordinates_length: usize,
            segments: *const u32,
            segments_length: usize,
            ends: *const f64,
            ends_length: usize,
            destination: *mut u8,
            destination_length: usize,
        ) -> Saved;
    }
}
