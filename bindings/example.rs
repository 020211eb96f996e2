//! Plans a drawing file and prints what the program `plan` prints; makes, saves and plans a drawing; saves numbers.
//!
//! ```text
//! rustc -O --edition 2021 bindings/example.rs -L crates/planner_c/out -l static=planner_c -o example
//! ./example DRAWING                          with what `plan` lends
//! ./example DRAWING FLOATS BYTES OUTPUT      with tables and an output of these lengths
//! ./example --build DRAWING                  makes a drawing as an editor does, saves it there, and plans the file
//! ./example --save < NUMBERS > DRAWING       saves a drawing given in numbers
//! ```
//!
//! bindings/example.c says how NUMBERS are written. Where saving is refused, nothing is printed, standard error says why, and the
//! status is 1.
//!
//! It also sees whether the calls kept their contract about what they were lent: tables zero, the other bytes of the output
//! and of the destination as they were. If not, it says so and ends with status 3. It works in a thread of its own, with the
//! 2 MB of stack that a thread has by default.
mod planner;

use planner::{bytes_for, floats_for, output_for, Drawing, End, Refusal, Settings, CLOSE, LINK, MOST_FILE, MOST_POINTS, OPTIMAL};
use planner::{ENOUGH_BYTES, ENOUGH_FLOATS, MOST_ODD};
use std::io::{Read, Write};
use std::process::exit;

const UNTOUCHED: u8 = 0xA5;

// Tables for 4 and for 22 odd points, and for every drawing, the most odd points among them.
const _: () = assert!(floats_for(4) == 32 && bytes_for(4) == 16 && floats_for(22) == 484 && bytes_for(22) == 0);
const _: () = assert!(ENOUGH_FLOATS == 1_048_976 && ENOUGH_BYTES == 1_048_576 && floats_for(MOST_ODD) <= ENOUGH_FLOATS);

fn holds(promise: &str, kept: bool) {
    if !kept {
        println!("not kept: {promise}");
        exit(3);
    }
}

fn wrong(words: &str) -> ! {
    eprintln!("example: {words}");
    exit(2);
}

// ---- planning a file

fn planned(path: &str, lengths: [usize; 3]) {
    let file = std::fs::read(path).unwrap_or_else(|_| wrong("no such drawing"));
    let mut floats = vec![-1.5; lengths[0]];
    let mut bytes = vec![UNTOUCHED; lengths[1]];
    let mut output = vec![UNTOUCHED; lengths[2]];
    let written = match planner::plan(&file, &mut floats, &mut bytes, &mut output) {
        Ok(plan) => {
            let points: Vec<_> = plan.points().collect();
            println!("ok {:016x} {} {} {}", plan.retrace.to_bits(), plan.odd_before, plan.odd_after, points.len());
            for (x, y) in &points {
                println!("{} {}", x * 1024.0, y * 1024.0);
            }
            output_for(points.len())
        }
        Err(refusal) => {
            println!("refused {}", refusal as u32);
            0
        }
    };
    holds("the f64 table is zero afterwards", floats.iter().all(|x| x.to_bits() == 0));
    holds("the byte table is zero afterwards", bytes.iter().all(|x| *x == 0));
    holds("other bytes of the output keep their values", output[written..].iter().all(|x| *x == UNTOUCHED));
}

// ---- saving a drawing

/// What saving answers for a destination of this length, with the file copied. Bytes that are not the file's keep their
/// values, and so do some behind the destination.
fn saved_to(length: usize, save: impl Fn(&mut [u8]) -> Result<&[u8], Refusal>) -> Result<Vec<u8>, Refusal> {
    let mut memory = vec![UNTOUCHED; length + 64];
    let answer = save(&mut memory[..length]).map(<[u8]>::to_vec);
    let written = answer.as_ref().map_or(0, Vec::len);
    if let Ok(file) = &answer {
        holds("the file stands at the front of the destination", *file == memory[..written]);
    }
    holds("other bytes of the destination keep their values", memory[written..].iter().all(|x| *x == UNTOUCHED));
    answer
}

/// The nearest coordinate on the grid; half a step goes away from 0. What lies outside -4,096 to 4,096, or is no number, stays as it
/// is, so that saving gives 7. Adding 0.0 makes 0.0 of -0.0; the writer would take -0.0 as well, and save 0.0.
fn on_grid(pixels: f64) -> f64 {
    if !(-4096.0..=4096.0).contains(&pixels) {
        return pixels;
    }
    (pixels * 1024.0).round() / 1024.0 + 0.0
}

fn check_grid() {
    const STEP: f64 = 1.0 / 1024.0;
    const BELOW_HALF: f64 = 0.49999999999999994;
    let tried = [(0.0, 0.0), (-0.0, 0.0), (0.1, 102.0 * STEP), (-0.1, -102.0 * STEP), (BELOW_HALF * STEP, 0.0), (-BELOW_HALF * STEP, 0.0)];
    let more = [(0.5 * STEP, STEP), (-0.5 * STEP, -STEP), (-0.0001, 0.0), (-f64::from_bits(1), 0.0), (4095.9999, 4096.0)];
    let same = [4096.0, -4096.0, 4096.0001, -1e300, f64::INFINITY, f64::NAN].map(|far| (far, far));
    let kept = tried.iter().chain(&more).chain(&same).all(|(from, to)| on_grid(*from).to_bits() == to.to_bits());
    holds("on_grid gives the nearest coordinate, and leaves what is too far", kept);
}

/// A point of a hexagon around (12, 12), for corners 0 to 5.
fn corner(radius: f64, number: usize) -> (f64, f64) {
    let x = [1.0, 0.5, -0.5, -1.0, -0.5, 0.5][number];
    let y = [0.0, 1.0, 1.0, 0.0, -1.0, -1.0][number];
    let half_root_3 = 0.866_025_403_784_438_6;
    (on_grid(12.0 + radius * x), on_grid(12.0 + radius * half_root_3 * y))
}

/// examples/saved-by-an-editor.txt: a hexagon, a triangle in it and a link between them.
fn drawn() -> Drawing {
    let mut drawing = Drawing::new(24, 24);
    drawing.flags(CLOSE);
    let hexagon = drawing.line(&[0, 1, 2, 3, 4, 5, 0].map(|i| corner(10.0, i)));
    let triangle = drawing.line(&[0, 2, 4, 0].map(|i| corner(5.0, i)));
    drawing.link(
        End { line: hexagon, segment: 0, point: (22.0, 12.0) },
        End { line: triangle, segment: 0, point: (17.0, 12.0) },
    );
    drawing
}

/// How many records of this kind a file has.
fn records(file: &[u8], kind: u16) -> usize {
    let (mut rest, mut found) = (file, 0);
    while let [a, b, c, d, low, high, behind @ ..] = rest {
        found += usize::from(u16::from_le_bytes([*low, *high]) == kind);
        rest = &behind[u32::from_le_bytes([*a, *b, *c, *d]) as usize..];
    }
    found
}

/// Lines that the planner links. The links that it makes stay out of the drawing: saved again, it has none.
fn linked_by_the_planner() {
    let mut drawing = Drawing::new(12, 12);
    drawing.flags(LINK);
    for y in [2.0, 6.0, 10.0] {
        drawing.line(&[(1.0, y), (11.0, y)]);
    }
    let file = drawing.save().unwrap_or_else(|refusal| wrong(&refusal.to_string()));
    let mut output = vec![0; output_for(MOST_POINTS)];
    holds("lines that the planner is to link are planned", planner::plan(&file, &mut [], &mut [], &mut output).is_ok());
    holds("planned, a drawing is saved as before", drawing.save().as_ref() == Ok(&file));
    holds("links that the planner makes are not saved", records(&file, 2) == 3 && records(&file, 3) == 0);
}

/// A line, a dot and a link between them, with points on both axes; zero is 0.0 or -0.0.
fn with_zeros(zero: f64) -> Drawing {
    let mut drawing = Drawing::new(8, 8);
    let line = drawing.line(&[(zero, zero), (3.0, zero), (zero, 4.0)]);
    let dot = drawing.line(&[(-2.0, zero)]);
    drawing.link(End { line, segment: 0, point: (zero, zero) }, End { line: dot, segment: 0, point: (-2.0, zero) });
    drawing
}

/// A -0.0 that is handed to the writer is saved as 0.0. The two drawings are equal, since Rust has 0.0 equal to -0.0: what differs
/// is only how they are written out.
fn minus_zeros_saved() {
    let (plain, minus) = (with_zeros(0.0), with_zeros(-0.0));
    let zeros = |drawing: &Drawing| format!("{drawing:?}").matches("-0.0").count();
    holds("0.0 and -0.0 are handed in as two patterns", zeros(&plain) == 0 && zeros(&minus) == 8);
    let [file, again] = [plain, minus].map(|drawing| saved_to(MOST_FILE, |destination| drawing.save_into(destination)));
    holds("-0.0 is saved as 0.0", file.is_ok() && again == file);
}

/// A comb of 20 teeth with optimal pairing: 42 odd points. So many floats as `floats_for` says are just enough, and no bytes are
/// needed.
fn many_odd_points() {
    const ODD: usize = 42;
    let mut drawing = Drawing::new(46, 13);
    drawing.pairing(OPTIMAL);
    let back: Vec<(f64, f64)> = (1..=22).map(|i| (f64::from(2 * i), 4.0)).collect();
    drawing.line(&back);
    for (x, y) in &back[1..21] {
        drawing.line(&[(*x, *y), (*x, 10.0)]);
    }
    let file = drawing.save().unwrap_or_else(|refusal| wrong(&refusal.to_string()));
    let answer = |floats: usize, bytes: usize| {
        let (mut floats, mut bytes) = (vec![-1.5; floats], vec![UNTOUCHED; bytes]);
        let answer = planner::plan(&file, &mut floats, &mut bytes, &mut vec![0; output_for(MOST_POINTS)]).map(|plan| plan.odd_before);
        holds("both tables are zero afterwards", floats.iter().all(|x| x.to_bits() == 0) && bytes.iter().all(|x| *x == 0));
        answer
    };
    holds("n * n floats are enough for n odd points above 20", answer(floats_for(ODD), bytes_for(ODD)) == Ok(ODD));
    holds("one fewer is too short", answer(floats_for(ODD) - 1, ENOUGH_BYTES) == Err(Refusal::TablesTooSmall));
    holds("tables for every drawing are enough for this one", answer(ENOUGH_FLOATS, ENOUGH_BYTES) == Ok(ODD));
}

fn built(path: &str) {
    check_grid();
    let drawing = drawn();
    let file = drawing.save().unwrap_or_else(|refusal| wrong(&refusal.to_string()));
    let to = |drawing: &Drawing, length: usize| saved_to(length, |destination| drawing.save_into(destination));
    for length in [MOST_FILE, file.len() + 1, file.len()] {
        holds("a destination as long as the file is enough", to(&drawing, length).as_ref() == Ok(&file));
    }
    for length in [file.len() - 1, 0] {
        holds("a destination that is too short is told by 16", to(&drawing, length) == Err(Refusal::DestinationTooSmall));
    }
    // Drawings that are not taken: a point between two steps of the grid; lines that are not there, and would be line 0 if
    // their numbers were cut down to what the file, or a list, has for them; far more than a drawing may have.
    let mut off = drawing.clone();
    off.line(&[(0.0001, 0.0)]);
    holds("a point off the grid is told by 7", to(&off, MOST_FILE) == Err(Refusal::OffTheGrid));
    for bits in [16, 32] {
        let end = |line| End { line, segment: 0, point: (22.0, 12.0) };
        let mut astray = drawing.clone();
        astray.link(end(0), end(1 << bits));
        holds("a link to no line is told by 8", to(&astray, MOST_FILE) == Err(Refusal::LinkAstray));
    }
    let mut much = drawing.clone();
    much.line(&vec![(1.0, 1.0); 100_000]);
    much.line(&[(1.0, 1.0)]);
    holds("too much is told by 6", to(&much, MOST_FILE) == Err(Refusal::TooMuch));
    linked_by_the_planner();
    minus_zeros_saved();
    many_odd_points();
    holds("the drawing can be written there", std::fs::write(path, &file).is_ok());
    planned(path, [0, 0, output_for(MOST_POINTS)]);
}

// ---- saving numbers

/// The words of NUMBERS, one behind the other.
struct Words<'a>(std::str::SplitWhitespace<'a>);

impl<'a> Words<'a> {
    fn word(&mut self, wanted: &str) {
        if self.0.next() != Some(wanted) {
            wrong(&format!("{wanted} is missing, or not at its place"));
        }
    }

    fn number<T: std::str::FromStr>(&mut self) -> T {
        self.0.next().and_then(|word| word.parse().ok()).unwrap_or_else(|| wrong("a number is missing, or too large"))
    }

    fn numbers(&mut self, name: &str) -> Vec<u32> {
        self.word(name);
        (0..self.number::<usize>()).map(|_| self.number()).collect()
    }

    fn coordinates(&mut self, name: &str) -> Vec<f64> {
        self.word(name);
        let bits = |word: &str| u64::from_str_radix(word, 16).ok();
        let one = |word: Option<&str>| f64::from_bits(word.and_then(bits).unwrap_or_else(|| wrong("a coordinate is missing")));
        (0..self.number::<usize>()).map(|_| one(self.0.next())).collect()
    }
}

fn saved() {
    let mut text = String::new();
    std::io::stdin().read_to_string(&mut text).unwrap_or_else(|_| wrong("standard input is no text"));
    let mut words = Words(text.split_whitespace());
    words.word("destination");
    let length = words.number();
    words.word("settings");
    let settings =
        Settings { width: words.number(), height: words.number(), pairing: words.number(), flags: words.number() };
    let sizes = words.numbers("sizes");
    let coordinates = words.coordinates("coordinates");
    let segments = words.numbers("segments");
    let ends = words.coordinates("ends");
    let answer = saved_to(length, |destination| {
        planner::save_drawing(settings, &sizes, &coordinates, &segments, &ends, destination)
    });

    // Made step by step, the same drawing has the same answer and the same file. Lists that don't fit are no drawing.
    let points: usize = sizes.iter().map(|size| *size as usize).sum();
    if 2 * points == coordinates.len() && segments.len() % 4 == 0 && segments.len() == ends.len() {
        let mut drawing = Drawing::new(settings.width, settings.height);
        drawing.pairing(settings.pairing);
        drawing.flags(settings.flags);
        let points: Vec<_> = coordinates.chunks_exact(2).map(|point| (point[0], point[1])).collect();
        let mut rest = &points[..];
        for size in &sizes {
            let (line, behind) = rest.split_at(*size as usize);
            drawing.line(line);
            rest = behind;
        }
        for (s, e) in segments.chunks_exact(4).zip(ends.chunks_exact(4)) {
            let end = |i: usize| End { line: s[i] as usize, segment: s[i + 1] as usize, point: (e[i], e[i + 1]) };
            drawing.link(end(0), end(2));
        }
        let step_by_step = saved_to(length, |destination| drawing.save_into(destination));
        holds("made step by step, a drawing is saved as it is from lists", step_by_step == answer);
    } else {
        holds("lists that do not fit one another are told by 4", answer == Err(Refusal::RecordLength));
    }

    match answer {
        Ok(file) => std::io::stdout().write_all(&file).unwrap_or_else(|_| wrong("the file can't be written")),
        Err(refusal) => {
            eprintln!("refused {}", refusal as u32);
            exit(1);
        }
    }
}

fn worked(words: &[String]) {
    let numbers: Option<Vec<usize>> = words.iter().skip(1).map(|word| word.parse().ok()).collect();
    match (words.iter().map(String::as_str).collect::<Vec<_>>()[..].as_ref(), numbers.as_deref()) {
        (["--save"], _) => saved(),
        (["--build", path], _) => built(path),
        ([path], _) => planned(path, [floats_for(12), bytes_for(12), output_for(MOST_POINTS)]),
        ([path, ..], Some([floats, bytes, output])) => planned(path, [*floats, *bytes, *output]),
        _ => {
            eprintln!("usage: example DRAWING [FLOATS BYTES OUTPUT] | --build DRAWING | --save");
            exit(2);
        }
    }
}

fn main() {
    let words: Vec<String> = std::env::args().skip(1).collect();
    if std::thread::spawn(move || worked(&words)).join().is_err() {
        exit(3);
    }
}
