//! The proved writer beside writer.rs, on drawings that are handed to both, in one process: whole answers, every byte of what
//! was lent. Each file that is written is read by reader.rs, and a drawing that is refused is judged by reader.rs too.

use crate::against::{self, hex};
use crate::handed::{next_handed, Handed, Saved};
use crate::port::Lender;
use crate::port_writer::Saver;
use crate::{cleaned, next_drawing, reader, writer, LENT_BY_PLAN};
use std::collections::BTreeMap;

/// Files that are planned too: one in so many, and none that is longer.
const PLANNED: usize = 8;
const MOST_PLANNED: usize = 4000;

struct Run {
    saver: Saver,
    lender: Lender,
    drawings: usize,
    calls: usize,
    answers: BTreeMap<u32, usize>,
    read: usize,
    read_refused: usize,
    differ: usize,
    smallest: Option<(&'static str, Vec<u8>)>,
    plans: against::Tally,
}

/// Drawings handed over, in batch form on standard input. Gives whether nothing differs.
pub fn run_handed() -> bool {
    let mut run = Run::new();
    while let Some((handed, room)) = next_handed() {
        run.drawings += 1;
        run.compare(&handed, room);
    }
    run.print(&format!("; {} read back, {} judged by the reader, {} planned", run.read, run.read_refused, run.plans.drawings))
}

/// Files, in batch form on standard input: each one that passes checks 1 to 4 is taken apart and saved again. What the reader
/// takes must come out as the cleaned file, which is the same one where it has no minus zero, and what it refuses must be refused with
/// the same number.
pub fn run_rewritten() -> bool {
    let mut run = Run::new();
    while let Some((_, file)) = next_drawing() {
        run.drawings += 1;
        match (Handed::of_file(&file), reader::read(&file)) {
            (None, Err(number @ 1..=4)) => *run.answers.entry(number).or_default() += 1,
            (Some(handed), Ok(drawing)) if handed.cleaned() == Handed::of_drawing(&drawing) => run.rewrite(&file, &handed, None),
            (Some(handed), Err(number)) => run.rewrite(&file, &handed, Some(number)),
            _ => run.differs("what handed.rs and reader.rs find in a file", file),
        }
    }
    run.print("")
}

impl Run {
    fn new() -> Self {
        Run {
            saver: Saver::new(),
            lender: Lender::new(),
            drawings: 0,
            calls: 0,
            answers: BTreeMap::new(),
            read: 0,
            read_refused: 0,
            differ: 0,
            smallest: None,
            plans: against::Tally::default(),
        }
    }

    fn differs(&mut self, what: &'static str, input: Vec<u8>) {
        self.differ += 1;
        if self.smallest.as_ref().is_none_or(|(_, known)| input.len() < known.len()) {
            self.smallest = Some((what, input));
        }
    }

    /// One call; gives the answer and the destination afterwards, which had `before` in it.
    fn call(&mut self, handed: &Handed, before: &[u8], upper: bool) -> (Saved, Vec<u8>) {
        self.calls += 1;
        let mut after = before.to_vec();
        let saved = self.saver.save(handed, &mut after, upper);
        (saved, after)
    }

    fn compare(&mut self, handed: &Handed, room: usize) {
        let before = self.saver.before(self.drawings, room);
        let mut wanted = before.clone();
        let answer = writer::save(handed, &mut wanted);
        *self.answers.entry(answer.refusal).or_default() += 1;
        for upper in [false, true] {
            let (saved, after) = self.call(handed, &before, upper);
            if saved != answer {
                self.differs("the answer", handed.batched(room));
            } else if after != wanted {
                self.differs("the destination", handed.batched(room));
            }
        }
        if let Some(fault) = self.judged_by_reader(handed, answer, &wanted) {
            self.differs(fault, handed.batched(room));
        }
    }

    /// What reader.rs says against the answer, where it has something to say: it reads no drawing whose numbers do not go into a
    /// file, and no file above 65,536 bytes.
    fn judged_by_reader(&mut self, handed: &Handed, answer: Saved, destination: &[u8]) -> Option<&'static str> {
        let file = match answer.refusal {
            0 => destination[..answer.bytes].to_vec(),
            4 => return None,
            _ => writer::unchecked(handed).filter(|file| file.len() <= 65_536)?,
        };
        match (answer.refusal, reader::read(&file)) {
            (0, Ok(_)) if cleaned::file(&file) != file => Some("a minus zero in the file"),
            (0 | 16, Ok(drawing)) if Handed::of_drawing(&drawing) == handed.cleaned() => {
                self.read += 1;
                if answer.refusal == 0 && self.read % PLANNED == 0 && file.len() <= MOST_PLANNED {
                    self.plans.compare(&mut self.lender, &file, LENT_BY_PLAN);
                }
                None
            }
            (0 | 16, Ok(_)) => Some("what is read from the file"),
            (number, Err(refusal)) if number == refusal => {
                self.read_refused += 1;
                None
            }
            _ => Some("the reader's answer to the file"),
        }
    }

    /// With a destination that fits exactly, and with a longer one.
    fn rewrite(&mut self, file: &[u8], handed: &Handed, refusal: Option<u32>) {
        *self.answers.entry(refusal.unwrap_or(0)).or_default() += 1;
        let plain = cleaned::file(file);
        for (more, upper) in [(0, self.drawings % 2 == 0), (1 + self.drawings % 300, self.drawings % 2 == 1)] {
            let before = self.saver.before(self.drawings, file.len() + more);
            let (saved, after) = self.call(handed, &before, upper);
            let wanted = match refusal {
                None => (Saved { refusal: 0, bytes: file.len() }, [&plain, &before[file.len()..]].concat()),
                Some(refusal) => (Saved { refusal, bytes: 0 }, before),
            };
            if (saved, after) != wanted {
                self.differs("a file saved again", file.to_vec());
            }
        }
    }

    /// Prints how many drawings and calls there were, what became of them and how many differ. Gives whether none does.
    fn print(&self, more: &str) -> bool {
        let name = |number: &u32| if *number == 0 { "ok".to_owned() } else { format!("refused {number}") };
        let answers: Vec<String> = self.answers.iter().map(|(number, count)| format!("{count} {}", name(number))).collect();
        let differ = self.differ + self.plans.differ;
        println!("{} drawings, {} calls, {differ} differ; {}{more}", self.drawings, self.calls, answers.join(", "));
        if let Some((what, input)) = &self.smallest {
            println!("  smallest: {what}, {}", hex(input));
        }
        if self.plans.differ > 0 {
            print!("  plans: ");
            self.plans.print();
        }
        differ == 0
    }
}
