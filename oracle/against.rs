//! The published planner and the proved one on the same drawings, in one process: whole answers, every byte of what
//! was lent. The drawings come in batch form on standard input and are read one by one.

pub use crate::handed::hex;
use crate::handed::Handed;
use crate::port::{Lender, MOST_ENTRIES, MOST_FILE};
use crate::{cleaned, links, next_drawing, reader, stand_in, Lent};
use std::collections::BTreeMap;

pub enum Mode {
    /// Each drawing as it is lent, or with all sixteen settings.
    AsLent { all_settings: bool },
    /// Table and output sizes around those that just suffice.
    Sizes,
    /// Each drawing, and with its made links written into it; the published planner gets the second one both times.
    Linked,
    /// Each drawing, and with plain zeros for its minus zeros; the published planner gets the second one both times.
    MinusZero,
    /// So many damaged copies of each.
    Damaged(usize),
    /// So many copies of each with points, links and settings changed; most of them are planned.
    Changed(usize),
}

#[derive(Default)]
pub struct Tally {
    pub drawings: usize,
    calls: usize,
    cleaned: usize,
    answers: BTreeMap<u32, usize>,
    pub differ: usize,
    smallest: Option<(Vec<u8>, Lent)>,
}

/// Reads the batch to its end; prints how many drawings and calls there were, what became of them and how many
/// answers differ. Gives whether none does.
pub fn run(mode: Mode) -> bool {
    let mut lender = Lender::new();
    let mut tally = Tally::default();
    let mut random = Random(0x9E37_79B9_7F4A_7C15);
    while let Some((lent, file)) = next_drawing() {
        match mode {
            Mode::AsLent { all_settings: false } => tally.compare(&mut lender, &file, lent),
            Mode::AsLent { all_settings: true } => {
                for copy in with_all_settings(&file) {
                    tally.compare(&mut lender, &copy, lent);
                }
            }
            Mode::Sizes => tally.compare_sizes(&mut lender, &file),
            Mode::Linked => tally.compare_linked(&mut lender, &file, lent),
            Mode::MinusZero => tally.compare_cleaned(&mut lender, &file, lent),
            Mode::Damaged(count) => {
                for _ in 0..count {
                    tally.compare(&mut lender, &random.damaged(&file), lent);
                }
            }
            Mode::Changed(count) => {
                for _ in 0..count {
                    tally.compare(&mut lender, &random.changed(&file), lent);
                }
            }
        }
    }
    tally.print();
    tally.differ == 0
}

impl Tally {
    pub fn compare(&mut self, lender: &mut Lender, file: &[u8], lent: Lent) {
        self.drawings += 1;
        let wanted = stand_in::plan(file, lent);
        let lent = self.enough(file, &wanted, lent);
        self.call(lender, file, lent, &wanted);
    }

    fn compare_linked(&mut self, lender: &mut Lender, file: &[u8], lent: Lent) {
        self.drawings += 1;
        let linked = links::written_into(file);
        let wanted = stand_in::plan(&linked, lent);
        let lent = self.enough(file, &wanted, lent);
        self.call(lender, file, lent, &wanted);
        if linked != file {
            self.call(lender, &linked, lent, &wanted);
        }
    }

    fn compare_cleaned(&mut self, lender: &mut Lender, file: &[u8], lent: Lent) {
        self.drawings += 1;
        let plain = cleaned::file(file);
        let read = |file: &[u8]| reader::read(file).map(|drawing| Handed::of_drawing(&drawing));
        let is_read_alike = read(file) == read(&plain);
        let wanted = stand_in::plan(&plain, lent);
        let lent = self.enough(file, &wanted, lent);
        if !is_read_alike {
            self.differs(file, lent);
        }
        self.call(lender, file, lent, &wanted);
        if plain != file {
            self.cleaned += 1;
            self.call(lender, &plain, lent, &wanted);
        }
    }

    /// What is lent to the port.
    fn enough(&self, file: &[u8], wanted: &Result<stand_in::Plan, u32>, lent: Lent) -> Lent {
        // Large tables take their time to fill and to look at: where those that are lent suffice, so do smaller ones,
        // but for one call in 64.
        let (floats, bytes) = match wanted {
            Ok(plan) => needed(file, plan.odd_before),
            // The tables' lengths do not matter before check 11.
            Err(1..=9 | 15) => (0, 0),
            Err(_) => (lent.f64_entries, lent.byte_entries),
        };
        let more = if self.calls % 64 == 63 { 1 << 40 } else { self.calls % 40 };
        Lent {
            f64_entries: lent.f64_entries.min(floats + more).min(MOST_ENTRIES),
            byte_entries: lent.byte_entries.min(bytes + more).min(MOST_ENTRIES),
            ..lent
        }
    }

    fn call(&mut self, lender: &mut Lender, file: &[u8], lent: Lent, wanted: &Result<stand_in::Plan, u32>) {
        self.calls += 1;
        *self.answers.entry(wanted.as_ref().err().copied().unwrap_or(0)).or_default() += 1;
        let (got, written) = lender.plan(file, lent);
        let numbers = (got.refusal, got.retrace.to_bits(), got.before, got.after, got.points);
        let same = match wanted {
            Err(number) => numbers == (*number, 0, 0, 0, 0),
            Ok(plan) => {
                numbers == (0, plan.retrace.to_bits(), plan.odd_before, plan.odd_after, plan.points.len())
                    && written == record(&plan.points)
                    && cleaned::is_plain(&written[6..])
            }
        };
        if !same {
            self.differs(file, lent);
        }
    }

    fn differs(&mut self, file: &[u8], lent: Lent) {
        self.differ += 1;
        if self.smallest.as_ref().is_none_or(|(known, _)| file.len() < known.len()) {
            self.smallest = Some((file.to_vec(), lent));
        }
    }

    /// Drawings that are refused with every table and output give nothing to compare here, but for 13, which comes behind 11.
    fn compare_sizes(&mut self, lender: &mut Lender, file: &[u8]) {
        self.drawings += 1;
        // 1,022 odd nodes are the most that a file can have, and ask for fewer floats than 20 do.
        let most = Lent { f64_entries: (1 << 20) + 400, byte_entries: 1 << 20, output_bytes: 6 + 16 * 4001 };
        let plan = match stand_in::plan(file, most) {
            Ok(plan) => plan,
            Err(13) => return self.compare_short(lender, file, most),
            Err(_) => return,
        };
        let (n, output) = (plan.odd_before, 6 + 16 * plan.points.len());
        let (floats, bytes) = needed(file, n);
        let mut call = |lent| self.call(lender, file, lent, &stand_in::plan(file, lent));
        let enough = Lent { f64_entries: floats, byte_entries: bytes, output_bytes: output };
        // Optimal with many odd nodes takes the published planner long.
        let reach = if floats > 0 && n > 200 { 1 } else if floats > 0 && n > 12 { 2 } else { 20 };
        if bytes > 0 {
            for short in [0, 1, n * n, 4 * n, 1 << (n - 1), 1 << n] {
                call(Lent { f64_entries: short, ..enough });
                call(Lent { byte_entries: short.min(bytes), ..enough });
            }
            call(Lent { f64_entries: floats - 1, byte_entries: bytes - 1, ..enough });
        } else if floats > 0 {
            // Above 20 odd nodes the byte table is not asked: none is lent, or some, and none of them makes up for a float.
            for short in [0, 1, 4 * n, 20 * 20, n * n / 2, n * n - n] {
                call(Lent { f64_entries: short, ..enough });
            }
            call(Lent { f64_entries: floats - 1, byte_entries: MOST_ENTRIES, ..enough });
            call(Lent { f64_entries: floats - 1, byte_entries: n * n, ..enough });
            call(Lent { byte_entries: 4096, ..enough });
        }
        if floats > 0 {
            call(Lent { f64_entries: floats - 1, output_bytes: output - 1, ..enough });
            call(Lent { f64_entries: floats - 1, output_bytes: 0, ..enough });
        }
        for size in floats.saturating_sub(reach)..=floats + reach {
            call(Lent { f64_entries: size, ..enough });
        }
        for size in bytes.saturating_sub(reach)..=bytes + reach {
            call(Lent { byte_entries: size, ..enough });
        }
        for size in (0..reach).chain(output.saturating_sub(reach)..=output + reach) {
            call(Lent { output_bytes: size, ..enough });
        }
    }

    /// Short tables, and a short output, of a file that has 13 with long ones.
    fn compare_short(&mut self, lender: &mut Lender, file: &[u8], most: Lent) {
        let (floats, bytes) = needed(file, stand_in::odd_count(file));
        let enough = Lent { f64_entries: floats, byte_entries: bytes, ..most };
        let mut call = |lent| self.call(lender, file, lent, &stand_in::plan(file, lent));
        for output in [0, most.output_bytes] {
            call(Lent { output_bytes: output, ..enough });
            if floats > 0 {
                call(Lent { f64_entries: floats - 1, output_bytes: output, ..enough });
            }
            if bytes > 0 {
                call(Lent { byte_entries: bytes - 1, output_bytes: output, ..enough });
            }
        }
    }

    pub fn print(&self) {
        let name = |number: &u32| if *number == 0 { "ok".to_owned() } else { format!("refused {number}") };
        let answers: Vec<String> = self.answers.iter().map(|(number, count)| format!("{count} {}", name(number))).collect();
        let cleaned = if self.cleaned > 0 { format!(", {} cleaned", self.cleaned) } else { String::new() };
        println!("{} drawings, {} calls, {} differ; {}{cleaned}", self.drawings, self.calls, self.differ, answers.join(", "));
        if let Some((file, lent)) = &self.smallest {
            println!("  smallest: {lent:?}, file {}", hex(file));
        }
    }
}

/// The entries of both tables that check 11 asks for, of a file that passed check 9 with `n` odd nodes.
fn needed(file: &[u8], n: usize) -> (usize, usize) {
    let is_optimal = file[14] == 1;
    if is_optimal { stand_in::entries_asked(n) } else { (0, 0) }
}

/// The kind 4 record.
fn record(points: &[(f64, f64)]) -> Vec<u8> {
    let mut bytes = (16 * points.len() as u32).to_le_bytes().to_vec();
    bytes.extend(4u16.to_le_bytes());
    bytes.extend(points.iter().flat_map(|&(x, y)| [x, y]).flat_map(f64::to_le_bytes));
    bytes
}

/// The file with each pairing and flags, if its settings are such that check 5 takes them.
fn with_all_settings(file: &[u8]) -> Vec<Vec<u8>> {
    if file.len() < 16 || file[..6] != [10, 0, 0, 0, 1, 0] || file[14] > 1 || file[15] > 7 {
        return vec![file.to_vec()];
    }
    let with = |k: u8| {
        let mut copy = file.to_vec();
        (copy[14], copy[15]) = (k / 8, k % 8);
        copy
    };
    (0..16).map(with).collect()
}

/// xorshift64*, so that every run has the same copies.
struct Random(u64);

impl Random {
    fn below(&mut self, n: usize) -> usize {
        self.0 ^= self.0 >> 12;
        self.0 ^= self.0 << 25;
        self.0 ^= self.0 >> 27;
        (self.0.wrapping_mul(0x2545_F491_4F6C_DD1D) >> 32) as usize % n
    }

    /// A copy with something wrong, in the ways of generate.py's `damage`, and with parts of it doubled, left out or
    /// filled.
    fn damaged(&mut self, file: &[u8]) -> Vec<u8> {
        let mut data = file.to_vec();
        for _ in 0..[1, 1, 1, 2, 4][self.below(5)] {
            if data.is_empty() {
                break;
            }
            let at = self.below(data.len());
            match self.below(14) {
                0 => data.truncate(at),
                1..=3 => data[at] ^= 1 << self.below(8),
                4 | 5 => data[at] = self.below(256) as u8,
                6 => data.insert(at, self.below(256) as u8),
                7 => drop(data.remove(at)),
                8 => data[at - at % 2] ^= [0x80, 0x40, 0x01][self.below(3)],
                9 => {
                    let head = self.below(data.len().min(22));
                    data[head] ^= 1 + self.below(4) as u8;
                }
                10 => {
                    // A length of some record, if four bytes here are one.
                    let end = data.len().min(at + 4);
                    data[at..end].fill([0, 0xff, 0x10, 0x80][self.below(4)]);
                }
                11 => {
                    let end = data.len().min(at + 1 + self.below(120));
                    drop(data.drain(at..end));
                }
                12 if data.len() < 40_000 => {
                    let end = data.len().min(at + 1 + self.below(120));
                    data.extend_from_within(at..end);
                }
                _ => {
                    // A coordinate's place, if this is one, taken from another.
                    let from = self.below(data.len());
                    for i in 0..8.min(data.len() - at.max(from)) {
                        data[at + i] = data[from + i];
                    }
                }
            }
        }
        data
    }

    /// A copy whose points lie on one another, a step further or elsewhere, whose links name other places, with records
    /// doubled or left out, or with other settings. A file whose records are not whole is damaged.
    fn changed(&mut self, file: &[u8]) -> Vec<u8> {
        let mut data = file.to_vec();
        for _ in 0..[1, 1, 2, 3, 8][self.below(5)] {
            let Some(records) = records(&data) else {
                return self.damaged(file);
            };
            let points: Vec<usize> = records
                .iter()
                .flat_map(|r| match r.kind {
                    2 => (r.start + 6..r.end).step_by(16).collect(),
                    3 if r.end - r.start == 46 => vec![r.start + 14, r.start + 30],
                    _ => Vec::new(),
                })
                .filter(|at| at + 16 <= data.len())
                .collect();
            let links: Vec<usize> = records.iter().filter(|r| r.kind == 3 && r.end - r.start == 46).map(|r| r.start + 6).collect();
            let later = &records[1.min(records.len())..];
            match self.below(9) {
                0 | 1 if !points.is_empty() => {
                    let from = points[self.below(points.len())];
                    data.copy_within(from..from + 16, points[self.below(points.len())]);
                }
                2 if !points.is_empty() => {
                    let from = points[self.below(points.len())] + 8 * self.below(2);
                    data.copy_within(from..from + 8, points[self.below(points.len())] + 8 * self.below(2));
                }
                3 | 4 if !points.is_empty() => {
                    let at = points[self.below(points.len())] + 8 * self.below(2);
                    let step = [1.0, -1.0, 2.0, -1024.0, 1024.0, 3.0 * 1024.0][self.below(6)] / 1024.0;
                    let moved = f64::from_le_bytes(data[at..at + 8].try_into().unwrap()) + step;
                    data[at..at + 8].copy_from_slice(&(moved + 0.0).to_le_bytes());
                }
                5 if !links.is_empty() => {
                    let at = links[self.below(links.len())] + 2 * self.below(4);
                    data[at] = [data[at].wrapping_add(1), data[at].wrapping_sub(1), 0, self.below(8) as u8][self.below(4)];
                }
                6 if !later.is_empty() && 2 * data.len() <= MOST_FILE => {
                    let record = &later[self.below(later.len())];
                    let copy = data[record.start..record.end].to_vec();
                    data.splice(record.end..record.end, copy);
                }
                7 if !later.is_empty() => {
                    let record = &later[self.below(later.len())];
                    drop(data.drain(record.start..record.end));
                }
                _ if data.len() >= 16 => match self.below(3) {
                    0 => data[15] = self.below(8) as u8,
                    1 => data[14] = self.below(2) as u8,
                    _ => data[6 + 4 * self.below(2)] = self.below(20) as u8,
                },
                _ => (),
            }
        }
        data
    }
}

struct Record {
    start: usize,
    end: usize,
    kind: u8,
}

/// The records of a file, if they are whole.
fn records(file: &[u8]) -> Option<Vec<Record>> {
    let (mut records, mut start) = (Vec::new(), 0);
    while start < file.len() {
        let length = crate::reader::u32_at(file.get(start..start + 6)?, 0) as usize;
        let end = start + 6 + length;
        file.get(start..end)?;
        records.push(Record { start, end, kind: file[start + 4] });
        start = end;
    }
    Some(records)
}
