//! A drawing as it is handed to a writer: settings, and its lines and links as numbers in four slices.

use crate::reader::{u32_at, Drawing};
use std::io::Read;

#[derive(Clone, Debug, PartialEq)]
pub struct Handed {
    pub width: u32,
    pub height: u32,
    pub pairing: u8,
    pub flags: u8,
    /// Of each line, how many points it has.
    pub sizes: Vec<u32>,
    /// x and y of each point of all lines, as bits of an f64.
    pub coordinates: Vec<u64>,
    /// Of each link, line and segment of its first end, line and segment of its second.
    pub segments: Vec<u32>,
    /// Of each link, x and y of its first end, x and y of its second.
    pub ends: Vec<u64>,
}

/// What a writer answers.
#[repr(C)]
#[derive(Clone, Copy, Debug, PartialEq)]
pub struct Saved {
    pub refusal: u32,
    pub bytes: usize,
}

impl Handed {
    /// The numbers of a drawing that the reader has taken.
    pub fn of_drawing(drawing: &Drawing) -> Self {
        let flags = [(drawing.close, 1), (drawing.inside, 2), (drawing.link, 4)];
        let bits = |(x, y): (f64, f64)| [x.to_bits(), y.to_bits()];
        Handed {
            width: drawing.width,
            height: drawing.height,
            pairing: u8::from(drawing.optimal),
            flags: flags.into_iter().map(|(is_set, bit)| if is_set { bit } else { 0 }).sum(),
            sizes: drawing.lines.iter().map(|line| line.len() as u32).collect(),
            coordinates: drawing.lines.iter().flatten().flat_map(|&point| bits(point)).collect(),
            segments: drawing.links.iter().flat_map(|l| [l.line_a, l.segment_a, l.line_b, l.segment_b]).map(|n| n as u32).collect(),
            ends: drawing.links.iter().flat_map(|l| [l.a, l.b]).flat_map(bits).collect(),
        }
    }

    /// The numbers of a file that passes checks 1 to 4, whatever the later ones say of it; otherwise there is no drawing.
    pub fn of_file(file: &[u8]) -> Option<Self> {
        let numbers = |bytes: &[u8]| -> Vec<u64> { bytes.chunks(8).map(|b| u64::from_le_bytes(b.try_into().unwrap())).collect() };
        let shorts = |bytes: &[u8]| -> Vec<u32> { bytes.chunks(2).map(|b| u32::from(b[0]) + 256 * u32::from(b[1])).collect() };
        let mut handed: Option<Handed> = None;
        let mut rest = file;
        while !rest.is_empty() {
            let length = u32_at(rest.get(..6)?, 0) as usize;
            let (kind, body) = ([rest[4], rest[5]], rest[6..].get(..length)?);
            rest = &rest[6 + length..];
            match (kind, &mut handed) {
                ([1, 0], None) if length == 10 => {
                    handed = Some(Handed {
                        width: u32_at(body, 0),
                        height: u32_at(body, 4),
                        pairing: body[8],
                        flags: body[9],
                        sizes: Vec::new(),
                        coordinates: Vec::new(),
                        segments: Vec::new(),
                        ends: Vec::new(),
                    });
                }
                ([2, 0], Some(h)) if length % 16 == 0 && h.segments.is_empty() => {
                    h.sizes.push((length / 16) as u32);
                    h.coordinates.extend(numbers(body));
                }
                ([3, 0], Some(h)) if length == 40 => {
                    h.segments.extend(shorts(&body[..8]));
                    h.ends.extend(numbers(&body[8..]));
                }
                _ => return None,
            }
        }
        handed.filter(|_| file.len() <= 65_536)
    }

    /// With a plain zero for each minus zero.
    pub fn cleaned(&self) -> Self {
        let plain = |numbers: &[u64]| numbers.iter().map(|&bits| if bits == 1 << 63 { 0 } else { bits }).collect();
        Handed { coordinates: plain(&self.coordinates), ends: plain(&self.ends), ..self.clone() }
    }

    /// In batch form: settings, the slices' lengths and the destination's, each u32; then the slices; all little-endian.
    pub fn batched(&self, destination: usize) -> Vec<u8> {
        let settings = [self.width, self.height, self.pairing.into(), self.flags.into()];
        let lengths = [self.sizes.len(), self.coordinates.len(), self.segments.len(), self.ends.len(), destination];
        let mut bytes: Vec<u8> = settings.into_iter().chain(lengths.map(|n| n as u32)).flat_map(u32::to_le_bytes).collect();
        bytes.extend(self.sizes.iter().flat_map(|n| n.to_le_bytes()));
        bytes.extend(self.coordinates.iter().flat_map(|n| n.to_le_bytes()));
        bytes.extend(self.segments.iter().flat_map(|n| n.to_le_bytes()));
        bytes.extend(self.ends.iter().flat_map(|n| n.to_le_bytes()));
        bytes
    }
}

/// The next drawing of a batch on standard input, and the bytes of its destination.
pub fn next_handed() -> Option<(Handed, usize)> {
    let mut input = std::io::stdin().lock();
    let mut head = [0; 36];
    match input.read(&mut head).expect("standard input") {
        0 => return None,
        count => input.read_exact(&mut head[count..]).expect("a whole head"),
    }
    let number = |i: usize| u32_at(&head, 4 * i);
    let mut slice = |i: usize, width: usize| {
        let mut bytes = vec![0; width * number(i) as usize];
        input.read_exact(&mut bytes).expect("a whole slice");
        bytes
    };
    let short = |bytes: Vec<u8>| bytes.chunks(4).map(|b| u32_at(b, 0)).collect();
    let long = |bytes: Vec<u8>| bytes.chunks(8).map(|b| u64::from_le_bytes(b.try_into().unwrap())).collect();
    let handed = Handed {
        width: number(0),
        height: number(1),
        pairing: u8::try_from(number(2)).expect("a byte"),
        flags: u8::try_from(number(3)).expect("a byte"),
        sizes: short(slice(4, 4)),
        coordinates: long(slice(5, 8)),
        segments: short(slice(6, 4)),
        ends: long(slice(7, 8)),
    };
    Some((handed, number(8) as usize))
}

/// One line for what a writer made of a drawing: `refused N` or `saved BYTES FILE`, and whether the destination's other
/// bytes, of which there are all after a refusal, are those that it had.
pub fn row(saved: Saved, before: &[u8], after: &[u8]) -> String {
    let (text, at) = match saved {
        Saved { refusal: 0, bytes } if bytes <= after.len() => (format!("saved {bytes} {}", hex(&after[..bytes])), bytes),
        Saved { refusal: 0, bytes } => (format!("saved {bytes}, more than there is room for"), 0),
        Saved { refusal, bytes: 0 } => (format!("refused {refusal}"), 0),
        Saved { refusal, bytes } => (format!("refused {refusal}, {bytes} bytes"), 0),
    };
    text + if before[at..] == after[at..] { " kept" } else { " changed" }
}

pub fn hex(bytes: &[u8]) -> String {
    bytes.iter().map(|byte| format!("{byte:02x}")).collect()
}

/// Reads a batch to its end, and prints a row for each drawing that this writer was handed. The destination is full of
/// bytes that no file which saved.txt has whole has at their places, so that a byte that was not written is seen.
pub fn print_rows(mut save: impl FnMut(&Handed, &mut [u8]) -> Saved) {
    while let Some((handed, room)) = next_handed() {
        let before: Vec<u8> = (0..room).map(|i| 0xa5 ^ (i % 83) as u8).collect();
        let mut after = before.clone();
        let saved = save(&handed, &mut after);
        println!("{}", row(saved, &before, &after));
    }
}
