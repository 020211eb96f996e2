//! The drawing file and its refusals, in the order of document 01 and of change request 1: 1 to 6, 15, 7, 8. Each check
//! covers the whole file before the next one starts. A minus zero is read as a plain one, as change request 3 says.

/// What a file that passes these checks says.
pub struct Drawing {
    pub width: u32,
    pub height: u32,
    pub optimal: bool,
    pub close: bool,
    pub inside: bool,
    /// The planner is to make the links, and there are none in the file.
    pub link: bool,
    pub lines: Vec<Vec<(f64, f64)>>,
    pub links: Vec<Link>,
}

pub struct Link {
    pub line_a: usize,
    pub segment_a: usize,
    pub line_b: usize,
    pub segment_b: usize,
    pub a: (f64, f64),
    pub b: (f64, f64),
}

struct Record<'a> {
    kind: u16,
    body: &'a [u8],
}

/// The drawing as the file has it, or the number of the first refusal.
pub fn read(file: &[u8]) -> Result<Drawing, u32> {
    if file.len() > 65_536 {
        return Err(1);
    }

    let mut records = Vec::new();
    let mut rest = file;
    while !rest.is_empty() {
        if rest.len() < 6 {
            return Err(2);
        }
        let length = u32_at(rest, 0) as usize;
        let kind = u16_at(rest, 4);
        rest = &rest[6..];
        if length > rest.len() {
            return Err(2);
        }
        records.push(Record { kind, body: &rest[..length] });
        rest = &rest[length..];
    }

    let kinds_in_order = records.is_sorted_by_key(|r| r.kind);
    let kinds_known = records.iter().all(|r| matches!(r.kind, 1..=3));
    let settings_count = records.iter().filter(|r| r.kind == 1).count();
    if !kinds_in_order || !kinds_known || settings_count != 1 {
        return Err(3);
    }

    let right_length = |r: &Record| match r.kind {
        1 => r.body.len() == 10,
        2 => r.body.len() % 16 == 0,
        _ => r.body.len() == 40,
    };
    if !records.iter().all(right_length) {
        return Err(4);
    }

    let settings = records[0].body;
    let (width, height) = (u32_at(settings, 0), u32_at(settings, 4));
    let (pairing, flags) = (settings[8], settings[9]);
    let (close, inside, link) = (flags & 1 != 0, flags & 2 != 0, flags & 4 != 0);
    if width > 8192 || height > 8192 || pairing > 1 || flags > 7 {
        return Err(5);
    }

    let line_bodies: Vec<&[u8]> = records.iter().filter(|r| r.kind == 2).map(|r| r.body).collect();
    let link_bodies: Vec<&[u8]> = records.iter().filter(|r| r.kind == 3).map(|r| r.body).collect();
    let points_in_all: usize = line_bodies.iter().map(|b| b.len() / 16).sum();
    if line_bodies.len() > 256 || points_in_all > 1024 || link_bodies.len() > 255 {
        return Err(6);
    }

    if link && !link_bodies.is_empty() {
        return Err(15);
    }

    let lines: Vec<Vec<(f64, f64)>> =
        line_bodies.iter().map(|b| b.chunks(16).map(|p| point_at(p, 0)).collect()).collect();
    let links: Vec<Link> = link_bodies
        .iter()
        .map(|b| Link {
            line_a: u16_at(b, 0) as usize,
            segment_a: u16_at(b, 2) as usize,
            line_b: u16_at(b, 4) as usize,
            segment_b: u16_at(b, 6) as usize,
            a: point_at(b, 8),
            b: point_at(b, 24),
        })
        .collect();
    let ends = links.iter().flat_map(|l| [l.a, l.b]);
    if !lines.iter().flatten().copied().chain(ends).all(|(x, y)| on_grid(x) && on_grid(y)) {
        return Err(7);
    }

    let names_segment = |line: usize, segment: usize| {
        lines.get(line).is_some_and(|l| !l.is_empty() && segment <= l.len().saturating_sub(2))
    };
    if !links.iter().all(|l| names_segment(l.line_a, l.segment_a) && names_segment(l.line_b, l.segment_b)) {
        return Err(8);
    }

    Ok(Drawing { width, height, optimal: pairing == 1, close, inside, link, lines, links })
}

/// A whole multiple of 1/1024 from -4,096 to 4,096. NaN fails every test.
fn on_grid(x: f64) -> bool {
    (-4096.0..=4096.0).contains(&x) && (x * 1024.0).fract() == 0.0
}

fn point_at(bytes: &[u8], at: usize) -> (f64, f64) {
    (coordinate(bytes, at), coordinate(bytes, at + 8))
}

/// Every coordinate is read here, and from here on there is only the plain zero. The published functions keep the two zeros as
/// two nodes, and with oracle/build --as-signed they are handed both.
fn coordinate(bytes: &[u8], at: usize) -> f64 {
    let read = f64::from_le_bytes(bytes[at..at + 8].try_into().unwrap());
    if read == 0.0 && !cfg!(as_signed) { 0.0 } else { read }
}

pub fn u32_at(bytes: &[u8], at: usize) -> u32 {
    u32::from_le_bytes(bytes[at..at + 4].try_into().unwrap())
}

fn u16_at(bytes: &[u8], at: usize) -> u16 {
    u16::from_le_bytes(bytes[at..at + 2].try_into().unwrap())
}
