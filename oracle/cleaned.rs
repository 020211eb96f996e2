//! The cleaned drawing of change request 3: the file with a plain zero for each minus zero, made on its bytes. reader.rs and writer.rs
//! have their own ways to a plain zero, and are held against this one.

/// The bytes of a coordinate that is minus zero: the sign is the highest bit of the last byte.
const MINUS_ZERO: [u8; 8] = [0, 0, 0, 0, 0, 0, 0, 0x80];

/// A file whose records are not whole has no coordinates, and comes out as it is.
pub fn file(bytes: &[u8]) -> Vec<u8> {
    let mut copy = bytes.to_vec();
    for at in coordinates(bytes).unwrap_or_default() {
        if copy[at..at + 8] == MINUS_ZERO {
            copy[at + 7] = 0;
        }
    }
    copy
}

/// Whether none of these coordinates is minus zero.
pub fn is_plain(coordinates: &[u8]) -> bool {
    coordinates.chunks(8).all(|bytes| bytes != MINUS_ZERO)
}

/// Where the coordinates begin: all of a line is coordinates, and of a link all behind its four numbers of two bytes.
fn coordinates(bytes: &[u8]) -> Option<Vec<usize>> {
    let (mut places, mut at) = (Vec::new(), 0);
    while at < bytes.len() {
        let head = bytes.get(at..at + 6)?;
        let length = u32::from_le_bytes(head[..4].try_into().unwrap()) as usize;
        let body = at + 6;
        bytes.get(body..body + length)?;
        match (&head[4..], length) {
            ([2, 0], _) if length % 16 == 0 => places.extend((body..body + length).step_by(8)),
            ([3, 0], 40) => places.extend((body + 8..body + 40).step_by(8)),
            _ => (),
        }
        at = body + length;
    }
    Some(places)
}
