//! Where document 02 refuses an object and the crate doesn't, by the object's bytes alone. The crate's seeks tell which objects are reached.

use std::{
    cell::Cell,
    io::{self, Cursor, Read, Seek, SeekFrom},
};

/// The number with which an object below T is refused by a rule that document 02 adds, and that the crate doesn't have.
pub fn refusal(file: &[u8], offset: usize) -> Option<u8> {
    if odd_length(file, offset) {
        return Some(31);
    }
    (end(file, offset) > file.len() as u128 - 32).then_some(6)
}

/// #110: whether the object at an offset, which ends at or before T, is a date that is infinite or no number: 34. The crate refuses
/// these too, and dates that are too far off for its clock.
pub fn no_date(file: &[u8], offset: usize) -> bool {
    let bits = file[offset + 1..offset + 9].try_into();
    file[offset] == 0x33 && bits.is_ok_and(|bits| !f64::from_be_bytes(bits).is_finite())
}

/// #102: a length that stands behind a byte other than 10, 11, 12 and 13.
fn odd_length(file: &[u8], offset: usize) -> bool {
    let marker = file[offset];
    let with_length = matches!(marker >> 4, 0x4 | 0x5 | 0x6 | 0xa | 0xd);
    with_length && marker & 15 == 15 && !matches!(file[offset + 1], 0x10..=0x13)
}

/// #104: where an object truly ends, head and content.
fn end(file: &[u8], offset: usize) -> u128 {
    let marker = file[offset];
    let low = marker as u128 & 15;
    let reference = file[file.len() - 25] as u128;
    let behind = match marker {
        0x10..=0x14 => 1 << low,
        0x22 => 4,
        0x23 | 0x33 => 8,
        0x80..=0x87 => low + 1,
        0x40..=0x5f => content(file, offset, 1),
        0x60..=0x6f => content(file, offset, 2),
        0xa0..=0xaf => content(file, offset, reference),
        0xd0..=0xdf => content(file, offset, 2 * reference),
        _ => 0,
    };
    offset as u128 + 1 + behind
}

/// How many bytes a length and its elements have behind the marker.
fn content(file: &[u8], offset: usize, each: u128) -> u128 {
    let low = file[offset] as u128 & 15;
    if low != 15 {
        return low * each;
    }
    let width = 1 << (file[offset + 1] & 3);
    let length = &file[offset + 2..offset + 2 + width];
    let count = length.iter().fold(0, |sum, byte| sum << 8 | *byte as u128);
    1 + width as u128 + count * each
}

/// How often a reader has sought, and where last.
#[derive(Default)]
pub struct Seeks {
    pub count: Cell<u64>,
    pub last: Cell<u64>,
}

/// A file in memory that counts how often its reader seeks.
pub struct CountedSeeks<'a> {
    pub cursor: Cursor<&'a [u8]>,
    pub seeks: &'a Seeks,
}

impl Read for CountedSeeks<'_> {
    fn read(&mut self, buffer: &mut [u8]) -> io::Result<usize> {
        self.cursor.read(buffer)
    }
}

impl Seek for CountedSeeks<'_> {
    fn seek(&mut self, to: SeekFrom) -> io::Result<u64> {
        let place = self.cursor.seek(to)?;
        self.seeks.count.set(self.seeks.count.get() + 1);
        self.seeks.last.set(place);
        Ok(place)
    }
}

/// Which object a call sought. The trailer takes three seeks, an object one.
#[derive(Default)]
pub struct Sought {
    laid: bool,
}

impl Sought {
    /// The offset of the object that was sought in a call with so many seeks.
    pub fn object(&mut self, made: u64, seeks: &Seeks) -> Option<usize> {
        let reached = made == if self.laid { 1 } else { 4 };
        self.laid |= reached;
        reached.then(|| seeks.last.get() as usize)
    }
}
