//! A small builder of binary property lists, right and wrong ones, and the values at which programs go wrong.
//!
//! It is written from Apple's notes and document 01, as generator/bplist.py and generator/edges.py are.

use crate::random::Random;

pub const MAGIC: &[u8] = b"bplist00";
/// Of offsets and references.
pub const SIZES: [usize; 5] = [1, 2, 3, 4, 8];
pub const WIDTHS: [usize; 4] = [1, 2, 4, 8];

/// 0 to 2^64 - 1, with the neighbours of every power that counts.
pub fn numbers() -> Vec<u64> {
    let mut numbers = vec![0, 1, 2, 14, 15, 16, 32, u64::MAX - 1, u64::MAX];
    for power in [7, 8, 15, 16, 24, 31, 32, 63] {
        numbers.extend([-2i64, -1, 0, 1].map(|d| (1u64 << power).wrapping_add_signed(d)));
    }
    numbers
}

pub const REALS32: [u32; 14] = [
    0,
    0x8000_0000,
    1,
    0x007f_ffff,
    0x0080_0000,
    0x3f80_0000,
    0x3fc0_0000,
    0x7f7f_ffff,
    0x7f80_0000,
    0xff80_0000,
    0x7fc0_0000,
    0x7f80_0001,
    0xffbf_ffff,
    0xffff_ffff,
];

pub const REALS64: [u64; 10] = [
    0,
    1 << 63,
    1,
    0x3ff0_0000_0000_0000,
    0x4009_21fb_5444_2d18,
    0x7fef_ffff_ffff_ffff,
    0x7ff0_0000_0000_0000,
    0xfff0_0000_0000_0000,
    0x7ff0_0000_0000_0001,
    u64::MAX,
];

/// The bits of dates: each sign and exponent, those of infinities and NaNs too, with fractions at both ends and about the quiet bit.
pub fn every_date() -> impl Iterator<Item = u64> {
    let fractions = [0, 1, (1 << 51) - 1, 1 << 51, (1 << 52) - 1];
    (0..1 << 12).flat_map(move |high: u64| fractions.map(|fraction| high << 52 | fraction))
}

/// The same by chance, one in four at the greatest exponents.
pub fn date_bits(random: &mut Random) -> u64 {
    let bits = random.bits();
    match random.below(4) {
        0 => bits | 0x7fe0_0000_0000_0000,
        1 => random.of(&REALS64),
        _ => bits,
    }
}

/// The ends of every row of the Unicode Standard's table 3-7, and scalar values between them.
pub const SCALARS: [u32; 24] = [
    0x00, 0x41, 0x7f, 0x80, 0xe9, 0x7ff, 0x800, 0xfff, 0x1000, 0x6973, 0x706c, 0xcfff, 0xd000,
    0xd7ff, 0xe000, 0xfffd, 0xffff, 0x10000, 0x1f600, 0x3ffff, 0x40000, 0xfffff, 0x100000,
    0x10ffff,
];

/// First and second bytes about the limits of that table.
pub const LEADS: [u8; 22] = [
    0x00, 0x7f, 0x80, 0xbf, 0xc0, 0xc1, 0xc2, 0xdf, 0xe0, 0xe1, 0xec, 0xed, 0xee, 0xef, 0xf0, 0xf1,
    0xf3, 0xf4, 0xf5, 0xf7, 0xf8, 0xff,
];
pub const FOLLOWS: [u8; 12] = [
    0x00, 0x41, 0x7f, 0x80, 0x8f, 0x90, 0x9f, 0xa0, 0xbf, 0xc0, 0xc2, 0xff,
];

pub const UNITS: [u16; 18] = [
    0, 0x41, 0x7f, 0x80, 0x7ff, 0x800, 0xd7ff, 0xd800, 0xd801, 0xdbfe, 0xdbff, 0xdc00, 0xdc01,
    0xdffe, 0xdfff, 0xe000, 0xfffd, 0xffff,
];

/// Appends a big-endian number; too large a one loses its high bytes, as in a wrong file.
pub fn put_be(out: &mut Vec<u8>, number: u64, width: usize) {
    out.extend_from_slice(&number.to_be_bytes()[8 - width..]);
}

/// A marker with its length: inline below 15, unless a width asks for the long form.
pub fn head(kind: u8, length: u64, width: Option<usize>) -> Vec<u8> {
    if width.is_none() && length < 15 {
        return vec![kind << 4 | length as u8];
    }
    let least = WIDTHS
        .into_iter()
        .find(|w| *w == 8 || length >> (8 * w) == 0);
    let width = width.or(least).unwrap_or(8);
    let mut out = vec![kind << 4 | 15, 0x10 | width.trailing_zeros() as u8];
    put_be(&mut out, length, width);
    out
}

pub fn counted(kind: u8, content: &[u8], width: Option<usize>) -> Vec<u8> {
    let mut out = head(kind, content.len() as u64, width);
    out.extend_from_slice(content);
    out
}

pub fn text8(content: &[u8]) -> Vec<u8> {
    counted(5, content, None)
}

pub fn text16(units: &[u16]) -> Vec<u8> {
    let mut out = head(6, units.len() as u64, None);
    units.iter().for_each(|unit| out.extend(unit.to_be_bytes()));
    out
}

pub fn array(references: &[usize], ref_size: usize, width: Option<usize>) -> Vec<u8> {
    let mut out = head(10, references.len() as u64, width);
    references
        .iter()
        .for_each(|r| put_be(&mut out, *r as u64, ref_size));
    out
}

/// The first half of the references are keys; an odd one at the end is left out.
pub fn dictionary(references: &[usize], ref_size: usize, width: Option<usize>) -> Vec<u8> {
    let pairs = references.len() / 2;
    let mut out = head(13, pairs as u64, width);
    references[..2 * pairs]
        .iter()
        .for_each(|r| put_be(&mut out, *r as u64, ref_size));
    out
}

/// What stands in a trailer.
#[derive(Clone, Copy)]
pub struct Trailer {
    pub padding: [u8; 6],
    pub offset_size: u8,
    pub ref_size: u8,
    pub count: u64,
    pub root: u64,
    pub table: u64,
}

impl Trailer {
    pub fn put(&self, out: &mut Vec<u8>) {
        out.extend(self.padding);
        out.extend([self.offset_size, self.ref_size]);
        [self.count, self.root, self.table]
            .iter()
            .for_each(|n| put_be(out, *n, 8));
    }
}

/// The sizes of a file, the number of its root, and how many bytes stand between table and trailer.
#[derive(Clone, Copy)]
pub struct Shape {
    pub offset_size: usize,
    pub ref_size: usize,
    pub root: u64,
    pub gap: usize,
}

pub const PLAIN: Shape = Shape {
    offset_size: 1,
    ref_size: 1,
    root: 0,
    gap: 0,
};

/// A file of these objects in this order.
pub fn build(objects: &[Vec<u8>], shape: Shape) -> Vec<u8> {
    let mut out = MAGIC.to_vec();
    let mut offsets = Vec::new();
    for object in objects {
        offsets.push(out.len() as u64);
        out.extend_from_slice(object);
    }
    let table = out.len() as u64;
    // An offset that doesn't fit would make another file than the one meant.
    let offset_size = if table > 255 {
        shape.offset_size.max(2)
    } else {
        shape.offset_size
    };
    offsets
        .iter()
        .for_each(|offset| put_be(&mut out, *offset, offset_size));
    out.resize(out.len() + shape.gap, 0);
    let trailer = Trailer {
        padding: [0; 6],
        offset_size: offset_size as u8,
        ref_size: shape.ref_size as u8,
        count: objects.len() as u64,
        root: shape.root,
        table,
    };
    trailer.put(&mut out);
    out
}

/// A file whose table stands at 8, so that objects can touch or pass the trailer.
pub fn with_table_first(offsets: &[u64], body: &[u8], shape: Shape) -> Vec<u8> {
    let mut out = MAGIC.to_vec();
    offsets
        .iter()
        .for_each(|offset| put_be(&mut out, *offset, shape.offset_size));
    out.extend_from_slice(body);
    let trailer = Trailer {
        padding: [0; 6],
        offset_size: shape.offset_size as u8,
        ref_size: shape.ref_size as u8,
        count: offsets.len() as u64,
        root: shape.root,
        table: 8,
    };
    trailer.put(&mut out);
    out
}

/// A text of scalar values about the limits.
pub fn good_text(random: &mut Random, most: usize) -> String {
    (0..random.below(most + 1))
        .filter_map(|_| char::from_u32(random.of(&SCALARS)))
        .collect()
}

pub fn good_units(random: &mut Random, most: usize) -> Vec<u16> {
    good_text(random, most).encode_utf16().collect()
}

/// Bytes about the limits: whole characters, cut ones, and bytes that never fit.
pub fn edge_text(random: &mut Random) -> Vec<u8> {
    let mut bytes = Vec::new();
    for _ in 0..1 + random.below(4) {
        let whole = char::from_u32(random.of(&SCALARS))
            .unwrap_or('a')
            .to_string()
            .into_bytes();
        match random.below(8) {
            0..=3 => bytes.extend(whole),
            4 => bytes.extend(&whole[..1 + random.below(whole.len())]),
            5 => (0..random.below(12)).for_each(|_| bytes.push(random.of(b"az09 "))),
            _ => {
                bytes.push(random.of(&LEADS));
                (0..random.below(4)).for_each(|_| bytes.push(random.of(&FOLLOWS)));
            }
        }
    }
    bytes
}
