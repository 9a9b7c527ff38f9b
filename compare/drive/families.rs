//! Families of files for the reader, each a function from a random generator to one file.
//!
//! They are those of generator/read_families.py, written for speed.

use crate::files::*;
use crate::random::Random;

/// What the families draw from: good files, and numbers about the limits.
pub struct Stock {
    pub samples: Vec<Vec<u8>>,
    pub numbers: Vec<u64>,
}

pub type Family = fn(&mut Random, &Stock) -> Vec<u8>;

pub const FAMILIES: [(&str, Family); 24] = [
    ("markers", markers),
    ("scalars", scalars),
    ("dates", dates),
    ("utf8", utf8),
    ("utf16", utf16),
    ("sizes", sizes),
    ("trailers", trailers),
    ("cuts", cuts),
    ("changes", changes),
    ("changes", changes),
    ("noise", noise),
    ("tree", tree),
    ("tree", tree),
    ("distinct", distinct),
    ("wrong-end", wrong_end),
    ("wrong-end", wrong_end),
    ("graphs", graphs),
    ("graphs", graphs),
    ("shared", shared),
    ("recursive", recursive),
    ("depth", depth),
    ("rooms", rooms),
    ("past-end", past_end),
    ("lengths", lengths_and_offsets),
];

// --- one object -----------------------------------------------------------------------------------

/// An object of any two bytes. As references, a filler of 1 points to `true`.
pub fn marker_file(marker: u8, following: u8, filler: &[u8]) -> Vec<u8> {
    let mut object = vec![marker, following];
    object.extend_from_slice(filler);
    build(&[object, vec![0x09]], PLAIN)
}

fn markers(random: &mut Random, _: &Stock) -> Vec<u8> {
    let filler = match random.below(3) {
        0 => vec![1; 18],
        1 => vec![0; 18],
        _ => random.bytes(18),
    };
    let marker = random.bits();
    marker_file(marker as u8, (marker >> 8) as u8, &filler)
}

/// One object that is no container, mostly a good one.
fn scalar(random: &mut Random, stock: &Stock) -> Vec<u8> {
    let number = random.of(&stock.numbers);
    match random.below(11) {
        0 => vec![random.of(&[8, 9])],
        pick @ 1..=5 => numeric(random, number, pick),
        6 => {
            let count = random.of(&[0, 1, 2, 7, 8, 9, 14, 15, 16, 20]);
            let width = random.of(&[None, None, None, Some(1), Some(2), Some(4), Some(8)]);
            counted(4, &random.bytes(count), width)
        }
        7 | 8 => text16(&good_units(random, 6)),
        _ => text8(good_text(random, 6).as_bytes()),
    }
}

/// An integer, a wide one, a real of either size, or a UID.
fn numeric(random: &mut Random, number: u64, pick: usize) -> Vec<u8> {
    let (marker, value, width) = match pick {
        1 => {
            let power = random.below(4);
            (0x10 | power as u8, number, 1 << power)
        }
        2 => (0x14, random.of(&[0, 0, 0, 1, 1 << 63, u64::MAX]), 8),
        3 => {
            let bits = random.bits() as u32;
            let edge = random.one_in(2);
            let value = if edge { random.of(&REALS32) } else { bits };
            (0x22, value.into(), 4)
        }
        4 => {
            let bits = random.bits();
            let edge = random.one_in(2);
            (0x23, if edge { random.of(&REALS64) } else { bits }, 8)
        }
        _ => {
            let width = 1 + random.below(8);
            (0x80 | (width - 1) as u8, number, width)
        }
    };
    let mut out = vec![marker];
    put_be(&mut out, value, width);
    if marker == 0x14 {
        put_be(&mut out, number, 8);
    }
    out
}

fn scalars(random: &mut Random, stock: &Stock) -> Vec<u8> {
    let gap = random.of(&[0, 0, 1, 8]);
    build(&[scalar(random, stock)], Shape { gap, ..PLAIN })
}

fn date(bits: u64) -> Vec<u8> {
    let mut object = vec![0x33];
    put_be(&mut object, bits, 8);
    object
}

/// One date.
pub fn date_file(bits: u64) -> Vec<u8> {
    build(&[date(bits)], PLAIN)
}

/// A date behind a scalar.
fn dates(random: &mut Random, stock: &Stock) -> Vec<u8> {
    let objects = [
        array(&[1, 2], 1, None),
        scalar(random, stock),
        date(date_bits(random)),
    ];
    build(&objects, PLAIN)
}

fn utf8(random: &mut Random, _: &Stock) -> Vec<u8> {
    build(&[text8(&edge_text(random))], PLAIN)
}

/// Units about the surrogates: pairs, lone ones, pairs the wrong way round.
fn utf16(random: &mut Random, _: &Stock) -> Vec<u8> {
    let mut units = Vec::new();
    for _ in 0..1 + random.below(6) {
        if random.one_in(2) {
            units.extend(good_units(random, 2));
        } else {
            units.push(random.of(&UNITS));
        }
    }
    build(&[text16(&units)], PLAIN)
}

// --- the trailer ----------------------------------------------------------------------------------

/// [true, "s"] in these sizes; sizes that no file has stand in the trailer alone.
pub fn sized_file(offset_size: u8, ref_size: u8) -> Vec<u8> {
    let real = |size: u8| {
        if SIZES.contains(&(size as usize)) {
            size as usize
        } else {
            1
        }
    };
    let shape = Shape {
        offset_size: real(offset_size),
        ref_size: real(ref_size),
        ..PLAIN
    };
    let objects = [
        array(&[1, 2], shape.ref_size, None),
        vec![0x09],
        text8(b"s"),
    ];
    let mut file = build(&objects, shape);
    let sizes = file.len() - 26;
    file[sizes] = offset_size;
    file[sizes + 1] = ref_size;
    file
}

fn sizes(random: &mut Random, _: &Stock) -> Vec<u8> {
    let mut any = || match random.one_in(2) {
        true => random.of(&SIZES) as u8,
        false => random.bits() as u8,
    };
    sized_file(any(), any())
}

/// Count, root and table offset about the file's own limits and about powers of two.
fn trailers(random: &mut Random, stock: &Stock) -> Vec<u8> {
    let (offset_size, ref_size) = (random.of(&SIZES), random.of(&SIZES));
    let shape = Shape {
        offset_size,
        ref_size,
        root: 0,
        gap: random.below(3),
    };
    let mut file = build(&[array(&[1], ref_size, None), vec![0x09]], shape);
    let limit = (file.len() - 32) as u64;
    let table = limit
        - 2 * offset_size as u64
        - if random.one_in(2) {
            shape.gap as u64
        } else {
            0
        };
    let mut near = |right: u64| match random.below(4) {
        0 => random.of(&stock.numbers),
        1 => {
            let about = random.of(&[limit, limit / offset_size as u64, right]);
            (about + random.below(5) as u64).saturating_sub(2)
        }
        _ => right,
    };
    let (count, root, table) = (near(2), near(0), near(table));
    let mut padding = [0; 6];
    if random.one_in(2) {
        padding.copy_from_slice(&random.bytes(6));
    }
    file.truncate(limit as usize);
    let (offset_size, ref_size) = (offset_size as u8, ref_size as u8);
    Trailer {
        padding,
        offset_size,
        ref_size,
        count,
        root,
        table,
    }
    .put(&mut file);
    file
}

// --- good files made worse ------------------------------------------------------------------------

/// A cut, or some bytes less or more with the trailer kept: T moves, and the table may no longer fit.
fn cuts(random: &mut Random, stock: &Stock) -> Vec<u8> {
    let mut file = stock.samples[random.below(stock.samples.len())].clone();
    let at = random.below(file.len().max(33) - 32).min(file.len());
    let end = (at + 1 + random.below(3)).min(file.len());
    match random.below(4) {
        0 => file.truncate(random.below(file.len() + 1)),
        1 | 2 => drop(file.drain(at..end)),
        _ => {
            let more = random.bytes(end - at);
            file.splice(at..at, more);
        }
    }
    file
}

fn changes(random: &mut Random, stock: &Stock) -> Vec<u8> {
    let mut file = stock.samples[random.below(stock.samples.len())].clone();
    if file.is_empty() {
        return file;
    }
    for _ in 0..random.of(&[1, 2, 2, 3, 4]) {
        let at = random.below(file.len());
        let other = random.below(file.len());
        match random.below(5) {
            0 => file[at] = random.of(&[0, 1, 0x80, 0xff]),
            1 => file[at] ^= 1 << random.below(8),
            2 => file[at] = file[at].wrapping_add(random.of(&[1, 0xff])),
            3 => file.swap(at, other),
            _ => file[at] = random.bits() as u8,
        }
    }
    file
}

/// Any bytes between a magic and a trailer that fits them.
fn noise(random: &mut Random, _: &Stock) -> Vec<u8> {
    let count = 1 + random.below(60);
    let mut file = MAGIC.to_vec();
    file.extend(random.bytes(count));
    let table = file.len() as u64;
    let entries = 1 + random.below(6);
    (0..entries).for_each(|_| file.push(8 + random.below(count) as u8));
    let root = random.below(entries) as u64;
    let trailer = Trailer {
        padding: [0; 6],
        offset_size: 1,
        ref_size: 1,
        count: entries as u64,
        root,
        table,
    };
    trailer.put(&mut file);
    file
}

// --- graphs of objects ----------------------------------------------------------------------------

fn graph_file(random: &mut Random, objects: &[Vec<u8>], ref_size: usize) -> Vec<u8> {
    let gap = random.of(&[0, 0, 0, 1, 9]);
    build(
        objects,
        Shape {
            offset_size: random.of(&SIZES),
            ref_size,
            root: 0,
            gap,
        },
    )
}

fn container(random: &mut Random, references: &[usize], ref_size: usize) -> Vec<u8> {
    let width = random.of(&[None, None, None, None, Some(1), Some(2), Some(4), Some(8)]);
    match random.one_in(2) {
        true => array(references, ref_size, width),
        false => dictionary(references, ref_size, width),
    }
}

/// Containers that refer to later objects alone: shared ones, but no recursion.
fn tree(random: &mut Random, stock: &Stock) -> Vec<u8> {
    let count = 2 + random.below(12);
    let ref_size = random.of(&SIZES);
    let mut objects = Vec::new();
    for index in 0..count {
        let later = count - index - 1;
        if later > 0 && (index == 0 || random.one_in(3)) {
            let references: Vec<usize> = (0..random.below(6))
                .map(|_| index + 1 + random.below(later))
                .collect();
            objects.push(container(random, &references, ref_size));
        } else {
            objects.push(scalar(random, stock));
        }
    }
    graph_file(random, &objects, ref_size)
}

/// A tree in which no object is reached twice, so that every place compares.
fn distinct(random: &mut Random, stock: &Stock) -> Vec<u8> {
    let ref_size = random.of(&SIZES);
    let mut objects = vec![Vec::new()];
    let mut waiting = vec![0];
    while let Some(index) = waiting.pop() {
        let fresh: Vec<usize> = (objects.len()..objects.len() + random.below(5)).collect();
        for each in &fresh {
            objects.push(scalar(random, stock));
            if *each < 14 && random.one_in(3) {
                waiting.push(*each);
            }
        }
        objects[index] = container(random, &fresh, ref_size);
    }
    graph_file(random, &objects, ref_size)
}

/// An array of good scalars, with one last object or reference that is refused.
fn wrong_end(random: &mut Random, stock: &Stock) -> Vec<u8> {
    let ref_size = random.of(&SIZES);
    let single = [
        0x00, 0x0f, 0x07, 0x15, 0x21, 0x34, 0x70, 0x88, 0x90, 0xb0, 0xc1, 0xe0, 0xff,
    ];
    let bad = match random.below(10) {
        0 => [&[0x14][..], &[1; 16]].concat(),
        1 => text8(&[random.of(&LEADS), random.of(&FOLLOWS)]),
        2 => text16(&[random.of(&UNITS)]),
        3 => head(
            random.of(&[4, 5, 6, 10, 13]),
            60 + random.below(250) as u64,
            None,
        ),
        4 => head(
            random.of(&[4, 5, 6, 10, 13]),
            random.of(&stock.numbers),
            Some(8),
        ),
        5 => array(&[0], ref_size, None),
        _ => vec![random.of(&single)],
    };
    let mut objects = vec![Vec::new()];
    (0..random.below(4)).for_each(|_| objects.push(scalar(random, stock)));
    objects.push(bad);
    let count = objects.len();
    let mut references: Vec<usize> = (1..count).collect();
    references.push(random.of(&[0, count, 255]));
    if random.one_in(3) {
        references.remove(count - 2);
    }
    objects[0] = array(&references, ref_size, None);
    graph_file(random, &objects, ref_size)
}

/// References to anything, recursion and all, and now and then past the count.
fn graphs(random: &mut Random, stock: &Stock) -> Vec<u8> {
    let count = 1 + random.below(8);
    let ref_size = random.of(&SIZES);
    let mut objects = Vec::new();
    for index in 0..count {
        if index == 0 || random.one_in(2) {
            let past = count + random.one_in(30) as usize;
            let references: Vec<usize> = (0..random.below(5)).map(|_| random.below(past)).collect();
            objects.push(container(random, &references, ref_size));
        } else {
            objects.push(scalar(random, stock));
        }
    }
    graph_file(random, &objects, ref_size)
}

/// Each container up to twice in the one above: the events double at every level.
fn shared(random: &mut Random, _: &Stock) -> Vec<u8> {
    let levels = 1 + random.below(7);
    let mut objects: Vec<Vec<u8>> = (0..levels)
        .map(|i| array(&vec![i + 1; random.of(&[1, 2, 2])], 1, None))
        .collect();
    objects.push(match random.below(3) {
        0 => array(&[], 1, None),
        1 => vec![0x09],
        _ => text8(b"longer than 8"),
    });
    build(&objects, PLAIN)
}

/// A chain of containers whose last refers to one of them.
fn recursive(random: &mut Random, _: &Stock) -> Vec<u8> {
    let levels = 1 + random.below(12);
    let mut objects = Vec::new();
    for index in 0..levels {
        let below = if index + 1 < levels {
            index + 1
        } else {
            random.below(levels)
        };
        objects.push(match random.below(3) {
            0 => array(&[below], 1, None),
            1 => dictionary(&[levels, below], 1, None),
            _ => array(&[levels, below], 1, None),
        });
    }
    objects.push(if random.one_in(2) {
        vec![0x09]
    } else {
        text8(b"key longer than 8")
    });
    build(&objects, PLAIN)
}

/// About 512 containers, or fewer, each inside the last; the last may refer back up.
fn depth(random: &mut Random, _: &Stock) -> Vec<u8> {
    let levels = match random.below(3) {
        0 => 508 + random.below(9),
        _ => 2 + random.below(68),
    };
    let mut objects = Vec::new();
    for index in 1..levels {
        objects.push(match random.below(3) {
            0 => dictionary(&[levels, index], 2, None),
            _ => array(&[index], 2, None),
        });
    }
    objects.push(match random.below(6) {
        0 => array(&[levels], 2, None),
        1 => array(&[random.below(levels)], 2, None),
        2 => array(&[levels - 1], 2, None),
        3 => head(10, 99, None),
        _ => array(&[], 2, None),
    });
    objects.push(text8(b"k"));
    build(
        &objects,
        Shape {
            offset_size: 2,
            ref_size: 2,
            ..PLAIN
        },
    )
}

// --- lengths and offsets --------------------------------------------------------------------------

/// One object whose content ends about T, whatever its head takes.
fn rooms(random: &mut Random, _: &Stock) -> Vec<u8> {
    let ref_size = random.of(&SIZES);
    let (kind, unit) = random.of(&[(4, 1), (5, 1), (6, 2), (10, ref_size), (13, ref_size)]);
    let runs = if kind == 13 && random.one_in(2) { 2 } else { 1 };
    let length = random.of(&[0, 1, 2, 3, 13, 14, 15, 16, 30]);
    let width = random.of(&[None, None, Some(1), Some(2), Some(4), Some(8)]);
    let room = (length * unit * runs + random.below(5)).saturating_sub(2);
    let mut body = head(kind, length as u64, width);
    body.resize(room.max(1), random.of(&[0, 1, 0x41]));
    with_table_first(&[9], &body, Shape { ref_size, ..PLAIN })
}

/// A dictionary whose keys fit and whose values end about T, the trailer's end or later.
fn past_end(random: &mut Random, _: &Stock) -> Vec<u8> {
    let ref_size = random.of(&SIZES);
    let pairs = (30 + random.below(30)) / ref_size + random.below(2);
    let width = random.of(&[None, None, Some(1), Some(2), Some(4), Some(8)]);
    let mut body = head(13, pairs as u64, width);
    let run = (pairs * ref_size) as isize;
    let more = random.of(&[-1, 0, 0, 0, 1, 2, 3, run - 32, run - 31, run - 33, run]);
    let room = ((run + more).max(0) as usize).max(body.len());
    body.resize(room, 0);
    let inside = random.one_in(2);
    let first = if inside {
        array(&[1], ref_size, None)
    } else {
        vec![0; 1 + random.below(4)]
    };
    let table = [10, 10 + first.len() as u64];
    let root = !inside as u64;
    with_table_first(
        &table,
        &[first, body].concat(),
        Shape {
            ref_size,
            root,
            ..PLAIN
        },
    )
}

fn lengths_and_offsets(random: &mut Random, stock: &Stock) -> Vec<u8> {
    match random.one_in(2) {
        true => lengths(random, stock),
        false => offsets(random, stock),
    }
}

/// A length about a power of two, in any form that holds it or loses its high bytes.
fn lengths(random: &mut Random, stock: &Stock) -> Vec<u8> {
    let kind: u8 = random.of(&[4, 5, 6, 10, 13]);
    let width = random.of(&[1, 2, 4, 8, 8]);
    let low = random.of(&[0x10, 0x00, 0x50, 0xfc]) | (width as usize).trailing_zeros() as u8;
    let mut body = vec![kind << 4 | 15, low];
    put_be(&mut body, random.of(&stock.numbers), width);
    body.resize(body.len() + random.below(40), 1);
    let (offset_size, ref_size) = (random.of(&SIZES), random.of(&SIZES));
    build(
        &[body, vec![0x09]],
        Shape {
            offset_size,
            ref_size,
            ..PLAIN
        },
    )
}

/// Table entries about T and about powers of two, the second reached through an array.
fn offsets(random: &mut Random, stock: &Stock) -> Vec<u8> {
    let offset_size = random.of(&SIZES);
    let body = [array(&[1, 2, 1], 1, None), vec![0x09]].concat();
    let start = (8 + 3 * offset_size) as u64;
    let limit = start + body.len() as u64;
    let mut entry = || match random.below(3) {
        0 => random.of(&stock.numbers),
        1 => limit + random.below(7) as u64 - 3,
        _ => start + 4,
    };
    let mut table = [entry(), entry(), entry()];
    if !random.one_in(4) {
        table[0] = start;
    }
    with_table_first(
        &table,
        &body,
        Shape {
            offset_size,
            ..PLAIN
        },
    )
}
