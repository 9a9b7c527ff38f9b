//! Families of event tapes for the writer, each a function from a random generator to one tape.
//!
//! They are those of generator/write_families.py, written for speed.

use crate::files::{date_bits, edge_text, every_date, good_text, REALS64};
use crate::random::Random;
use crate::tapes::*;

/// What the families draw from: tapes at hand, and numbers about the limits.
pub struct Stock {
    pub samples: Vec<Vec<u8>>,
    pub numbers: Vec<u64>,
}

/// Appends a tape to an empty vector.
pub type Family = fn(&mut Random, &Stock, &mut Vec<u8>);

pub const FAMILIES: [(&str, Family); 18] = [
    ("trees", trees),
    ("trees", trees),
    ("scalars", scalar),
    ("integers", integers),
    ("lengths", lengths),
    ("texts", texts),
    ("keys", keys),
    ("numbering", numbering),
    ("depth", depth),
    ("unexpected", unexpected),
    ("bad", bad),
    ("trailing", trailing),
    ("incomplete", incomplete),
    ("mutated", mutated),
    ("cut", cut),
    ("dates", dates),
    ("changes", changes),
    ("noise", noise),
];

// --- good tapes -----------------------------------------------------------------------------------

const WORDS: [&str; 5] = ["a", "b", "ab", "key", ""];

fn text(random: &mut Random, tape: &mut Vec<u8>) {
    match random.below(WORDS.len() + 1) {
        0 => put_text(tape, &good_text(random, 4)),
        word => put_text(tape, WORDS[word - 1]),
    }
}

/// Any integer about the limits; a negative one where there is one.
fn integer(random: &mut Random, stock: &Stock, tape: &mut Vec<u8>) {
    let number = random.of(&stock.numbers);
    let negative = number >> 63 == 0 && random.one_in(2);
    put(tape, if negative { NEGATIVE } else { INTEGER }, number);
}

/// One scalar from a small choice, so that equal ones meet, in equal and other kinds.
fn scalar(random: &mut Random, stock: &Stock, tape: &mut Vec<u8>) {
    match random.below(8) {
        0 => tape.push(random.of(&[FALSE, TRUE])),
        1 => match random.below(5) {
            0 => put(tape, NEGATIVE, 0),
            1 => integer(random, stock, tape),
            _ => put(tape, INTEGER, random.of(&[0, 1, 97])),
        },
        2 => {
            let bits = random.of(&REALS64);
            put_bits(tape, REAL, random.of(&[0, 1 << 63, bits]));
        }
        3 => {
            let number = random.of(&stock.numbers);
            put(tape, UID, random.of(&[0, 1, number]));
        }
        4 => match random.below(WORDS.len()) {
            0 => {
                let count = random.below(20);
                put_bytes(tape, DATA, &random.bytes(count));
            }
            word => put_bytes(tape, DATA, WORDS[word].as_bytes()),
        },
        _ => text(random, tape),
    }
}

/// No length, the right one, or any.
fn length(random: &mut Random, stock: &Stock, right: usize) -> Option<u64> {
    match random.below(5) {
        0 | 1 => None,
        2 | 3 => Some(right as u64),
        _ => Some(random.of(&stock.numbers)),
    }
}

fn value(random: &mut Random, stock: &Stock, tape: &mut Vec<u8>, levels: usize) {
    if levels == 0 || random.one_in(3) {
        return scalar(random, stock, tape);
    }
    let count = random.of(&[0, 1, 2, 3, 4, 6]);
    let kind = random.of(&[ARRAY, DICTIONARY]);
    put_start(tape, kind, length(random, stock, count));
    for _ in 0..count {
        if kind == DICTIONARY {
            text(random, tape);
        }
        value(random, stock, tape, levels - 1);
    }
    tape.push(END);
}

fn trees(random: &mut Random, stock: &Stock, tape: &mut Vec<u8>) {
    let levels = 1 + random.below(4);
    value(random, stock, tape, levels);
}

/// All the limits, alone or many together.
fn integers(random: &mut Random, stock: &Stock, tape: &mut Vec<u8>) {
    let alone = random.one_in(2);
    let count = if alone { 1 } else { 1 + random.below(11) };
    if !alone {
        tape.push(ARRAY);
    }
    for _ in 0..count {
        match random.below(2) {
            0 => integer(random, stock, tape),
            _ => put(tape, UID, random.of(&stock.numbers)),
        }
    }
    if !alone {
        tape.push(END);
    }
}

/// Lengths at which a head or the size of a reference or an offset changes; long ones are rare.
fn lengths(random: &mut Random, _: &Stock, tape: &mut Vec<u8>) {
    let long = random.one_in(1000);
    let count = match random.below(6) {
        _ if long => random.of(&[65_484, 65_485, 65_535, 65_536]),
        0 => random.of(&[242, 243, 244, 245, 254, 255, 256, 257]),
        _ => random.of(&[0, 1, 13, 14, 15, 16, 17]),
    };
    match random.below(5) {
        0 => put_bytes(tape, DATA, &vec![random.bits() as u8; count]),
        1 => put_text(tape, &"t".repeat(count)),
        2 => put_text(tape, &"\u{e9}".repeat(count)),
        3 => {
            // Of many members those that differ are containers: these are never sought.
            let distinct = random.of(&[1, 2, count.max(1)]);
            tape.push(ARRAY);
            for i in 0..count {
                if long && distinct > 2 {
                    tape.extend([ARRAY, END]);
                } else {
                    put(tape, INTEGER, (i % distinct) as u64);
                }
            }
            tape.push(END);
        }
        _ => {
            tape.push(DICTIONARY);
            for i in 0..count.min(300) {
                put_text(tape, &format!("k{i}"));
                put(tape, INTEGER, i as u64 % 3);
            }
            tape.push(END);
        }
    }
}

fn texts(random: &mut Random, _: &Stock, tape: &mut Vec<u8>) {
    let count = 1 + random.below(5);
    if count == 1 {
        return put_text(tape, &good_text(random, 9));
    }
    tape.push(ARRAY);
    (0..count).for_each(|_| put_text(tape, &good_text(random, 9)));
    tape.push(END);
}

/// Dictionaries whose keys come again as keys and as values.
fn keys(random: &mut Random, _: &Stock, tape: &mut Vec<u8>) {
    let names: Vec<String> = (0..3).map(|_| good_text(random, 2)).collect();
    let name = |random: &mut Random, tape: &mut Vec<u8>| put_text(tape, &names[random.below(3)]);
    tape.push(DICTIONARY);
    for _ in 0..1 + random.below(6) {
        name(random, tape);
        match random.below(5) {
            0 => {
                tape.push(DICTIONARY);
                name(random, tape);
                name(random, tape);
                tape.push(END);
            }
            1 => {
                tape.push(ARRAY);
                name(random, tape);
                tape.push(END);
            }
            _ => name(random, tape),
        }
    }
    tape.push(END);
}

/// Nested containers of scalars that all differ, so that every number shows.
fn numbering(random: &mut Random, _: &Stock, tape: &mut Vec<u8>) {
    fn part(random: &mut Random, tape: &mut Vec<u8>, levels: usize, counter: &mut u64) {
        *counter += 1;
        if levels == 0 || random.one_in(3) {
            return put(tape, INTEGER, *counter);
        }
        let kind = random.of(&[ARRAY, DICTIONARY]);
        tape.push(kind);
        for _ in 0..random.below(4) {
            if kind == DICTIONARY {
                *counter += 1;
                put_text(tape, &format!("k{counter}"));
            }
            part(random, tape, levels - 1, counter);
        }
        tape.push(END);
    }
    part(random, tape, 4, &mut 0);
}

/// About 512 containers, or fewer, each inside the last; now and then one more where a key is due.
fn depth(random: &mut Random, _: &Stock, tape: &mut Vec<u8>) {
    let levels = match random.below(3) {
        0 => 509 + random.below(7),
        _ => 2 + random.below(68),
    };
    let lone = random.below(4 * levels);
    for level in 0..levels {
        match random.below(8) {
            _ if level == lone => tape.push(DICTIONARY),
            0 => {
                tape.push(DICTIONARY);
                put_text(tape, "k");
            }
            _ => tape.push(ARRAY),
        }
    }
    match random.below(4) {
        0 => tape.push(TRUE),
        1 => text(random, tape),
        _ => (),
    }
    tape.resize(tape.len() + levels, END);
}

// --- refused tapes --------------------------------------------------------------------------------

/// 21, after some good events and at some depth.
fn unexpected(random: &mut Random, stock: &Stock, tape: &mut Vec<u8>) {
    let opened = random.below(4);
    tape.resize(opened, ARRAY);
    if opened > 0 {
        (0..random.below(4)).for_each(|_| value(random, stock, tape, 1));
    } else if random.one_in(4) {
        return tape.push(END);
    }
    tape.push(DICTIONARY);
    match random.below(4) {
        0 => no_key(random, tape),
        1 => {
            text(random, tape);
            tape.push(END);
        }
        2 => {
            text(random, tape);
            scalar(random, stock, tape);
            text(random, tape);
            tape.push(END);
        }
        _ => {
            text(random, tape);
            tape.extend([ARRAY, END]);
            no_key(random, tape);
        }
    }
    tape.resize(tape.len() + opened, END);
}

/// An event that is no key.
fn no_key(random: &mut Random, tape: &mut Vec<u8>) {
    match random.below(10) {
        0 => put(tape, INTEGER, 3),
        1 => put(tape, NEGATIVE, 2),
        2 => put_bits(tape, REAL, 0),
        3 => put(tape, UID, 9),
        4 => put_bytes(tape, DATA, b"a"),
        5 => put_start(tape, ARRAY, Some(2)),
        6 => put_bits(tape, DATE, 0),
        _ => tape.push(random.of(&[FALSE, TRUE, ARRAY, DICTIONARY])),
    }
}

const BAD_NUMBERS: [&[u8]; 10] = [
    b"",
    b"\x80",
    b"\x80\x00",
    b"\x81\x00",
    b"\xff\x80\x00",
    b"\xff\xff\xff\xff\xff\xff\xff\xff\xff\x02",
    b"\x80\x80\x80\x80\x80\x80\x80\x80\x80\x80\x01",
    b"\xff\xff\xff\xff\xff\xff\xff\xff\xff\xff",
    b"\x80\x80\x80\x80\x80\x80\x80\x80\x80\x00",
    b"\xff\xff\xff\xff\xff\xff\xff\xff\xff",
];

/// 20, after some good events: bytes that are not one whole event.
fn bad(random: &mut Random, stock: &Stock, tape: &mut Vec<u8>) {
    let opened = random.below(3);
    tape.resize(opened, ARRAY);
    if opened > 0 {
        (0..random.below(3)).for_each(|_| value(random, stock, tape, 1));
    }
    match random.below(6) {
        0 => tape.push(random.of(&[0x00, 0x0f, 0x10, 0x7f, 0x80, 0xff])),
        1 => {
            let numbered = [INTEGER, NEGATIVE, UID, DATA, TEXT, ARRAY_OF, DICTIONARY_OF];
            tape.push(random.of(&numbered));
            tape.extend_from_slice(random.of(&BAD_NUMBERS));
        }
        2 => put(tape, NEGATIVE, random.of(&[1 << 63, u64::MAX])),
        3 => {
            tape.push(random.of(&[REAL, DATE]));
            let count = random.below(8);
            tape.extend(random.bytes(count));
        }
        4 => {
            put(tape, random.of(&[DATA, TEXT]), random.of(&stock.numbers));
            tape.extend(b"abc");
        }
        _ => put_bytes(tape, TEXT, &edge_text(random)),
    }
}

fn trailing(random: &mut Random, stock: &Stock, tape: &mut Vec<u8>) {
    value(random, stock, tape, 2);
    tape.push(random.of(&[TRUE, END, 0x00, 0xff, ARRAY, TEXT]));
}

fn incomplete(random: &mut Random, stock: &Stock, tape: &mut Vec<u8>) {
    tape.push(ARRAY);
    value(random, stock, tape, 2);
    tape.push(DICTIONARY);
    text(random, tape);
    value(random, stock, tape, 1);
    tape.extend([END, END]);
    tape.truncate(tape.len() - 1 - random.below(3));
}

fn mutated(random: &mut Random, stock: &Stock, tape: &mut Vec<u8>) {
    value(random, stock, tape, 3);
    for _ in 0..random.of(&[1, 1, 2]) {
        let at = random.below(tape.len());
        match random.below(3) {
            0 => {
                let any = random.bits() as u8;
                tape[at] = random.of(&[0, FALSE, END, ARRAY, DICTIONARY, 0x80, 0xff, any]);
            }
            1 => tape.insert(at, random.of(&[END, ARRAY, DICTIONARY, FALSE, 0x80, TEXT])),
            _ if tape.len() > 1 => drop(tape.remove(at)),
            _ => (),
        }
    }
}

fn cut(random: &mut Random, stock: &Stock, tape: &mut Vec<u8>) {
    value(random, stock, tape, 3);
    tape.truncate(random.below(tape.len()));
}

/// Dates, some of them equal, some with the bits of a real.
fn dates(random: &mut Random, stock: &Stock, tape: &mut Vec<u8>) {
    match random.below(4) {
        0 => put_bits(tape, DATE, date_bits(random)),
        1 => {
            tape.push(DICTIONARY);
            put_bits(tape, DATE, date_bits(random));
        }
        _ => {
            tape.push(ARRAY);
            for _ in 0..1 + random.below(6) {
                match random.below(3) {
                    0 => value(random, stock, tape, 1),
                    1 => put_bits(tape, REAL, random.of(&REALS64)),
                    _ => (),
                }
                put_bits(tape, DATE, date_bits(random));
            }
            tape.push(END);
        }
    }
}

/// Tapes at hand with some bytes changed.
fn changes(random: &mut Random, stock: &Stock, tape: &mut Vec<u8>) {
    tape.extend_from_slice(&stock.samples[random.below(stock.samples.len())]);
    if tape.is_empty() {
        return;
    }
    for _ in 0..random.of(&[1, 2, 2, 3, 4]) {
        let at = random.below(tape.len());
        let other = random.below(tape.len());
        match random.below(5) {
            0 => tape[at] = random.of(&[0, 1, 0x80, 0xff]),
            1 => tape[at] ^= 1 << random.below(8),
            2 => tape[at] = tape[at].wrapping_add(random.of(&[1, 0xff])),
            3 => tape.swap(at, other),
            _ => tape[at] = 1 + random.below(14) as u8,
        }
    }
}

/// Kinds in any order, with small numbers among them.
fn noise(random: &mut Random, _: &Stock, tape: &mut Vec<u8>) {
    tape.push(random.of(&[ARRAY, DICTIONARY]));
    for _ in 0..random.below(24) {
        tape.push(match random.below(4) {
            0 => END,
            1 => random.below(3) as u8,
            _ => 1 + random.below(14) as u8,
        });
    }
}

// --- whole lists ----------------------------------------------------------------------------------

/// Every integer and UID about the limits, and every real there, each alone.
pub fn every_number(stock: &Stock) -> Vec<Vec<u8>> {
    let mut tapes = Vec::new();
    for number in &stock.numbers {
        for kind in [INTEGER, NEGATIVE, UID] {
            let mut tape = Vec::new();
            put(&mut tape, kind, *number);
            tapes.push(tape);
        }
    }
    for bits in REALS64 {
        let mut tape = Vec::new();
        put_bits(&mut tape, REAL, bits);
        tapes.push(tape);
    }
    tapes
}

/// Dates of every sign and exponent, each alone.
pub fn every_dated() -> Vec<Vec<u8>> {
    let dated = |bits| {
        let mut tape = Vec::new();
        put_bits(&mut tape, DATE, bits);
        tape
    };
    every_date().map(dated).collect()
}

/// Every two first bytes; every kind with a zero where a key is due, and with eight zeros in an array.
pub fn every_kind() -> Vec<Vec<u8>> {
    let mut tapes = Vec::new();
    for first in 0..=255 {
        tapes.push(vec![first]);
        tapes.push(vec![DICTIONARY, first, 0]);
        tapes.push([&[ARRAY, first][..], &[0; 8], &[END]].concat());
        (0..=255).for_each(|second| tapes.push(vec![first, second]));
    }
    tapes
}
