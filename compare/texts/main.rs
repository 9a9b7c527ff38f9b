//! Compares the proved checks and changes of text with Rust's standard library, in one process.

mod judge;
mod library;
mod random;

use std::{env, process::ExitCode, time::Instant};

use judge::Judge;
use random::Random;

const USAGE: &str = "usage: texts [--seed N] [--count N]";

/// The bytes at and about each limit of table 3-7.
const BYTES: [u8; 26] = [
    0x00, 0x01, 0x41, 0x7e, 0x7f, 0x80, 0x81, 0x8f, 0x90, 0x9f, 0xa0, 0xbf, 0xc0, 0xc1, 0xc2, 0xdf,
    0xe0, 0xe1, 0xec, 0xed, 0xef, 0xf0, 0xf3, 0xf4, 0xf5, 0xff,
];

/// The units at and about each limit of UTF-8's widths and of the surrogates.
const UNITS: [u16; 22] = [
    0x0000, 0x0001, 0x0041, 0x007f, 0x0080, 0x07ff, 0x0800, 0x0fff, 0x1000, 0xd7ff, 0xd800, 0xd801,
    0xdbfe, 0xdbff, 0xdc00, 0xdc01, 0xdffe, 0xdfff, 0xe000, 0xfeff, 0xfffe, 0xffff,
];

struct Options {
    seed: u64,
    count: u64,
}

fn main() -> ExitCode {
    let Some(options) = options() else {
        eprintln!("{USAGE}");
        return ExitCode::from(2);
    };
    let started = Instant::now();
    let groups: [(&str, fn(&mut Judge, &Options)); 10] = [
        ("bytes, 0 to 3, all", short_bytes),
        ("bytes, 4, a first one and three later ones", later_bytes),
        ("bytes, 4 and 5, about the limits", limit_bytes),
        ("ASCII with a byte in its midst", ascii_runs),
        ("ASCII about the lengths of its steps", ascii_steps),
        ("units, 0 and 1, all, and odd bytes", short_units),
        ("units, 2, a surrogate first, all", surrogate_pairs),
        ("units, 2 to 4, about the limits", limit_units),
        ("random texts, both ways", random_texts),
        ("random texts, damaged", damaged_texts),
    ];
    let mut total = Judge::default();
    for (name, group) in groups {
        let mut judge = Judge::default();
        group(&mut judge, &options);
        println!("{name}: {judge}");
        total.inputs += judge.inputs;
        total.texts += judge.texts;
        total.differences += judge.differences;
    }
    let seconds = started.elapsed().as_secs();
    println!("all: {total}, {seconds} s");
    ExitCode::from(u8::from(0 < total.differences))
}

fn options() -> Option<Options> {
    let mut options = Options {
        seed: 1,
        count: 20_000,
    };
    let mut words = env::args().skip(1);
    while let Some(word) = words.next() {
        match word.as_str() {
            "--seed" => options.seed = words.next()?.parse().ok()?,
            "--count" => options.count = words.next()?.parse().ok()?,
            _ => return None,
        }
    }
    Some(options)
}

// --- bytes ------------------------------------------------------------------------------------

fn short_bytes(judge: &mut Judge, _: &Options) {
    judge.utf8(&[]);
    for bytes in 0..1u32 << 24 {
        let [_, a, b, c] = bytes.to_be_bytes();
        if bytes < 1 << 8 {
            judge.utf8(&[c]);
        }
        if bytes < 1 << 16 {
            judge.utf8(&[b, c]);
        }
        judge.utf8(&[a, b, c]);
    }
}

/// Every sequence of four bytes that is text stands among these.
fn later_bytes(judge: &mut Judge, _: &Options) {
    let later = 0x7f..=0xc0u8;
    for first in 0xef..=0xf5 {
        for second in later.clone() {
            for third in later.clone() {
                for fourth in later.clone() {
                    judge.utf8(&[first, second, third, fourth]);
                }
            }
        }
    }
}

fn limit_bytes(judge: &mut Judge, _: &Options) {
    each(&BYTES, 4, &mut |bytes| judge.utf8(bytes));
    each(&BYTES, 5, &mut |bytes| judge.utf8(bytes));
}

/// Runs of every length to 40, with any byte, or a longer sequence, at every place.
fn ascii_runs(judge: &mut Judge, _: &Options) {
    let longer = ["\u{e9}", "\u{706c}", "\u{1f600}"];
    for length in 0..=40 {
        let run: Vec<u8> = (0..length).map(|at| at * 3 % 0x80).collect();
        judge.utf8(&run);
        for at in 0..run.len() {
            let mut changed = run.clone();
            for byte in 0..=0xff {
                changed[at] = byte;
                judge.utf8(&changed);
            }
            for text in longer {
                judge.utf8(&[&run[..at], text.as_bytes(), &run[at..]].concat());
            }
        }
    }
}

/// Runs about one, two and three steps of 128 bytes, with a byte about a limit or a longer sequence at every place; the longer sequence
/// also once more some bytes behind itself, so that the run between the two has every length about the steps of eight.
fn ascii_steps(judge: &mut Judge, _: &Options) {
    let accent = "\u{e9}".as_bytes();
    for length in [126..=138, 254..=266, 383..=393].into_iter().flatten() {
        let run: Vec<u8> = (0..length).map(|at| (at * 5 % 0x80) as u8).collect();
        judge.utf8(&run);
        for at in 0..run.len() {
            let mut changed = run.clone();
            for byte in BYTES {
                changed[at] = byte;
                judge.utf8(&changed);
            }
            let one = [&run[..at], accent, &run[at..]].concat();
            judge.utf8(&one);
            for behind in (at + 2..one.len().min(at + 50)).chain([one.len()]) {
                judge.utf8(&[&one[..behind], accent, &one[behind..]].concat());
            }
        }
    }
}

// --- units ------------------------------------------------------------------------------------

fn short_units(judge: &mut Judge, _: &Options) {
    judge.utf16(&[]);
    for byte in 0..=0xff {
        judge.utf16(&[byte]);
    }
    for unit in 0..=0xffffu16 {
        let [a, b] = unit.to_be_bytes();
        judge.utf16(&[a, b]);
        judge.utf16(&[a, b, b]);
    }
}

/// A unit that is no surrogate says nothing of the next, so these stand for every pair.
fn surrogate_pairs(judge: &mut Judge, _: &Options) {
    for first in 0xd800..=0xdfffu16 {
        for second in 0..=0xffffu16 {
            let ([a, b], [c, d]) = (first.to_be_bytes(), second.to_be_bytes());
            judge.utf16(&[a, b, c, d]);
        }
    }
}

fn limit_units(judge: &mut Judge, _: &Options) {
    for length in 2..=4 {
        each(&UNITS, length, &mut |units| {
            let bytes = big_endian(units);
            judge.utf16(&bytes);
            judge.utf16(&bytes[..bytes.len() - 1]);
        });
    }
}

// --- longer texts -----------------------------------------------------------------------------

fn random_texts(judge: &mut Judge, options: &Options) {
    let mut random = Random::new(options.seed);
    for _ in 0..options.count {
        let text = random.text(3000);
        let units: Vec<u16> = text.encode_utf16().collect();
        judge.utf8(text.as_bytes());
        judge.utf16(&big_endian(&units));
        judge.round_trip(&text);
    }
}

fn damaged_texts(judge: &mut Judge, options: &Options) {
    let mut random = Random::new(!options.seed);
    for _ in 0..options.count {
        let text = random.text(300);
        let units: Vec<u16> = text.encode_utf16().collect();
        for _ in 0..4 {
            judge.utf8(&random.damaged(text.as_bytes()));
            judge.utf16(&random.damaged(&big_endian(&units)));
        }
    }
}

// --- help -------------------------------------------------------------------------------------

/// Every sequence of a length over some values.
fn each<T: Copy>(values: &[T], length: usize, ask: &mut dyn FnMut(&[T])) {
    fn go<T: Copy>(values: &[T], left: usize, so_far: &mut Vec<T>, ask: &mut dyn FnMut(&[T])) {
        if left == 0 {
            return ask(so_far);
        }
        for value in values {
            so_far.push(*value);
            go(values, left - 1, so_far, ask);
            so_far.pop();
        }
    }
    go(values, length, &mut Vec::new(), ask);
}

fn big_endian(units: &[u16]) -> Vec<u8> {
    units.iter().flat_map(|unit| unit.to_be_bytes()).collect()
}
