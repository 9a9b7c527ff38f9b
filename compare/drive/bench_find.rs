//! Time per event of the proved lookup, and of the check of the same tape alone, in the same run. See compare/README.md.

#[allow(dead_code)]
mod files;
mod hold;
#[allow(dead_code)]
mod ours;
#[allow(dead_code)]
mod random;
#[allow(dead_code)]
mod tape;
#[allow(dead_code)]
mod tapes;
#[allow(dead_code)]
mod their_writer;
#[allow(dead_code)]
mod timing;

use std::{hint::black_box, process::ExitCode};

use tapes::{put, put_number, put_start, put_text, DICTIONARY, END, INTEGER};
use timing::Sides;

const USAGE: &str = "usage: bench find [--rounds N] [--only WORDS]";

fn main() -> ExitCode {
    let Some(words) = timing::words() else {
        eprintln!("{USAGE}");
        return ExitCode::from(2);
    };
    timing::print_headed("find ns", "check ns");
    for (name, tape, keys, value) in inputs() {
        if !words.has(name) {
            continue;
        }
        let path = path_of(&keys);
        let mut bench = Bench {
            tape: &tape,
            path: &path,
        };
        // The value must be there, and the check must be all that the other side does.
        let found = ours::find(&tape, &path);
        let part = found.start as usize..(found.start + found.length) as usize;
        if found.number != 0 || tape.get(part) != Some(&value[..]) || bench.checked() != 24 {
            println!("{name}: {found:?}");
            return ExitCode::FAILURE;
        }
        let count = their_writer::events_of(&tape).len();
        timing::print(name, tape.len(), count, &mut bench, &words);
    }
    ExitCode::SUCCESS
}

// --- the inputs -----------------------------------------------------------------------------------

type Input = (&'static str, Vec<u8>, Vec<String>, Vec<u8>);

/// A tape, the keys of a path and the bytes of the value.
fn inputs() -> [Input; 3] {
    let mut reader = Vec::new();
    put_text(&mut reader, "reader-0048213");
    let mut last = Vec::new();
    put_point(&mut last, 1_999);
    let mut name = Vec::new();
    put_text(&mut name, "point 1999");
    [
        ("third key of a hold record", hold_record(), vec!["reader".into()], reader),
        ("last of 2,000 dictionaries", points(), vec!["p1999".into()], last),
        ("its third key", points(), vec!["p1999".into(), "name of this".into()], name),
    ]
}

fn hold_record() -> Vec<u8> {
    let file = hold::hold_record();
    let (mut scratch, mut tape) = (vec![0; 2 * file.len()], vec![0; 3 * file.len()]);
    let got = ours::transcribe(&file, &mut scratch, &mut tape, u64::MAX);
    tape.truncate(got.held);
    tape
}

fn points() -> Vec<u8> {
    let mut tape = Vec::new();
    put_start(&mut tape, DICTIONARY, Some(2_000));
    for i in 0..2_000 {
        put_text(&mut tape, &format!("p{i}"));
        put_point(&mut tape, i);
    }
    tape.push(END);
    tape
}

fn put_point(tape: &mut Vec<u8>, i: u64) {
    put_start(tape, DICTIONARY, Some(3));
    put_text(tape, "x");
    put(tape, INTEGER, i);
    put_text(tape, "y");
    put(tape, INTEGER, i + 1);
    put_text(tape, "name of this");
    put_text(tape, &format!("point {i}"));
    tape.push(END);
}

fn path_of(keys: &[String]) -> Vec<u8> {
    let mut path = Vec::new();
    put_number(&mut path, keys.len() as u64);
    for key in keys {
        put_number(&mut path, key.len() as u64);
        path.extend(key.as_bytes());
    }
    path
}

// --- the two sides --------------------------------------------------------------------------------

struct Bench<'a> {
    tape: &'a [u8],
    path: &'a [u8],
}

impl Bench<'_> {
    /// The writer without words: 24 comes right behind the check.
    fn checked(&self) -> u32 {
        ours::write(self.tape, &mut [], &mut []).number
    }
}

impl Sides for Bench<'_> {
    fn ours(&mut self) {
        black_box(ours::find(black_box(self.tape), self.path));
    }

    fn theirs(&mut self) {
        black_box(self.checked());
    }
}
