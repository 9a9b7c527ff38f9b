//! Time per event of the proved builder, finishing included, and of the crate's writer, on the same events in the same run. See compare/README.md.

mod bench_tapes;
#[allow(dead_code)]
mod files;
mod hold;
#[allow(dead_code)]
mod ours;
#[allow(dead_code)]
mod random;
#[allow(dead_code)]
mod tape;
#[allow(dead_code)]
mod tapes;
#[allow(dead_code)]
mod their_writer;
mod timing;

use std::{hint::black_box, process::ExitCode};

use ours::BUILDER_WORDS;
use plist::stream::{BinaryWriter, Event, Writer};
use random::Random;
use timing::Sides;

const USAGE: &str = "usage: bench build [--rounds N] [--only WORDS] [--words drawn|zeros]";

fn main() -> ExitCode {
    let Some(words) = timing::words() else {
        eprintln!("{USAGE}");
        return ExitCode::from(2);
    };
    timing::print_heading();
    for (name, tape) in (bench_tapes::inputs().into_iter()).filter(|(name, _)| words.has(name)) {
        let tape = tape();
        let events = their_writer::events_of(&tape);
        let count = events.len();
        let mut bench = Bench {
            calls: calls_of(&tape),
            events,
            tape: vec![0; tape.len()],
            work: vec![0; 8 * count],
            drawn: words.drawn,
            random: Random::new(1),
            file: Vec::new(),
            out: Vec::new(),
        };
        // Both sides must write the same file.
        bench.theirs();
        bench.out = vec![0; bench.file.len()];
        bench.ours();
        if bench.out != bench.file {
            println!("{name}: the two write different files");
            return ExitCode::FAILURE;
        }
        timing::print(name, tape.len(), count, &mut bench, &words);
    }
    ExitCode::SUCCESS
}

/// The events of a tape as a kind, a number and bytes.
fn calls_of(tape: &[u8]) -> Vec<(u32, u64, &[u8])> {
    let (mut calls, mut offset) = (Vec::new(), 0);
    while let Some((item, next)) = tape::step(tape, offset) {
        let (value, length) = item.numbers();
        calls.push((tape[offset].into(), value, &tape[next - length..next]));
        offset = next;
    }
    calls
}

struct Bench<'a> {
    calls: Vec<(u32, u64, &'a [u8])>,
    /// The same for the crate, text and data borrowed from the tape.
    events: Vec<Event<'a>>,
    tape: Vec<u8>,
    work: Vec<u32>,
    /// The first two words are drawn before each call, else they are 0.
    drawn: bool,
    random: Random,
    out: Vec<u8>,
    file: Vec<u8>,
}

impl Sides for Bench<'_> {
    fn ours(&mut self) {
        let mut words = [0; BUILDER_WORDS];
        for (kind, value, bytes) in black_box(&self.calls) {
            black_box(ours::build(
                &mut words,
                &mut self.tape,
                *kind,
                *value,
                bytes,
            ));
        }
        let key = if self.drawn {
            self.random.key()
        } else {
            [0; 2]
        };
        self.work[..2].copy_from_slice(&key);
        black_box(ours::build_finish(
            &words,
            &self.tape,
            &mut self.work,
            &mut self.out,
        ));
        black_box(&self.out);
    }

    fn theirs(&mut self) {
        self.file.clear();
        let mut writer = BinaryWriter::new(&mut self.file);
        for event in black_box(&self.events) {
            black_box(writer.write(event.clone()).is_ok());
        }
    }
}
