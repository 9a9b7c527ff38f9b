//! Time per event of the proved writer and of the crate's, on the same events in the same run. See compare/README.md.

mod bench_tapes;
#[allow(dead_code)]
mod files;
mod hold;
#[allow(dead_code)]
mod ours;
#[allow(dead_code)]
mod random;
#[allow(dead_code)]
mod tape;
#[allow(dead_code)]
mod tapes;
#[allow(dead_code)]
mod their_writer;
mod timing;

use std::{hint::black_box, process::ExitCode};

use plist::stream::{BinaryWriter, Event, Writer};
use random::Random;
use timing::Sides;

const USAGE: &str = "usage: bench write [--rounds N] [--only WORDS] [--words drawn|zeros]";

fn main() -> ExitCode {
    let Some(words) = timing::words() else {
        eprintln!("{USAGE}");
        return ExitCode::from(2);
    };
    timing::print_heading();
    for (name, tape) in bench_tapes::inputs()
        .into_iter()
        .filter(|(name, _)| words.has(name))
    {
        let tape = tape();
        let events = their_writer::events_of(&tape);
        let count = events.len();
        let mut bench = Bench {
            tape: &tape,
            events,
            work: vec![0; 8 * count],
            random: Random::new(1),
            drawn: words.drawn,
            file: Vec::new(),
            out: Vec::new(),
        };
        // Both sides must write the same file.
        bench.theirs();
        bench.out = vec![0; bench.file.len()];
        bench.ours();
        if bench.out != bench.file {
            println!("{name}: the two write different files");
            return ExitCode::FAILURE;
        }
        timing::print(name, tape.len(), count, &mut bench, &words);
    }
    ExitCode::SUCCESS
}

// --- the measuring --------------------------------------------------------------------------------

struct Bench<'a> {
    tape: &'a [u8],
    /// The same for the crate, text and data borrowed from the tape.
    events: Vec<Event<'a>>,
    work: Vec<u32>,
    /// The first two words are drawn before each call, else they are 0.
    drawn: bool,
    random: Random,
    out: Vec<u8>,
    file: Vec<u8>,
}

impl Sides for Bench<'_> {
    fn ours(&mut self) {
        let key = if self.drawn {
            self.random.key()
        } else {
            [0; 2]
        };
        self.work[..2].copy_from_slice(&key);
        black_box(ours::write(
            black_box(self.tape),
            &mut self.work,
            &mut self.out,
        ));
        black_box(&self.out);
    }

    fn theirs(&mut self) {
        self.file.clear();
        let mut writer = BinaryWriter::new(&mut self.file);
        for event in black_box(&self.events) {
            black_box(writer.write(event.clone()).is_ok());
        }
    }
}
