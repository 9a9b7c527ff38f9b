//! The tapes that compare/writes and compare/builds are asked about: recorded ones, cut and changed, those of other writers' files, every number
//! and kind, and drawn ones.

use std::env;

use crate::{
    files, hex, ours,
    random::Random,
    write_families::{every_dated, every_kind, every_number, Stock, FAMILIES},
};

/// A tape of which every cut and every change is tried.
const WHOLE_MOST: usize = 150;
/// A tape of a real file from which families draw.
const SAMPLE_MOST: usize = 1000;

pub struct Settings {
    recorded: Vec<Vec<u8>>,
    real: Vec<Vec<u8>>,
    pub seed: u64,
    pub count: usize,
}

impl Settings {
    /// By the words of the command; as many tapes are drawn where none says how many.
    pub fn read(count: usize) -> Option<Settings> {
        let words: Vec<String> = env::args().skip(1).collect();
        let recorded = hex::lines(words.first()?)?;
        let files = hex::lines(words.get(1)?)?;
        let mut settings = Settings {
            recorded,
            real: files.iter().filter_map(|file| tape_of(file)).collect(),
            seed: 1,
            count,
        };
        for pair in words[2..].chunks(2) {
            match (pair[0].as_str(), pair.get(1)?.parse().ok()?) {
                ("--seed", n) => settings.seed = n as u64,
                ("--count", n) => settings.count = n,
                _ => return None,
            }
        }
        Some(settings)
    }

    /// Each tape, with the name of its family.
    pub fn each(&self, mut ask: impl FnMut(&'static str, &[u8])) {
        let samples = self.recorded.iter().chain(&self.real);
        let stock = Stock {
            samples: samples
                .filter(|tape| tape.len() <= SAMPLE_MOST)
                .cloned()
                .collect(),
            numbers: files::numbers(),
        };
        for tape in &self.recorded {
            ask("recorded", tape);
            if tape.len() <= WHOLE_MOST {
                every_cut_and_change(tape, &mut ask);
            }
        }
        for (index, tape) in self.real.iter().enumerate() {
            ask("real", tape);
            if index % 16 == 0 && tape.len() <= WHOLE_MOST {
                every_cut_and_change(tape, &mut ask);
            }
        }
        (every_number(&stock).iter()).for_each(|tape| ask("every number", tape));
        (every_kind().iter()).for_each(|tape| ask("every kind", tape));
        (every_dated().iter()).for_each(|tape| ask("every date", tape));
        self.drawn(&stock, &mut ask);
    }

    /// Tapes of all families in turn, by the seed.
    fn drawn(&self, stock: &Stock, ask: &mut impl FnMut(&'static str, &[u8])) {
        let mut random = Random::new(self.seed);
        let mut tape = Vec::new();
        for index in 0..self.count {
            let (name, family) = FAMILIES[index % FAMILIES.len()];
            tape.clear();
            family(&mut random, stock, &mut tape);
            ask(name, &tape);
        }
    }
}

/// The tape of a file that is read to its end.
fn tape_of(file: &[u8]) -> Option<Vec<u8>> {
    let mut scratch = vec![0; 2 * file.len()];
    let mut tape = vec![0; 16 * file.len() + 64];
    let got = ours::transcribe(file, &mut scratch, &mut tape, u64::MAX);
    tape.truncate(got.held);
    (got.ending == ours::ENDED).then_some(tape)
}

fn every_cut_and_change(tape: &[u8], ask: &mut impl FnMut(&'static str, &[u8])) {
    for cut in 0..tape.len() {
        ask("every cut", &tape[..cut]);
        ask("every cut", &tape[cut + 1..]);
    }
    let mut changed = tape.to_vec();
    for at in 0..tape.len() {
        for byte in 0..=255 {
            if byte != tape[at] {
                changed[at] = byte;
                ask("every change", &changed);
            }
        }
        changed[at] = tape[at];
    }
}
