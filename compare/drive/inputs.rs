//! The files that compare/reads and compare/plain ask about. See compare/README.md.

use std::env;

use crate::{
    families::{date_file, marker_file, sized_file, Stock, FAMILIES},
    files, hex,
    random::Random,
};

/// A file that is changed at every byte has at most this many.
const CHANGED_MOST: usize = 4096;
/// A file of which every cut and every change is tried.
const WHOLE_MOST: usize = 300;

/// What is asked about a file of a family.
type Ask<'a> = dyn FnMut(&'static str, &[u8]) + 'a;

pub struct Settings {
    recorded: Vec<Vec<u8>>,
    real: Vec<Vec<u8>>,
    seed: u64,
    count: usize,
}

impl Settings {
    pub fn read() -> Option<Settings> {
        let words: Vec<String> = env::args().skip(1).collect();
        let (recorded, real) = (hex::lines(words.first()?)?, hex::lines(words.get(1)?)?);
        let mut settings = Settings {
            recorded,
            real,
            seed: 1,
            count: 10_000_000,
        };
        for pair in words[2..].chunks(2) {
            match (pair[0].as_str(), pair.get(1)?.parse().ok()?) {
                ("--seed", n) => settings.seed = n as u64,
                ("--count", n) => settings.count = n,
                _ => return None,
            }
        }
        Some(settings)
    }

    /// Every file in turn.
    pub fn each(&self, ask: &mut Ask) {
        each_recorded(self, ask);
        each_real(self, ask);
        for pair in 0..=u16::MAX {
            let [first, second] = pair.to_be_bytes();
            ask("every marker", &marker_file(first, second, &[1; 18]));
            ask("every marker", &marker_file(first, second, &[0; 18]));
            ask("every size", &sized_file(first, second));
        }
        for bits in files::every_date() {
            ask("every date", &date_file(bits));
        }
        drawn(self, ask);
    }
}

/// Each recorded file, every cut of it, and each of its bytes changed to all others.
fn each_recorded(settings: &Settings, ask: &mut Ask) {
    for file in &settings.recorded {
        ask("recorded", file);
        if file.len() <= WHOLE_MOST {
            every_cut_and_change("recorded", file, ask);
        }
    }
}

fn every_cut_and_change(name: &'static str, file: &[u8], ask: &mut Ask) {
    for cut in 0..file.len() {
        ask("every cut", &file[..cut]);
        ask("every cut", &file[cut..]);
    }
    let mut changed = file.to_vec();
    let label = if name == "real" {
        "every change, real"
    } else {
        "every change"
    };
    for at in 0..file.len() {
        for byte in 0..=255 {
            if byte != file[at] {
                changed[at] = byte;
                ask(label, &changed);
            }
        }
        changed[at] = file[at];
    }
}

/// Each file of another writer, and of the small ones every cut and some changes.
fn each_real(settings: &Settings, ask: &mut Ask) {
    for (index, file) in settings.real.iter().enumerate() {
        ask("real", file);
        if index % 16 == 0 && file.len() <= WHOLE_MOST {
            every_cut_and_change("real", file, ask);
        }
    }
}

/// Files of all families in turn, by the seed.
fn drawn(settings: &Settings, ask: &mut Ask) {
    let good = settings.recorded.iter().chain(&settings.real);
    let samples = good
        .filter(|file| file.len() <= CHANGED_MOST)
        .cloned()
        .collect();
    let stock = Stock {
        samples,
        numbers: files::numbers(),
    };
    let mut random = Random::new(settings.seed);
    for index in 0..settings.count {
        let (name, family) = FAMILIES[index % FAMILIES.len()];
        ask(name, &family(&mut random, &stock));
    }
}
