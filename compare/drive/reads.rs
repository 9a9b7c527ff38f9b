//! The proved reader and the crate's, on the same files, in one process. See compare/README.md.

mod added;
mod families;
mod files;
mod hex;
mod inputs;
#[allow(dead_code)]
mod ours;
mod random;
mod tape;
mod theirs;

use std::{
    panic::{self, AssertUnwindSafe},
    process::ExitCode,
    time::Instant,
};

use added::Seeks;
use inputs::Settings;
use theirs::{Answer, Watched};

const USAGE: &str = "usage: reads RECORDED REAL [--seed N] [--count N]";

/// Events after which both sides stop: more than 512 arrays have, each inside the last. Shared containers make a small file very long.
const CAP: u64 = 1100;
const TAPE: usize = 64 << 20;
const SHOWN: usize = 5;

fn main() -> ExitCode {
    // A panic of the crate is a difference, and is shown as one.
    panic::set_hook(Box::new(|_| ()));
    match Settings::read() {
        Some(settings) => run(&settings),
        None => {
            eprintln!("{USAGE}");
            ExitCode::from(2)
        }
    }
}

fn run(settings: &Settings) -> ExitCode {
    let start = Instant::now();
    let mut judge = Judge::new();
    settings.each(&mut |family, file| judge.ask(family, file));
    judge.report(start)
}

/// The lent memory, what was counted, and the differences.
struct Judge {
    scratch: Vec<u8>,
    tape: Vec<u8>,
    inputs: u64,
    events: u64,
    families: Vec<(&'static str, u64)>,
    /// By the number: 0 for the end, 255 for the cap.
    endings: [u64; 256],
    places: u64,
    dates: u64,
    depths: u64,
    /// By document 02's number.
    added: [u64; 256],
    differences: u64,
    smallest: Option<(Vec<u8>, String)>,
}

/// How a comparison came out where nothing differed.
enum Outcome {
    Ended(u8, bool),
    Date,
    Depth,
    /// An object that document 02 refuses, with the number.
    Added(u8),
}

impl Judge {
    fn new() -> Judge {
        Judge {
            scratch: vec![0; 1 << 20],
            tape: vec![0; TAPE],
            inputs: 0,
            events: 0,
            families: Vec::new(),
            endings: [0; 256],
            places: 0,
            dates: 0,
            depths: 0,
            added: [0; 256],
            differences: 0,
            smallest: None,
        }
    }

    fn ask(&mut self, family: &'static str, file: &[u8]) {
        self.inputs += 1;
        match self.families.iter_mut().find(|(name, _)| *name == family) {
            Some((_, count)) => *count += 1,
            None => self.families.push((family, 1)),
        }
        let asked = panic::catch_unwind(AssertUnwindSafe(|| self.compare(file)));
        match asked.unwrap_or_else(|_| Err("the crate panicked".to_string())) {
            Ok(Outcome::Ended(number, placed)) => {
                self.endings[number as usize] += 1;
                self.places += placed as u64;
            }
            Ok(Outcome::Date) => self.dates += 1,
            Ok(Outcome::Depth) => self.depths += 1,
            Ok(Outcome::Added(number)) => self.added[number as usize] += 1,
            Err(difference) => self.differs(family, file, difference),
        }
    }

    fn compare(&mut self, file: &[u8]) -> Result<Outcome, String> {
        let got = ours::transcribe(file, &mut self.scratch, &mut self.tape, CAP);
        let tape = self.tape.get(..got.held).ok_or("more is held than lent")?;
        let seeks = Seeks::default();
        let mut reader = Watched::new(file, &seeks);
        let mut at = 0;
        for _ in 0..CAP {
            match reader.next() {
                Answer::Event(event) => {
                    let (item, next) = self::step(tape, at, &got)?;
                    if !item.is(&event) {
                        return Err(format!("event {item:?}, the crate's {event:?}"));
                    }
                    self.events += 1;
                    at = next;
                }
                Answer::Date => match self::step(tape, at, &got)? {
                    (tape::Item::Date(_), _) => return Ok(Outcome::Date),
                    (item, _) => return Err(format!("event {item:?}, the crate's a date")),
                },
                Answer::Added(number, offset) => {
                    return ends(&got, at, number.into(), 0, Some(offset))
                        .map(|_| Outcome::Added(number))
                }
                Answer::Depth => return ends(&got, at, 15, 0, None).map(|_| Outcome::Depth),
                Answer::End => return ends(&got, at, ours::ENDED, 0, Some(0)),
                Answer::Refused(number, marker, place) => {
                    return ends(&got, at, number.into(), marker.into(), place)
                }
                Answer::Unforeseen(what) => return Err(format!("the crate: {what}")),
            }
        }
        ends(&got, at, ours::STOPPED, 0, Some(0))
    }

    fn differs(&mut self, family: &str, file: &[u8], difference: String) {
        self.differences += 1;
        if self.differences <= SHOWN as u64 {
            println!(
                "difference in {family}: {difference}\n  {}",
                hex::shown(file)
            );
        }
        let smaller = |(other, _): &(Vec<u8>, String)| file.len() < other.len();
        if self.smallest.as_ref().is_none_or(smaller) {
            self.smallest = Some((file.to_vec(), difference));
        }
    }

    fn report(&self, start: Instant) -> ExitCode {
        for (name, count) in &self.families {
            println!("{count:>10} {name}");
        }
        println!("endings:");
        for (number, count) in self
            .endings
            .iter()
            .enumerate()
            .filter(|(_, count)| **count > 0)
        {
            match number {
                0 => println!("{count:>10} end"),
                255 => println!("{count:>10} stopped after {CAP} events"),
                _ => println!("{count:>10} refused {number}"),
            }
        }
        println!("{:>10} of these with a place that is compared", self.places);
        println!(
            "outside: {} at a date, {} at the 513th open container, {} at an odd length byte (31), {} at an object that crosses T (6), {} at a date that is none (34)",
            self.dates, self.depths, self.added[31], self.added[6], self.added[34]
        );
        if let Some((file, difference)) = &self.smallest {
            println!(
                "smallest that differs, {} bytes: {difference}\n  {}",
                file.len(),
                hex::shown(file)
            );
        }
        println!(
            "{} inputs, {} events, {} differences, {} s",
            self.inputs,
            self.events,
            self.differences,
            start.elapsed().as_secs()
        );
        ExitCode::from((self.differences > 0) as u8)
    }
}

/// Our event at an offset, by the strict decoder here and by the proved step alike.
fn step<'a>(
    tape: &'a [u8],
    at: usize,
    got: &ours::Transcript,
) -> Result<(tape::Item<'a>, usize), String> {
    let found = tape::step(tape, at);
    let proved = ours::tape_step(tape, at);
    let Some((item, next)) = found else {
        return Err(format!(
            "no event on our tape at {at}, {got:?}, and the crate has one"
        ));
    };
    let (number, length) = item.numbers();
    if proved != Some((next, number, next - length, length)) {
        return Err(format!("our step says {proved:?} of {item:?} at {at}"));
    }
    Ok((item, next))
}

/// Our ending must be this one, with nothing more on the tape.
fn ends(
    got: &ours::Transcript,
    at: usize,
    number: u32,
    marker: u32,
    place: Option<u64>,
) -> Result<Outcome, String> {
    let right = got.held == at
        && got.ending == number
        && got.marker == marker
        && place.is_none_or(|p| p == got.place);
    let refused = !matches!(number, ours::ENDED | ours::STOPPED);
    match right {
        true => Ok(Outcome::Ended(number as u8, refused && place.is_some())),
        false => Err(format!(
            "{got:?}, the crate's {number} at {place:?} with {marker}, tape {at}"
        )),
    }
}
