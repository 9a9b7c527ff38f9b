//! Tapes written, read again by the proved reader and by the crate's, and written again by both writers. See compare/README.md.

#[allow(dead_code)]
mod added;
mod files;
mod filled;
mod hex;
#[allow(dead_code)]
mod ours;
mod random;
#[allow(dead_code)]
mod tape;
mod tapes;
#[allow(dead_code)]
mod their_writer;
mod theirs;
mod write_families;

use std::{
    env,
    io::{self, BufWriter, Write},
    panic::{self, AssertUnwindSafe},
    process::ExitCode,
    time::Instant,
};

use filled::Filled;
use plist::stream::{BinaryWriter, Event, Writer};
use random::Random;
use theirs::{Answer, Watched};
use write_families::{every_dated, every_kind, every_number, Stock, FAMILIES};

const USAGE: &str = "usage: back RECORDED REAL [--seed N] [--count N] [--print N]";

/// Words for each event: document 01, 24.
const COLUMNS: usize = 8;
/// A tape from which families draw.
const SAMPLE_MOST: usize = 1000;
/// A printed file has at most this many bytes.
const PRINTED_MOST: usize = 1 << 17;
const FILLING: u8 = 0xa5;
const SHOWN: u64 = 5;

fn main() -> ExitCode {
    // A panic of the crate is a difference, and is shown as one.
    panic::set_hook(Box::new(|_| ()));
    match Settings::read() {
        Some(settings) => run(&settings),
        None => {
            eprintln!("{USAGE}");
            ExitCode::from(2)
        }
    }
}

struct Settings {
    recorded: Vec<Vec<u8>>,
    /// The tapes of files that other programs wrote.
    real: Vec<Vec<u8>>,
    seed: u64,
    /// How many drawn tapes must have been written.
    count: u64,
    /// How many drawn tapes are printed with their files, in place of the comparison.
    print: Option<u64>,
}

impl Settings {
    fn read() -> Option<Settings> {
        let words: Vec<String> = env::args().skip(1).collect();
        let files = hex::lines(words.get(1)?)?;
        let mut settings = Settings {
            recorded: hex::lines(words.first()?)?,
            real: files.iter().filter_map(|file| tape_of(file)).collect(),
            seed: 1,
            count: 2_000_000,
            print: None,
        };
        for pair in words[2..].chunks(2) {
            match (pair[0].as_str(), pair.get(1)?.parse().ok()?) {
                ("--seed", n) => settings.seed = n,
                ("--count", n) => settings.count = n,
                ("--print", n) => settings.print = Some(n),
                _ => return None,
            }
        }
        Some(settings)
    }
}

/// The tape of a file that is read to its end.
fn tape_of(file: &[u8]) -> Option<Vec<u8>> {
    let mut scratch = vec![0; 2 * file.len()];
    let mut tape = vec![0; 16 * file.len() + 64];
    let got = ours::transcribe(file, &mut scratch, &mut tape, u64::MAX);
    tape.truncate(got.held);
    (got.ending == ours::ENDED).then_some(tape)
}

fn run(settings: &Settings) -> ExitCode {
    let samples = settings.recorded.iter().chain(&settings.real);
    let stock = Stock {
        samples: samples
            .filter(|tape| tape.len() <= SAMPLE_MOST)
            .cloned()
            .collect(),
        numbers: files::numbers(),
    };
    match settings.print {
        Some(count) => print(settings, &stock, count),
        None => compare(settings, &stock),
    }
}

fn compare(settings: &Settings, stock: &Stock) -> ExitCode {
    let start = Instant::now();
    let mut judge = Judge::default();
    (settings.recorded.iter()).for_each(|tape| judge.ask("recorded", tape));
    (settings.real.iter()).for_each(|tape| judge.ask("of other programs", tape));
    (every_number(stock).iter()).for_each(|tape| judge.ask("every number", tape));
    (every_kind().iter()).for_each(|tape| judge.ask("every kind", tape));
    (every_dated().iter()).for_each(|tape| judge.ask("every date", tape));
    let enough = judge.written + settings.count;
    drawn(settings, stock, |family, tape| {
        judge.ask(family, tape);
        judge.written < enough && judge.differences < 1000
    });
    judge.report(start)
}

/// Prints the tape that reading must give and the file, of each tape of the real files and of so many drawn ones.
fn print(settings: &Settings, stock: &Stock, count: u64) -> ExitCode {
    let mut out = BufWriter::new(io::stdout().lock());
    let mut lent = Lent::default();
    let mut left = count + settings.real.len() as u64;
    let mut one = |tape: &[u8]| {
        if let Some(filled) = Filled::of(tape) {
            if let Ok(file) = lent.write(tape, filled.events) {
                if file.len() <= PRINTED_MOST {
                    left -= 1;
                    // A reader that has gone away ends this program.
                    if writeln!(out, "{} {}", hex::whole(&filled.tape), hex::whole(file)).is_err() {
                        left = 0;
                    }
                }
            }
        }
        left > 0
    };
    for tape in &settings.real {
        one(tape);
    }
    drawn(settings, stock, |_, tape| one(tape));
    ExitCode::SUCCESS
}

/// Tapes of all families in turn, by the seed, as long as they are wanted.
fn drawn(settings: &Settings, stock: &Stock, mut wants: impl FnMut(&'static str, &[u8]) -> bool) {
    let mut random = Random::new(settings.seed);
    let mut tape = Vec::new();
    for (name, family) in FAMILIES.iter().cycle() {
        tape.clear();
        family(&mut random, stock, &mut tape);
        if !wants(name, &tape) {
            return;
        }
    }
}

/// Memory that is lent to the proved functions, kept from call to call.
#[derive(Default)]
struct Lent {
    words: Vec<u32>,
    out: Vec<u8>,
    scratch: Vec<u8>,
    tape: Vec<u8>,
}

impl Lent {
    /// The file of a tape, or the number of the refusal.
    fn write(&mut self, tape: &[u8], events: usize) -> Result<&[u8], u32> {
        // Text doubles at most; one byte of tape is at most an object of one byte, a reference and an offset.
        let room = 16 * tape.len() + 64;
        self.words.resize(COLUMNS * events, 0);
        self.out.resize(room, FILLING);
        let got = ours::write(tape, &mut self.words, &mut self.out[..room]);
        match got.number {
            0 => Ok(&self.out[..got.value as usize]),
            number => Err(number),
        }
    }

    /// How a reading ends with so much scratch and tape and such a budget, and what the tape holds.
    fn read(&mut self, file: &[u8], room: Room) -> (u32, &[u8]) {
        self.scratch.resize(room.scratch, FILLING);
        self.tape.resize(room.tape, FILLING);
        let got = ours::transcribe(file, &mut self.scratch, &mut self.tape, room.budget);
        (got.ending, &self.tape[..got.held])
    }
}

/// What is lent to a reading, and how many events it may put on the tape.
#[derive(Clone, Copy, Debug)]
struct Room {
    scratch: usize,
    tape: usize,
    budget: u64,
}

/// What was counted, and the differences.
#[derive(Default)]
struct Judge {
    lent: Lent,
    inputs: u64,
    written: u64,
    events: u64,
    bytes: u64,
    /// Files with a date: the crate's reader is compared up to it, and does not write again.
    dates: u64,
    /// By what is one too little: scratch, tape, budget.
    short: [u64; 3],
    families: Vec<(&'static str, u64, u64)>,
    differences: u64,
    smallest: Option<(Vec<u8>, String)>,
}

impl Judge {
    fn ask(&mut self, family: &'static str, tape: &[u8]) {
        self.inputs += 1;
        let asked = panic::catch_unwind(AssertUnwindSafe(|| self.there_and_back(tape)));
        let written = match asked.unwrap_or_else(|_| Err("the crate panicked".to_string())) {
            Ok(written) => written as u64,
            Err(difference) => {
                self.differs(family, tape, difference);
                0
            }
        };
        self.written += written;
        match self.families.iter_mut().find(|(name, ..)| *name == family) {
            Some((_, inputs, files)) => (*inputs, *files) = (*inputs + 1, *files + written),
            None => self.families.push((family, 1, written)),
        }
    }

    /// Whether the tape is written. If it is, all that must hold of the file is looked at.
    fn there_and_back(&mut self, tape: &[u8]) -> Result<bool, String> {
        let Some(filled) = Filled::of(tape) else {
            return Ok(false);
        };
        let file = match self.lent.write(tape, filled.events) {
            Ok(file) => file.to_vec(),
            // 15, 21, 22, 23: decided by what `writes` compares.
            Err(15 | 21 | 22 | 23) => return Ok(false),
            Err(number) => return Err(format!("refused {number}")),
        };
        self.read_ours(&file, &filled)?;
        self.read_theirs(&file, &filled)?;
        match self.lent.write(&filled.tape, filled.events) {
            Ok(again) if *again == *file => (),
            Ok(again) => return Err(format!("written again as {}", hex::shown(again))),
            Err(number) => return Err(format!("written again: refused {number}")),
        }
        self.events += filled.events as u64;
        self.bytes += file.len() as u64;
        Ok(true)
    }

    /// Just enough scratch, tape and budget gives the events; one less of one of them 16, 27 and the budget's end.
    fn read_ours(&mut self, file: &[u8], filled: &Filled) -> Result<(), String> {
        let enough = Room {
            scratch: filled.scratch,
            tape: filled.tape.len(),
            budget: filled.events as u64 + 1,
        };
        let (ending, tape) = self.lent.read(file, enough);
        if ending != ours::ENDED || *tape != *filled.tape {
            return Err(format!("read as {ending}, {}", hex::shown(tape)));
        }
        let less = [
            (filled.scratch > 0).then(|| {
                (
                    16,
                    Room {
                        scratch: enough.scratch - 1,
                        ..enough
                    },
                )
            }),
            Some((
                27,
                Room {
                    tape: enough.tape - 1,
                    ..enough
                },
            )),
            Some((
                ours::STOPPED,
                Room {
                    budget: enough.budget - 1,
                    ..enough
                },
            )),
        ];
        for (kind, (number, room)) in less
            .into_iter()
            .enumerate()
            .filter_map(|(i, l)| Some((i, l?)))
        {
            let (ending, tape) = self.lent.read(file, room);
            if ending != number || !filled.tape.starts_with(tape) {
                return Err(format!(
                    "with {room:?} read as {ending}, it must be {number}"
                ));
            }
            self.short[kind] += 1;
        }
        Ok(())
    }

    /// The crate's reader hands out the same events, and its writer makes the same file of them.
    fn read_theirs(&mut self, file: &[u8], filled: &Filled) -> Result<(), String> {
        let seeks = added::Seeks::default();
        let mut reader = Watched::new(file, &seeks);
        let mut again = Vec::new();
        let mut writer = BinaryWriter::new(&mut again);
        let mut at = 0;
        while let Some((item, next)) = tape::step(&filled.tape, at) {
            match reader.next() {
                Answer::Event(event) if item.is(&event) => write_again(&mut writer, event)?,
                Answer::Date if matches!(item, tape::Item::Date(_)) => {
                    self.dates += 1;
                    return Ok(());
                }
                Answer::Event(event) => return Err(format!("{item:?}, the crate's {event:?}")),
                Answer::Refused(number, _, place) => {
                    return Err(format!("the crate: refused {number} at {place:?}"));
                }
                Answer::Added(number, offset) => {
                    return Err(format!("an object that is refused with {number} at {offset}"));
                }
                Answer::Unforeseen(what) => return Err(format!("the crate: {what}")),
                Answer::Date => return Err(format!("{item:?}, the crate's a date")),
                Answer::End => return Err(format!("{item:?}, the crate has ended")),
                Answer::Depth => return Err(format!("{item:?}, the crate is too deep")),
            }
            at = next;
        }
        if !matches!(reader.next(), Answer::End) {
            return Err("the crate does not end".to_string());
        }
        drop(writer);
        match *again == *file {
            true => Ok(()),
            false => Err(format!("the crate writes again {}", hex::shown(&again))),
        }
    }

    fn differs(&mut self, family: &str, tape: &[u8], difference: String) {
        self.differences += 1;
        if self.differences <= SHOWN {
            println!(
                "difference in {family}: {difference}\n  {}",
                hex::shown(tape)
            );
        }
        let smaller = |(other, _): &(Vec<u8>, String)| tape.len() < other.len();
        if self.smallest.as_ref().is_none_or(smaller) {
            self.smallest = Some((tape.to_vec(), difference));
        }
    }

    fn report(&self, start: Instant) -> ExitCode {
        println!("    inputs    written");
        for (name, inputs, written) in &self.families {
            println!("{inputs:>10} {written:>10} {name}");
        }
        println!(
            "one too little: {} of scratch, {} of tape, {} of budget",
            self.short[0], self.short[1], self.short[2]
        );
        if let Some((tape, difference)) = &self.smallest {
            println!(
                "smallest that differs, {} bytes: {difference}\n  {}",
                tape.len(),
                hex::shown(tape)
            );
        }
        println!(
            "{} inputs, {} files of {} bytes, {} events, {} up to a date, {} differences, {} s",
            self.inputs,
            self.written,
            self.bytes,
            self.events,
            self.dates,
            self.differences,
            start.elapsed().as_secs()
        );
        ExitCode::from((self.differences > 0) as u8)
    }
}

fn write_again<W: Write>(writer: &mut BinaryWriter<W>, event: Event) -> Result<(), String> {
    writer
        .write(event)
        .map_err(|error| format!("the crate does not write its own event again: {error:?}"))
}
