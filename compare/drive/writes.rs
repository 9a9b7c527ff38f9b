//! The proved writer and the crate's, on the same tapes, in one process. See compare/README.md.

#[allow(dead_code)]
mod files;
mod hex;
#[allow(dead_code)]
mod ours;
mod random;
#[allow(dead_code)]
mod tape;
mod tapes;
#[allow(dead_code)]
mod their_writer;
mod write_families;
mod write_inputs;

use std::{
    panic::{self, AssertUnwindSafe},
    process::ExitCode,
    time::Instant,
};

use ours::Written;
use random::Random;
use their_writer::MAX_LENGTH;
use write_families::every_dated;
use write_inputs::Settings;

const USAGE: &str = "usage: writes RECORDED REAL [--seed N] [--count N]";

/// Words for each event: docs/FORMAT.md, W17.
const COLUMNS: usize = 8;
/// What the lent memory holds before a call.
const FILLING: u8 = 0xa5;
const WORD_FILLING: u32 = 0xa5a5_a5a5;
/// Words and bytes behind the lent ones that are looked at too.
const BEHIND: usize = 8;
const SPARE: usize = 13;
const SHOWN: u64 = 5;

fn main() -> ExitCode {
    // A panic of the crate is a difference, and is shown as one.
    panic::set_hook(Box::new(|_| ()));
    match Settings::read(7_000_000) {
        Some(settings) => run(&settings),
        None => {
            eprintln!("{USAGE}");
            ExitCode::from(2)
        }
    }
}

fn run(settings: &Settings) -> ExitCode {
    let start = Instant::now();
    let mut judge = Judge::of(settings.seed);
    settings.each(|name, tape| judge.ask(name, tape));
    (every_dated().iter()).for_each(|tape| judge.append("every date, appended", tape));
    large(&mut judge);
    judge.report(start)
}

/// About the most bytes of a tape and of a file, by one long data. Neither the tape nor the output is ever touched as a whole, so that
/// no memory is taken for them.
fn large(judge: &mut Judge) {
    // A head of 6 bytes, a table of 4 and 8 + 32 more.
    let longest = MAX_LENGTH - 50;
    let mut memory = vec![0; MAX_LENGTH + 1];
    let mut out = vec![0; MAX_LENGTH];
    for (content, words, room, number) in [
        (longest, COLUMNS, MAX_LENGTH - 1, 25),
        (longest, COLUMNS - 1, MAX_LENGTH, 24),
        (longest + 1, COLUMNS, MAX_LENGTH, 26),
        (longest + 1, COLUMNS, 0, 26),
        (longest + 1, COLUMNS - 1, 0, 24),
        (MAX_LENGTH - 6, COLUMNS, MAX_LENGTH, 26),
        (MAX_LENGTH - 5, COLUMNS, MAX_LENGTH, 1),
    ] {
        let mut head = Vec::new();
        tapes::put(&mut head, tapes::DATA, content as u64);
        memory[..head.len()].copy_from_slice(&head);
        let tape = &memory[..head.len() + content];
        let got = ours::write(
            tape,
            &mut [WORD_FILLING; COLUMNS][..words],
            &mut out[..room],
        );
        let kept = |part: &[u8]| part.iter().all(|byte| *byte == 0);
        let ends = kept(&out[..4096]) && kept(&out[MAX_LENGTH - 4096..]);
        let want = their_writer::refused(number, 0);
        judge.count("large");
        judge.answers[number as usize] += 1;
        if got != want || !ends {
            judge.differs("large", &head, format!("{got:?}, it must be {want:?}"));
        }
    }
}

/// The lent memory, what was counted, and the differences.
struct Judge {
    /// For the first two words, where a hash with a key would look for it: what is written doesn't depend on them.
    random: Random,
    words: Vec<u32>,
    out: Vec<u8>,
    file: Vec<u8>,
    inputs: u64,
    calls: u64,
    families: Vec<(&'static str, u64)>,
    /// By the number, of the call with spare room: 0 for a file.
    answers: Vec<u64>,
    bytes: u64,
    differences: u64,
    smallest: Option<(Vec<u8>, String)>,
}

impl Judge {
    fn of(seed: u64) -> Judge {
        Judge {
            random: Random::new(seed),
            words: Vec::new(),
            out: Vec::new(),
            file: Vec::new(),
            inputs: 0,
            calls: 0,
            families: Vec::new(),
            answers: Vec::new(),
            bytes: 0,
            differences: 0,
            smallest: None,
        }
    }

    fn count(&mut self, family: &'static str) {
        self.inputs += 1;
        self.answers.resize(32, 0);
        match self.families.iter_mut().find(|(name, _)| *name == family) {
            Some((_, count)) => *count += 1,
            None => self.families.push((family, 1)),
        }
    }

    fn ask(&mut self, family: &'static str, tape: &[u8]) {
        self.count(family);
        let asked = panic::catch_unwind(AssertUnwindSafe(|| self.compare(tape)));
        match asked.unwrap_or_else(|_| Err("the crate panicked".to_string())) {
            Ok(number) => self.answers[number as usize] += 1,
            Err(difference) => self.differs(family, tape, difference),
        }
    }

    /// A tape that is written is asked with spare room, just enough, one word too few and one byte too few; any other with none and some.
    fn compare(&mut self, tape: &[u8]) -> Result<u32, String> {
        let mut file = std::mem::take(&mut self.file);
        let answer = their_writer::write(tape, &mut file);
        let compared = match answer {
            Ok(events) => self.compare_file(tape, events, &file),
            Err(refusal) => self
                .call(tape, (0, 0), refusal, 0, &[])
                .and_then(|_| self.call(tape, (64, 64), refusal, 0, &[]))
                .map(|_| refusal.number),
        };
        self.file = file;
        compared
    }

    /// The one event of a tape, a date, is appended to an empty tape of just its length; one that is no event is refused with 20.
    fn append(&mut self, family: &'static str, dated: &[u8]) {
        self.count(family);
        let (kind, bits) = (dated[0], u64::from_be_bytes(dated[1..].try_into().unwrap()));
        let mut tape = [FILLING; 9 + BEHIND];
        let got = ours::tape_append(&mut tape[..9], 0, kind, bits, &[]);
        let want = tape::step(dated, 0).map_or(ours::BAD_EVENT, |(_, next)| next as u64);
        let appended = if want == 9 { dated } else { &[] };
        let same = tape.starts_with(appended);
        let kept = tape[appended.len()..].iter().all(|byte| *byte == FILLING);
        if got != want || !same || !kept {
            let difference = format!("appending answers {got}, it must be {want}");
            self.differs(family, dated, difference);
        }
    }

    fn compare_file(&mut self, tape: &[u8], events: usize, file: &[u8]) -> Result<u32, String> {
        let (words, length) = (COLUMNS * events, file.len());
        let whole = Written {
            number: 0,
            value: length as u64,
            expected: 0,
            found: 0,
        };
        let no_words = their_writer::refused(24, 0);
        let no_room = their_writer::refused(25, 0);
        // Where both are short, the words are missed first.
        let any = if self.inputs % 2 == 0 { length } else { 0 };
        self.call(tape, (words + SPARE, length + SPARE), whole, words, file)?;
        self.call(tape, (words, length), whole, words, file)?;
        self.call(tape, (words - 1, any), no_words, 0, &[])?;
        self.call(tape, (words, length - 1), no_room, words, &[])?;
        self.bytes += length as u64;
        Ok(0)
    }

    /// One call with so many words and bytes. At most the first `used` words change; the output is the file and what was there before.
    fn call(
        &mut self,
        tape: &[u8],
        (words, room): (usize, usize),
        want: Written,
        used: usize,
        file: &[u8],
    ) -> Result<(), String> {
        self.calls += 1;
        if self.words.len() < words + BEHIND {
            self.words.resize(words + BEHIND, WORD_FILLING);
        }
        if self.out.len() < room + BEHIND {
            self.out.resize(room + BEHIND, FILLING);
        }
        let key = self.key();
        let lent = words.min(key.len());
        self.words[..lent].copy_from_slice(&key[..lent]);
        let got = ours::write(tape, &mut self.words[..words], &mut self.out[..room]);
        let kept_key = used > 0 || self.words[..lent] == key[..lent];
        let kept_words = kept_key
            && (self.words[used.max(lent)..words + BEHIND].iter())
                .all(|word| *word == WORD_FILLING);
        let kept_bytes = (self.out[file.len()..room + BEHIND].iter()).all(|byte| *byte == FILLING);
        let same = self.out[..file.len()] == *file;
        let right = got == want && kept_words && kept_bytes && same;
        let changed = if right {
            (used.max(lent), file.len())
        } else {
            (words, room)
        };
        self.words[..changed.0].fill(WORD_FILLING);
        self.out[..changed.1].fill(FILLING);
        match right {
            true => Ok(()),
            false => Err(format!(
                "{got:?} with {words} words and {room} bytes, it must be {want:?}; words kept {kept_words}, output kept {kept_bytes}, file {same}"
            )),
        }
    }

    /// Drawn, one time in two; else zeros, or what the other words hold.
    fn key(&mut self) -> [u32; 2] {
        match self.random.below(4) {
            0 => [0; 2],
            1 => [WORD_FILLING; 2],
            _ => self.random.key(),
        }
    }

    fn differs(&mut self, family: &str, tape: &[u8], difference: String) {
        self.differences += 1;
        if self.differences <= SHOWN {
            println!(
                "difference in {family}: {difference}\n  {}",
                hex::shown(tape)
            );
        }
        let smaller = |(other, _): &(Vec<u8>, String)| tape.len() < other.len();
        if self.smallest.as_ref().is_none_or(smaller) {
            self.smallest = Some((tape.to_vec(), difference));
        }
    }

    fn report(&self, start: Instant) -> ExitCode {
        for (name, count) in &self.families {
            println!("{count:>10} {name}");
        }
        println!("answers:");
        for (number, count) in self.answers.iter().enumerate() {
            match (number, *count) {
                (_, 0) => (),
                (0, files) => println!("{files:>10} files of {} bytes", self.bytes),
                (_, refused) => println!("{refused:>10} refused {number}"),
            }
        }
        if let Some((tape, difference)) = &self.smallest {
            println!(
                "smallest that differs, {} bytes: {difference}\n  {}",
                tape.len(),
                hex::shown(tape)
            );
        }
        println!(
            "{} inputs, {} calls, {} files compared, {} differences, {} s",
            self.inputs,
            self.calls,
            self.answers.first().unwrap_or(&0),
            self.differences,
            start.elapsed().as_secs()
        );
        ExitCode::from((self.differences > 0) as u8)
    }
}
