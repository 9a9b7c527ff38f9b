//! The proved builder: every tape of compare/writes handed over event by event, against the tape writer, the crate's and a model. See
//! compare/README.md.

mod build_model;
#[allow(dead_code)]
mod files;
mod guarded;
mod hex;
#[allow(dead_code)]
mod ours;
mod random;
#[allow(dead_code)]
mod tape;
#[allow(dead_code)]
mod tapes;
#[allow(dead_code)]
mod their_writer;
mod write_families;
mod write_inputs;

use std::{
    panic::{self, AssertUnwindSafe},
    process::ExitCode,
    time::Instant,
};

use build_model::Call;
use guarded::Guarded;
use ours::{Written, BUILDER_WORDS, NO_STATE, NO_SUCH_EVENT};
use random::Random;
use their_writer::{refused, MAX_LENGTH};
use write_inputs::Settings;

const USAGE: &str = "usage: builds RECORDED REAL [--seed N] [--count N]";

/// Words for each event: docs/FORMAT.md, W17.
const COLUMNS: usize = 8;
const FILLING: u8 = 0xa5;
/// Bytes behind the file that are lent and must stay.
const SPARE: usize = 13;
const WORD_FILLING: u32 = 0xa5a5_a5a5;
/// A longer tape is not handed over again and again, and no event is thrown in.
const MANY: usize = 3000;
/// How many builders are forged.
const FORGED: usize = 1_000_000;
const SHOWN: u64 = 5;

fn main() -> ExitCode {
    panic::set_hook(Box::new(|_| ()));
    match Settings::read(2_500_000) {
        Some(settings) => run(&settings),
        None => {
            eprintln!("{USAGE}");
            ExitCode::from(2)
        }
    }
}

fn run(settings: &Settings) -> ExitCode {
    let start = Instant::now();
    let mut judge = Judge::new(settings.seed);
    settings.each(|name, tape| judge.ask(name, tape));
    for _ in 0..FORGED {
        judge.forge();
    }
    judge.large();
    judge.report(start)
}

/// The lent memory, what was counted, and the differences.
struct Judge {
    random: Random,
    tape: Guarded<u8>,
    bytes: Guarded<u8>,
    words: Guarded<u32>,
    work: Guarded<u32>,
    out: Guarded<u8>,
    families: Vec<(&'static str, u64)>,
    inputs: u64,
    calls: u64,
    /// By the number; 0 for an event that was taken.
    answers: Vec<u64>,
    finished: Vec<u64>,
    crates: u64,
    altered: u64,
    forged: u64,
    differences: u64,
}

impl Judge {
    fn new(seed: u64) -> Judge {
        Judge {
            random: Random::new(seed ^ 0xb111_de55),
            tape: Guarded::new(1 << 20, FILLING),
            bytes: Guarded::new(1 << 20, FILLING),
            words: Guarded::new(BUILDER_WORDS + 8, WORD_FILLING),
            work: Guarded::new(1 << 20, WORD_FILLING),
            out: Guarded::new(1 << 21, FILLING),
            families: Vec::new(),
            inputs: 0,
            calls: 0,
            answers: vec![0; 256],
            finished: vec![0; 256],
            crates: 0,
            altered: 0,
            forged: 0,
            differences: 0,
        }
    }

    fn ask(&mut self, family: &'static str, tape: &[u8]) {
        self.inputs += 1;
        match self.families.iter_mut().find(|(name, _)| *name == family) {
            Some((_, count)) => *count += 1,
            None => self.families.push((family, 1)),
        }
        let asked = panic::catch_unwind(AssertUnwindSafe(|| self.hand_over(tape)));
        if let Err(difference) = asked.unwrap_or_else(|_| Err("a panic".to_string())) {
            self.differs(family, tape, difference);
        }
    }

    /// A tape's events one after the other, up to the first place where there is none.
    fn hand_over(&mut self, tape: &[u8]) -> Result<(), String> {
        let mut held = Held::new();
        self.begin()?;
        let mut at = 0;
        while let Some((event, next)) = event_at(tape, at) {
            if tape.len() <= MANY && self.random.one_in(3) {
                let thrown = self.thrown_in();
                self.hand(&mut held, &thrown, true)?;
            }
            self.hand(&mut held, &event, tape.len() <= MANY)?;
            at = next;
        }
        self.finish(&held)
    }

    /// The words of an empty builder: made by the function, or zeros.
    fn begin(&mut self) -> Result<(), String> {
        let more = self.random.below(3);
        let lent = self.words.last(BUILDER_WORDS + more);
        lent.fill(WORD_FILLING);
        if self.random.one_in(2) {
            lent[..BUILDER_WORDS].fill(0);
        } else if ours::build_begin(lent) != 0 {
            return Err("zm_build_begin refused".to_string());
        }
        let right = lent[..BUILDER_WORDS].iter().all(|word| *word == 0)
            && lent[BUILDER_WORDS..]
                .iter()
                .all(|word| *word == WORD_FILLING);
        let few = self.random.below(BUILDER_WORDS);
        let fewer = &mut [WORD_FILLING; BUILDER_WORDS][..few];
        let refuses = ours::build_begin(fewer) == NO_STATE;
        let kept = fewer.iter().all(|word| *word == WORD_FILLING);
        match right && refuses && kept {
            true => Ok(()),
            false => Err("zm_build_begin leaves other words".to_string()),
        }
    }

    /// An event that may be refused, or taken.
    fn thrown_in(&mut self) -> Call {
        const BITS: [u64; 5] = [0, 0x7ff0_0000_0000_0000, u64::MAX, 0x41c0_0000_0000_0000, 1];
        let text: [&[u8]; 6] = [b"", b"key", b"\xc3\xa9", b"\xff", b"\xed\xa0\x80", b"a\xc3"];
        let bytes = self.random.of(&text);
        let value = match self.random.one_in(2) {
            true => self.random.of(&BITS),
            false => self.random.bits() >> self.random.below(64),
        };
        Call::new(self.random.below(18) as u8, value, bytes)
    }

    /// One event: with fewer words, with a tape that shrank, with too little room, then with room; each answer and all memory.
    fn hand(&mut self, held: &mut Held, event: &Call, more: bool) -> Result<(), String> {
        let Some(bytes) = event.on_tape() else {
            return self.call(held, held.tape.len(), event, refused(NO_SUCH_EVENT, 0), &[]);
        };
        let at = held.tape.len();
        let mut with = held.tape.clone();
        with.extend(&bytes);
        // What the tape writer says, lent nothing: 22 and 24 mean that the event may come.
        let said = match more {
            true => ours::write(&with, &mut [], &mut []),
            false => build_model::call(&mut held.words.clone(), with.len(), event, &bytes),
        };
        let barred = ![0, 22, 24].contains(&said.number);
        if more && self.random.one_in(8) {
            self.few_words(held, event)?;
        }
        if more && at > 0 && self.random.one_in(4) {
            let shrunk = self.random.below(at);
            self.call(held, shrunk, event, refused(32, 0), &bytes)?;
        }
        if more && self.random.one_in(3) {
            let short = at + self.random.below(bytes.len());
            let want = if barred { said } else { refused(27, at) };
            self.call(held, short, event, want, &bytes)?;
        }
        let room = with.len() + self.random.below(3) * self.random.below(9);
        if barred {
            return self.call(held, room, event, said, &bytes);
        }
        let taken = Written {
            number: 0,
            value: with.len() as u64,
            expected: 0,
            found: 0,
        };
        self.call(held, room, event, taken, &bytes)?;
        held.tape = with;
        held.events += 1;
        Ok(())
    }

    fn few_words(&mut self, held: &Held, event: &Call) -> Result<(), String> {
        let few = self.random.below(BUILDER_WORDS);
        let mut lent = held.words[..few].to_vec();
        let mut tape = held.tape.clone();
        let got = ours::build(
            &mut lent,
            &mut tape,
            event.kind.into(),
            event.value,
            &event.bytes,
        );
        self.calls += 1;
        match got == refused(NO_STATE, 0) && lent == held.words[..few] && tape == held.tape {
            true => Ok(()),
            false => Err(format!("{got:?} with {few} words")),
        }
    }

    /// One call. The model must say what is wanted too, and words and tape must be as it says, all else as it was.
    fn call(
        &mut self,
        held: &mut Held,
        room: usize,
        event: &Call,
        want: Written,
        bytes: &[u8],
    ) -> Result<(), String> {
        self.calls += 1;
        let count = self.bytes.len().min(event.bytes.len());
        let lent_bytes = self.bytes.last(count);
        lent_bytes.copy_from_slice(&event.bytes);
        let tape = self.tape.last(room);
        tape.fill(FILLING);
        let known = held.tape.len().min(room);
        tape[..known].copy_from_slice(&held.tape[..known]);
        let words = self.words.last(BUILDER_WORDS + 1);
        words[..BUILDER_WORDS].copy_from_slice(&held.words);
        words[BUILDER_WORDS] = WORD_FILLING;
        let got = ours::build(words, tape, event.kind.into(), event.value, lent_bytes);
        let mut modelled = held.words;
        let model = match want.number {
            NO_SUCH_EVENT => want,
            _ => build_model::call(&mut modelled, room, event, bytes),
        };
        let same_words = words[..BUILDER_WORDS] == modelled && words[BUILDER_WORDS] == WORD_FILLING;
        let put = if want.number == 0 { bytes } else { &[] };
        let same_tape = tape[..known] == held.tape[..known]
            && tape[known..].starts_with(put)
            && tape[known + put.len()..]
                .iter()
                .all(|byte| *byte == FILLING);
        self.answers[got.number as usize % 256] += 1;
        if got == want && model == want && same_words && same_tape {
            held.words = modelled;
            return Ok(());
        }
        Err(format!(
            "{event:?} behind {} with {room}: {got:?}, it must be {want:?}, the model {model:?}; words {same_words}, tape {same_tape}",
            hex::shown(&held.tape)
        ))
    }

    /// The file of what is held, which is the crate's of these events, and of what is held and was altered.
    fn finish(&mut self, held: &Held) -> Result<(), String> {
        let mut file = Vec::new();
        let want = their_writer::write(&held.tape, &mut file);
        let (words, room) = (COLUMNS * held.events, file.len() + SPARE);
        let got = self.file(held, &held.tape, words, room)?;
        let same = match want {
            Ok(_) => got.number == 0 && self.out.last(room)[..file.len()] == file,
            Err(refusal) => got == refusal,
        };
        self.crates += same as u64;
        if !same {
            return Err(format!("the crate: {want:?}, the builder {got:?}"));
        }
        let (few, small) = (self.random.below(words + 1), self.random.below(80));
        self.file(held, &held.tape, few, 600)?;
        self.file(held, &held.tape, words, small)?;
        if !held.tape.is_empty() {
            let mut altered = held.tape.clone();
            let at = self.random.below(altered.len());
            altered[at] = self.random.bits() as u8;
            self.altered += 1;
            self.file(held, &altered, words, 600)?;
            altered.truncate(at);
            self.file(held, &altered, words, 600)?;
        }
        Ok(())
    }

    /// The builder's file and the tape writer's, with the same memory lent. Fewer bytes than are held give 32.
    fn file(
        &mut self,
        held: &Held,
        tape: &[u8],
        words: usize,
        room: usize,
    ) -> Result<Written, String> {
        self.calls += 1;
        let lent_tape = self.tape.last(tape.len() + 3);
        lent_tape.fill(FILLING);
        lent_tape[..tape.len()].copy_from_slice(tape);
        let lent = match tape.len() < held.tape.len() {
            true => self.tape.last(tape.len()),
            false => lent_tape,
        };
        // In the first two words a hash with a key would look for it.
        let key = self.random.key();
        let lend = |work: &mut [u32]| {
            work.fill(WORD_FILLING);
            work.iter_mut().zip(key).for_each(|(word, part)| *word = part);
        };
        let out = self.out.last(room);
        let work = self.work.last(words);
        out.fill(FILLING);
        lend(work);
        let (want, their_out, their_work) = match tape.len() < held.tape.len() {
            true => (refused(32, 0), out.to_vec(), work.to_vec()),
            false => {
                let want = ours::write(tape, work, out);
                let left = (want, out.to_vec(), work.to_vec());
                out.fill(FILLING);
                lend(work);
                left
            }
        };
        let before = lent.to_vec();
        let builder = self.words.last(BUILDER_WORDS);
        builder.copy_from_slice(&held.words);
        let got = ours::build_finish(builder, lent, work, out);
        let same = *builder == held.words
            && *lent == *before
            && *out == *their_out
            && *work == *their_work;
        self.finished[got.number as usize % 256] += 1;
        let few = self.random.below(BUILDER_WORDS);
        let refuses =
            ours::build_finish(&held.words[..few], lent, work, out) == refused(NO_STATE, 0);
        match got == want && same && refuses && *out == *their_out && *work == *their_work {
            true => Ok(got),
            false => Err(format!("finishing answers {got:?}, it must be {want:?}; memory {same}, few words {refuses}")),
        }
    }

    /// Any words are some builder: sane ones that were changed, and any others. The answer is the model's.
    fn forge(&mut self) {
        self.forged += 1;
        let mut words = [0u32; BUILDER_WORDS];
        for word in &mut words {
            *word = match self.random.below(3) {
                0 => self.random.bits() as u32,
                1 => self.random.below(5) as u32,
                _ => 0,
            };
        }
        words[0] = match self.random.below(8) {
            0 => self.random.bits() as u32,
            1 => (MAX_LENGTH - self.random.below(3)) as u32,
            _ => self.random.below(60) as u32,
        };
        words[1] = self.random.one_in(16) as u32 * self.random.bits() as u32;
        words[2] = self.random.below(6) as u32
            * if self.random.one_in(9) {
                0x1000_0001
            } else {
                1
            };
        words[3] = match self.random.below(4) {
            0 => self.random.bits() as u32,
            1 => 510 + self.random.below(5) as u32,
            _ => self.random.below(140) as u32,
        };
        let room = self.random.below(80);
        let event = self.thrown_in();
        let Some(bytes) = event.on_tape() else { return };
        let mut model = words;
        let want = build_model::call(&mut model, room, &event, &bytes);
        let lent_bytes = self.bytes.last(event.bytes.len());
        lent_bytes.copy_from_slice(&event.bytes);
        let tape = self.tape.last(room);
        tape.fill(FILLING);
        let mut tape_after = tape.to_vec();
        if want.number == 0 {
            let at = want.value as usize - bytes.len();
            tape_after[at..at + bytes.len()].copy_from_slice(&bytes);
        }
        let lent = self.words.last(BUILDER_WORDS);
        lent.copy_from_slice(&words);
        let got = ours::build(lent, tape, event.kind.into(), event.value, lent_bytes);
        self.answers[got.number as usize % 256] += 1;
        self.calls += 1;
        if got != want || *lent != model || *tape != *tape_after {
            self.differs(
                "forged",
                &[],
                format!("{words:?} {event:?} {room}: {got:?}, the model {want:?}"),
            );
        }
    }

    /// About the most bytes of a tape: 1 comes before all but 32, and where an event just ends there it is taken. The tape is never touched as a
    /// whole, so that no memory is taken for it.
    fn large(&mut self) {
        let mut memory = vec![0; MAX_LENGTH + 8];
        for (held, room, due, kind, bytes, want) in [
            (
                MAX_LENGTH - 1,
                MAX_LENGTH,
                1,
                tapes::TRUE,
                0,
                (0, MAX_LENGTH),
            ),
            (MAX_LENGTH, MAX_LENGTH + 8, 1, tapes::TRUE, 0, (1, 0)),
            (MAX_LENGTH, MAX_LENGTH + 8, 4, tapes::TRUE, 0, (1, 0)),
            (
                MAX_LENGTH - 1,
                MAX_LENGTH + 8,
                4,
                tapes::TRUE,
                0,
                (23, MAX_LENGTH - 1),
            ),
            (MAX_LENGTH + 1, MAX_LENGTH + 8, 1, tapes::TRUE, 0, (1, 0)),
            (MAX_LENGTH + 9, MAX_LENGTH + 8, 1, tapes::TRUE, 0, (32, 0)),
            (2, 1000, 1, tapes::DATA, MAX_LENGTH - 8, (27, 2)),
            (2, 1000, 1, tapes::DATA, MAX_LENGTH - 7, (1, 0)),
        ] {
            let mut words = build_model::begin();
            words[0] = held as u32;
            words[2] = due;
            words[3] = 1;
            let content = vec![0; bytes];
            let got = ours::build(&mut words, &mut memory[..room], kind.into(), 0, &content);
            self.calls += 1;
            self.answers[got.number as usize % 256] += 1;
            if (got.number, got.value) != (want.0, want.1 as u64) {
                self.differs(
                    "large",
                    &[],
                    format!("{held} {room}: {got:?}, it must be {want:?}"),
                );
            }
        }
    }

    fn differs(&mut self, family: &str, tape: &[u8], difference: String) {
        self.differences += 1;
        if self.differences <= SHOWN {
            println!(
                "difference in {family}: {difference}\n  {}",
                hex::shown(tape)
            );
        }
    }

    fn report(&self, start: Instant) -> ExitCode {
        for (name, count) in &self.families {
            println!("{count:>10} {name}");
        }
        for (what, answers) in [("calls", &self.answers), ("files", &self.finished)] {
            println!("{what}:");
            for (number, count) in answers.iter().enumerate().filter(|(_, count)| **count > 0) {
                println!("{count:>10} answered {number}");
            }
        }
        println!(
            "{} tapes, {} calls, {} forged, {} held tapes altered, {} compared with the crate, {} differences, {} s",
            self.inputs,
            self.calls,
            self.forged,
            self.altered,
            self.crates,
            self.differences,
            start.elapsed().as_secs()
        );
        ExitCode::from((self.differences > 0) as u8)
    }
}

/// What a builder must hold: the bytes and the number of the events that were taken, and the model's words.
struct Held {
    tape: Vec<u8>,
    events: usize,
    words: [u32; BUILDER_WORDS],
}

impl Held {
    fn new() -> Held {
        Held {
            tape: Vec::new(),
            events: 0,
            words: build_model::begin(),
        }
    }
}

/// The event at a place as a call hands it over. Text and dates are not looked at, so that some are refused.
fn event_at(tape: &[u8], at: usize) -> Option<(Call, usize)> {
    let kind = *tape.get(at)?;
    if matches!(kind, tapes::TEXT | tapes::DATE) {
        // As data and as a real they are read whatever they hold.
        let mut other = tape[at..].to_vec();
        other[0] = kind - 1;
        let (call, next) = event_at(&other, 0)?;
        return Some((Call { kind, ..call }, at + next));
    }
    let (item, next) = tape::step(tape, at)?;
    let (value, length) = item.numbers();
    Some((Call::new(kind, value, &tape[next - length..next]), next))
}
