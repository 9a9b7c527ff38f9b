//! The plain reader and the stepwise one, both proved, on the same files, in one process. See compare/README.md.

#[allow(dead_code)]
mod families;
#[allow(dead_code)]
mod files;
mod hex;
mod inputs;
#[allow(dead_code)]
mod ours;
mod random;

use std::{process::ExitCode, time::Instant};

use inputs::Settings;
use ours::{read_plainly, tape_step, transcribe, Transcript, NO_ROOM_FOR_TAPE, OVER_BUDGET, STOPPED};

const USAGE: &str = "usage: plain RECORDED REAL [--seed N] [--count N]";

/// Events after which a transcript stops: more than 512 arrays have, each inside the last.
const CAP: u64 = 1100;
const TAPE: usize = 64 << 20;
/// What a tape is filled with, and how much of it is looked at behind the bytes held.
const FILLING: u8 = 0xa5;
const BEHIND: usize = 32;
const SHOWN: u64 = 5;

fn main() -> ExitCode {
    let Some(settings) = Settings::read() else {
        eprintln!("{USAGE}");
        return ExitCode::from(2);
    };
    let start = Instant::now();
    let mut judge = Judge::new();
    settings.each(&mut |family, file| judge.ask(family, file));
    judge.report(start)
}

/// The lent memory, what was counted, and the differences.
struct Judge {
    scratch: Vec<u8>,
    whole: Vec<u8>,
    tape: Vec<u8>,
    /// Where each event of the file begins on the tape, and where the last ends.
    starts: Vec<usize>,
    inputs: u64,
    calls: u64,
    families: Vec<(&'static str, u64)>,
    /// By the number that the plain reader gives: 0 for the end.
    endings: [u64; 256],
    differences: u64,
}

impl Judge {
    fn new() -> Judge {
        Judge {
            scratch: vec![0; 1 << 20],
            whole: vec![0; TAPE],
            tape: Vec::new(),
            starts: Vec::new(),
            inputs: 0,
            calls: 0,
            families: Vec::new(),
            endings: [0; 256],
            differences: 0,
        }
    }

    fn ask(&mut self, family: &'static str, file: &[u8]) {
        self.inputs += 1;
        match self.families.iter_mut().find(|(name, _)| *name == family) {
            Some((_, count)) => *count += 1,
            None => self.families.push((family, 1)),
        }
        if let Err(difference) = self.compare(file) {
            self.differences += 1;
            if self.differences <= SHOWN {
                println!("difference in {family}: {difference}\n  {}", hex::shown(file));
            }
        }
    }

    /// All budgets and tapes that matter: just enough, one less, none, and both at once.
    fn compare(&mut self, file: &[u8]) -> Result<(), String> {
        let mut got = transcribe(file, &mut self.scratch, &mut self.whole, CAP);
        self.find_starts(got.held)?;
        let events = self.starts.len() - 1;
        if got.ending == STOPPED {
            // One event more tells whether the file ends here, or the budget.
            let more = transcribe(file, &mut self.scratch, &mut self.whole, CAP + 1);
            got = match more.held == got.held && more.ending != STOPPED {
                true => more,
                false => over_budget(got.held),
            };
        }
        let enough = events as u64;
        self.try_it(file, enough, got.held + BEHIND, got)?;
        self.try_it(file, enough, got.held, got)?;
        if got.ending != OVER_BUDGET {
            self.try_it(file, u64::MAX, got.held, got)?;
        }
        if events == 0 {
            return self.try_it(file, 0, 0, got);
        }
        let last = self.starts[events - 1];
        self.try_it(file, enough - 1, got.held + BEHIND, over_budget(last))?;
        self.try_it(file, enough, got.held - 1, full(last))?;
        // The last event neither fits nor is within the budget: 37.
        self.try_it(file, enough - 1, got.held - 1, over_budget(last))?;
        self.try_it(file, 0, 0, over_budget(0))?;
        self.try_it(file, 1, 0, full(0))
    }

    fn find_starts(&mut self, held: usize) -> Result<(), String> {
        self.starts.clear();
        self.starts.push(0);
        let mut at = 0;
        while at < held {
            let (next, ..) = tape_step(&self.whole[..held], at).ok_or("no event on the transcript's tape")?;
            at = next;
            self.starts.push(at);
        }
        Ok(())
    }

    fn try_it(&mut self, file: &[u8], budget: u64, room: usize, due: Transcript) -> Result<(), String> {
        self.tape.clear();
        self.tape.resize(room, FILLING);
        let got = read_plainly(file, &mut self.tape, budget);
        self.calls += 1;
        self.endings[(got.ending & 255) as usize] += 1;
        if got != due {
            return Err(format!("budget {budget}, tape {room}: {got:?}, due {due:?}"));
        }
        let (front, behind) = self.tape.split_at(due.held);
        if front != &self.whole[..due.held] || behind.iter().any(|byte| *byte != FILLING) {
            return Err(format!("budget {budget}, tape {room}: another tape"));
        }
        Ok(())
    }

    fn report(&self, start: Instant) -> ExitCode {
        for (name, count) in &self.families {
            println!("{count:>10} {name}");
        }
        println!("the plain reader's answers:");
        for (number, count) in self.endings.iter().enumerate().filter(|(_, count)| **count > 0) {
            match number {
                0 => println!("{count:>10} end"),
                _ => println!("{count:>10} refused {number}"),
            }
        }
        println!(
            "{} inputs, {} calls, {} differences, {} s",
            self.inputs,
            self.calls,
            self.differences,
            start.elapsed().as_secs()
        );
        ExitCode::from((self.differences > 0) as u8)
    }
}

fn over_budget(held: usize) -> Transcript {
    Transcript {
        ending: OVER_BUDGET,
        held,
        place: 0,
        marker: 0,
    }
}

fn full(held: usize) -> Transcript {
    Transcript {
        ending: NO_ROOM_FOR_TAPE,
        held,
        place: held as u64,
        marker: 0,
    }
}
