//! Ours and the crate's work on the same input, timed in turn.

use std::env;

/// Each side works about so long in each round.
const ROUND_SECONDS: f64 = 0.02;

/// One input for both, each of which does its whole work once.
pub trait Sides {
    fn ours(&mut self);
    fn theirs(&mut self);
}

/// The words of a bench: how many rounds, and which of its inputs.
pub struct Words {
    rounds: usize,
    only: String,
    /// Of writing: whether the first two lent words are drawn before each call.
    pub drawn: bool,
}

impl Words {
    pub fn has(&self, name: &str) -> bool {
        name.contains(&self.only)
    }
}

pub fn words() -> Option<Words> {
    let given: Vec<String> = env::args().skip(1).collect();
    let mut words = Words {
        rounds: 31,
        only: String::new(),
        drawn: true,
    };
    for pair in given.chunks(2) {
        match pair {
            [name, n] if name == "--rounds" => words.rounds = n.parse().ok().filter(|n| *n > 0)?,
            [name, only] if name == "--only" => words.only = only.clone(),
            [name, filled] if name == "--words" => {
                words.drawn = match filled.as_str() {
                    "drawn" => true,
                    "zeros" => false,
                    _ => return None,
                }
            }
            _ => return None,
        }
    }
    Some(words)
}

pub fn print_heading() {
    print_headed("ours ns", "crate ns");
}

pub fn print_headed(ours: &str, theirs: &str) {
    println!(
        "{:<34}{:>9}{:>9}{ours:>11}{theirs:>11}{:>8}   {}",
        "", "bytes", "events", "ratio", "of rounds"
    );
}

/// A line of the table: medians per event, the ratio of the medians, the least and the largest ratio of a round.
pub fn print(name: &str, bytes: usize, events: usize, sides: &mut impl Sides, words: &Words) {
    let (ours, theirs) = round(sides, 3, true);
    let turns = (ROUND_SECONDS * 1e9 / ours.max(theirs)) as usize + 1;
    round(sides, turns, false);
    let times: Vec<(f64, f64)> = (0..words.rounds)
        .map(|i| round(sides, turns, i % 2 == 0))
        .collect();
    let mut ratios: Vec<f64> = times.iter().map(|(ours, theirs)| ours / theirs).collect();
    ratios.sort_by(f64::total_cmp);
    let ours = median(times.iter().map(|(ours, _)| *ours).collect());
    let theirs = median(times.iter().map(|(_, theirs)| *theirs).collect());
    println!(
        "{name:<34}{bytes:>9}{events:>9}{:>11.1}{:>11.1}{:>8.2}   {:.2} to {:.2}",
        ours / events as f64,
        theirs / events as f64,
        ours / theirs,
        ratios[0],
        ratios[ratios.len() - 1]
    );
}

/// Nanoseconds of one work: ours and theirs, so many of each, in turn.
fn round(sides: &mut impl Sides, turns: usize, ours_first: bool) -> (f64, f64) {
    let (mut ours, mut theirs) = (0.0, 0.0);
    for side in [ours_first, !ours_first] {
        let start = seconds();
        for _ in 0..turns {
            if side {
                sides.ours();
            } else {
                sides.theirs();
            }
        }
        let time = (seconds() - start) * 1e9 / turns as f64;
        if side {
            ours = time
        } else {
            theirs = time
        }
    }
    (ours, theirs)
}

extern "C" {
    fn clock_gettime(clock: i32, time: *mut [i64; 2]) -> i32;
}

/// What this thread has used of a processor, so that other work on the machine counts little.
fn seconds() -> f64 {
    const THREAD_TIME: i32 = 3;
    let mut time = [0; 2];
    unsafe { clock_gettime(THREAD_TIME, &mut time) };
    time[0] as f64 + time[1] as f64 * 1e-9
}

fn median(mut times: Vec<f64>) -> f64 {
    times.sort_by(f64::total_cmp);
    times[times.len() / 2]
}
