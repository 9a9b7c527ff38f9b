//! The crate's binary reader over one file in memory, answered as one block of lines.
//!
//! The reader can't ask for much memory: it compares every length with the file's own before it
//! makes room, so that what it holds is at most eight times the file. It can answer for very long
//! on a small file, whence the cap on events. A panic is caught and reported.

use std::{
    io::Cursor,
    panic::{AssertUnwindSafe, catch_unwind},
};

use plist::{
    Refusal,
    stream::{BinaryReader, Event},
};

use crate::{
    added::{self, CountedSeeks, Seeks, Sought},
    listing,
};

pub const DEFAULT_CAP: usize = 2000;

/// Document 02: at most this many containers are open at once.
pub const MAX_OPEN: usize = 512;

/// How many times `next` is called again after the end or a refusal.
const CALLS_AFTER: usize = 2;

/// The block of one file: `events`, a line for each event, how it ended, and the calls after.
pub fn block(file: &[u8], cap: usize) -> String {
    let mut lines = vec!["events".to_string()];
    // The lines before a panic are worth keeping, so they live outside.
    let run = catch_unwind(AssertUnwindSafe(|| list(file, cap, &mut lines)));
    if run.is_err() {
        lines.push("panic".to_string());
    }
    lines.push(String::new());
    lines.join("\n")
}

fn list(file: &[u8], cap: usize, lines: &mut Vec<String>) {
    let seeks = Seeks::default();
    let mut reader = Watched::new(file, &seeks);
    for _ in 0..cap {
        match reader.next() {
            Answer::Event(line) => lines.push(line),
            Answer::Last(line) => {
                lines.push(line);
                return calls_after(&mut reader, lines);
            }
            Answer::Outside(what) => return lines.push(format!("outside {what}")),
        }
    }
    lines.push("stopped".to_string());
}

fn calls_after(reader: &mut Watched, lines: &mut Vec<String>) {
    for _ in 0..CALLS_AFTER {
        let line = match reader.next() {
            Answer::Event(line) | Answer::Last(line) => line,
            Answer::Outside(what) => format!("outside {what}"),
        };
        lines.push(format!("then {line}"));
    }
}

enum Answer {
    Event(String),
    /// The end, or a refusal.
    Last(String),
    /// Document 01 compares nothing from here on.
    Outside(String),
}

/// The reader, with what document 01 needs to know about it beside its answers.
struct Watched<'a> {
    file: &'a [u8],
    reader: BinaryReader<CountedSeeks<'a>>,
    seeks: &'a Seeks,
    sought: Sought,
    open: usize,
    /// The object last fetched came from the reader's cache, so that its place is an older one.
    from_cache: bool,
}

impl<'a> Watched<'a> {
    fn new(file: &'a [u8], seeks: &'a Seeks) -> Self {
        let cursor = CountedSeeks {
            cursor: Cursor::new(file),
            seeks,
        };
        Watched {
            file,
            reader: BinaryReader::new(cursor),
            seeks,
            sought: Sought::default(),
            open: 0,
            from_cache: false,
        }
    }

    fn next(&mut self) -> Answer {
        let seeks_before = self.seeks.count.get();
        let answer = self.reader.next();
        let made = self.seeks.count.get() - seeks_before;
        let sought = made != 0;
        if let Some(offset) = self.sought.object(made, self.seeks) {
            if let Some(number) = added::refusal(self.file, offset) {
                return Answer::Outside(format!("{number} at {offset}"));
            }
        }
        match answer {
            None => Answer::Last("end".to_string()),
            Some(Err(error)) => {
                // A refusal without a seek (6, 7) keeps the place of the object fetched before.
                self.from_cache &= !sought;
                self.refusal(Refusal::of(&error))
            }
            Some(Ok(event)) => {
                if event != Event::EndCollection {
                    self.from_cache = !sought;
                }
                self.event(&event)
            }
        }
    }

    fn event(&mut self, event: &Event) -> Answer {
        match event {
            Event::StartArray(_) | Event::StartDictionary(_) if self.open == MAX_OPEN => {
                return Answer::Outside("depth".to_string());
            }
            Event::StartArray(_) | Event::StartDictionary(_) => self.open += 1,
            Event::EndCollection => self.open -= 1,
            _ => (),
        }
        match listing::line(event) {
            Some(line) => Answer::Event(line),
            None => Answer::Outside("date".to_string()),
        }
    }

    fn refusal(&self, refusal: Refusal) -> Answer {
        match refusal {
            Refusal::Date => Answer::Outside(self.no_date()),
            Refusal::Reader { number, .. } if self.from_cache => {
                Answer::Last(format!("refused {number} at -"))
            }
            Refusal::Reader { number, place, .. } => {
                Answer::Last(format!("refused {number} at {place}"))
            }
            other => panic!("{other:?}"),
        }
    }

    /// The crate has sought a date and refused it.
    fn no_date(&self) -> String {
        let offset = self.seeks.last.get();
        match added::no_date(self.file, offset as usize) {
            true => format!("34 at {offset}"),
            false => "date".to_string(),
        }
    }
}
