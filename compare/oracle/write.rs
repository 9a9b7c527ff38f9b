//! The crate's binary writer over one tape, answered as one line.

use std::panic::{AssertUnwindSafe, catch_unwind};

use plist::{
    Refusal,
    stream::{BinaryWriter, Event, Writer},
};

use crate::{
    hex,
    read::MAX_OPEN,
    tape::{self, Step},
};

pub fn line(tape: &[u8]) -> String {
    let answer = catch_unwind(AssertUnwindSafe(|| write(tape)));
    let line = match answer {
        Ok(Ok(file)) => hex::after("file", &file),
        Ok(Err(stop)) => stop.line(),
        Err(_) => "panic".to_string(),
    };
    line + "\n"
}

/// Why no file was written. The numbers are document 01's.
enum Stop {
    /// The crate's writer refused the event at this offset.
    Unexpected {
        offset: usize,
        expected: String,
        found: String,
    },
    /// Only document 01's added rules refuse this; the crate was not asked, or went along.
    Added {
        number: u8,
        offset: usize,
    },
    Date,
}

impl Stop {
    fn line(self) -> String {
        match self {
            Stop::Unexpected {
                offset,
                expected,
                found,
            } => format!("refused 21 at {offset} {expected} {found}"),
            Stop::Added { number, offset } => format!("outside {number} at {offset}"),
            Stop::Date => "outside date".to_string(),
        }
    }
}

/// Document 01's order of refusals: event by event 23, 20, 21, 15, and 22 where the tape ends.
fn write(tape: &[u8]) -> Result<Vec<u8>, Stop> {
    let mut file = Vec::new();
    let mut writer = BinaryWriter::new(&mut file);
    let mut open = 0;
    let mut complete = false;
    let mut offset = 0;
    while offset < tape.len() {
        if complete {
            return Err(Stop::Added { number: 23, offset });
        }
        let (event, next) = match tape::step(tape, offset) {
            Step::Event(event, next) => (event, next),
            Step::Date => return Err(Stop::Date),
            Step::Bad => return Err(Stop::Added { number: 20, offset }),
        };
        let change = depth_change(&event);
        writer
            .write(event)
            .map_err(|error| refused(offset, Refusal::of(&error)))?;
        if change == 1 && open == MAX_OPEN as i64 {
            return Err(Stop::Added { number: 15, offset });
        }
        open += change;
        complete = open == 0;
        offset = next;
    }
    if !complete {
        return Err(Stop::Added { number: 22, offset });
    }
    drop(writer);
    Ok(file)
}

fn depth_change(event: &Event) -> i64 {
    match event {
        Event::StartArray(_) | Event::StartDictionary(_) => 1,
        Event::EndCollection => -1,
        _ => 0,
    }
}

fn refused(offset: usize, refusal: Refusal) -> Stop {
    match refusal {
        Refusal::UnexpectedEvent { expected, found } => Stop::Unexpected {
            offset,
            expected,
            found,
        },
        other => panic!("{other:?}"),
    }
}
