//! A builder by docs/FORMAT.md, B, on its words, whatever they are. Nothing here is shared with the proved one.

use crate::{
    ours::{Written, BUILDER_WORDS},
    tape,
    tapes::{
        self, ARRAY, ARRAY_OF, DATA, DATE, DICTIONARY, DICTIONARY_OF, END, NEGATIVE, TEXT, UID,
    },
    their_writer::{refused, MAX_LENGTH},
};

const MAX_OPEN: u32 = 512;

/// What is due, as the third word has it; any larger number says that nothing is.
const ROOT: u32 = 0;
const ELEMENT: u32 = 1;
const KEY: u32 = 2;
const VALUE: u32 = 3;
const NOTHING: u32 = 4;

/// An event as a kind, a number and bytes.
#[derive(Clone, Debug)]
pub struct Call {
    pub kind: u8,
    pub value: u64,
    pub bytes: Vec<u8>,
}

impl Call {
    pub fn new(kind: u8, value: u64, bytes: &[u8]) -> Call {
        Call {
            kind,
            value,
            bytes: bytes.to_vec(),
        }
    }

    /// The event's bytes on a tape, right or wrong; `None` where the kind or the number is that of no event.
    pub fn on_tape(&self) -> Option<Vec<u8>> {
        let mut out = Vec::new();
        match self.kind {
            tapes::FALSE | tapes::TRUE | ARRAY | DICTIONARY | END => out.push(self.kind),
            NEGATIVE if self.value > i64::MAX as u64 => return None,
            tapes::INTEGER | NEGATIVE | UID | ARRAY_OF | DICTIONARY_OF => {
                tapes::put(&mut out, self.kind, self.value)
            }
            tapes::REAL | DATE => tapes::put_bits(&mut out, self.kind, self.value),
            DATA | TEXT => tapes::put_bytes(&mut out, self.kind, &self.bytes),
            _ => return None,
        }
        Some(out)
    }

    /// The number of the event's kind where 21 names it.
    fn found(&self) -> u32 {
        match self.kind {
            ARRAY | ARRAY_OF => 3,
            DICTIONARY | DICTIONARY_OF => 4,
            END => 5,
            tapes::FALSE | tapes::TRUE => 6,
            DATA => 7,
            DATE => 8,
            tapes::INTEGER | NEGATIVE => 9,
            tapes::REAL => 10,
            TEXT => 11,
            _ => 12,
        }
    }
}

fn unexpected(place: usize, expected: u32, found: u32) -> Written {
    Written {
        expected,
        found,
        ..refused(21, place)
    }
}

fn after(due: u32) -> u32 {
    match due {
        ELEMENT => ELEMENT,
        KEY => VALUE,
        VALUE => KEY,
        _ => NOTHING,
    }
}

/// The answer to an event whose bytes these are, with so many bytes of tape; where it is taken the words become those behind it.
pub fn call(words: &mut [u32], room: usize, event: &Call, bytes: &[u8]) -> Written {
    let held = words[0] as u64 | (words[1] as u64) << 32;
    let (due, depth) = (words[2], words[3]);
    if (room as u64) < held {
        return refused(32, 0);
    }
    let at = held as usize;
    if at + bytes.len() > MAX_LENGTH {
        return refused(1, 0);
    }
    let start = matches!(event.kind, ARRAY | ARRAY_OF | DICTIONARY | DICTIONARY_OF);
    let barred = if due > VALUE {
        Some(refused(23, at))
    } else if tape::step(bytes, 0).is_none() {
        Some(refused(20, at))
    } else if event.kind == END && due == VALUE
        || event.kind != END && event.kind != TEXT && due == KEY
    {
        Some(unexpected(at, 2, event.found()))
    } else if event.kind == END && depth == 0 {
        Some(unexpected(at, 1, 5))
    } else if start && depth >= MAX_OPEN {
        Some(refused(15, at))
    } else if at + bytes.len() > room {
        Some(refused(27, at))
    } else {
        None
    };
    if let Some(refusal) = barred {
        return refusal;
    }
    let end = (at + bytes.len()) as u64;
    words[0] = end as u32;
    words[1] = (end >> 32) as u32;
    if start {
        push(words, depth, (after(due) == KEY) as u64);
        words[2] = if event.kind < DICTIONARY {
            ELEMENT
        } else {
            KEY
        };
        words[3] = depth + 1;
    } else if event.kind == END {
        let around = depth.min(MAX_OPEN) - 1;
        let bit = pop(words, around);
        words[2] = if around == 0 { NOTHING } else { ELEMENT + bit };
        words[3] = around;
    } else {
        words[2] = after(due);
    }
    Written {
        number: 0,
        value: end,
        expected: 0,
        found: 0,
    }
}

fn stack(words: &mut [u32], level: u32) -> &mut [u32] {
    let at = 4 + 2 * (level as usize / 64);
    &mut words[at..at + 2]
}

fn push(words: &mut [u32], level: u32, bit: u64) {
    let halves = stack(words, level);
    let word = (halves[0] as u64 | (halves[1] as u64) << 32) << 1 | bit;
    halves.copy_from_slice(&[word as u32, (word >> 32) as u32]);
}

fn pop(words: &mut [u32], level: u32) -> u32 {
    let halves = stack(words, level);
    let word = halves[0] as u64 | (halves[1] as u64) << 32;
    halves.copy_from_slice(&[(word >> 1) as u32, (word >> 33) as u32]);
    (word & 1) as u32
}

/// An empty builder.
pub fn begin() -> [u32; BUILDER_WORDS] {
    let mut words = [0; BUILDER_WORDS];
    words[2] = ROOT;
    words
}
