//! What reading a written tape must give: its events with lengths filled in, and how much room that takes.

use crate::{
    tape::{self, Item},
    tapes::{self, put_start},
};

pub struct Filled {
    /// The events with lengths filled in.
    pub tape: Vec<u8>,
    pub events: usize,
    /// The longest text that isn't ASCII, in bytes of UTF-8.
    pub scratch: usize,
}

impl Filled {
    /// `None` where the tape isn't all events, or where their ends don't go with their starts.
    pub fn of(tape: &[u8]) -> Option<Filled> {
        let members = members_of(tape)?;
        let mut filled = Filled {
            tape: Vec::with_capacity(2 * tape.len()),
            events: members.len(),
            scratch: 0,
        };
        let mut at = 0;
        for count in members {
            let (item, next) = tape::step(tape, at)?;
            match item {
                Item::Array(_) => put_start(&mut filled.tape, tapes::ARRAY, Some(count)),
                Item::Dictionary(_) => {
                    put_start(&mut filled.tape, tapes::DICTIONARY, Some(count / 2));
                }
                _ => filled.tape.extend_from_slice(&tape[at..next]),
            }
            if let Item::Text(text) = item {
                if !text.is_ascii() {
                    filled.scratch = filled.scratch.max(text.len());
                }
            }
            at = next;
        }
        Some(filled)
    }
}

/// For each event how many members it has, keys and values of a dictionary counted one by one; 0 for all but a start.
fn members_of(tape: &[u8]) -> Option<Vec<u64>> {
    let (mut members, mut open, mut at) = (Vec::new(), Vec::new(), 0);
    while at < tape.len() {
        let (item, next) = tape::step(tape, at)?;
        match (&item, open.last()) {
            (Item::End, _) => drop(open.pop()?),
            (_, Some(start)) => members[*start] += 1,
            _ => (),
        }
        if let Item::Array(_) | Item::Dictionary(_) = item {
            open.push(members.len());
        }
        members.push(0);
        at = next;
    }
    Some(members)
}
