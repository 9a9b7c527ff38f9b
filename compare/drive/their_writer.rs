//! The crate's binary writer over one tape, with document 01's added rules, which decide all that the crate does not.

use plist::{
    stream::{BinaryWriter, Event, Writer},
    Integer, Refusal, Uid,
};

use crate::{
    ours::Written,
    tape::{self, Item},
};

/// Documents 01 and 02: the most bytes of a tape or a file, and the most containers that are open at once.
pub const MAX_LENGTH: usize = 1 << 31;
const MAX_OPEN: usize = 512;

/// The kinds of events that 21 names, by their numbers: crates/exports/specs/Write.antt.
const KINDS: [&str; 13] = [
    "",
    "ValueOrStartCollection",
    "DictionaryKeyOrEndCollection",
    "StartArray",
    "StartDictionary",
    "EndCollection",
    "Boolean",
    "Data",
    "Date",
    "Integer",
    "Real",
    "String",
    "Uid",
];

/// How many events a tape has whose file is written to the vector, or the refusal. Event by event 23, 20, 21, 15, and 22 where the tape ends.
pub fn write(tape: &[u8], file: &mut Vec<u8>) -> Result<usize, Written> {
    if tape.len() > MAX_LENGTH {
        return Err(refused(1, 0));
    }
    file.clear();
    let mut writer = BinaryWriter::new(&mut *file);
    let mut dates = Dates::default();
    let (mut open, mut complete, mut events, mut offset) = (0, false, 0, 0);
    while offset < tape.len() {
        if complete {
            return Err(refused(23, offset));
        }
        let Some((item, next)) = tape::step(tape, offset) else {
            return Err(refused(20, offset));
        };
        if let Err(error) = writer.write(dates.event(tape, &item)) {
            return Err(unexpected(offset, &item, Refusal::of(&error)));
        }
        match item {
            Item::Array(_) | Item::Dictionary(_) if open == MAX_OPEN => {
                return Err(refused(15, offset));
            }
            Item::Array(_) | Item::Dictionary(_) => open += 1,
            Item::End => open -= 1,
            _ => (),
        }
        complete = open == 0;
        events += 1;
        offset = next;
    }
    if !complete {
        return Err(refused(22, offset));
    }
    drop(writer);
    dates.put_back(file);
    Ok(events)
}

pub fn refused(number: u32, place: usize) -> Written {
    Written {
        number,
        value: place as u64,
        expected: 0,
        found: 0,
    }
}

fn unexpected(place: usize, item: &Item, refusal: Refusal) -> Written {
    let Refusal::UnexpectedEvent { expected, found } = refusal else {
        panic!("{refusal:?}");
    };
    let found = if let Item::Date(_) = item {
        "Date"
    } else {
        &found
    };
    Written {
        expected: number_of(&expected),
        found: number_of(found),
        ..refused(21, place)
    }
}

fn number_of(kind: &str) -> u32 {
    let number = KINDS.iter().position(|name| *name == kind);
    number.expect("a kind of event that document 01 doesn't name") as u32
}

/// The crate rounds dates, so each is given to it as a real that the tape doesn't have, and put back into the file.
#[derive(Default)]
struct Dates {
    /// The bits of each date and of the real in its place.
    pairs: Vec<(u64, u64)>,
    /// The bits of all reals of the tape, once there is a date.
    reals: Vec<u64>,
}

impl Dates {
    fn event<'a>(&mut self, tape: &[u8], item: &Item<'a>) -> Event<'a> {
        match *item {
            Item::False => Event::Boolean(false),
            Item::True => Event::Boolean(true),
            Item::NotNegative(n) => Event::Integer(Integer::from(n)),
            Item::Negative(n) => Event::Integer(Integer::from(-1 - n as i64)),
            Item::Real(bits) => Event::Real(f64::from_bits(bits)),
            Item::Date(bits) => Event::Real(f64::from_bits(self.real_for(tape, bits))),
            Item::Uid(n) => Event::Uid(Uid::new(n)),
            Item::Data(bytes) => Event::Data(bytes.into()),
            Item::Text(text) => Event::String(text.into()),
            Item::Array(length) => Event::StartArray(length),
            Item::Dictionary(length) => Event::StartDictionary(length),
            Item::End => Event::EndCollection,
        }
    }

    fn real_for(&mut self, tape: &[u8], date: u64) -> u64 {
        if let Some((_, real)) = self.pairs.iter().find(|(bits, _)| *bits == date) {
            return *real;
        }
        if self.pairs.is_empty() {
            self.reals = reals_of(tape);
        }
        let taken = |bits| self.reals.contains(&bits) || self.pairs.iter().any(|p| p.1 == bits);
        let real = (1..).find(|bits| !taken(*bits)).unwrap_or(0);
        self.pairs.push((date, real));
        real
    }

    fn put_back(&self, file: &mut [u8]) {
        if self.pairs.is_empty() {
            return;
        }
        let trailer = file.len() - 32;
        let size = usize::from(file[trailer + 6]);
        let (count, table) = (be(file, trailer + 8, 8), be(file, trailer + 24, 8));
        for entry in 0..count {
            let at = be(file, table + size * entry, size);
            let real = be(file, at + 1, 8) as u64;
            if let (0x23, Some((date, _))) =
                (file[at], self.pairs.iter().find(|pair| pair.1 == real))
            {
                file[at] = 0x33;
                file[at + 1..at + 9].copy_from_slice(&date.to_be_bytes());
            }
        }
    }
}

/// The events of a tape up to its end, or to what is no event.
pub fn events_of(tape: &[u8]) -> Vec<Event<'_>> {
    let (mut events, mut offset) = (Vec::new(), 0);
    let mut dates = Dates::default();
    while let Some((item, next)) = tape::step(tape, offset) {
        events.push(dates.event(tape, &item));
        offset = next;
    }
    events
}

fn reals_of(tape: &[u8]) -> Vec<u64> {
    let (mut reals, mut offset) = (Vec::new(), 0);
    while let Some((item, next)) = tape::step(tape, offset) {
        if let Item::Real(bits) = item {
            reals.push(bits);
        }
        offset = next;
    }
    reals
}

fn be(file: &[u8], at: usize, size: usize) -> usize {
    let bytes = &file[at..at + size];
    bytes
        .iter()
        .fold(0, |number, byte| number << 8 | *byte as usize)
}
