//! The event tape of document 01, decoded strictly, one event at a time.

use std::str;

use plist::{Integer, Uid, stream::Event};

/// What stands on the tape at an offset, and where it ends.
pub enum Step<'a> {
    Event(Event<'a>, usize),
    /// A whole date. The crate rounds it, so it is not made into an event.
    Date,
    /// Not one whole event: refusal 20.
    Bad,
}

pub fn step(tape: &[u8], offset: usize) -> Step<'_> {
    let mut rest = Rest { tape, offset };
    match rest.event() {
        Some(Some(event)) => Step::Event(event, rest.offset),
        Some(None) => Step::Date,
        None => Step::Bad,
    }
}

/// What is left of a tape. Each part that is taken moves the offset; `None` is a bad tape.
struct Rest<'a> {
    tape: &'a [u8],
    offset: usize,
}

impl<'a> Rest<'a> {
    /// A whole event; `Some(None)` is a date.
    fn event(&mut self) -> Option<Option<Event<'a>>> {
        let event = match self.byte()? {
            0x01 => Event::Boolean(false),
            0x02 => Event::Boolean(true),
            0x03 => Event::Integer(Integer::from(self.number()?)),
            0x04 => Event::Integer(self.negative()?),
            0x05 => Event::Real(f64::from_bits(self.bits()?)),
            0x06 => {
                let seconds = f64::from_bits(self.bits()?);
                return seconds.is_finite().then_some(None);
            }
            0x07 => Event::Uid(Uid::new(self.number()?)),
            0x08 => Event::Data(self.counted()?.into()),
            0x09 => Event::String(str::from_utf8(self.counted()?).ok()?.into()),
            0x0a => Event::StartArray(None),
            0x0b => Event::StartArray(Some(self.number()?)),
            0x0c => Event::StartDictionary(None),
            0x0d => Event::StartDictionary(Some(self.number()?)),
            0x0e => Event::EndCollection,
            _ => return None,
        };
        Some(Some(event))
    }

    fn byte(&mut self) -> Option<u8> {
        let byte = *self.tape.get(self.offset)?;
        self.offset += 1;
        Some(byte)
    }

    fn bytes(&mut self, count: usize) -> Option<&'a [u8]> {
        let end = self.offset.checked_add(count)?;
        let bytes = self.tape.get(self.offset..end)?;
        self.offset = end;
        Some(bytes)
    }

    fn bits(&mut self) -> Option<u64> {
        Some(u64::from_be_bytes(self.bytes(8)?.try_into().ok()?))
    }

    fn counted(&mut self) -> Option<&'a [u8]> {
        let count = self.number()?;
        self.bytes(usize::try_from(count).ok()?)
    }

    /// -1 - n, which is n with every bit turned.
    fn negative(&mut self) -> Option<Integer> {
        let below = i64::try_from(self.number()?).ok()?;
        Some(Integer::from(!below))
    }

    /// Groups of seven bits, low group first, in the shortest form, at most 2^64 - 1.
    fn number(&mut self) -> Option<u64> {
        let mut value = 0u128;
        for group in 0..10 {
            let byte = self.byte()?;
            value |= u128::from(byte & 0x7f) << (7 * group);
            if byte & 0x80 == 0 {
                // A last group of zero could have been left out, unless it is the only one.
                let shortest = byte != 0 || group == 0;
                return u64::try_from(value).ok().filter(|_| shortest);
            }
        }
        None
    }
}
