//! The event tape of document 01, decoded strictly. Nothing here is shared with the proved decoder.

use std::str;

use plist::stream::Event;

/// One event of the tape; data and text lie on it.
#[derive(Debug)]
pub enum Item<'a> {
    False,
    True,
    NotNegative(u64),
    /// A negative integer n as -1 - n.
    Negative(u64),
    Real(u64),
    Date(u64),
    Uid(u64),
    Data(&'a [u8]),
    Text(&'a str),
    Array(Option<u64>),
    Dictionary(Option<u64>),
    End,
}

impl Item<'_> {
    /// Whether the crate's event is this one. Integers by value, reals by bits.
    pub fn is(&self, event: &Event) -> bool {
        match (self, event) {
            (Item::False, Event::Boolean(value)) => !value,
            (Item::True, Event::Boolean(value)) => *value,
            (Item::NotNegative(n), Event::Integer(value)) => value.as_unsigned() == Some(*n),
            (Item::Negative(k), Event::Integer(value)) => {
                *k <= i64::MAX as u64 && value.as_signed() == Some(-1 - *k as i64)
            }
            (Item::Real(bits), Event::Real(value)) => value.to_bits() == *bits,
            (Item::Uid(n), Event::Uid(value)) => value.get() == *n,
            (Item::Data(bytes), Event::Data(value)) => **bytes == **value,
            (Item::Text(text), Event::String(value)) => **text == **value,
            (Item::Array(length), Event::StartArray(value)) => length == value,
            (Item::Dictionary(length), Event::StartDictionary(value)) => length == value,
            (Item::End, Event::EndCollection) => true,
            _ => false,
        }
    }

    /// What `zm_tape_step` must say beside the next offset: the number, and how many bytes.
    pub fn numbers(&self) -> (u64, usize) {
        match self {
            Item::NotNegative(n) | Item::Negative(n) | Item::Real(n) | Item::Date(n) => (*n, 0),
            Item::Uid(n) | Item::Array(Some(n)) | Item::Dictionary(Some(n)) => (*n, 0),
            Item::Data(bytes) => (0, bytes.len()),
            Item::Text(text) => (0, text.len()),
            _ => (0, 0),
        }
    }
}

/// The event at an offset and the offset after it; `None` where the bytes aren't one whole event.
pub fn step(tape: &[u8], offset: usize) -> Option<(Item<'_>, usize)> {
    let mut rest = Rest { tape, offset };
    let item = rest.item()?;
    Some((item, rest.offset))
}

/// Whether bits may be a date's.
fn is_finite(bits: u64) -> bool {
    f64::from_bits(bits).is_finite()
}

/// What is left of a tape. Each part that is taken moves the offset.
struct Rest<'a> {
    tape: &'a [u8],
    offset: usize,
}

impl<'a> Rest<'a> {
    fn item(&mut self) -> Option<Item<'a>> {
        Some(match self.byte()? {
            0x01 => Item::False,
            0x02 => Item::True,
            0x03 => Item::NotNegative(self.number()?),
            0x04 => Item::Negative(self.number().filter(|n| *n <= i64::MAX as u64)?),
            0x05 => Item::Real(self.bits()?),
            0x06 => Item::Date(self.bits().filter(|bits| is_finite(*bits))?),
            0x07 => Item::Uid(self.number()?),
            0x08 => Item::Data(self.counted()?),
            0x09 => Item::Text(str::from_utf8(self.counted()?).ok()?),
            0x0a => Item::Array(None),
            0x0b => Item::Array(Some(self.number()?)),
            0x0c => Item::Dictionary(None),
            0x0d => Item::Dictionary(Some(self.number()?)),
            0x0e => Item::End,
            _ => return None,
        })
    }

    fn byte(&mut self) -> Option<u8> {
        let byte = *self.tape.get(self.offset)?;
        self.offset += 1;
        Some(byte)
    }

    fn bytes(&mut self, count: usize) -> Option<&'a [u8]> {
        let end = self.offset.checked_add(count)?;
        let bytes = self.tape.get(self.offset..end)?;
        self.offset = end;
        Some(bytes)
    }

    fn bits(&mut self) -> Option<u64> {
        Some(u64::from_be_bytes(self.bytes(8)?.try_into().ok()?))
    }

    fn counted(&mut self) -> Option<&'a [u8]> {
        let count = self.number()?;
        self.bytes(usize::try_from(count).ok()?)
    }

    /// Groups of seven bits, low group first, in the shortest form, at most 2^64 - 1.
    fn number(&mut self) -> Option<u64> {
        let mut value = 0u128;
        for group in 0..10 {
            let byte = self.byte()?;
            value |= u128::from(byte & 0x7f) << (7 * group);
            if byte & 0x80 == 0 {
                // A last group of zero could have been left out, unless it is the only one.
                let shortest = byte != 0 || group == 0;
                return u64::try_from(value).ok().filter(|_| shortest);
            }
        }
        None
    }
}
