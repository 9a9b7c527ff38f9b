//! One input at a time: what the proved functions say, held against the standard library.

use std::fmt;

use crate::library::{self, Changed};

/// Bytes that are lent beyond the text, to see that they stay.
const SPARE: usize = 3;

/// How many differences of a group are shown, and how many bytes of each input.
const SHOWN: u64 = 5;
const SHOWN_BYTES: usize = 60;

#[derive(Default)]
pub struct Judge {
    pub inputs: u64,
    pub texts: u64,
    pub differences: u64,
    /// The text that the standard library makes of an input, and the memory that is lent.
    wanted: Vec<u8>,
    lent: Vec<u8>,
    units: Vec<u16>,
}

impl Judge {
    /// Bytes as UTF-8: both checks, and the change to UTF-16.
    pub fn utf8(&mut self, input: &[u8]) {
        self.inputs += 1;
        let text = std::str::from_utf8(input).ok();
        self.hold("is_utf8", input, library::is_utf8(input) == text.is_some());
        self.hold(
            "is_ascii",
            input,
            library::is_ascii(input) == input.is_ascii(),
        );
        self.wanted.clear();
        if let Some(text) = text {
            self.wanted
                .extend(text.encode_utf16().flat_map(u16::to_be_bytes));
        }
        self.change(
            "utf8_to_utf16",
            library::utf8_to_utf16,
            input,
            text.is_some(),
        );
    }

    /// Bytes as big-endian UTF-16: the check, and the change to UTF-8. Half a unit is no text.
    pub fn utf16(&mut self, input: &[u8]) {
        self.inputs += 1;
        let pairs = input.chunks_exact(2);
        let whole = pairs.remainder().is_empty();
        self.units.clear();
        self.units
            .extend(pairs.map(|pair| u16::from_be_bytes([pair[0], pair[1]])));
        let text = match whole {
            true => String::from_utf16(&self.units).ok(),
            false => None,
        };
        let good = text.is_some();
        self.hold("is_utf16", input, library::is_utf16(input) == good);
        self.wanted.clear();
        self.wanted.extend(text.unwrap_or_default().bytes());
        self.change("utf16_to_utf8", library::utf16_to_utf8, input, good);
    }

    /// The change with more room than it needs, with just enough, and with one byte too few.
    fn change(
        &mut self,
        name: &str,
        function: fn(&[u8], &mut [u8]) -> Changed,
        input: &[u8],
        good: bool,
    ) {
        self.texts += u64::from(good);
        let length = self.wanted.len();
        for room in [length + SPARE, length] {
            let answer = match good {
                true => Changed::Written(length),
                false => Changed::NotText,
            };
            let same = self.asked(function, input, room, answer, good);
            self.hold(name, input, same);
        }
        if 0 < length {
            let same = self.asked(function, input, length - 1, Changed::NoRoom, false);
            self.hold(name, input, same);
        }
    }

    /// Whether the answer is the one that is wanted, and the lent memory has the text, or is as it was, and is as it was
    /// behind the text.
    fn asked(
        &mut self,
        function: fn(&[u8], &mut [u8]) -> Changed,
        input: &[u8],
        room: usize,
        answer: Changed,
        written: bool,
    ) -> bool {
        let filled = |at: usize| 0xa5 ^ at as u8;
        self.lent.clear();
        self.lent.extend((0..room).map(filled));
        let length = if written { self.wanted.len() } else { 0 };
        function(input, &mut self.lent) == answer
            && self.lent[..length] == self.wanted[..length]
            && (length..room).all(|at| self.lent[at] == filled(at))
    }

    fn hold(&mut self, name: &str, input: &[u8], same: bool) {
        if same {
            return;
        }
        self.differences += 1;
        if self.differences <= SHOWN {
            let shown = input.iter().take(SHOWN_BYTES);
            let hex: String = shown.map(|byte| format!("{byte:02x}")).collect();
            println!("differs: {name} of {} bytes {hex}", input.len());
        }
    }

    /// There and back: text that is changed twice is as it was.
    pub fn round_trip(&mut self, text: &str) {
        self.inputs += 1;
        self.texts += 1;
        let mut units = vec![0; text.len() * 2];
        let mut bytes = vec![0; text.len()];
        let there = library::utf8_to_utf16(text.as_bytes(), &mut units);
        let Changed::Written(length) = there else {
            return self.hold("round trip", text.as_bytes(), false);
        };
        let back = library::utf16_to_utf8(&units[..length], &mut bytes);
        let same = back == Changed::Written(text.len()) && bytes == text.as_bytes();
        self.hold("round trip", text.as_bytes(), same);
    }
}

impl fmt::Display for Judge {
    fn fmt(&self, f: &mut fmt::Formatter) -> fmt::Result {
        let Judge {
            inputs,
            texts,
            differences,
            ..
        } = self;
        write!(
            f,
            "{inputs} inputs, {texts} of them text, {differences} differences"
        )
    }
}
