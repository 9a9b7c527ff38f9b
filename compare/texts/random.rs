//! Texts from a seed: the same seed gives the same texts.

pub struct Random(u64);

impl Random {
    pub fn new(seed: u64) -> Random {
        Random(seed.wrapping_mul(0x9e37_79b9_7f4a_7c15) | 1)
    }

    /// A number below a limit, by xorshift.
    fn below(&mut self, limit: usize) -> usize {
        self.0 ^= self.0 << 13;
        self.0 ^= self.0 >> 7;
        self.0 ^= self.0 << 17;
        ((self.0 >> 33) % limit.max(1) as u64) as usize
    }

    /// A text of less than a number of scalar values, of all widths, or of some alone.
    pub fn text(&mut self, most: usize) -> String {
        let widths = 1 + self.below(15);
        (0..self.below(most)).map(|_| self.scalar(widths)).collect()
    }

    /// A scalar value of one of the widths, each a bit.
    fn scalar(&mut self, widths: usize) -> char {
        const RANGES: [(usize, usize); 4] = [
            (0, 0x80),
            (0x80, 0x800),
            (0x800, 0x10000),
            (0x10000, 0x110000),
        ];
        loop {
            let width = self.below(4);
            let (low, high) = RANGES[width];
            let value = match self.below(8) {
                0 => low,
                1 => high - 1,
                _ => low + self.below(high - low),
            };
            if widths >> width & 1 == 1 {
                if let Some(scalar) = char::from_u32(value as u32) {
                    return scalar;
                }
            }
        }
    }

    /// Bytes with one thing wrong: one changed, one more, one less, the end or the start gone, two exchanged.
    pub fn damaged(&mut self, bytes: &[u8]) -> Vec<u8> {
        let mut bytes = bytes.to_vec();
        let kind = self.below(7);
        let (at, other) = (self.below(bytes.len()), self.below(bytes.len()));
        let byte = self.below(256) as u8;
        match kind {
            _ if bytes.is_empty() => bytes.push(byte),
            0 => bytes[at] = byte,
            1 => bytes[at] ^= 1 << self.below(8),
            2 => bytes.insert(at, byte),
            3 => drop(bytes.remove(at)),
            4 => bytes.truncate(at),
            5 => drop(bytes.drain(..at)),
            _ => bytes.swap(at, other),
        }
        bytes
    }
}
