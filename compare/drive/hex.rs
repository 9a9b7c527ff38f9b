//! Inputs as lines of hex, and bytes shown in it.

use std::fs;

/// The last word of each line, from hex. An empty line is an empty input.
pub fn lines(path: &str) -> Option<Vec<Vec<u8>>> {
    let lines = fs::read_to_string(path).ok()?;
    lines
        .lines()
        .map(|line| from_hex(line.split(' ').next_back()?))
        .collect()
}

fn from_hex(text: &str) -> Option<Vec<u8>> {
    let pairs = (0..text.len()).step_by(2);
    pairs
        .map(|i| u8::from_str_radix(text.get(i..i + 2)?, 16).ok())
        .collect()
}

/// The first bytes, of which a long input has more.
pub fn shown(bytes: &[u8]) -> String {
    let most = bytes.len().min(2000);
    let mut out = whole(&bytes[..most]);
    if most < bytes.len() {
        out.push_str("..");
    }
    out
}

/// All bytes.
pub fn whole(bytes: &[u8]) -> String {
    const DIGITS: &[u8; 16] = b"0123456789abcdef";
    let digits = bytes.iter().flat_map(|byte| [byte >> 4, byte & 15]);
    digits
        .map(|digit| char::from(DIGITS[usize::from(digit)]))
        .collect()
}
