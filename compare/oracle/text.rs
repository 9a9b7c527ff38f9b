//! What the standard library says of UTF-8 and UTF-16.

use std::str;

use crate::hex;

/// `no`, or `yes` with the text as big-endian UTF-16, and `ascii` where it is.
pub fn utf8_line(bytes: &[u8]) -> String {
    let Ok(text) = str::from_utf8(bytes) else {
        return "no\n".to_string();
    };
    let units: Vec<u8> = text.encode_utf16().flat_map(u16::to_be_bytes).collect();
    let ascii = if text.is_ascii() { " ascii" } else { "" };
    format!("{}{ascii}\n", hex::after("yes", &units))
}

/// `odd` for half a unit, `no`, or `yes` with the text as UTF-8.
pub fn utf16_line(bytes: &[u8]) -> String {
    if bytes.len() % 2 != 0 {
        return "odd\n".to_string();
    }
    let units: Vec<u16> = bytes
        .chunks(2)
        .map(|pair| u16::from_be_bytes([pair[0], pair[1]]))
        .collect();
    match String::from_utf16(&units) {
        Ok(text) => hex::after("yes", text.as_bytes()) + "\n",
        Err(_) => "no\n".to_string(),
    }
}
