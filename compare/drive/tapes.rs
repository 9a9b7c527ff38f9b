//! A small builder of event tapes, right and wrong ones, written from document 01 as generator/tape.py is.

pub const FALSE: u8 = 0x01;
pub const TRUE: u8 = 0x02;
pub const INTEGER: u8 = 0x03;
pub const NEGATIVE: u8 = 0x04;
pub const REAL: u8 = 0x05;
pub const DATE: u8 = 0x06;
pub const UID: u8 = 0x07;
pub const DATA: u8 = 0x08;
pub const TEXT: u8 = 0x09;
pub const ARRAY: u8 = 0x0a;
pub const ARRAY_OF: u8 = 0x0b;
pub const DICTIONARY: u8 = 0x0c;
pub const DICTIONARY_OF: u8 = 0x0d;
pub const END: u8 = 0x0e;

/// Appends a number: groups of seven bits, low group first, the high bit on all but the last.
pub fn put_number(tape: &mut Vec<u8>, mut number: u64) {
    while number >= 0x80 {
        tape.push(number as u8 | 0x80);
        number >>= 7;
    }
    tape.push(number as u8);
}

/// Appends an event that is a kind and a number.
pub fn put(tape: &mut Vec<u8>, kind: u8, number: u64) {
    tape.push(kind);
    put_number(tape, number);
}

/// Appends a real or a date.
pub fn put_bits(tape: &mut Vec<u8>, kind: u8, bits: u64) {
    tape.push(kind);
    tape.extend(bits.to_be_bytes());
}

/// Appends data or text.
pub fn put_bytes(tape: &mut Vec<u8>, kind: u8, bytes: &[u8]) {
    put(tape, kind, bytes.len() as u64);
    tape.extend_from_slice(bytes);
}

pub fn put_text(tape: &mut Vec<u8>, text: &str) {
    put_bytes(tape, TEXT, text.as_bytes());
}

/// Appends the start of an array or dictionary; with a length the kind is the next one.
pub fn put_start(tape: &mut Vec<u8>, kind: u8, length: Option<u64>) {
    match length {
        None => tape.push(kind),
        Some(length) => put(tape, kind + 1, length),
    }
}
