//! One event as one line of document 01's listing.

use plist::stream::Event;

use crate::hex;

/// The line without its newline. A date has none: the oracle stops before it.
pub fn line(event: &Event) -> Option<String> {
    let line = match event {
        Event::StartArray(length) => format!("array {}", given(*length)),
        Event::StartDictionary(length) => format!("dict {}", given(*length)),
        Event::EndCollection => "close".to_string(),
        Event::Boolean(value) => value.to_string(),
        Event::Data(bytes) => counted("data", bytes),
        Event::Integer(value) => format!("int {value}"),
        Event::Real(value) => format!("real {:016x}", value.to_bits()),
        Event::String(text) => counted("str", text.as_bytes()),
        Event::Uid(value) => format!("uid {}", value.get()),
        Event::Date(_) => return None,
    };
    Some(line)
}

/// The binary reader always gives a length.
fn given(length: Option<u64>) -> u64 {
    length.expect("the binary reader knows every length")
}

fn counted(word: &str, bytes: &[u8]) -> String {
    hex::after(&format!("{word} {}", bytes.len()), bytes)
}
