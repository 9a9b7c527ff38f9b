//! The crate's errors as document 01 numbers them.

use crate::error::{Error, ErrorKind};

/// What an error of the binary reader or writer is to the comparison.
#[derive(Debug)]
pub enum Refusal {
    /// A refusal of the reader: document 01's number, the crate's place, and the marker that 10 carries, else 0.
    Reader { number: u8, place: u64, marker: u8 },
    /// 21, with the crate's names of what was expected and what was found.
    UnexpectedEvent { expected: String, found: String },
    /// A date that the crate can't hold. Dates are outside the comparison.
    Date,
    /// An error that neither the reader nor the writer should be able to give.
    Unforeseen(String),
}

impl Refusal {
    pub fn of(error: &Error) -> Refusal {
        let number = match error.kind() {
            ErrorKind::Io(_) => 2,
            ErrorKind::InvalidMagic => 3,
            ErrorKind::InvalidTrailerObjectOffsetSize => 4,
            ErrorKind::InvalidTrailerObjectReferenceSize => 5,
            ErrorKind::ObjectOffsetTooLarge => 6,
            ErrorKind::ObjectReferenceTooLarge => 7,
            ErrorKind::NullObjectUnimplemented => 8,
            ErrorKind::FillObjectUnimplemented => 9,
            ErrorKind::UnknownObjectType(_) => 10,
            ErrorKind::IntegerOutOfRange => 11,
            ErrorKind::InvalidUtf8String => 12,
            ErrorKind::InvalidUtf16String => 13,
            ErrorKind::RecursiveObject => 14,
            ErrorKind::OverflowOrNanDate => return Refusal::Date,
            ErrorKind::UnexpectedEventType { expected, found } => {
                return Refusal::UnexpectedEvent {
                    expected: format!("{expected:?}"),
                    found: format!("{found:?}"),
                };
            }
            _ => return Refusal::Unforeseen(error.to_string()),
        };
        let marker = match error.kind() {
            ErrorKind::UnknownObjectType(marker) => *marker,
            _ => 0,
        };
        match error.place() {
            Some(place) => Refusal::Reader { number, place, marker },
            None => Refusal::Unforeseen(error.to_string()),
        }
    }
}
