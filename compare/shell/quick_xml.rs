//! Two names that the crate's error file mentions. Nothing here makes such an error.

pub mod encoding {
    pub struct EncodingError;
}

pub mod escape {
    pub struct EscapeError;
}
