//! The part of the crate `plist` that its binary reader and writer stand on.
//!
//! The crate's own files are taken whole, from the folder that `PLIST_SRC` names when this is
//! built. They are never copied here. What they use and we don't have stands in beside them:
//! `indexmap` is a thin layer over Debian's, `quick_xml` and `time` are empty shapes.
//!
//! Each file is included inside a module, so that a stand-in can be given its name there.
#![allow(dead_code)]

mod indexmap;
mod quick_xml;
mod refusal;
mod time;
mod value;

pub mod stream;

mod date {
    use crate::time;
    include!(concat!(env!("PLIST_SRC"), "/src/date.rs"));
}

mod error {
    use crate::quick_xml;
    include!(concat!(env!("PLIST_SRC"), "/src/error.rs"));

    // The crate keeps these two to itself. Only this module can hand them on.
    impl Error {
        pub(crate) fn kind(&self) -> &ErrorKind {
            &self.inner.kind
        }

        pub(crate) fn place(&self) -> Option<u64> {
            self.inner.file_position.map(|position| position.0)
        }
    }
}

mod integer {
    include!(concat!(env!("PLIST_SRC"), "/src/integer.rs"));
}

mod uid {
    include!(concat!(env!("PLIST_SRC"), "/src/uid.rs"));
}

pub use date::{Date, InvalidXmlDate};
pub use error::Error;
pub use integer::Integer;
pub use refusal::Refusal;
pub use uid::Uid;
pub use value::Value;
