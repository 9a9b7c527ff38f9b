//! Events, the writer's trait, and the two files that are compared.

use std::borrow::Cow;

use crate::{Date, Error, Integer, Uid};

mod binary_reader {
    include!(concat!(env!("PLIST_SRC"), "/src/stream/binary_reader.rs"));
}

mod binary_writer {
    use crate::indexmap;
    include!(concat!(env!("PLIST_SRC"), "/src/stream/binary_writer.rs"));
}

pub use binary_reader::BinaryReader;
pub use binary_writer::BinaryWriter;

/// One step of a property list, as the reader hands it out and the writer takes it.
#[derive(Clone, Debug, PartialEq)]
pub enum Event<'a> {
    StartArray(Option<u64>),
    StartDictionary(Option<u64>),
    EndCollection,
    Boolean(bool),
    Data(Cow<'a, [u8]>),
    Date(Date),
    Integer(Integer),
    Real(f64),
    String(Cow<'a, str>),
    Uid(Uid),
}

pub type OwnedEvent = Event<'static>;

/// What takes events. The binary writer implements the parts; `write` picks the right one.
pub trait Writer {
    fn write(&mut self, event: Event) -> Result<(), Error> {
        match event {
            Event::StartArray(len) => self.write_start_array(len),
            Event::StartDictionary(len) => self.write_start_dictionary(len),
            Event::EndCollection => self.write_end_collection(),
            Event::Boolean(value) => self.write_boolean(value),
            Event::Data(value) => self.write_data(value),
            Event::Date(value) => self.write_date(value),
            Event::Integer(value) => self.write_integer(value),
            Event::Real(value) => self.write_real(value),
            Event::String(value) => self.write_string(value),
            Event::Uid(value) => self.write_uid(value),
        }
    }

    fn write_start_array(&mut self, len: Option<u64>) -> Result<(), Error>;
    fn write_start_dictionary(&mut self, len: Option<u64>) -> Result<(), Error>;
    fn write_end_collection(&mut self) -> Result<(), Error>;
    fn write_boolean(&mut self, value: bool) -> Result<(), Error>;
    fn write_data(&mut self, value: Cow<[u8]>) -> Result<(), Error>;
    fn write_date(&mut self, value: Date) -> Result<(), Error>;
    fn write_integer(&mut self, value: Integer) -> Result<(), Error>;
    fn write_real(&mut self, value: f64) -> Result<(), Error>;
    fn write_string(&mut self, value: Cow<str>) -> Result<(), Error>;
    fn write_uid(&mut self, value: Uid) -> Result<(), Error>;
}
