//! The crate's binary reader over one file in memory, with what document 01 needs to know beside its answers.

use std::io::Cursor;

use crate::added::{self, CountedSeeks, Seeks, Sought};
use plist::{
    stream::{BinaryReader, Event},
    Refusal,
};

/// Document 02: at most this many containers are open at once.
const MAX_OPEN: usize = 512;

pub enum Answer {
    Event(Event<'static>),
    End,
    /// Document 01's number, the marker of 10 or 0, and the place where it is compared.
    Refused(u8, u8, Option<u64>),
    /// A date, or one that the crate refuses and document 02 doesn't: nothing is compared from here on.
    Date,
    /// The 513th open container, which document 02 refuses.
    Depth,
    /// An object that document 02 refuses, with our number and its offset.
    Added(u8, u64),
    /// An error that the reader should not be able to give.
    Unforeseen(String),
}

pub struct Watched<'a> {
    file: &'a [u8],
    reader: BinaryReader<CountedSeeks<'a>>,
    seeks: &'a Seeks,
    sought: Sought,
    open: usize,
    /// The object last fetched came from the reader's cache, so that its place is an older one.
    from_cache: bool,
}

impl<'a> Watched<'a> {
    pub fn new(file: &'a [u8], seeks: &'a Seeks) -> Self {
        let cursor = Cursor::new(file);
        Watched {
            file,
            reader: BinaryReader::new(CountedSeeks { cursor, seeks }),
            seeks,
            sought: Sought::default(),
            open: 0,
            from_cache: false,
        }
    }

    pub fn next(&mut self) -> Answer {
        let seeks_before = self.seeks.count.get();
        let answer = self.reader.next();
        let made = self.seeks.count.get() - seeks_before;
        let sought = made != 0;
        if let Some(offset) = self.sought.object(made, self.seeks) {
            if let Some(number) = added::refusal(self.file, offset) {
                return Answer::Added(number, offset as u64);
            }
        }
        match answer {
            None => Answer::End,
            Some(Err(error)) => {
                // A refusal without a seek (6, 7) keeps the place of the object fetched before.
                self.from_cache &= !sought;
                self.refusal(Refusal::of(&error))
            }
            Some(Ok(event)) => {
                if !matches!(event, Event::EndCollection) {
                    self.from_cache = !sought;
                }
                self.event(event)
            }
        }
    }

    fn event(&mut self, event: Event<'static>) -> Answer {
        match event {
            Event::Date(_) => return Answer::Date,
            Event::StartArray(_) | Event::StartDictionary(_) if self.open == MAX_OPEN => {
                return Answer::Depth;
            }
            Event::StartArray(_) | Event::StartDictionary(_) => self.open += 1,
            Event::EndCollection => self.open -= 1,
            _ => (),
        }
        Answer::Event(event)
    }

    fn refusal(&self, refusal: Refusal) -> Answer {
        match refusal {
            Refusal::Date => self.no_date(),
            Refusal::Reader { number, marker, place } => {
                Answer::Refused(number, marker, (!self.from_cache).then_some(place))
            }
            other => Answer::Unforeseen(format!("{other:?}")),
        }
    }

    /// The crate has sought a date and refused it.
    fn no_date(&self) -> Answer {
        let offset = self.seeks.last.get();
        match added::no_date(self.file, offset as usize) {
            true => Answer::Added(34, offset),
            false => Answer::Date,
        }
    }
}
