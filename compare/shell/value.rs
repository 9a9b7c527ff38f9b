//! The tree of values, by its names alone: the crate's error file lists them.

use crate::{Date, Integer, Uid};

pub enum Value {
    Array(Vec<Value>),
    Dictionary(Vec<(String, Value)>),
    Boolean(bool),
    Data(Vec<u8>),
    Date(Date),
    Integer(Integer),
    Real(f64),
    String(String),
    Uid(Uid),
}
