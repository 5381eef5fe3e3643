//! A small stand-in for the crate of this name: arrays as lists of cells, with what two source files ask of them.
//!
//! Only four kinds of arrays hold cells here: numbers of 64 bits, byte strings, records of three optional numbers,
//! and truth values. The other types have a name, so that code that mentions them compiles, and are never made.

pub mod array;
pub mod buffer;
pub mod builder;
pub mod bytes;
pub mod compute;
pub mod datatypes;
pub mod error;
