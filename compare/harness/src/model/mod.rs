//! docs/FORMAT.md as a small program: what decode, an element call, an encoder and the calls that build a row answer.
//! It is written from the document and from nothing else: neither the Rattle code nor its definitions nor the Rust.

mod decode;
mod elements;
mod encode;
mod frame;
mod kinds;
pub mod numbers;
mod rows;

pub use decode::{decode, decode_unlimited, fault, Answer};
pub use elements::{content, element, item, lists};
pub use encode::{encode, given, Given, RowFieldGiven};
pub use frame::{Element, Slot};
pub use kinds::{framing, kind_of, named, numbered, Count, Framing, Kind, Part, KINDS, REFUSES, STATUSES, TARGETS};
pub use rows::{row_content, step, Building, Built, Column, Step};
