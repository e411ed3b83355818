//! The second program: every rule of the document again, as ordinary Rust with nothing proved, for the proved library
//! to be compared with. It was written from the documents, without a look at the library's code, and shares nothing
//! with it.
//!
//! It aims at being plainly right: each module follows its section of the document, and is no faster than a neighbour
//! table and a breadth-first search make it.

pub mod check;
pub mod copy;
pub mod file;
pub mod joined;
pub mod judge;
pub mod kinds;
pub mod neighbours;
pub mod prune;
pub mod request;
pub mod text;
pub mod unite;
pub mod weak;

#[cfg(test)]
mod examples;
