//! Document 01 as a program of its own, with orders 1, 2, 4, 5, 6, 11 and 13 of document 02, written from their words and, where they leave
//! a point open, from docs/DECISIONS.md: tables as lists of structs, and no cleverness.
//!
//! Each entry point takes the lent memory, of any length and content, and gives the reply and what the memory and the room for a list,
//! for answers, for areas or for a file is afterwards.

pub mod areas;
pub mod cube;
pub mod cut;
pub mod cut_list;
pub mod exact;
pub mod files;
pub mod floats;
pub mod memory;
pub mod print;
pub mod questions;
pub mod sound;
pub mod table;
pub mod touch;

/// The number of a refusal: 1 to 13, 16, 25 or 26.
pub type Refusal = u8;
