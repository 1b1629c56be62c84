//! The desk's engine, as it is proved, behind safe Rust.
//!
//! A [`Table`] is the room of one table. A cut does not make pieces: it adds entries to the table, and a piece that the
//! plane misses is its old entry. Element, vertex and hyperplane numbers count three lists, so they are three types.
//! Any number and float may be given; a refused call leaves the table and the list as they came. The answer of a cut warns of a plane
//! that passes close by a corner ([`CutAnswer`]). [`Table::cut_all`] makes a list of cuts in one call, and [`Table::touch`] tells whether
//! a plane touches a piece, without a cut. [`Table::areas`] gives the areas of flat pieces in exact numbers, and [`Table::stl`] a piece of
//! three dimensions as a file for a printer. [`Table::save`] gives a table as its one file, and [`Table::open`] opens it.
//!
//! ```
//! use spoonvelvet::{ElementCutOutput, ElementId, Hyperplane, Refused, Table};
//!
//! let mut table = Table::with_primordial_cube_radius(2, 1.0)?;
//! let answer = table.slice(Hyperplane::new(&[1.0, 0.0], 0.0)?, table.last_element())?;
//! let [inside, outside, intersection] = [16, 17, 15].map(|n| Some(ElementId(n)));
//! assert_eq!(answer.output, ElementCutOutput::NonFlush { inside, outside, intersection });
//! # Ok::<(), Refused>(())
//! ```

#![deny(missing_docs)]

pub mod raw;
mod refused;
pub mod session;
mod stopped;
mod table;
mod values;

pub use refused::Refused;
pub use stopped::Stopped;
pub use table::Table;
pub use values::{
    AreaSheet, Counts, CutAnswer, ElementCutOutput, ElementId, Hyperplane, HyperplaneId, ListedCut, PolytopeFate, Slices, Touch, Touched, VertexId,
};
