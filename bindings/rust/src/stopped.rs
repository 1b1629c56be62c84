//! A list of cuts that was not made to its end.

use crate::{CutAnswer, Refused};
use std::fmt;

/// Why a list of cuts was not made to its end, where, and what it answered until then.
///
/// The cuts before the refused one stay in the table. Where the list as such was refused, no cut was made.
///
/// ```
/// use spoonvelvet::{ElementId, Hyperplane, ListedCut, Refused, Table};
///
/// let mut square = Table::with_primordial_cube_radius(2, 1.0)?;
/// let divider = Hyperplane::new(&[1.0, 0.0], 0.0)?;
/// let cuts = [8, 99, 8].map(|root| ListedCut::slice(divider, ElementId(root)));
/// let stopped = square.cut_all(&cuts).unwrap_err();
/// assert_eq!((stopped.refused, stopped.position), (Refused::NOT_IN_USE, Some(1)));
/// assert_eq!(stopped.answers, [square.slice(divider, ElementId(8))?]);
/// assert_eq!(stopped.to_string(), "refused 4 at position 1: an element number is not in use");
/// # Ok::<(), Refused>(())
/// ```
#[derive(Clone, PartialEq, Eq)]
pub struct Stopped {
    /// The refusal of the cut, or [`LIST_LONG`](Refused::LIST_LONG) of the list.
    pub refused: Refused,
    /// Which cut of the list was refused, from 0 up; none where the list was, before any cut.
    pub position: Option<usize>,
    /// What the cuts before it answered.
    pub answers: Vec<CutAnswer>,
}

impl fmt::Display for Stopped {
    fn fmt(&self, f: &mut fmt::Formatter<'_>) -> fmt::Result {
        match self.position {
            Some(position) => write!(f, "refused {} at position {position}: {}", self.refused.0, self.refused.words()),
            None => self.refused.fmt(f),
        }
    }
}

/// With its words, for this is what a `main` that fails shows.
impl fmt::Debug for Stopped {
    fn fmt(&self, f: &mut fmt::Formatter<'_>) -> fmt::Result {
        write!(f, "Stopped({self}; {} answers)", self.answers.len())
    }
}

impl std::error::Error for Stopped {}

/// For a caller that does not ask where.
impl From<Stopped> for Refused {
    fn from(stopped: Stopped) -> Self {
        stopped.refused
    }
}
