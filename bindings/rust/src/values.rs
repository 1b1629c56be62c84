//! What is handed to a table and what it gives: the three kinds of numbers, hyperplanes, answers, counts.

use crate::Refused;

/// An element's number in its list.
#[derive(Clone, Copy, Debug, PartialEq, Eq, PartialOrd, Ord, Hash)]
pub struct ElementId(
    /// From 0 up.
    pub u16,
);

/// A vertex's number: another list, so never an element's number.
#[derive(Clone, Copy, Debug, PartialEq, Eq, PartialOrd, Ord, Hash)]
pub struct VertexId(
    /// From 0 up.
    pub u16,
);

/// A hyperplane's number: the third list.
#[derive(Clone, Copy, Debug, PartialEq, Eq, PartialOrd, Ord, Hash)]
pub struct HyperplaneId(
    /// From 0 up.
    pub u16,
);

/// A unit normal and a distance. What lies against the normal is inside, what lies along it outside.
///
/// Unit is: the squares add up to 1, give or take 2^-20. So 0.7071 twice is not unit, and 0.707107 twice is.
#[derive(Clone, Copy, Debug, PartialEq)]
pub struct Hyperplane {
    /// One component for each dimension, and past the dimension +0.0: nothing else is taken there, not even -0.0.
    pub normal: [f64; 4],
    /// From -262,144 to 262,144, or infinite: then nothing is crossed, and the answer is the root.
    pub distance: f64,
}

impl Hyperplane {
    /// Components that are not given are +0.0. More than four are refused with 5; all else is for the call to refuse.
    ///
    /// ```
    /// use spoonvelvet::{Hyperplane, Refused};
    ///
    /// let plane = Hyperplane::new(&[0.6, 0.8], 1.4)?;
    /// assert_eq!(plane, Hyperplane { normal: [0.6, 0.8, 0.0, 0.0], distance: 1.4 });
    /// assert_eq!(Hyperplane::new(&[0.0; 5], 0.0), Err(Refused::DIVIDER));
    /// # Ok::<(), Refused>(())
    /// ```
    pub fn new(normal: &[f64], distance: f64) -> Result<Self, Refused> {
        let mut padded = [0.0; 4];
        padded.get_mut(..normal.len()).ok_or(Refused::DIVIDER)?.copy_from_slice(normal);
        Ok(Self { normal: padded, distance })
    }

    /// The same plane with its sides exchanged. Zeros stay +0.0, as they have to past the dimension.
    ///
    /// ```
    /// # use spoonvelvet::{Hyperplane, Refused};
    /// let plane = Hyperplane::new(&[1.0], 0.5)?;
    /// assert_eq!(plane.flipped(), Hyperplane::new(&[-1.0], -0.5)?);
    /// assert!(plane.flipped().normal[1].is_sign_positive());
    /// # Ok::<(), Refused>(())
    /// ```
    pub fn flipped(self) -> Self {
        Self { normal: self.normal.map(|x| 0.0 - x), distance: 0.0 - self.distance }
    }
}

/// What becomes of what lies on one side of the divider.
#[derive(Clone, Copy, Debug, PartialEq, Eq)]
pub enum PolytopeFate {
    /// No entry is added for it. The face of the cut is worked out all the same.
    Remove,
    /// It is in the answer.
    Keep,
}

impl PolytopeFate {
    pub(crate) fn is_kept(self) -> bool {
        self == Self::Keep
    }
}

/// What a cut of an element gives, which [`CutAnswer`] has with its warning. A side that is removed is none; the intersection is there either way.
///
/// There are two exceptions, in which a side is given whether it is kept or removed: a root that is a vertex element is given
/// on its side, and at an infinite distance the root is given as inside (+) or as outside (-).
#[derive(Clone, Copy, Debug, PartialEq, Eq)]
pub enum ElementCutOutput {
    /// The element lies in the plane. This answer carries nothing.
    Flush,
    /// Three places, each an element or none.
    NonFlush {
        /// What lies inside: an entry that was added, or the root itself where the plane misses it.
        inside: Option<ElementId>,
        /// The same of what lies outside.
        outside: Option<ElementId>,
        /// The face of the cut, where the two sides meet. None where the plane misses the element.
        intersection: Option<ElementId>,
    },
}

/// What a cut answers: what it gives, and a warning beside it.
///
/// A corner within 2^-16 of the plane, and not on it, is a close call: an edge may vanish there, or be left too short to be seen. The cut
/// is made all the same. With a warning, move the plane, through the corner or farther from it, and cut a clone of the table from before,
/// for no entry is ever taken out. Here the outside has four edges, but for a plane a hair from the corner, which takes one:
///
/// ```
/// use spoonvelvet::{ElementId, Hyperplane, Refused, Table};
///
/// let mut table = Table::with_primordial_cube_radius(2, 1.0)?;
/// table.carve(Hyperplane::new(&[0.6, 0.8], 0.5)?, ElementId(8))?; // the inside, 14, has a corner at (1, -0.125)
/// let before = table.clone();
/// assert!(table.slice(Hyperplane::new(&[0.8, -0.6], 0.874999)?, ElementId(14))?.warning);
/// assert_eq!(table.boundary_of(ElementId(20))?.len(), 3);
///
/// table = before;
/// assert!(!table.slice(Hyperplane::new(&[0.8, -0.6], 0.8749)?, ElementId(14))?.warning);
/// assert_eq!(table.boundary_of(ElementId(23))?.len(), 4);
/// # Ok::<(), Refused>(())
/// ```
#[derive(Clone, Copy, Debug, PartialEq, Eq)]
pub struct CutAnswer {
    /// What the cut of the root gives.
    pub output: ElementCutOutput,
    /// Whether some corner of the root was a close call, also where the root is flush. At an infinite distance no corner is tested, so
    /// there is none.
    pub warning: bool,
}

/// One cut of a list, for [`Table::cut_all`](crate::Table::cut_all).
#[derive(Clone, Copy, Debug, PartialEq)]
pub struct ListedCut {
    /// The plane.
    pub divider: Hyperplane,
    /// What becomes of what lies inside.
    pub inside: PolytopeFate,
    /// What becomes of what lies outside.
    pub outside: PolytopeFate,
    /// The element that is cut. It may be one that a cut before it in the list adds.
    pub root: ElementId,
}

impl ListedCut {
    /// A cut that keeps what lies inside.
    pub fn carve(divider: Hyperplane, root: ElementId) -> Self {
        Self { divider, inside: PolytopeFate::Keep, outside: PolytopeFate::Remove, root }
    }

    /// A cut that keeps what lies on either side.
    pub fn slice(divider: Hyperplane, root: ElementId) -> Self {
        Self { divider, inside: PolytopeFate::Keep, outside: PolytopeFate::Keep, root }
    }
}

/// Where the corners of an element lie to a plane.
#[derive(Clone, Copy, Debug, PartialEq, Eq)]
pub enum Touch {
    /// All of them on it.
    AllOn,
    /// Some inside, and none outside.
    InsideOrOn,
    /// Some outside, and none inside.
    OutsideOrOn,
    /// Some inside and some outside.
    Both,
}

/// What a touch answers.
#[derive(Clone, Copy, Debug, PartialEq, Eq)]
pub struct Touched {
    /// Where the corners lie.
    pub answer: Touch,
    /// How many of them were tested, in rising vertex order: up to and with the first at which both an inside and an outside corner have
    /// been met, or all. An infinite distance tests none.
    pub tested: u32,
}

/// The areas of some flat pieces, each twice and in units of 1/1,048,576: so they are whole numbers.
#[derive(Clone, Debug, PartialEq, Eq)]
pub struct AreaSheet {
    /// Of each piece, in the order in which they were given: positive where its walk turns from axis 0 towards axis 1, else negative.
    pub twice_areas: Vec<i64>,
    /// The sum of their sizes, which are the areas without their signs.
    pub sum_of_sizes: i64,
}

impl AreaSheet {
    /// A piece of area 1 has so many.
    pub const IN_ONE: i64 = 2 * 1_048_576;
}

/// One number for each of the three lists.
#[derive(Clone, Copy, Debug, PartialEq, Eq)]
pub struct Counts {
    /// Of elements.
    pub elements: u16,
    /// Of vertices.
    pub vertices: u16,
    /// Of hyperplanes.
    pub hyperplanes: u16,
}

/// The four slices of a table, as they are lent to the engine. `bindings/c/desk.h` says how rows lie in them.
#[derive(Clone, Copy, Debug)]
pub struct Slices<'a> {
    /// Dimension, and how many elements, vertices and hyperplanes are in use.
    pub counts: &'a [u16],
    /// Rows of four coordinates.
    pub points: &'a [f64],
    /// Rows of four components and the distance.
    pub planes: &'a [f64],
    /// Rows of 36 words.
    pub elements: &'a [u16],
}
