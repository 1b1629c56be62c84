//! Refusals: their numbers, as documents 01 and 02 have them, with a name and words for each.

/// Why a call was refused. It left the table as it came.
///
/// ```
/// use spoonvelvet::{ElementId, Refused, Table};
///
/// let square = Table::with_primordial_cube_radius(2, 1.0)?;
/// let refused = square.vertex_set(ElementId(9)).unwrap_err();
/// assert_eq!(refused, Refused::NOT_IN_USE);
/// assert_eq!(refused.to_string(), "refused 4: an element number is not in use");
/// # Ok::<(), Refused>(())
/// ```
#[derive(Clone, Copy, PartialEq, Eq, Hash)]
pub struct Refused(
    /// The number of the refusal: 1 to 13, 16, 25 or 26.
    pub u8,
);

macro_rules! refusals {
    ($($number:literal $name:ident $words:literal)*) => {
        impl Refused {
            $(#[doc = concat!($number, ": ", $words, ".")] pub const $name: Self = Self($number);)*

            /// What the refusal says.
            pub fn words(self) -> &'static str {
                match self.0 {
                    $($number => $words,)*
                    _ => "no refusal has this number",
                }
            }
        }
    };
}

refusals! {
    1 DIMENSION "the dimension is not 1 to 4"
    2 RADIUS "the radius is not a number from 1 to 65,536"
    3 NOT_SOUND "the table is not sound, or its room has another size"
    4 NOT_IN_USE "an element number is not in use"
    5 DIVIDER "the normal is not unit, or the distance is not a number or finite beyond 262,144"
    6 RANK "an element of another rank or kind is asked for"
    7 NOT_CLOSED "an edge would not have two ends, or the edges of a face do not go round once"
    8 VERTICES_FULL "there is no room for another vertex"
    9 ELEMENTS_FULL "there is no room for another element"
    10 HYPERPLANES_FULL "there is no room for another hyperplane"
    11 BOUNDARY_FULL "a boundary would have more than 32 elements"
    12 ROOM_SHORT "the room for the list or the file is too short"
    13 LAYOUT "the bytes are not laid out as a file"
    16 PRIMORDIAL_FACET "the piece has a primordial facet"
    25 OFF_GRID "a coordinate of a piece is no multiple of 1/1,024"
    26 LIST_LONG "the list has more than its limit, or its parts do not belong together"
}

impl std::fmt::Display for Refused {
    fn fmt(&self, f: &mut std::fmt::Formatter<'_>) -> std::fmt::Result {
        write!(f, "refused {}: {}", self.0, self.words())
    }
}

/// With its words, for this is what a `main` that fails shows.
impl std::fmt::Debug for Refused {
    fn fmt(&self, f: &mut std::fmt::Formatter<'_>) -> std::fmt::Result {
        write!(f, "Refused({}: {})", self.0, self.words())
    }
}

impl std::error::Error for Refused {}
