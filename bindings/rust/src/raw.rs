//! The exported functions, one for one, for hosts that lend slices of their own: the four of a table and, for a question, a
//! list's, or a file's, and for a list of cuts its three and the answers'. Any length, number, float and byte may be given, and a
//! number is as the engine takes it: a dimension, root, rank or side of 32 bits. The reply is one number: `bindings/c/desk.h` says what
//! its bits are.

use crate::Hyperplane;

/// A row of coordinates or of a normal has four, whatever the dimension.
pub const AXES: usize = 4;

/// Room for so many vertices.
pub const VERTEX_ROOM: usize = 256;
/// Room for so many elements.
pub const ELEMENT_ROOM: usize = 512;
/// Room for so many hyperplanes.
pub const HYPERPLANE_ROOM: usize = 64;
/// Room for so many boundary elements of one element.
pub const BOUNDARY_ROOM: usize = 32;

/// The row of a hyperplane: the normal's components, then the distance.
pub const PLANE_WIDTH: usize = AXES + 1;
/// The row of an element: four words and the boundary.
pub const ELEMENT_WIDTH: usize = ROW_BOUNDARY + BOUNDARY_ROOM;
/// Where in its row an element's rank lies.
pub const ROW_RANK: usize = 0;
/// Where its primordial mark lies, 1 or 0.
pub const ROW_MARK: usize = 1;
/// Where its hyperplane's number lies, or [`NONE`].
pub const ROW_HYPERPLANE: usize = 2;
/// Where the count of its boundary lies; 1 for a vertex element.
pub const ROW_COUNT: usize = 3;
/// Where its boundary numbers start; a vertex element has its vertex number there.
pub const ROW_BOUNDARY: usize = 4;

/// The length of the counts: dimension, elements, vertices, hyperplanes.
pub const COUNTS: usize = 4;
/// The length of the points.
pub const POINTS: usize = VERTEX_ROOM * AXES;
/// The length of the hyperplanes.
pub const PLANES: usize = HYPERPLANE_ROOM * PLANE_WIDTH;
/// The length of the elements.
pub const ELEMENTS: usize = ELEMENT_ROOM * ELEMENT_WIDTH;

/// What stands for "none" in the reply of a cut, and for "no hyperplane" in a row.
pub const NONE: u16 = 0xffff;

/// What is set in the reply of a cut that comes with a warning: bit 9.
pub const WARNING: u64 = 0x200;

/// A list has at most a number for each element.
pub const LONGEST_LIST: usize = ELEMENT_ROOM;

/// A list of cuts has no more of them.
pub const MOST_CUTS: usize = 64;

/// An area sheet has no more pieces.
pub const MOST_PIECES: usize = 16;

/// And so many numbers, with the count of pieces and the sum of their sizes.
pub const LONGEST_SHEET: usize = MOST_PIECES + 2;

/// A file has at most a header and so many vertices, hyperplanes and elements as there is room for.
pub const LONGEST_FILE: usize =
    10 + VERTEX_ROOM * (2 + 8 * AXES) + HYPERPLANE_ROOM * (10 + 8 * AXES) + ELEMENT_ROOM * (8 + 2 * BOUNDARY_ROOM);

/// A print file has at most a header, and so many triangles, of each face of a boundary two fewer than a boundary has edges.
pub const LONGEST_PRINT: usize = 84 + 50 * BOUNDARY_ROOM * (BOUNDARY_ROOM - 2);

extern "C" {
    fn desk_is_sound(c: *const u16, cn: usize, p: *const f64, pn: usize, h: *const f64, hn: usize, e: *const u16, en: usize) -> u32;
    fn desk_cube(c: *mut u16, cn: usize, p: *mut f64, pn: usize, h: *mut f64, hn: usize, e: *mut u16, en: usize, ndim: u32, radius: f64) -> u32;
    fn desk_cut(c: *mut u16, cn: usize, p: *mut f64, pn: usize, h: *mut f64, hn: usize, e: *mut u16, en: usize, n0: f64, n1: f64, n2: f64, n3: f64, distance: f64, inside: u32, outside: u32, root: u32) -> u64;
    fn desk_cut_all(c: *mut u16, cn: usize, p: *mut f64, pn: usize, h: *mut f64, hn: usize, e: *mut u16, en: usize, dividers: *const f64, dn: usize, kept: *const u8, kn: usize, roots: *const u16, rn: usize, answers: *mut u64, n: usize) -> u32;
    fn desk_touch(c: *const u16, cn: usize, p: *const f64, pn: usize, h: *const f64, hn: usize, e: *const u16, en: usize, n0: f64, n1: f64, n2: f64, n3: f64, distance: f64, root: u32) -> u32;
    fn desk_subelements_of(c: *const u16, cn: usize, p: *const f64, pn: usize, h: *const f64, hn: usize, e: *const u16, en: usize, root: u32, list: *mut u16, n: usize) -> u32;
    fn desk_subelements_with_rank(c: *const u16, cn: usize, p: *const f64, pn: usize, h: *const f64, hn: usize, e: *const u16, en: usize, root: u32, rank: u32, list: *mut u16, n: usize) -> u32;
    fn desk_vertex_set(c: *const u16, cn: usize, p: *const f64, pn: usize, h: *const f64, hn: usize, e: *const u16, en: usize, root: u32, list: *mut u16, n: usize) -> u32;
    fn desk_greatest_common_subelements(c: *const u16, cn: usize, p: *const f64, pn: usize, h: *const f64, hn: usize, e: *const u16, en: usize, roots: *const u16, rn: usize, list: *mut u16, n: usize) -> u32;
    fn desk_edges_in_order(c: *const u16, cn: usize, p: *const f64, pn: usize, h: *const f64, hn: usize, e: *const u16, en: usize, root: u32, list: *mut u16, n: usize) -> u32;
    fn desk_has_primordial_facet(c: *const u16, cn: usize, p: *const f64, pn: usize, h: *const f64, hn: usize, e: *const u16, en: usize, root: u32) -> u32;
    fn desk_areas(c: *const u16, cn: usize, p: *const f64, pn: usize, h: *const f64, hn: usize, e: *const u16, en: usize, pieces: *const u16, pieces_n: usize, areas: *mut i64, n: usize) -> u32;
    fn desk_stl(c: *const u16, cn: usize, p: *const f64, pn: usize, h: *const f64, hn: usize, e: *const u16, en: usize, root: u32, file: *mut u8, n: usize) -> u64;
    fn desk_save(c: *const u16, cn: usize, p: *const f64, pn: usize, h: *const f64, hn: usize, e: *const u16, en: usize, file: *mut u8, n: usize) -> u64;
    fn desk_open(c: *mut u16, cn: usize, p: *mut f64, pn: usize, h: *mut f64, hn: usize, e: *mut u16, en: usize, file: *const u8, n: usize) -> u32;
}

/// 0, or 3 where the four slices are no sound table.
pub fn is_sound(c: &[u16], p: &[f64], h: &[f64], e: &[u16]) -> u32 {
    unsafe { desk_is_sound(c.as_ptr(), c.len(), p.as_ptr(), p.len(), h.as_ptr(), h.len(), e.as_ptr(), e.len()) }
}

/// A cube in place of all that the memory had: 0, or refused with 1, 2 or 3.
pub fn cube(c: &mut [u16], p: &mut [f64], h: &mut [f64], e: &mut [u16], ndim: u32, radius: f64) -> u32 {
    unsafe { desk_cube(c.as_mut_ptr(), c.len(), p.as_mut_ptr(), p.len(), h.as_mut_ptr(), h.len(), e.as_mut_ptr(), e.len(), ndim, radius) }
}

/// The cut of an element, its reply in one word. `inside` and `outside`: 0 removes that side, any other number keeps it.
#[allow(clippy::too_many_arguments)]
pub fn cut(c: &mut [u16], p: &mut [f64], h: &mut [f64], e: &mut [u16], divider: Hyperplane, inside: u32, outside: u32, root: u32) -> u64 {
    let [n0, n1, n2, n3] = divider.normal;
    unsafe {
        desk_cut(
            c.as_mut_ptr(), c.len(), p.as_mut_ptr(), p.len(), h.as_mut_ptr(), h.len(), e.as_mut_ptr(), e.len(),
            n0, n1, n2, n3, divider.distance, inside, outside, root,
        )
    }
}

/// The cuts of a list, as they are lent: a row of [`PLANE_WIDTH`] floats for each divider, a byte for what it keeps (bit 0 the inside,
/// bit 1 the outside), and its root.
#[derive(Clone, Copy, Debug)]
pub struct CutList<'a> {
    /// Of all rows.
    pub dividers: &'a [f64],
    /// A byte each.
    pub kept: &'a [u8],
    /// A word each.
    pub roots: &'a [u16],
}

/// A list of cuts, each of what the one before it left; an answer is a word as [`cut`] replies it. Bits 0 to 7 are the reply's number,
/// above them is how many answers were written: where a cut was refused, its position.
pub fn cut_all(c: &mut [u16], p: &mut [f64], h: &mut [f64], e: &mut [u16], cuts: CutList, answers: &mut [u64]) -> u32 {
    let CutList { dividers, kept, roots } = cuts;
    unsafe {
        desk_cut_all(
            c.as_mut_ptr(), c.len(), p.as_mut_ptr(), p.len(), h.as_mut_ptr(), h.len(), e.as_mut_ptr(), e.len(),
            dividers.as_ptr(), dividers.len(), kept.as_ptr(), kept.len(), roots.as_ptr(), roots.len(), answers.as_mut_ptr(), answers.len(),
        )
    }
}

/// Where the corners of an element lie to a plane, without a cut. Bits 0 to 7 are the reply's number, bits 8 and 9 the answer (0 all on,
/// 1 inside or on, 2 outside or on, 3 both), from bit 16 on is how many corners were tested.
pub fn touch(c: &[u16], p: &[f64], h: &[f64], e: &[u16], divider: Hyperplane, root: u32) -> u32 {
    let [n0, n1, n2, n3] = divider.normal;
    unsafe { desk_touch(c.as_ptr(), c.len(), p.as_ptr(), p.len(), h.as_ptr(), h.len(), e.as_ptr(), e.len(), n0, n1, n2, n3, divider.distance, root) }
}

/// The root and all below it. Bits 0 to 7 are the reply's number, above them is the size of the list, here and below.
pub fn subelements_of(c: &[u16], p: &[f64], h: &[f64], e: &[u16], root: u32, list: &mut [u16]) -> u32 {
    unsafe { desk_subelements_of(c.as_ptr(), c.len(), p.as_ptr(), p.len(), h.as_ptr(), h.len(), e.as_ptr(), e.len(), root, list.as_mut_ptr(), list.len()) }
}

/// Those of a rank.
pub fn subelements_with_rank(c: &[u16], p: &[f64], h: &[f64], e: &[u16], root: u32, rank: u32, list: &mut [u16]) -> u32 {
    unsafe { desk_subelements_with_rank(c.as_ptr(), c.len(), p.as_ptr(), p.len(), h.as_ptr(), h.len(), e.as_ptr(), e.len(), root, rank, list.as_mut_ptr(), list.len()) }
}

/// The vertices of an element.
pub fn vertex_set(c: &[u16], p: &[f64], h: &[f64], e: &[u16], root: u32, list: &mut [u16]) -> u32 {
    unsafe { desk_vertex_set(c.as_ptr(), c.len(), p.as_ptr(), p.len(), h.as_ptr(), h.len(), e.as_ptr(), e.len(), root, list.as_mut_ptr(), list.len()) }
}

/// Those of the highest rank above 0 that all roots have.
pub fn greatest_common_subelements(c: &[u16], p: &[f64], h: &[f64], e: &[u16], roots: &[u16], list: &mut [u16]) -> u32 {
    unsafe {
        desk_greatest_common_subelements(
            c.as_ptr(), c.len(), p.as_ptr(), p.len(), h.as_ptr(), h.len(), e.as_ptr(), e.len(), roots.as_ptr(), roots.len(), list.as_mut_ptr(), list.len(),
        )
    }
}

/// The edges of a face in order: two vertex numbers an edge, and the size in numbers.
pub fn edges_in_order(c: &[u16], p: &[f64], h: &[f64], e: &[u16], root: u32, list: &mut [u16]) -> u32 {
    unsafe { desk_edges_in_order(c.as_ptr(), c.len(), p.as_ptr(), p.len(), h.as_ptr(), h.len(), e.as_ptr(), e.len(), root, list.as_mut_ptr(), list.len()) }
}

/// Bits 0 to 7 are the reply's number, bit 8 is the answer.
pub fn has_primordial_facet(c: &[u16], p: &[f64], h: &[f64], e: &[u16], root: u32) -> u32 {
    unsafe { desk_has_primordial_facet(c.as_ptr(), c.len(), p.as_ptr(), p.len(), h.as_ptr(), h.len(), e.as_ptr(), e.len(), root) }
}

/// The areas of flat pieces, each twice and signed, in units of 1/1,048,576, then their count and the sum of their sizes. Bits 0 to 7 are
/// the reply's number, above them is how many numbers were written.
pub fn areas(c: &[u16], p: &[f64], h: &[f64], e: &[u16], pieces: &[u16], areas: &mut [i64]) -> u32 {
    unsafe {
        desk_areas(
            c.as_ptr(), c.len(), p.as_ptr(), p.len(), h.as_ptr(), h.len(), e.as_ptr(), e.len(), pieces.as_ptr(), pieces.len(), areas.as_mut_ptr(), areas.len(),
        )
    }
}

/// The print file of a piece, at the front of the room: bits 0 to 7 are 0, 3, 4, 6, 16 or 12, above them is how many bytes it has.
pub fn stl(c: &[u16], p: &[f64], h: &[f64], e: &[u16], root: u32, file: &mut [u8]) -> u64 {
    unsafe { desk_stl(c.as_ptr(), c.len(), p.as_ptr(), p.len(), h.as_ptr(), h.len(), e.as_ptr(), e.len(), root, file.as_mut_ptr(), file.len()) }
}

/// The table as its one file, at the front of the room: bits 0 to 7 are 0, 3 or 12, above them is how many bytes it has.
pub fn save(c: &[u16], p: &[f64], h: &[f64], e: &[u16], file: &mut [u8]) -> u64 {
    unsafe { desk_save(c.as_ptr(), c.len(), p.as_ptr(), p.len(), h.as_ptr(), h.len(), e.as_ptr(), e.len(), file.as_mut_ptr(), file.len()) }
}

/// The table of a file in place of all that the memory had: 0, or refused with 13 or 3.
pub fn open(c: &mut [u16], p: &mut [f64], h: &mut [f64], e: &mut [u16], file: &[u8]) -> u32 {
    unsafe { desk_open(c.as_mut_ptr(), c.len(), p.as_mut_ptr(), p.len(), h.as_mut_ptr(), h.len(), e.as_mut_ptr(), e.len(), file.as_ptr(), file.len()) }
}
