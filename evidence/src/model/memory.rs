//! The four lent slices, and how a table lies in them.

use super::floats::{Hyperplane, Point};
use super::sound;
use super::table::{Element, Polytope, Table, BOUNDARY_ROOM, ELEMENT_ROOM, HYPERPLANE_ROOM, VERTEX_ROOM};
use super::Refusal;

const POINT_WIDTH: usize = 4;
pub const PLANE_WIDTH: usize = 5;
pub const ELEMENT_WIDTH: usize = 4 + BOUNDARY_ROOM;

/// Dimension, elements, vertices, hyperplanes.
pub const COUNTS: usize = 4;
pub const POINTS: usize = VERTEX_ROOM * POINT_WIDTH;
pub const PLANES: usize = HYPERPLANE_ROOM * PLANE_WIDTH;
pub const ELEMENTS: usize = ELEMENT_ROOM * ELEMENT_WIDTH;

pub const NO_HYPERPLANE: u16 = 0xffff;

#[derive(Clone, Debug)]
pub struct Memory {
    pub counts: Vec<u16>,
    pub points: Vec<f64>,
    pub planes: Vec<f64>,
    pub elements: Vec<u16>,
}

impl Memory {
    /// Zero bits, at the room's lengths.
    pub fn clear() -> Self {
        Self {
            counts: vec![0; COUNTS],
            points: vec![0.0; POINTS],
            planes: vec![0.0; PLANES],
            elements: vec![0; ELEMENTS],
        }
    }

    pub fn has_the_lengths(&self) -> bool {
        let lengths = [self.counts.len(), self.points.len(), self.planes.len(), self.elements.len()];
        lengths == [COUNTS, POINTS, PLANES, ELEMENTS]
    }

    /// Word for word, floats by their bits.
    pub fn is_same(&self, other: &Self) -> bool {
        self.is_same_but_for_elements(other) && self.elements == other.elements
    }

    /// Three of the four slices.
    pub fn is_same_but_for_elements(&self, other: &Self) -> bool {
        self.counts == other.counts && same_bits(&self.points, &other.points) && same_bits(&self.planes, &other.planes)
    }

    /// Lengths, and every word that is not zero with its place, floats by their bits.
    pub fn shown(&self) -> String {
        let words = |slice: &[u16]| shown_words(slice.iter().map(|&word| word.into()));
        let bits = |slice: &[f64]| shown_words(slice.iter().map(|x| x.to_bits()));
        let [counts, elements] = [&self.counts, &self.elements].map(|slice| words(slice));
        let [points, planes] = [&self.points, &self.planes].map(|slice| bits(slice));
        format!("counts {counts}\npoints {points}\nplanes {planes}\nelements {elements}")
    }
}

fn shown_words(words: impl ExactSizeIterator<Item = u64>) -> String {
    let length = words.len();
    let shown = words.enumerate().filter(|(_, word)| *word != 0).map(|(place, word)| format!(" {place}:{word:x}"));
    format!("({length}){}", shown.collect::<String>())
}

fn same_bits(a: &[f64], b: &[f64]) -> bool {
    a.len() == b.len() && a.iter().zip(b).all(|(x, y)| x.to_bits() == y.to_bits())
}

/// A memory with what it holds, worked out once for all that is asked of it.
#[derive(Clone)]
pub struct Lent {
    memory: Memory,
    table: Result<Table, Refusal>,
}

impl Lent {
    /// A memory that does not hold a sound table is refused with 3.
    pub fn new(memory: Memory) -> Self {
        let table = held(&memory, sound::is_sound).ok_or(3);
        Self { memory, table }
    }

    pub fn memory(&self) -> &Memory {
        &self.memory
    }

    pub fn table(&self) -> Result<&Table, Refusal> {
        self.table.as_ref().map_err(|&refusal| refusal)
    }

    /// The edges, by their ends, of the first face that is not one ring, where the memory is sound but for that.
    pub fn face_of_no_ring(&self) -> Option<Vec<[u16; 2]>> {
        let table = held(&self.memory, sound::is_sound_but_for_rings)?;
        sound::face_of_no_ring(&table).map(|face| table.ends(face.boundary()))
    }
}

/// What a memory holds is written just so: unused room is zero bits.
fn held(memory: &Memory, is_sound: fn(&Table) -> bool) -> Option<Table> {
    read(memory).filter(|table| is_sound(table) && write(table).is_same(memory))
}

/// The entries in use, if the lengths and the counts are such that they are there.
pub fn read(memory: &Memory) -> Option<Table> {
    if !memory.has_the_lengths() {
        return None;
    }
    let [dimension, elements, vertices, hyperplanes] = [0, 1, 2, 3].map(|place| usize::from(memory.counts[place]));
    if elements > ELEMENT_ROOM || vertices > VERTEX_ROOM || hyperplanes > HYPERPLANE_ROOM {
        return None;
    }
    Some(Table {
        dimension,
        vertices: memory.points.chunks(POINT_WIDTH).take(vertices).map(point).collect(),
        hyperplanes: memory.planes.chunks(PLANE_WIDTH).take(hyperplanes).map(hyperplane).collect(),
        elements: memory.elements.chunks(ELEMENT_WIDTH).take(elements).map(element).collect::<Option<_>>()?,
    })
}

fn point(row: &[f64]) -> Point {
    [row[0], row[1], row[2], row[3]]
}

fn hyperplane(row: &[f64]) -> Hyperplane {
    Hyperplane { normal: point(row), distance: row[4] }
}

/// A row is rank, mark, hyperplane, count, boundary numbers; a vertex's only boundary number is its vertex number.
fn element(row: &[u16]) -> Option<Element> {
    let (rank, mark, hyperplane, count) = (row[0], row[1], row[2], usize::from(row[3]));
    if rank == 0 {
        return Some(Element::Vertex(row[4]));
    }
    let boundary = row[4..].get(..count)?.to_vec();
    let hyperplane = Some(hyperplane).filter(|&h| h != NO_HYPERPLANE);
    Some(Element::Polytope(Polytope { rank, boundary, hyperplane, primordial: mark == 1 }))
}

pub fn write(table: &Table) -> Memory {
    let mut memory = Memory::clear();
    let counts = [table.dimension, table.elements.len(), table.vertices.len(), table.hyperplanes.len()];
    memory.counts = counts.map(|count| count as u16).to_vec();
    for (row, vertex) in memory.points.chunks_mut(POINT_WIDTH).zip(&table.vertices) {
        row[..table.dimension].copy_from_slice(&vertex[..table.dimension]);
    }
    for (row, h) in memory.planes.chunks_mut(PLANE_WIDTH).zip(&table.hyperplanes) {
        row[..table.dimension].copy_from_slice(&h.normal[..table.dimension]);
        row[4] = h.distance;
    }
    for (row, element) in memory.elements.chunks_mut(ELEMENT_WIDTH).zip(&table.elements) {
        write_element(row, element);
    }
    memory
}

fn write_element(row: &mut [u16], element: &Element) {
    match element {
        Element::Vertex(vertex) => row[..5].copy_from_slice(&[0, 0, NO_HYPERPLANE, 1, *vertex]),
        Element::Polytope(p) => {
            let hyperplane = p.hyperplane.unwrap_or(NO_HYPERPLANE);
            row[..4].copy_from_slice(&[p.rank, u16::from(p.primordial), hyperplane, p.boundary.len() as u16]);
            row[4..][..p.boundary.len()].copy_from_slice(&p.boundary);
        }
    }
}
