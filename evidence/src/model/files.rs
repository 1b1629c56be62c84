//! "Save a table and open it tomorrow" (document 02, order 1): the one file of a table, and the table of a file.

use super::floats::{Hyperplane, Point};
use super::memory::{write, Lent, NO_HYPERPLANE};
use super::sound;
use super::table::{Element, Polytope, Table, BOUNDARY_ROOM, ELEMENT_ROOM, HYPERPLANE_ROOM, VERTEX_ROOM};
use super::Refusal;

const HEADER: [u8; 2] = [0x48, 0x44];
const VERTEX: [u8; 2] = [0x56, 0x58];
const HYPERPLANE: [u8; 2] = [0x48, 0x50];
const ELEMENT: [u8; 2] = [0x45, 0x4c];

/// How many bytes were written, at the front of the room. Refuses with 3, and with 12 where the room is short.
pub fn save(lent: &Lent, room: &mut [u8]) -> Result<usize, Refusal> {
    let file = file_of(lent.table()?);
    room.get_mut(..file.len()).ok_or(12)?.copy_from_slice(&file);
    Ok(file.len())
}

/// The table of a file in place of all that the memory had. Refuses with 13 before every 3.
pub fn open(lent: &mut Lent, file: &[u8]) -> Result<(), Refusal> {
    let records = Records::of(file).ok_or(13)?;
    if !lent.memory().has_the_lengths() {
        return Err(3);
    }
    let table = records.table().filter(is_sound_in_the_room).ok_or(3)?;
    *lent = Lent::new(write(&table));
    Ok(())
}

/// Header, vertices, hyperplanes, elements: each record after its mark, without padding.
pub fn file_of(table: &Table) -> Vec<u8> {
    let counts = [table.dimension, table.elements.len(), table.vertices.len(), table.hyperplanes.len()];
    let mut file = HEADER.to_vec();
    file.extend(numbers(&counts.map(|count| count as u16)));
    for vertex in &table.vertices {
        file.extend(VERTEX);
        file.extend(floats(&vertex[..table.dimension]));
    }
    for hyperplane in &table.hyperplanes {
        file.extend(HYPERPLANE);
        file.extend(floats(&hyperplane.normal[..table.dimension]));
        file.extend(floats(&[hyperplane.distance]));
    }
    for element in &table.elements {
        file.extend(ELEMENT);
        file.extend(element_bytes(element));
    }
    file
}

/// Rank and primordial mark in a byte each; hyperplane or FFFF, count and boundary numbers in two.
fn element_bytes(element: &Element) -> Vec<u8> {
    let (rank, primordial, hyperplane, boundary) = match element {
        Element::Vertex(vertex) => (0, false, None, vec![*vertex]),
        Element::Polytope(p) => (p.rank as u8, p.primordial, p.hyperplane, p.boundary.clone()),
    };
    let mut bytes = vec![rank, u8::from(primordial)];
    bytes.extend(numbers(&[hyperplane.unwrap_or(NO_HYPERPLANE), boundary.len() as u16]));
    bytes.extend(numbers(&boundary));
    bytes
}

fn numbers(numbers: &[u16]) -> Vec<u8> {
    numbers.iter().flat_map(|number| number.to_le_bytes()).collect()
}

fn floats(floats: &[f64]) -> Vec<u8> {
    floats.iter().flat_map(|x| x.to_bits().to_le_bytes()).collect()
}

/// What the records of a file say, whatever their numbers: there may be more axes than a table has.
struct Records {
    dimension: usize,
    vertices: Vec<Vec<f64>>,
    /// The components, and after them the distance.
    hyperplanes: Vec<Vec<f64>>,
    elements: Vec<Element>,
}

impl Records {
    /// None unless every byte fits the layout, and none is left over.
    fn of(file: &[u8]) -> Option<Self> {
        let mut left = Left(file);
        left.mark(HEADER)?;
        let [dimension, elements, vertices, hyperplanes] = left.four_numbers()?;
        let records = Self {
            dimension,
            vertices: left.many(vertices, VERTEX, |left| left.floats(dimension))?,
            hyperplanes: left.many(hyperplanes, HYPERPLANE, |left| left.floats(dimension + 1))?,
            elements: left.many(elements, ELEMENT, Left::element)?,
        };
        left.0.is_empty().then_some(records)
    }

    /// None where there are more axes than a table has.
    fn table(self) -> Option<Table> {
        let hyperplane = |row: Vec<f64>| {
            let (distance, normal) = row.split_last()?;
            Some(Hyperplane { normal: point(normal)?, distance: *distance })
        };
        Some(Table {
            dimension: self.dimension,
            vertices: self.vertices.iter().map(|row| point(row)).collect::<Option<_>>()?,
            hyperplanes: self.hyperplanes.into_iter().map(hyperplane).collect::<Option<_>>()?,
            elements: self.elements,
        })
    }
}

/// Axes that are not in the file are +0.
fn point(row: &[f64]) -> Option<Point> {
    let mut point = [0.0; 4];
    point.get_mut(..row.len())?.copy_from_slice(row);
    Some(point)
}

fn is_sound_in_the_room(table: &Table) -> bool {
    table.vertices.len() <= VERTEX_ROOM
        && table.hyperplanes.len() <= HYPERPLANE_ROOM
        && table.elements.len() <= ELEMENT_ROOM
        && table.elements.iter().all(|element| element.boundary().len() <= BOUNDARY_ROOM)
        && sound::is_sound(table)
}

/// The bytes that are not read yet.
struct Left<'a>(&'a [u8]);

impl Left<'_> {
    /// So many records of one kind.
    fn many<T>(&mut self, count: usize, mark: [u8; 2], record: impl Fn(&mut Self) -> Option<T>) -> Option<Vec<T>> {
        let mut records = vec![];
        for _ in 0..count {
            self.mark(mark)?;
            records.push(record(self)?);
        }
        Some(records)
    }

    /// A primordial byte is 0 or 1; a corner is rank 0, mark 0, FFFF, count 1 and its vertex number.
    fn element(&mut self) -> Option<Element> {
        let [rank, mark] = self.bytes()?;
        let [hyperplane, count] = [self.number()?, self.number()?];
        let boundary = (0..count).map(|_| self.number()).collect::<Option<Vec<_>>>()?;
        match (rank, mark, hyperplane, &boundary[..]) {
            (0, 0, NO_HYPERPLANE, [vertex]) => Some(Element::Vertex(*vertex)),
            (0, ..) | (_, 2.., ..) => None,
            _ => {
                let hyperplane = Some(hyperplane).filter(|&h| h != NO_HYPERPLANE);
                Some(Element::Polytope(Polytope { rank: rank.into(), boundary, hyperplane, primordial: mark == 1 }))
            }
        }
    }

    fn mark(&mut self, mark: [u8; 2]) -> Option<()> {
        (self.bytes()? == mark).then_some(())
    }

    fn four_numbers(&mut self) -> Option<[usize; 4]> {
        Some([self.number()?, self.number()?, self.number()?, self.number()?].map(usize::from))
    }

    fn number(&mut self) -> Option<u16> {
        self.bytes().map(u16::from_le_bytes)
    }

    fn floats(&mut self, count: usize) -> Option<Vec<f64>> {
        (0..count).map(|_| self.bytes().map(|bytes| f64::from_bits(u64::from_le_bytes(bytes)))).collect()
    }

    fn bytes<const N: usize>(&mut self) -> Option<[u8; N]> {
        let (bytes, left) = self.0.split_first_chunk()?;
        self.0 = left;
        Some(*bytes)
    }
}
