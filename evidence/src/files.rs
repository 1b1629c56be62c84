//! Files to be opened: of sound tables, damaged ones, ones that end early or late, and layouts that fit and are no sound table.

use crate::memories;
use crate::model::files::file_of;
use crate::model::memory::{self, Memory, NO_HYPERPLANE};
use crate::model::table::{Table, BOUNDARY_ROOM, ELEMENT_ROOM, HYPERPLANE_ROOM, VERTEX_ROOM};
use crate::random::Random;
use crate::strange;
use crate::two_rings;

/// What a file is made as.
pub const SAVED: &str = "a file as it was saved";
pub const CHANGED: &str = "a file with some bytes changed";
pub const EARLY: &str = "a file without its end";
pub const LATE: &str = "a file with bytes after its last record";
pub const OTHER_AXES: &str = "a file of another dimension, with so many floats";
pub const BEYOND: &str = "a file of more than there is room for";
pub const BROKEN: &str = "a file of a table that one thing breaks";
pub const DAMAGED: &str = "a file of a damaged memory, as it is";
pub const RECORDS: &str = "a file of records that say anything";
pub const BYTES: &str = "a file of any bytes";

/// A file, and what it was made as; some are of the table that is given.
pub fn any(r: &mut Random, table: Option<&Table>) -> (&'static str, Vec<u8>) {
    let kind = r.pick(&[
        SAVED, SAVED, SAVED, CHANGED, CHANGED, CHANGED, CHANGED, EARLY, LATE, OTHER_AXES, BEYOND, BROKEN, DAMAGED,
        DAMAGED, RECORDS, BYTES,
    ]);
    let table = sound(r, table);
    (kind, file(r, kind, &table))
}

fn sound(r: &mut Random, table: Option<&Table>) -> Table {
    match (table, r.below(4)) {
        (Some(table), 0 | 1) => table.clone(),
        (_, 2) => two_rings::any(r),
        _ => strange::table(r),
    }
}

fn file(r: &mut Random, kind: &str, table: &Table) -> Vec<u8> {
    match kind {
        SAVED => file_of(table),
        CHANGED => changed(r, file_of(table)),
        EARLY => early(r, file_of(table)),
        LATE => late(r, file_of(table)),
        OTHER_AXES => with_axes(table, r.pick(&[0, 1, 2, 3, 4, 5, 5, 8, 300])),
        BEYOND => file_of(&beyond_the_room(r, table)),
        BROKEN => file_of(&strange::broken(r)),
        DAMAGED => damaged(r, table),
        RECORDS => records(r),
        _ => bytes(r),
    }
}

/// One to three bytes changed, taken out or put in: anywhere, or within the header or the last record.
fn changed(r: &mut Random, mut file: Vec<u8>) -> Vec<u8> {
    for _ in 0..r.pick(&[1, 1, 2, 3]) {
        let place = match r.below(4) {
            0 => r.below(10),
            1 => file.len() - 1 - r.below(12.min(file.len())),
            _ => r.below(file.len()),
        };
        match r.below(12) {
            0 => drop(file.remove(place)),
            1 => file.insert(place, r.word() as u8),
            2 => file[place] = 0,
            3 => file[place] = 0xff,
            4 => file[place] = r.word() as u8,
            5 => file[place] = file[place].wrapping_add(1),
            6 => file[place] = file[place].wrapping_sub(1),
            _ => file[place] ^= 1 << r.below(8),
        }
    }
    file
}

fn early(r: &mut Random, mut file: Vec<u8>) -> Vec<u8> {
    let (length, anywhere) = (file.len(), r.below(file.len()));
    file.truncate(r.pick(&[0, 1, 2, 9, length - 1, length - 2, length - 10, anywhere]));
    file
}

/// A byte, a mark, a whole record or the file once more.
fn late(r: &mut Random, mut file: Vec<u8>) -> Vec<u8> {
    match r.below(4) {
        0 => file.push(r.word() as u8),
        1 => file.extend(b"EL"),
        2 => file.extend(corner(0)),
        _ => file.extend(file.clone()),
    }
    file
}

/// The table with that dimension in its header, and with as many floats in each row: fewer of its own, or zeros after them.
fn with_axes(table: &Table, axes: usize) -> Vec<u8> {
    let file = file_of(table);
    let elements =
        10 + table.vertices.len() * (2 + 8 * table.dimension) + table.hyperplanes.len() * (10 + 8 * table.dimension);
    let row = |floats: &[f64]| {
        (0..axes).flat_map(|axis| float(floats.get(axis).copied().unwrap_or(0.0))).collect::<Vec<u8>>()
    };
    let mut other = [&file[..2], &(axes as u16).to_le_bytes(), &file[4..10]].concat();
    for vertex in &table.vertices {
        other.extend([b"VX".to_vec(), row(vertex)].concat());
    }
    for plane in &table.hyperplanes {
        other.extend([b"HP".to_vec(), row(&plane.normal), float(plane.distance).to_vec()].concat());
    }
    other.extend(&file[elements..]);
    other
}

/// Sound but for the room: hyperplanes, vertices, elements, or one boundary.
fn beyond_the_room(r: &mut Random, table: &Table) -> Table {
    let (mut table, more) = (table.clone(), r.pick(&[1, 1, 2, 30]));
    match r.below(4) {
        0 => strange::add_hyperplanes(r, &mut table, HYPERPLANE_ROOM + more),
        1 => strange::add_corners(r, &mut table, VERTEX_ROOM + more),
        2 => strange::add_edges(r, &mut table, ELEMENT_ROOM + more),
        _ => {
            let corners = strange::add_new_corners(r, &mut table, BOUNDARY_ROOM + more);
            let edges = strange::add_edges_between(r, &mut table, strange::round_of(&corners));
            strange::add(r, &mut table, 2, edges);
        }
    }
    table
}

fn damaged(r: &mut Random, table: &Table) -> Vec<u8> {
    let mut memory = memory::write(table);
    memories::damage(r, &mut memory, table);
    written(&memory)
}

/// As saving would write it, sound or not: each row up to its count, or as far as there are words.
fn written(memory: &Memory) -> Vec<u8> {
    let [dimension, elements, vertices, hyperplanes] = [0, 1, 2, 3].map(|place| usize::from(memory.counts[place]));
    let axes = dimension.min(4);
    let mut file = [b"HD".to_vec(), numbers(&memory.counts)].concat();
    for row in memory.points.chunks(4).take(vertices) {
        file.extend([b"VX".to_vec(), row[..axes].iter().flat_map(|&x| float(x)).collect()].concat());
    }
    for row in memory.planes.chunks(5).take(hyperplanes) {
        file.extend([b"HP".to_vec(), row[..axes].iter().chain(&row[4..]).flat_map(|&x| float(x)).collect()].concat());
    }
    for row in memory.elements.chunks(memory::ELEMENT_WIDTH).take(elements) {
        let count = usize::from(row[3]).min(BOUNDARY_ROOM);
        file.extend(element(row[0] as u8, row[1] as u8, row[2], &row[4..][..count]));
    }
    file
}

/// A layout that fits, nearly always, and says anything.
fn records(r: &mut Random) -> Vec<u8> {
    let [dimension, elements, vertices, hyperplanes] = [6, 8, 6, 9].map(|most| r.below(most));
    let counts = [dimension, elements, vertices, hyperplanes].map(|count| count as u16);
    let mut file = [b"HD".to_vec(), numbers(&counts)].concat();
    let floats = |r: &mut Random, count: usize| (0..count).flat_map(|_| float(any_float(r))).collect::<Vec<u8>>();
    for _ in 0..vertices {
        file.extend([b"VX".to_vec(), floats(r, dimension)].concat());
    }
    for _ in 0..hyperplanes {
        file.extend([b"HP".to_vec(), floats(r, dimension + 1)].concat());
    }
    for number in 0..elements {
        file.extend(any_element(r, number as u16));
    }
    file
}

fn any_float(r: &mut Random) -> f64 {
    match r.below(4) {
        0 => f64::from_bits(r.word()),
        _ => r.pick(&[0.0, 1.0, -1.0, 0.0, 0.5]),
    }
}

/// A corner of that vertex, or any polytope; one in ten does not fit the layout.
fn any_element(r: &mut Random, number: u16) -> Vec<u8> {
    if r.one_in(2) {
        return corner(number);
    }
    let count = r.pick(&[0, 1, 2, 2, 3, 3, 4, 32, 33, 300]);
    let boundary: Vec<u16> = (0..count).map(|place| if r.one_in(9) { r.word() as u16 } else { place }).collect();
    let (rank, mark) = if r.one_in(10) { (r.below(2), r.below(4)) } else { (r.from_to(1, 5), r.below(2)) };
    let hyperplane = r.pick(&[NO_HYPERPLANE, NO_HYPERPLANE, 0, 1, 64, 0xfffe]);
    element(rank as u8, mark as u8, hyperplane, &boundary)
}

/// No more than some bytes, half of them after a header that announces few records.
fn bytes(r: &mut Random) -> Vec<u8> {
    let counts = [0; 4].map(|_| r.below(4) as u16);
    let header = if r.one_in(2) { [b"HD".to_vec(), numbers(&counts)].concat() } else { vec![] };
    let length = r.below(60);
    let more = (0..length).map(|_| if r.one_in(8) { r.word() as u8 } else { r.pick(b"\0\x01\xffVXHPEL") });
    header.into_iter().chain(more).collect()
}

fn corner(vertex: u16) -> Vec<u8> {
    element(0, 0, NO_HYPERPLANE, &[vertex])
}

fn element(rank: u8, mark: u8, hyperplane: u16, boundary: &[u16]) -> Vec<u8> {
    let words = numbers(&[&[hyperplane, boundary.len() as u16], boundary].concat());
    [b"EL".to_vec(), vec![rank, mark], words].concat()
}

fn numbers(numbers: &[u16]) -> Vec<u8> {
    numbers.iter().flat_map(|number| number.to_le_bytes()).collect()
}

fn float(x: f64) -> [u8; 8] {
    x.to_bits().to_le_bytes()
}
