//! Memories to be lent: random words, other lengths, tables after cuts, damaged ones, strange ones.

use crate::call::{Call, Room};
use crate::model::memory::{self, Lent, Memory};
use crate::model::table::Table;
use crate::random::Random;
use crate::strange;
use crate::taken_apart;
use crate::two_rings;

/// What a memory was made as.
#[derive(Clone, Copy, Debug, PartialEq, Eq)]
pub enum Kind {
    RandomWords,
    OtherLengths,
    Session,
    Strange,
    TakenApart,
    TwoRings,
    Broken,
}

pub fn kind(r: &mut Random) -> Kind {
    r.pick(&[
        Kind::RandomWords,
        Kind::OtherLengths,
        Kind::OtherLengths,
        Kind::Session,
        Kind::Session,
        Kind::Session,
        Kind::Session,
        Kind::Strange,
        Kind::Strange,
        Kind::Strange,
        Kind::Strange,
        Kind::TwoRings,
        Kind::TwoRings,
        Kind::TwoRings,
        Kind::Broken,
        Kind::Broken,
    ])
}

pub fn memory(r: &mut Random, kind: Kind) -> Memory {
    match kind {
        Kind::RandomWords => random_words(r),
        Kind::OtherLengths => other_lengths(r),
        Kind::Session => cube(r),
        Kind::Strange => memory::write(&strange::table(r)),
        Kind::TakenApart => memory::write(&taken_apart::any(r)),
        Kind::TwoRings => memory::write(&two_rings::any(r)),
        Kind::Broken => memory::write(&strange::broken(r)),
    }
}

/// How many cuts are made of it, one on what the other leaves. Few sessions go on until a room is full, for the cost grows
/// with the table.
pub fn steps(r: &mut Random, kind: Kind) -> usize {
    match kind {
        Kind::RandomWords | Kind::OtherLengths | Kind::Broken => r.from_to(1, 2),
        Kind::Session if r.one_in(1000) => 100,
        Kind::Session | Kind::Strange | Kind::TakenApart | Kind::TwoRings => r.from_to(1, 7),
    }
}

/// The same table, crowded.
pub fn crowded(r: &mut Random, table: &Table) -> Memory {
    memory::write(&strange::crowded(r, table))
}

/// A session starts from a cube; the cuts come call by call.
fn cube(r: &mut Random) -> Memory {
    let dimension = r.pick(&[1, 1, 1, 2, 2, 2, 2, 2, 2, 2, 3, 3, 3, 4]);
    let radius = r.pick(&[1.0, 1.0, 2.0, 1.5, 65_536.0, 1.0 + f64::EPSILON]);
    let mut lent = Lent::new(Memory::clear());
    Call::Cube { dimension, radius }.by_model(&mut lent, &mut Room::default());
    lent.memory().clone()
}

/// Right lengths and any words; half of them with counts that pass, so that more than the counts is read.
fn random_words(r: &mut Random) -> Memory {
    let mut memory = Memory::clear();
    memory.elements.iter_mut().for_each(|word| *word = r.word() as u16);
    memory.points.iter_mut().chain(&mut memory.planes).for_each(|x| *x = f64::from_bits(r.word()));
    memory.counts.iter_mut().for_each(|word| *word = r.word() as u16);
    if r.one_in(2) {
        memory.counts = vec![r.from_to(1, 4) as u16, r.below(513) as u16, r.below(257) as u16, r.below(65) as u16];
    }
    memory
}

/// A good memory with one slice or more of another length: none, one less, one more, any.
fn other_lengths(r: &mut Random) -> Memory {
    let mut memory = cube(r);
    for _ in 0..r.from_to(1, 2) {
        match r.below(4) {
            0 => resize(r, &mut memory.counts),
            1 => resize(r, &mut memory.points),
            2 => resize(r, &mut memory.planes),
            _ => resize(r, &mut memory.elements),
        }
    }
    memory
}

fn resize<T: Copy + Default>(r: &mut Random, slice: &mut Vec<T>) {
    let length = slice.len();
    let others = [0, 1, length.saturating_sub(1), length + 1, length / 2, 2 * length, r.below(length + 8)];
    slice.resize(r.pick(&others), T::default());
}

/// One to three words changed, where it is likely to matter. Some tables stay sound.
pub fn damage(r: &mut Random, memory: &mut Memory, table: &Table) {
    for _ in 0..r.pick(&[1, 1, 2, 3]) {
        match r.below(8) {
            0 => change_word(r, &mut memory.counts, 0..4),
            1 | 2 => damage_row_head(r, memory, table),
            3 | 4 => damage_boundary(r, memory, table),
            5 => change_word(r, &mut memory.elements, 0..memory::ELEMENTS),
            6 => damage_float(r, &mut memory.points, 4 * table.vertices.len()),
            _ => damage_float(r, &mut memory.planes, 5 * table.hyperplanes.len()),
        }
    }
}

/// Rank, mark, hyperplane or count of an element in use, or of the row after the last.
fn damage_row_head(r: &mut Random, memory: &mut Memory, table: &Table) {
    let row = memory::ELEMENT_WIDTH * r.below(table.elements.len() + 1).min(511);
    change_word(r, &mut memory.elements, row..row + 4);
}

/// A boundary number or the word after the last: changed, or exchanged with the one before.
fn damage_boundary(r: &mut Random, memory: &mut Memory, table: &Table) {
    let row = memory::ELEMENT_WIDTH * r.below(table.elements.len() + 1).min(511);
    let count = usize::from(memory.elements[row + 3]).min(31);
    if r.one_in(3) && count > 1 {
        let place = row + 4 + r.from_to(1, count - 1);
        memory.elements.swap(place - 1, place);
    } else {
        change_word(r, &mut memory.elements, row + 4..row + 4 + count + 1);
    }
}

fn change_word(r: &mut Random, words: &mut [u16], places: std::ops::Range<usize>) {
    let word = &mut words[r.from_to(places.start, places.end - 1)];
    *word = match r.below(6) {
        0 => word.wrapping_add(1),
        1 => word.wrapping_sub(1),
        2 => 0,
        3 => 0xffff,
        4 => *word ^ 1 << r.below(16),
        _ => r.word() as u16,
    };
}

/// Nearly always one in use, axes past the dimension included.
fn damage_float(r: &mut Random, floats: &mut [f64], in_use: usize) {
    let among = if in_use == 0 || r.one_in(8) { floats.len() } else { in_use };
    let x = &mut floats[r.below(among)];
    *x = match r.below(6) {
        0 | 1 => f64::from_bits(x.to_bits() ^ 1 << r.below(64)),
        2 => -*x,
        3 => r.pick(&[0.0, -0.0, 1.0, f64::NAN, f64::INFINITY]),
        4 => r.pick(&[
            65_536.0,
            -65_536.0,
            65_536.0 * (1.0 + f64::EPSILON),
            262_144.0,
            -262_144.0 * (1.0 + f64::EPSILON),
        ]),
        _ => f64::from_bits(r.word()),
    };
}
