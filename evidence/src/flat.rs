//! Random flat puzzles: a square cut by planes over every piece.

use crate::call::{Call, Room};
use crate::dividers::unit_normal;
use crate::model::floats::Hyperplane;
use crate::model::memory::Memory;
use crate::random::Random;

/// The table, and the pieces that make up the square. Most planes are along an axis and on the grid of 1/1,024.
pub fn puzzle(r: &mut Random) -> (Memory, Vec<u16>) {
    let radius = r.pick(&[1.0, 1.5, 2.0, 1.0 + 1.0 / 1024.0, 1000.0, 65_536.0]);
    let mut memory = Memory::clear();
    Call::Cube { dimension: 2, radius }.by_engine(&mut memory, &mut Room::default());
    let mut pieces = vec![8];
    for _ in 0..r.below(7) {
        let divider = divider(r, radius);
        pieces = pieces.into_iter().flat_map(|piece| sides(&mut memory, divider, piece)).collect();
    }
    (memory, pieces)
}

fn divider(r: &mut Random, radius: f64) -> Hyperplane {
    if r.one_in(12) {
        return Hyperplane { normal: unit_normal(r, 2), distance: radius * r.fraction() };
    }
    let mut normal = [0.0; 4];
    normal[r.below(2)] = r.pick(&[1.0, -1.0]);
    let units = (radius * 1024.0 * r.fraction()).round();
    let off = if r.one_in(12) { r.pick(&[0.5, 0.25, 1.0 / 1024.0]) } else { 0.0 };
    Hyperplane { normal, distance: (units + off) / 1024.0 }
}

/// A piece that the plane misses is its old entry; one that is refused stays too.
fn sides(memory: &mut Memory, divider: Hyperplane, root: u16) -> Vec<u16> {
    let call = Call::Cut { divider, inside: 1, outside: 1, root: root.into() };
    let word = call.by_engine(memory, &mut Room::default());
    if word as u8 != 0 || word >> 8 & 1 == 1 {
        return vec![root];
    }
    [word >> 16, word >> 32].map(|part| part as u16).into_iter().filter(|&part| part != 0xffff).collect()
}
