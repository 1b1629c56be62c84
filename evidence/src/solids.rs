//! Random solids: a cube of three dimensions carved by planes round its centre, and sliced.

use crate::call::{Call, Room};
use crate::dividers::unit_normal;
use crate::model::floats::{Hyperplane, Point};
use crate::model::memory::Memory;
use crate::random::Random;

/// The table and its pieces, with the cube among them. Mostly its own facets are carved off first. Some solids are carved round their
/// centre and get many faces, others are cut anywhere; now and then a slab is cut off that is thinner than a step of 32-bit floats far out.
pub fn solids(r: &mut Random) -> (Memory, Vec<u16>) {
    let radius = r.pick(&[1.0, 1.5, 2.0, 1000.0, 65_536.0]);
    let mut memory = Memory::clear();
    Call::Cube { dimension: 3, radius }.by_engine(&mut memory, &mut Room::default());
    let mut pieces = vec![26];
    if !r.one_in(8) {
        let size = radius * (0.5 + 0.4 * r.fraction().abs());
        for side in 0..6 {
            let mut normal = [0.0; 4];
            normal[side / 2] = [1.0, -1.0][side % 2];
            cut(&mut memory, Hyperplane { normal, distance: size }, false, &mut pieces);
        }
    }
    let is_round = r.one_in(2);
    for _ in 0..r.below(if is_round { 18 } else { 10 }) {
        let share = if is_round { 0.6 + 0.1 * r.fraction() } else { 0.7 * r.fraction() };
        let mut divider = Hyperplane { normal: normal(r), distance: radius * share };
        cut(&mut memory, divider, !is_round && r.one_in(4), &mut pieces);
        if r.one_in(16) {
            divider.distance -= 1.0 / 1024.0;
            cut(&mut memory, divider, true, &mut pieces);
        }
    }
    (memory, pieces)
}

/// Near an axis, or anywhere.
fn normal(r: &mut Random) -> Point {
    if r.one_in(2) {
        return unit_normal(r, 3);
    }
    let [x, y, z] = [0; 3].map(|_| r.fraction() + 0.001);
    let length = (x * x + y * y + z * z).sqrt();
    [x / length, y / length, z / length, 0.0]
}

/// Of the last piece: what is inside, and behind it what is outside, where that is kept.
fn cut(memory: &mut Memory, divider: Hyperplane, outside: bool, pieces: &mut Vec<u16>) {
    let Some(&root) = pieces.last() else { return };
    let call = Call::Cut { divider, inside: 1, outside: outside.into(), root: root.into() };
    let word = call.by_engine(memory, &mut Room::default());
    let is_parted = word as u8 == 0 && word >> 8 & 1 == 0;
    let parts = [word >> 32, word >> 16].map(|part| part as u16);
    pieces.extend(parts.into_iter().filter(|&part| is_parted && part != 0xffff && part != root));
}

/// How the triangles of a print file meet.
pub enum Shell {
    /// Each side of a triangle is a side of just one other.
    Closed,
    /// Two corners became one when they were narrowed.
    FallenTogether,
    /// Some side is not.
    Open,
}

pub fn shell(file: &[u8]) -> Shell {
    let triangles: Vec<Vec<&[u8]>> = file[84..].chunks(50).map(|t| t[12..48].chunks(12).collect()).collect();
    let sides =
        |t: &Vec<&[u8]>| [(0, 1), (1, 2), (2, 0)].map(|(a, b)| [t[a].min(t[b]).to_vec(), t[a].max(t[b]).to_vec()]);
    let mut all: Vec<_> = triangles.iter().flat_map(sides).collect();
    all.sort();
    if all.iter().any(|side| side[0] == side[1]) {
        return Shell::FallenTogether;
    }
    let is_closed = all.chunk_by(|a, b| a == b).all(|same| same.len() == 2);
    if is_closed {
        Shell::Closed
    } else {
        Shell::Open
    }
}
