//! Random arguments for each entry point: mostly ones that are answered, and each kind that is refused.

use crate::call::Call;
use crate::dividers;
use crate::model::areas::MOST_PIECES;
use crate::model::questions::is_primordial;
use crate::model::table::Table;
use crate::random::Random;

pub fn cut(r: &mut Random, table: Option<&Table>) -> Call {
    let divider = dividers::divider(r, table);
    let [inside, outside] = [0; 2].map(|_| r.pick(&[0, 0, 1, 1, 2, 256]));
    Call::Cut { divider, inside, outside, root: cut_root(r, table) }
}

pub fn cube(r: &mut Random) -> Call {
    let dimension = if r.one_in(4) { any(r.word(), 5) } else { r.from_to(0, 5) as u32 };
    let beside = [1.0 - f64::EPSILON, 1.0, 1.0 + f64::EPSILON, 65_536.0, 65_536.0 * (1.0 + f64::EPSILON)];
    let radius = match r.below(4) {
        0 => r.pick(&beside),
        1 => r.pick(&[f64::NAN, f64::INFINITY, f64::NEG_INFINITY, 0.0, -0.0, -1.0, 5e-324]),
        2 => f64::from_bits(r.word()),
        _ => 1.0 + 100.0 * r.fraction().abs(),
    };
    Call::Cube { dimension, radius }
}

/// One call of each entry point that only reads the table.
pub fn questions(r: &mut Random, table: Option<&Table>) -> [Call; 11] {
    [
        Call::IsSound,
        Call::Save,
        Call::SubElements { root: root(r, table) },
        Call::WithRank { root: root(r, table), rank: rank(r) },
        Call::VertexSet { root: root(r, table) },
        Call::GreatestCommon { roots: roots(r, table) },
        Call::EdgesInOrder { root: root_of_rank(r, table, 2) },
        Call::PrimordialFacet { root: root_of_rank(r, table, table.map_or(1, |t| t.dimension as u16)) },
        touch(r, table),
        Call::Areas { pieces: pieces(r, table) },
        Call::Stl { root: printed(r, table) },
    ]
}

/// Faces, with repeats; none and 16 among them, and more; now and then any other root too.
fn pieces(r: &mut Random, table: Option<&Table>) -> Vec<u16> {
    let count = match r.below(16) {
        0 => 0,
        1 => MOST_PIECES,
        2 => r.from_to(MOST_PIECES + 1, MOST_PIECES + 3),
        _ => r.from_to(1, 4),
    };
    let faces = table.map_or(vec![], |table| numbers_of_rank(table, 2));
    let stray = r.one_in(6);
    let piece = |r: &mut Random| {
        if faces.is_empty() || stray && r.one_in(3) {
            root(r, table).min(0xffff) as u16
        } else {
            r.pick(&faces)
        }
    };
    (0..count).map(|_| piece(r)).collect()
}

/// Mostly of rank 3, and half of these, where there are such, without a primordial facet.
fn printed(r: &mut Random, table: Option<&Table>) -> u32 {
    let is_clear = |table: &Table, piece: u16| !table.boundary(piece).iter().any(|&facet| is_primordial(table, facet));
    let clear = table.map_or(vec![], |table| {
        numbers_of_rank(table, 3).into_iter().filter(|&piece| is_clear(table, piece)).collect()
    });
    if clear.is_empty() || r.one_in(2) {
        root_of_rank(r, table, 3)
    } else {
        r.pick(&clear).into()
    }
}

/// Half of the roots are as a cut has them, half of any rank.
fn touch(r: &mut Random, table: Option<&Table>) -> Call {
    let divider = dividers::divider(r, table);
    let root = if r.one_in(2) { cut_root(r, table) } else { root(r, table) };
    Call::Touch { divider, root }
}

fn rank(r: &mut Random) -> u32 {
    if r.one_in(8) {
        any(r.word(), 5)
    } else {
        r.below(5) as u32
    }
}

/// Any number, of 8, 16 or 32 bits; or one that fewer bits would cut to a number below the bound.
fn any(word: u64, bound: u32) -> u32 {
    let bits = (word >> 32) as u32;
    match word % 4 {
        0 => bits % 0x100,
        1 => bits % 0x1_0000,
        2 => bits,
        _ => bits % bound.max(1) + [0x100, 0x1_0000, 0x2_0000, 0x8000_0000][(word >> 2) as usize % 4],
    }
}

/// Any number: mostly one in use, else the first that is not, the room's end, or any other.
fn root(r: &mut Random, table: Option<&Table>) -> u32 {
    let in_use = table.map_or(9, |table| table.elements.len());
    if in_use == 0 || r.one_in(10) {
        let other = any(r.word(), in_use as u32);
        return r.pick(&[in_use as u32, 511, 512, 0xffff, other]);
    }
    r.below(in_use) as u32
}

/// Mostly of that rank, if there is one.
fn root_of_rank(r: &mut Random, table: Option<&Table>, rank: u16) -> u32 {
    let of_rank = table.map_or(vec![], |table| numbers_of_rank(table, rank));
    if of_rank.is_empty() || r.one_in(4) {
        root(r, table)
    } else {
        r.pick(&of_rank).into()
    }
}

fn numbers_of_rank(table: &Table, rank: u16) -> Vec<u16> {
    (0..table.elements.len() as u16).filter(|&e| table.rank(e) == rank).collect()
}

/// Mostly one of the highest rank, or a late one.
fn cut_root(r: &mut Random, table: Option<&Table>) -> u32 {
    let highest = table.map_or(0, |table| table.elements.iter().map(|e| e.rank()).max().unwrap_or(0));
    match table.map(|table| table.elements.len()) {
        Some(in_use) if in_use > 0 && r.one_in(4) => (in_use - 1 - r.below(in_use.min(4))) as u32,
        _ => root_of_rank(r, table, highest),
    }
}

/// Some of one rank, with repeats, now and then with any root among them: a list has words of 16 bits.
fn roots(r: &mut Random, table: Option<&Table>) -> Vec<u16> {
    let rank = r.below(5) as u16;
    let count = if r.one_in(50) { 600 } else { r.below(5) };
    let mut roots: Vec<u16> = match table.map(|table| numbers_of_rank(table, rank)) {
        Some(of_rank) if !of_rank.is_empty() => (0..count).map(|_| r.pick(&of_rank)).collect(),
        _ => (0..count).map(|_| root(r, table) as u16).collect(),
    };
    if r.one_in(6) {
        roots.push(root(r, table) as u16);
    }
    roots
}
