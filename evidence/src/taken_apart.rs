//! Solids of faces that the last hyperplane takes apart, most of them into a side that is refused: what is met first, that
//! side or another face, depends on the sides kept.

use crate::model::floats::{Hyperplane, Point, TOLERANCE};
use crate::model::table::Table;
use crate::random::Random;
use crate::strange::{add, add_hyperplanes, add_ring, empty};

pub const LAST: Hyperplane = Hyperplane { normal: [0.6, 0.8, 0.0, 0.0], distance: 0.0 };

/// Corners by their signed distance from the last hyperplane, and how far along it they lie.
pub type Ring = Vec<[f64; 2]>;

/// One corner inside: the outside has 33 edges.
pub fn long() -> Ring {
    (0..32).map(|place| [if place == 0 { -1.0 } else { 1.0 }, place.into()]).collect()
}

/// The first crossing matches the third corner, so that the outside is not closed.
pub fn open() -> Ring {
    vec![[-1.0, 0.0], [1.0, 0.0], [1.25 * TOLERANCE, -0.2 * TOLERANCE], [1.0, 2.0]]
}

/// Four crossings, no two of which are one edge's ends.
pub fn crossed() -> Ring {
    vec![[-1.0, 0.0], [1.0, 0.0], [-1.0, 4.0], [1.0, 6.0]]
}

pub fn triangle() -> Ring {
    vec![[-1.0, 0.0], [1.0, 0.0], [1.0, 2.0]]
}

/// A triangle inside.
pub fn missed() -> Ring {
    vec![[-1.0, 0.0], [-2.0, 0.0], [-1.0, 2.0]]
}

/// By half a turn: what was inside is outside.
pub fn turned(ring: Ring) -> Ring {
    ring.into_iter().map(|[s, along]| [-s, -along]).collect()
}

pub fn any(r: &mut Random) -> Table {
    let rings = [0; 4].map(|_| {
        let ring = r.pick(&[long, open, crossed, triangle, missed])();
        if r.one_in(2) {
            turned(ring)
        } else {
            ring
        }
    });
    solid(r, rings)
}

/// The solid of four faces with these rings, which are far from each other. It is the last element.
pub fn solid(r: &mut Random, rings: [Ring; 4]) -> Table {
    let mut table = empty(3);
    add_hyperplanes(r, &mut table, 6);
    table.hyperplanes.push(LAST);
    let mut faces = vec![];
    for (ring, place) in rings.iter().zip(0u8..) {
        let points: Vec<Point> = ring.iter().map(|[s, along]| point(*s, along + 100.0 * f64::from(place))).collect();
        let edges = add_ring(r, &mut table, &points);
        faces.extend(add(r, &mut table, 2, edges));
    }
    add(r, &mut table, 3, faces);
    table
}

pub(crate) fn point(s: f64, along: f64) -> Point {
    [0.6 * s - 0.8 * along, 0.8 * s + 0.6 * along, 0.0, 0.0]
}
