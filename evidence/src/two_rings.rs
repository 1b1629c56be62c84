//! Sound tables that the last hyperplanes cut into a face of two rings, or of rings that share a corner: two solids as one
//! body, and rings that come back to the plane.

use crate::model::floats::Point;
use crate::model::table::Table;
use crate::random::Random;
use crate::strange::{add, add_corner, add_edges_between, add_ring, round_of, with_hyperplanes};
use crate::taken_apart::{open, point, Ring, LAST};
use std::f64::consts::TAU;

pub fn any(r: &mut Random) -> Table {
    let dimension = r.pick(&[2, 2, 2, 2, 2, 3, 4]);
    match r.below(8) {
        0 | 1 => {
            let [dimension, one, other] = [(3, 4), (3, 5), (3, 5)].map(|(least, most)| r.from_to(least, most));
            pyramids(r, dimension, [one, other])
        }
        2 => face(r, dimension, &open()),
        _ => {
            let [first, second] = [[1, 1, 2, 3], [1, 1, 1, 2]].map(|sizes| r.pick(&sizes));
            face(r, dimension, &back_to_the_plane(first, second))
        }
    }
}

/// One body of rank 3, of two pyramids that are far from each other, over bases of so many corners. The plane meets each in
/// a ring.
fn pyramids(r: &mut Random, dimension: usize, sizes: [usize; 2]) -> Table {
    let mut table = with_last(r, dimension);
    let [one, other] = [(sizes[0], 0.0), (sizes[1], 10.0)].map(|(size, along)| pyramid(r, &mut table, size, along));
    add(r, &mut table, 3, [one, other].concat());
    table
}

/// Its faces: the base, which is outside, and those at the corner inside.
fn pyramid(r: &mut Random, table: &mut Table, size: usize, along: f64) -> Vec<u16> {
    let inside = add_corner(table, &point(-1.0, along));
    let at = |angle: f64| {
        let [x, y, ..] = point(1.0, along + angle.cos());
        [x, y, angle.sin(), 0.0]
    };
    let points = (0..size).map(|place| at(TAU * place as f64 / size as f64));
    let corners: Vec<u16> = points.map(|point| add_corner(table, &point)).collect();
    let base = add_edges_between(r, table, round_of(&corners));
    let sides = add_edges_between(r, table, corners.iter().map(|&corner| vec![inside, corner]).collect());
    let triangles = (0..size).map(|place| vec![base[place], sides[place], sides[(place + 1) % size]]);
    let faces: Vec<Vec<u16>> = [base.clone()].into_iter().chain(triangles).collect();
    faces.into_iter().filter_map(|edges| add(r, table, 2, edges)).collect()
}

/// One face with this ring.
fn face(r: &mut Random, dimension: usize, ring: &Ring) -> Table {
    let mut table = with_last(r, dimension);
    let points: Vec<Point> = ring.iter().map(|[s, along]| point(*s, *along)).collect();
    let edges = add_ring(r, &mut table, &points);
    add(r, &mut table, 2, edges);
    table
}

/// An edge in the plane, so many corners inside, back to the plane where that edge began, outside, so many corners inside
/// from one point of the plane and back to it, outside. What is inside is two rings. The second has two edges between the
/// same corners if it has one corner inside.
fn back_to_the_plane(first: u8, second: u8) -> Ring {
    let mut ring = vec![[0.0, 0.0], [0.0, 1.0]];
    ring.extend((1..=first).rev().map(|along| [-1.0, along.into()]));
    ring.push([1.0, -1.0]);
    ring.extend((0..second).map(|place| [-1.0, 7.0 + f64::from(place)]));
    ring.push([3.0, -6.0 - 3.0 * f64::from(second)]);
    ring
}

/// It stands there often, so that dividers are taken from it.
fn with_last(r: &mut Random, dimension: usize) -> Table {
    let mut table = with_hyperplanes(r, dimension);
    table.hyperplanes.extend([LAST; 20]);
    table
}
