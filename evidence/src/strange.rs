//! Strange sound tables: rings in any order, solids that do not close, corners that coincide, vertex elements among the
//! others, rooms that are nearly full. Soundness asks for nothing geometric. And tables that one entry keeps from being
//! sound.

use crate::dividers;
use crate::model::floats::{Hyperplane, Point};
use crate::model::table::{Element, Polytope, Table, BOUNDARY_ROOM, ELEMENT_ROOM, HYPERPLANE_ROOM, VERTEX_ROOM};
use crate::no_rings;
use crate::random::Random;
use std::f64::consts::TAU;

/// A table of any dimension that is built to be sound.
pub fn table(r: &mut Random) -> Table {
    if r.one_in(15) {
        return spike(r);
    }
    let dimension = r.from_to(1, 4);
    let mut table = with_hyperplanes(r, dimension);
    add_elements(r, &mut table);
    if r.one_in(10) {
        fill_a_room(r, &mut table);
    }
    table
}

pub(crate) fn empty(dimension: usize) -> Table {
    Table { dimension, vertices: vec![], hyperplanes: vec![], elements: vec![] }
}

/// As many hyperplanes as it has to have, or a few more, and no elements.
pub(crate) fn with_hyperplanes(r: &mut Random, dimension: usize) -> Table {
    let mut table = empty(dimension);
    let planes = table.primordial_hyperplanes() + r.below(3) + usize::from(dimension == 1);
    add_hyperplanes(r, &mut table, planes);
    table
}

/// A face of 32 edges where the last hyperplanes take a spike off and meet another corner on their way: the new face would
/// have 33 edges, four of them at that corner, so both 11 and 7 hold.
fn spike(r: &mut Random) -> Table {
    let mut table = empty(2);
    add_hyperplanes(r, &mut table, 4);
    table.hyperplanes.extend([Hyperplane { normal: [1.0, 0.0, 0.0, 0.0], distance: 1.5 }; 4]);
    let neighbour = 0.5f64.atan2(1.0);
    let turn = |place: usize| neighbour + (TAU - 2.0 * neighbour) * place as f64 / 26.0;
    let mut ring: Vec<Point> = (0..27).map(|place| [turn(place).cos(), turn(place).sin(), 0.0, 0.0]).collect();
    (ring[0], ring[26]) = ([1.0, 0.5, 0.0, 0.0], [1.0, -0.5, 0.0, 0.0]);
    ring.push([2.0, 0.0, 0.0, 0.0]);
    let on_their_way = [[1.5, 0.25], [0.0, 0.0], [0.25, -0.25], [0.5, -0.25]].map(|[x, y]| [x, y, 0.0, 0.0]);
    ring.splice(13..13, on_their_way);
    let edges = add_ring(r, &mut table, &ring);
    add(r, &mut table, 2, edges);
    table
}

pub(crate) fn add_hyperplanes(r: &mut Random, table: &mut Table, count: usize) {
    while table.hyperplanes.len() < count {
        let hyperplane = dividers::hyperplane(r, table);
        table.hyperplanes.push(hyperplane);
    }
}

pub(crate) fn add_elements(r: &mut Random, table: &mut Table) {
    let rings = r.pick(&[0, 1, 1, 1, 2, 5, 6]);
    let faces: Vec<Option<u16>> = (0..rings).map(|_| add_face(r, table)).collect();
    let mut below: Vec<u16> = faces.into_iter().flatten().collect();
    for rank in 3..=table.dimension {
        below = (0..r.below(7)).filter_map(|_| add_some_of(r, table, rank, &below)).collect();
    }
}

/// A ring, its edges in any order; in one dimension only the edges.
fn add_face(r: &mut Random, table: &mut Table) -> Option<u16> {
    let sizes = [r.from_to(3, 6), r.from_to(7, 12), r.from_to(BOUNDARY_ROOM - 1, BOUNDARY_ROOM)];
    let size = sizes[r.pick(&[0, 0, 0, 0, 0, 0, 0, 0, 0, 1, 1, 2])];
    let corners = add_new_corners(r, table, size);
    let mut ends = round_of(&corners);
    r.shuffle(&mut ends);
    let edges = add_edges_between(r, table, ends);
    Some(edges).filter(|_| table.dimension > 1).and_then(|edges| add(r, table, 2, edges))
}

/// Corners in order, or in any order, so that edges cross.
pub(crate) fn add_new_corners(r: &mut Random, table: &mut Table, size: usize) -> Vec<u16> {
    let mut points = round(r, size);
    if r.one_in(3) {
        r.shuffle(&mut points);
    }
    points.iter().map(|point| add_corner(table, point)).collect()
}

/// Of two edges with the same ends the second is there only where facts tell it apart.
pub(crate) fn add_edges_between(r: &mut Random, table: &mut Table, ends: Vec<Vec<u16>>) -> Vec<u16> {
    ends.into_iter().filter_map(|ends| add(r, table, 1, ends)).collect()
}

/// New corners and the edges from each to the next.
pub(crate) fn add_ring(r: &mut Random, table: &mut Table, points: &[Point]) -> Vec<u16> {
    let corners: Vec<u16> = points.iter().map(|point| add_corner(table, point)).collect();
    add_edges_between(r, table, round_of(&corners))
}

/// The ends of the edges from each corner to the next.
pub(crate) fn round_of(corners: &[u16]) -> Vec<Vec<u16>> {
    (0..corners.len()).map(|place| vec![corners[place], corners[(place + 1) % corners.len()]]).collect()
}

/// Corners on a circle of some radius, moved and tilted by whole numbers.
fn round(r: &mut Random, size: usize) -> Vec<Point> {
    let radius = r.pick(&[1.0, 1.0, 2.0, 1e-6, 65_000.0]);
    let lift = [r.below(3) as f64, r.below(3) as f64 - 1.0];
    let turn = |place: usize| TAU * place as f64 / size as f64;
    let point = |angle: f64| [radius * angle.cos(), radius * angle.sin(), lift[0] * angle.cos(), lift[1]];
    (0..size).map(|place| point(turn(place))).collect()
}

pub(crate) fn add_corner(table: &mut Table, point: &Point) -> u16 {
    let mut vertex = [0.0; 4];
    vertex[..table.dimension].copy_from_slice(&point[..table.dimension]);
    table.vertices.push(vertex);
    table.elements.push(Element::Vertex(table.vertices.len() as u16 - 1));
    table.elements.len() as u16 - 1
}

/// An element bounded by more than `rank` of those below, if there are so many.
fn add_some_of(r: &mut Random, table: &mut Table, rank: usize, below: &[u16]) -> Option<u16> {
    if below.len() <= rank {
        return None;
    }
    let mut boundary = below.to_vec();
    r.shuffle(&mut boundary);
    boundary.truncate(r.from_to(rank + 1, below.len()));
    add(r, table, rank, boundary)
}

/// The number of a new element, or none where an equal one is there or the boundary is too small.
pub(crate) fn add(r: &mut Random, table: &mut Table, rank: usize, mut boundary: Vec<u16>) -> Option<u16> {
    boundary.sort_unstable();
    let is_facet = rank + 1 == table.dimension;
    let hyperplane = is_facet.then(|| r.below(table.hyperplanes.len()) as u16);
    let new =
        Element::Polytope(Polytope { rank: rank as u16, hyperplane, primordial: is_facet && r.one_in(3), boundary });
    if new.boundary().len() <= rank || table.elements.contains(&new) {
        return None;
    }
    table.elements.push(new);
    Some(table.elements.len() as u16 - 1)
}

/// One of the three rooms, or two of them, up to its end or a little before.
fn fill_a_room(r: &mut Random, table: &mut Table) {
    let left = r.below(4);
    match r.pick(&[0, 0, 0, 1, 2, 3]) {
        0 => add_hyperplanes(r, table, HYPERPLANE_ROOM - left),
        1 => add_corners(r, table, VERTEX_ROOM - left),
        2 => add_edges(r, table, ELEMENT_ROOM - left),
        _ => {
            add_corners(r, table, VERTEX_ROOM - left);
            let left = r.below(4);
            add_edges(r, table, ELEMENT_ROOM - left);
        }
    }
}

/// The same table with little room left for elements and, half of the time, for vertices; not one that has many already.
pub fn crowded(r: &mut Random, table: &Table) -> Table {
    let mut table = table.clone();
    if table.elements.len() <= ELEMENT_ROOM / 2 {
        let [vertices, elements] = [r.pick(&[8, VERTEX_ROOM]), 24].map(|most| r.below(most));
        fill(r, &mut table, vertices, elements);
    }
    table
}

/// Leaves room for so many vertices, if there was so much, and elements.
pub fn fill(r: &mut Random, table: &mut Table, vertices: usize, elements: usize) {
    add_corners(r, table, VERTEX_ROOM - vertices);
    add_edges(r, table, ELEMENT_ROOM - elements);
}

pub(crate) fn add_corners(r: &mut Random, table: &mut Table, count: usize) {
    while table.vertices.len() < count {
        let point = [0; 4].map(|_| r.fraction() * 40_000.0);
        add_corner(table, &point);
    }
}

/// Edges between any two corners; with too few corners there are no more that differ.
pub(crate) fn add_edges(r: &mut Random, table: &mut Table, count: usize) {
    let corners = table.vertices.len().max(40);
    add_corners(r, table, corners);
    let corners: Vec<u16> = (0..table.elements.len() as u16).filter(|&e| table.rank(e) == 0).collect();
    while table.elements.len() < count {
        let ends = vec![r.pick(&corners), r.pick(&corners)];
        if ends[0] != ends[1] {
            add(r, table, 1, ends);
        }
    }
}

/// A strange table with one thing more, which breaks a line of "sound" or, now and then, none.
pub fn broken(r: &mut Random) -> Table {
    if r.one_in(2) {
        return no_rings::table(r);
    }
    let mut table = table(r);
    match r.below(9) {
        0 => table.vertices.push([1.0, 0.0, 0.0, 0.0]),
        1 => table.elements.push(Element::Vertex(r.below(table.vertices.len() + 2) as u16)),
        2 => table.hyperplanes.truncate(table.primordial_hyperplanes().saturating_sub(1)),
        3 => add_face_of_two(r, &mut table),
        4 => add_above_the_dimension(r, &mut table),
        _ => add_broken_polytope(r, &mut table),
    }
    table
}

/// In two dimensions it may be one ring, and only its count is too small.
fn add_face_of_two(r: &mut Random, table: &mut Table) {
    let points = round(r, 2);
    let boundary = add_ring(r, table, &points);
    table.elements.push(Element::Polytope(Polytope { rank: 2, boundary, hyperplane: None, primordial: false }));
}

/// Of all that have full rank: a face in one dimension, a solid in two.
fn add_above_the_dimension(r: &mut Random, table: &mut Table) {
    let mut full: Vec<u16> = (0..table.elements.len() as u16).collect();
    full.retain(|&e| usize::from(table.rank(e)) == table.dimension);
    full.truncate(BOUNDARY_ROOM);
    add(r, table, table.dimension + 1, full);
}

/// A polytope of the table once more, with one fact changed; half of the time the rank is 3 or more, if it can be.
fn add_broken_polytope(r: &mut Random, table: &mut Table) {
    let mut polytopes: Vec<&Polytope> = table.elements.iter().filter_map(polytope).collect();
    if r.one_in(2) && polytopes.iter().any(|p| p.rank > 2) {
        polytopes.retain(|p| p.rank > 2);
    }
    if polytopes.is_empty() {
        return;
    }
    let mut new = r.pick(&polytopes).clone();
    let (own, rank) = (table.elements.len() as u16, usize::from(new.rank));
    match r.below(9) {
        0 => new.boundary.truncate(rank),
        1 => add_to_boundary(r, table, &mut new),
        2 => new.boundary.swap(0, 1),
        3 => *new.boundary.last_mut().expect("it has a boundary") = own,
        4 => new.rank += 1,
        5 => new.hyperplane = new.hyperplane.map_or(Some(0), |_| None),
        6 => new.hyperplane = Some(table.hyperplanes.len() as u16),
        7 => new.primordial = !new.primordial,
        _ => drop(new.boundary.remove(r.below(rank + 1))),
    }
    table.elements.push(Element::Polytope(new));
}

fn polytope(element: &Element) -> Option<&Polytope> {
    match element {
        Element::Vertex(_) => None,
        Element::Polytope(p) => Some(p),
    }
}

/// One more of the rank below, if there is place.
fn add_to_boundary(r: &mut Random, table: &Table, new: &mut Polytope) {
    let more: Vec<u16> = (0..table.elements.len() as u16)
        .filter(|&e| table.rank(e) + 1 == new.rank && !new.boundary.contains(&e))
        .collect();
    if !more.is_empty() && new.boundary.len() < BOUNDARY_ROOM {
        new.boundary.push(r.pick(&more));
        new.boundary.sort_unstable();
    }
}
