//! Edges that do not make one ring: faces of them, in tables that are sound but for that, and what a run calls them.

use crate::model::table::Table;
use crate::random::Random;
use crate::strange::{add, add_edges_between, add_elements, add_new_corners, with_hyperplanes};

/// What the edges of a face make that are not one ring; few of them and more, for few can be told by counting.
pub const SHAPES: [&str; 11] = [
    "rings of three edges or more",
    "a pair of edges beside a ring, to 5 edges",
    "a pair of edges beside a ring, from 6 edges",
    "a corner met three times, to 5 edges",
    "a corner met three times, from 6 edges",
    "a corner met four times or more, to 5 edges",
    "a corner met four times or more, from 6 edges",
    "an open path beside other edges, to 5 edges",
    "an open path beside other edges, from 6 edges",
    "an open path, to 5 edges",
    "an open path, from 6 edges",
];

/// The shape of edges that are not one ring, told by their ends.
pub fn shape(edges: &[[u16; 2]]) -> String {
    let times = edges.iter().flatten().map(|end| edges.iter().flatten().filter(|other| *other == end).count());
    let is_open = times.clone().any(|times| times == 1);
    let name = match times.max() {
        Some(4..) => "a corner met four times or more",
        Some(3) => "a corner met three times",
        _ if is_open && hang_together(edges) => "an open path",
        _ if is_open => "an open path beside other edges",
        _ if has_a_pair(edges) => "a pair of edges beside a ring",
        _ => return SHAPES[0].into(),
    };
    format!("{name}, {}", if edges.len() > 5 { "from 6 edges" } else { "to 5 edges" })
}

fn hang_together(edges: &[[u16; 2]]) -> bool {
    let mut left = edges.to_vec();
    let mut reached: Vec<u16> = left.pop().into_iter().flatten().collect();
    while let Some(place) = left.iter().position(|ends| ends.iter().any(|end| reached.contains(end))) {
        reached.extend(left.remove(place));
    }
    left.is_empty()
}

fn has_a_pair(edges: &[[u16; 2]]) -> bool {
    (1..edges.len()).any(|place| edges[..place].contains(&edges[place]))
}

/// A table with such a face, before its other elements or after them. Only in two dimensions two edges between the same
/// corners can be told apart; where they come out equal, the face may be a ring.
pub fn table(r: &mut Random) -> Table {
    let dimension = r.pick(&[2, 2, 3, 4]);
    let mut table = with_hyperplanes(r, dimension);
    let is_last = r.one_in(2);
    if is_last {
        add_elements(r, &mut table);
    }
    let edges = edges(r, &mut table);
    add(r, &mut table, 2, edges);
    if !is_last {
        add_elements(r, &mut table);
    }
    table
}

/// An open path, or a ring with something beside it or at its corners; the edges in any order.
fn edges(r: &mut Random, table: &mut Table) -> Vec<u16> {
    let mut ends = if r.one_in(7) {
        let corners = r.from_to(4, 13);
        along(&add_new_corners(r, table, corners))
    } else {
        let least = if table.dimension == 2 { 2 } else { 3 };
        let [ring, more] = [least, 2].map(|least| {
            let most = r.pick(&[3, 3, 6, 15]);
            let size = r.from_to(least, most);
            add_new_corners(r, table, size)
        });
        [along(&closed(&ring)), along(&beside(r, &ring, &more))].concat()
    };
    r.shuffle(&mut ends);
    add_edges_between(r, table, ends)
}

/// The corners of a ring or a path apart from a ring, or of one that meets it.
fn beside(r: &mut Random, ring: &[u16], more: &[u16]) -> Vec<u16> {
    let fewer = &more[..r.from_to(1, more.len())];
    match r.below(7) {
        0 | 1 => closed(more),
        2 => more.to_vec(),
        3 => closed(&[&ring[..1], fewer].concat()),
        4 => [&ring[..1], fewer].concat(),
        5 => [&ring[..1], fewer, &ring[1..2]].concat(),
        _ => [&more[..1], &ring[..1], &more[1..]].concat(),
    }
}

fn closed(corners: &[u16]) -> Vec<u16> {
    [corners, &corners[..1]].concat()
}

fn along(corners: &[u16]) -> Vec<Vec<u16>> {
    corners.windows(2).map(|ends| ends.to_vec()).collect()
}
