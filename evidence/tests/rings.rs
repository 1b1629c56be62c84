//! Order 4, two triangles are no polygon: the smallest tables, by the model and by the engine.

use evidence::call::{Call, Room};
use evidence::model::floats::{Hyperplane, Point};
use evidence::model::memory::{write, Lent};
use evidence::model::table::{Element, Polytope, Table};
use evidence::no_rings::{self, shape, SHAPES};
use evidence::random::Random;
use evidence::{strange, two_rings};

const AT_ZERO: Hyperplane = Hyperplane { normal: [1.0, 0.0, 0.0, 0.0], distance: 0.0 };

/// Corners at these points, P hyperplanes, nothing else.
fn corners(dimension: usize, points: &[Point]) -> Table {
    let hyperplanes = vec![Hyperplane { normal: [1.0, 0.0, 0.0, 0.0], distance: 5.0 }; 2 * dimension];
    let elements = (0..points.len() as u16).map(Element::Vertex).collect();
    Table { dimension, vertices: points.to_vec(), hyperplanes, elements }
}

/// One element more; a facet is on this hyperplane.
fn add(table: &mut Table, rank: usize, boundary: &[u16], hyperplane: u16) -> u16 {
    let hyperplane = Some(hyperplane).filter(|_| rank + 1 == table.dimension);
    let boundary = boundary.to_vec();
    table.elements.push(Element::Polytope(Polytope { rank: rank as u16, boundary, hyperplane, primordial: false }));
    table.elements.len() as u16 - 1
}

/// Edges by their ends and hyperplanes.
fn add_edges(table: &mut Table, edges: &[[u16; 3]]) -> Vec<u16> {
    edges.iter().map(|[a, b, hyperplane]| add(table, 1, &[*a, *b], *hyperplane)).collect()
}

/// All corners at one point, the edges, and one face of them.
fn face(dimension: usize, count: usize, edges: &[[u16; 3]]) -> Table {
    let mut table = corners(dimension, &vec![[0.0; 4]; count]);
    let edges = add_edges(&mut table, edges);
    add(&mut table, 2, &edges, 0);
    table
}

/// The edges from each of some corners to the next and round.
fn ring(first: u16, size: u16) -> Vec<[u16; 3]> {
    let last = [first, first + size - 1, 0];
    (first..first + size - 1).map(|corner| [corner, corner + 1, 0]).chain([last]).collect()
}

/// The reply of both, who leave the same memory, and whether it is the one that was lent.
fn call(call: &Call, table: &Table) -> (u64, bool) {
    let lent = write(table);
    let (mut by_model, mut by_engine) = (Lent::new(lent.clone()), lent.clone());
    let replies =
        [call.by_model(&mut by_model, &mut Room::default()), call.by_engine(&mut by_engine, &mut Room::default())];
    assert_eq!(replies[0], replies[1], "by the model and by the engine");
    assert!(by_engine.is_same(by_model.memory()));
    (replies[0], by_engine.is_same(&lent))
}

fn is_sound(table: &Table) -> u64 {
    call(&Call::IsSound, table).0
}

#[test]
fn two_triangles_are_sound_as_two_faces_only() {
    for dimension in 2..=4 {
        assert_eq!(is_sound(&face(dimension, 6, &[ring(0, 3), ring(3, 3)].concat())), 3);
        let mut two = face(dimension, 6, &ring(0, 3));
        let edges = add_edges(&mut two, &ring(3, 3));
        add(&mut two, 2, &edges, 0);
        assert_eq!(is_sound(&two), 0);
    }
}

#[test]
fn two_edges_between_the_same_corners_beside_a_ring_are_not() {
    let pair = [[0, 1, 0], [0, 1, 1]];
    assert_eq!(is_sound(&face(2, 4, &[pair, [[2, 3, 0], [2, 3, 1]]].concat())), 3);
    for size in 3..=30 {
        assert_eq!(is_sound(&face(2, 32, &[&pair[..], &ring(2, size)].concat())), 3);
    }
}

/// Any number of edges, in any order.
#[test]
fn one_ring_is_sound_and_two_are_not() {
    let mut r = Random::new(1);
    for size in 3..=32 {
        for two in (3..size - 2).map(Some).chain([None]) {
            let mut edges = two.map_or(ring(0, size), |first| [ring(0, first), ring(first, size - first)].concat());
            r.shuffle(&mut edges);
            let dimension = r.from_to(2, 4);
            assert_eq!(is_sound(&face(dimension, 32, &edges)), two.map_or(0, |_| 3));
        }
    }
}

#[test]
fn a_ring_that_lacks_an_edge_is_not() {
    for size in 4..=32 {
        assert_eq!(is_sound(&face(3, 32, &ring(0, size)[1..])), 3);
    }
}

/// The tetrahedron with three of its corners outside and one inside, at such a y.
fn tetrahedron(y: f64) -> [Point; 4] {
    [[-1.0, y, 0.0, 0.0], [1.0, y - 1.0, 0.0, 0.0], [1.0, y + 1.0, 0.0, 0.0], [1.0, y, 1.0, 0.0]]
}

/// One body of the triangles with these corners, in each the lowest first. It is the last element.
fn body(dimension: usize, points: &[Point], triangles: &[[u16; 3]]) -> Table {
    let mut table = corners(dimension, points);
    let mut ends: Vec<[u16; 3]> =
        triangles.iter().flat_map(|[a, b, c]| [[*a, *b, 0], [*a, *c, 0], [*b, *c, 0]]).collect();
    ends.sort_unstable();
    ends.dedup();
    let edges = add_edges(&mut table, &ends);
    let edge = |a, b| edges[ends.iter().position(|ends| *ends == [a, b, 0]).unwrap()];
    let mut faces = vec![];
    for [a, b, c] in triangles {
        faces.push(add(&mut table, 2, &[edge(*a, *b), edge(*a, *c), edge(*b, *c)], 0));
    }
    add(&mut table, 3, &faces, 0);
    table
}

/// How a cut of the body is replied to, whichever sides are kept, for the face of the cut is worked out in any case.
fn cut_at_zero(table: &Table) -> [(u64, bool); 4] {
    assert_eq!(is_sound(table), 0);
    let root = table.elements.len() as u32 - 1;
    [0, 1, 2, 3].map(|kept| call(&Call::Cut { divider: AT_ZERO, inside: kept & 1, outside: kept & 2, root }, table))
}

#[test]
fn two_tetrahedra_as_one_body_cut_through_both_are_refused() {
    let one = [[0, 1, 2], [0, 1, 3], [0, 2, 3], [1, 2, 3]];
    let two = [one, one.map(|triangle| triangle.map(|corner| corner + 4))].concat();
    for dimension in 3..=4 {
        let taken = cut_at_zero(&body(dimension, &tetrahedron(0.0), &one));
        assert!(taken.iter().all(|(word, is_as_it_came)| *word as u8 == 0 && !is_as_it_came));
        let points = [tetrahedron(0.0), tetrahedron(10.0)].concat();
        assert_eq!(cut_at_zero(&body(dimension, &points, &two)), [(7, true); 4]);
    }
}

/// The smallest body that is known: it has five corners.
#[test]
fn two_tips_over_one_triangle_cut_below_both_are_refused() {
    let points = [[-1.0, 0.0, 0.0], [-1.0, 6.0, 0.0], [1.0, 2.0, 0.0], [1.0, 4.0, 0.0], [1.0, 3.0, 2.0]];
    let triangles = [[0, 2, 3], [0, 2, 4], [0, 3, 4], [1, 2, 3], [1, 2, 4], [1, 3, 4]];
    let table = body(3, &points.map(|[x, y, z]| [x, y, z, 0.0]), &triangles);
    assert_eq!((table.elements.len(), cut_at_zero(&table)), (21, [(7, true); 4]));
}

/// A ring of six edges, one of them in the plane; inside, a triangle and a pair of edges are left of it.
#[test]
fn a_cut_to_a_pair_of_edges_beside_a_triangle_is_refused() {
    let points = [[0.0, 0.0], [0.0, 1.0], [-1.0, 1.0], [1.0, -1.0], [-1.0, 7.0], [3.0, -9.0]];
    let mut table = corners(2, &points.map(|[x, y]| [x, y, 0.0, 0.0]));
    let ends = [[0, 1, 0], [1, 2, 0], [2, 3, 0], [3, 4, 0], [4, 5, 1], [0, 5, 0]];
    let edges = add_edges(&mut table, &ends);
    let root = add(&mut table, 2, &edges, 0).into();
    let cut = Call::Cut { divider: AT_ZERO, inside: 1, outside: 0, root };
    assert_eq!(is_sound(&table), 0);
    assert_eq!(call(&cut, &table), (7, true));
    let edges = cut.refused_face(&Lent::new(write(&table)), 7).unwrap();
    assert_eq!(shape(&edges), SHAPES[1]);
}

#[test]
fn each_shape_has_its_name() {
    let path = |size: u16| (0..size).map(|corner| [corner, corner + 1]).collect::<Vec<[u16; 2]>>();
    let round = |first, size| ring(first, size).into_iter().map(|[a, b, _]| [a, b]).collect::<Vec<[u16; 2]>>();
    let pair = vec![[20, 21]; 2];
    let shapes = [
        [round(0, 3), round(3, 4)].concat(),
        [pair.clone(), round(0, 3)].concat(),
        [pair, round(0, 4)].concat(),
        [round(0, 3), vec![[0, 3]]].concat(),
        [round(0, 5), vec![[0, 2]]].concat(),
        [round(0, 3), vec![[0, 3], [0, 4]]].concat(),
        [round(0, 3), round(2, 3)].concat(),
        [round(0, 3), vec![[3, 4]]].concat(),
        [round(0, 4), vec![[5, 6], [6, 7]]].concat(),
        path(5),
        path(6),
    ];
    assert_eq!(shapes.map(|edges| shape(&edges)), SHAPES);
}

#[test]
fn random_tables_are_sound_or_not_as_they_are_meant() {
    let mut r = Random::new(1);
    for _ in 0..200 {
        assert_eq!(is_sound(&strange::table(&mut r)), 0);
        assert_eq!(is_sound(&two_rings::any(&mut r)), 0);
        let table = no_rings::table(&mut r);
        let has_no_ring = Lent::new(write(&table)).face_of_no_ring().is_some();
        assert_eq!(is_sound(&table), if has_no_ring { 3 } else { 0 });
    }
}
