//! Faces that no session leads to, put into the Rust's table by its own functions, and what it answers for each.

use hypermath::prelude::*;
use hypershape::flat::*;

const CORNERS: [[f64; 2]; 6] = [[-1.0, -1.0], [1.0, -1.0], [-1.0, 1.0], [1.0, 1.0], [3.0, 1.0], [1.0, 3.0]];

fn with_face(points: &[[f64; 2]], edges: &[[usize; 2]]) -> (Space, ElementId) {
    let mut space = Space::with_primordial_cube_radius(2, 1.0).unwrap();
    let face = space.probe_add_face(points, edges).unwrap();
    (space, face)
}

fn walk(edges: &[[usize; 2]]) -> String {
    let (space, face) = with_face(&CORNERS, edges);
    let steps = space.get(face).as_face().unwrap().edges_in_order().unwrap();
    steps.map(|[a, b]| format!("{}-{}", a.id(), b.id())).collect::<Vec<_>>().join(" ")
}

fn main() {
    println!("two triangles: {}", walk(&[[0, 1], [0, 2], [1, 2], [3, 4], [3, 5], [4, 5]]));
    println!("two edges between two corners, twice: {}", walk(&[[0, 1], [0, 1], [2, 3], [2, 3]]));

    let (mut space, face) =
        with_face(&[[-1.0, -1.0], [1.0, 1.0], [1.0, -1.0], [-1.0, 1.0]], &[[0, 1], [1, 2], [2, 3], [0, 3]]);
    let divider = Hyperplane::from_bits([1.0, 0.0].into_iter().collect(), 0.0);
    println!("a ring that crosses itself, cut there: {:?}", Cut::slice(divider).cut(&mut space, face).unwrap());

    let (space, face) =
        with_face(&[[-1.0, -1.0], [1.0, -1.0], [0.0, 0.0], [-1.0, 1.0]], &[[0, 1], [1, 2], [2, 3], [0, 3]]);
    println!(
        "a ring that is not convex: vertices {:?}",
        space.get(face).vertex_set().map(|v| v.id().0).collect::<Vec<_>>()
    );
}
