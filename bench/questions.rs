//! The questions of `calls.c` asked of the published Rust, on the same tables: nanoseconds, the best of many runs.
//! `bench/times` builds it where that Rust is built.

use hypermath::prelude::*;
use hypershape::flat::*;
use std::hint::black_box;
use std::time::{Duration, Instant};

const BUDGET: Duration = Duration::from_millis(200);

/// Dividers that each take a corner off what is left of the cube.
fn slanted(step: u32) -> Hyperplane {
    let (y, x) = (f64::from(step) * 0.7 + 0.2).sin_cos();
    let normal: Vector = [x, y, f64::from(step % 5) * 0.3 - 0.6].into_iter().collect();
    Hyperplane::new(normal, 0.75).unwrap()
}

fn slanted_cuts(steps: u32) -> Space {
    let mut space = Space::with_primordial_cube_radius(3, 1.0).unwrap();
    let mut piece = ElementId(26);
    for step in 0..steps {
        piece = Cut::slice(slanted(step)).cut(&mut space, piece).unwrap().inside().unwrap_or(piece);
    }
    space
}

fn best<T>(mut call: impl FnMut() -> T) -> u128 {
    let (start, mut best) = (Instant::now(), Duration::MAX);
    while start.elapsed() < BUDGET {
        let call_start = Instant::now();
        black_box(call());
        best = best.min(call_start.elapsed());
    }
    best.as_nanos()
}

/// The soundness test has no like in the Rust.
fn times(space: &mut Space) -> [u128; 7] {
    let last = ElementId(space.probe_counts()[0] as u32 - 1);
    let two: Vec<ElementId> = space.get(last).as_element().boundary().take(2).map(|e| e.id()).collect();
    [
        best(|| space.get(last).subelements().count()),
        best(|| space.get(last).subelements_with_rank(1).count()),
        best(|| space.get(last).vertex_set().count()),
        best(|| space.greatest_common_subelements(two.iter().copied().collect()).unwrap()),
        best(|| space.get(ElementId(8)).as_face().unwrap().edges_in_order().unwrap().count()),
        best(|| space.get(ElementId(26)).as_polytope().unwrap().has_primordial_facet()),
        best(|| Cut::slice(slanted(0)).cut(space, ElementId(26)).unwrap()),
    ]
}

fn main() {
    for steps in (0..=14).step_by(2) {
        let mut space = slanted_cuts(steps);
        let elements = space.probe_counts()[0];
        println!("{elements};{}", times(&mut space).map(|t| t.to_string()).join(";"));
    }
}
