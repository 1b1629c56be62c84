//! Nanoseconds of the Rust's cuts: the workloads of `bench/calls.c`, each on a new space, best and mean of many runs. The
//! cube is not in the time. `bench/times` reads the lines. `bench count NAME TIMES` makes the cuts of one workload so often, and
//! `bench cubes NAME TIMES` its cube alone: `bench/instructions` counts both.

use hypermath::prelude::*;
use hypershape::flat::*;
use std::time::{Duration, Instant};

const BUDGET: Duration = Duration::from_millis(1500);
const FEWEST_RUNS: u32 = 5;

fn plane(normal: &[f64], distance: f64) -> Hyperplane {
    Hyperplane::from_bits(normal.iter().copied().collect(), distance)
}

fn across(dimensions: usize, axis: usize, distance: f64) -> Hyperplane {
    let mut normal = vec![0.0; dimensions];
    normal[axis] = 1.0;
    plane(&normal, distance)
}

fn cube(space: &Space) -> ElementId {
    space.primordial_cube().into()
}

/// So many planes for each axis, over every piece: a `Cut` for each plane and piece, or one for each plane, which holds its
/// answers from piece to piece. All of these give how many cuts were made.
fn grid(space: &mut Space, dimensions: usize, planes: usize, is_shared: bool) -> usize {
    let (mut pieces, mut cuts) = (vec![cube(space)], 0);
    for axis in 0..dimensions {
        for i in 0..planes {
            let divider = across(dimensions, axis, -1.0 + 2.0 * (i + 1) as f64 / (planes + 1) as f64);
            let mut cut = Cut::slice(divider.clone());
            let mut parts = Vec::with_capacity(pieces.len() * 2);
            for &piece in &pieces {
                if !is_shared {
                    cut = Cut::slice(divider.clone());
                }
                parts.extend(cut.cut(space, piece).unwrap().iter_inside_and_outside());
                cuts += 1;
            }
            pieces = parts;
        }
    }
    cuts
}

fn carve(space: &mut Space, dividers: impl Iterator<Item = Hyperplane>) -> usize {
    let (mut piece, mut cuts) = (cube(space), 0);
    for divider in dividers {
        piece = Cut::carve(divider).cut(space, piece).unwrap().inside().unwrap();
        cuts += 1;
    }
    cuts
}

/// Planes that touch a ball of radius 0.9, spread by the golden angle.
fn around_ball(count: usize) -> impl Iterator<Item = Hyperplane> {
    (0..count).map(move |i| {
        let z = 1.0 - 2.0 * (i as f64 + 0.5) / count as f64;
        let (r, angle) = ((1.0 - z * z).sqrt(), i as f64 * 2.399963229728653);
        let normal: Vector = [r * angle.cos(), r * angle.sin(), z].into_iter().collect();
        plane(&normal.normalize().unwrap().0, 0.9)
    })
}

fn around_circle(count: usize) -> impl Iterator<Item = Hyperplane> {
    (0..count).map(move |i| {
        let angle = i as f64 * std::f64::consts::TAU / count as f64 + 0.1;
        plane(&[angle.cos(), angle.sin()], 0.9)
    })
}

fn slices(space: &mut Space, divider: &Hyperplane, count: usize) -> usize {
    for _ in 0..count {
        Cut::slice(divider.clone()).cut(space, cube(space)).unwrap();
    }
    count
}

fn diagonal(dimensions: usize) -> Hyperplane {
    let ones: Vector = (0..dimensions).map(|_| 1.0).collect();
    plane(&ones.normalize().unwrap().0, 0.3)
}

/// A workload, by the name that `bench/calls.c` has for it.
struct Workload {
    name: String,
    dimensions: usize,
    work: Box<dyn Fn(&mut Space) -> usize>,
}

impl Workload {
    fn new(name: String, dimensions: usize, work: impl Fn(&mut Space) -> usize + 'static) -> Self {
        Self { name, dimensions, work: Box::new(work) }
    }

    fn space(&self) -> Space {
        Space::with_primordial_cube_radius(self.dimensions as u8, 1.0).unwrap()
    }

    fn time(&self) {
        let (mut best, mut total, mut runs, mut cuts, mut counts) = (Duration::MAX, Duration::ZERO, 0, 0, [0; 3]);
        while runs < FEWEST_RUNS || total < BUDGET {
            let mut space = self.space();
            let start = Instant::now();
            cuts = (self.work)(&mut space);
            let taken = start.elapsed();
            (best, total, runs, counts) = (best.min(taken), total + taken, runs + 1, space.probe_counts());
        }
        let per_cut = |time: Duration| time.as_nanos() as f64 / cuts as f64;
        let [elements, vertices, hyperplanes] = counts;
        println!(
            "{:<34} cuts {cuts:>5}  mean {:>8.0} ns/cut  best {:>8.0} ns/cut  table e {elements} v {vertices} h {hyperplanes}",
            self.name,
            per_cut(total / runs),
            per_cut(best),
        );
    }

    /// How many cuts it has, after so many rounds of them, or of the cube alone.
    fn count(&self, with_cuts: bool, times: usize) {
        let cuts = (self.work)(&mut self.space());
        for _ in 0..times {
            let mut space = self.space();
            if with_cuts {
                (self.work)(&mut space);
            }
        }
        println!("{cuts}");
    }
}

fn workloads() -> Vec<Workload> {
    let mut all = vec![];
    for (dimensions, planes) in [(2, 1), (2, 2), (2, 3), (3, 1), (3, 2)] {
        for (kind, is_shared) in [("cut per piece", false), ("shared cut", true)] {
            let name = format!("{dimensions}D grid {}^{dimensions}, {kind}", planes + 1);
            all.push(Workload::new(name, dimensions, move |space| grid(space, dimensions, planes, is_shared)));
        }
    }
    for count in [6, 12] {
        let name = format!("3D carve, {count} tangent planes");
        all.push(Workload::new(name, 3, move |space| carve(space, around_ball(count))));
    }
    for count in [8, 24] {
        let name = format!("2D carve, {count} tangent lines");
        all.push(Workload::new(name, 2, move |space| carve(space, around_circle(count))));
    }
    for dimensions in 1..=4 {
        let (name, middle) = (format!("{dimensions}D cube, one middle slice"), across(dimensions, 0, 0.0));
        all.push(Workload::new(name, dimensions, move |space| slices(space, &middle, 1)));
    }
    for dimensions in 3..=4 {
        let (name, divider) = (format!("{dimensions}D cube, one diagonal slice"), diagonal(dimensions));
        all.push(Workload::new(name, dimensions, move |space| slices(space, &divider, 1)));
    }
    for dimensions in 3..=4 {
        let (name, middle) = (format!("{dimensions}D cube, same slice 100 times"), across(dimensions, 0, 0.0));
        all.push(Workload::new(name, dimensions, move |space| slices(space, &middle, 100)));
    }
    all
}

fn main() {
    let words: Vec<String> = std::env::args().skip(1).collect();
    if words.is_empty() {
        workloads().iter().for_each(Workload::time);
        return;
    }
    let [how, name, times] = words.as_slice() else {
        panic!("bench, bench count NAME TIMES or bench cubes NAME TIMES")
    };
    let all = workloads();
    let named = all.iter().find(|w| w.name == *name).expect("a workload");
    named.count(how == "count", times.parse().expect("a number"));
}
