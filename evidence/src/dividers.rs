//! Random dividers: axis-parallel, oblique, through corners, flush, near the tolerance, and those that are refused.

use crate::model::floats::{Hyperplane, Point, CLOSE, TOLERANCE};
use crate::model::table::Table;
use crate::random::Random;

/// Beside a corner or an earlier hyperplane: on, at the ends of on and of close, just past them, well off.
const NUDGES: [f64; 17] = [
    0.0,
    0.0,
    TOLERANCE,
    -TOLERANCE,
    TOLERANCE * (1.0 + f64::EPSILON),
    -TOLERANCE * (1.0 + f64::EPSILON),
    CLOSE,
    -CLOSE,
    CLOSE * (1.0 + f64::EPSILON),
    -CLOSE * (1.0 + f64::EPSILON),
    TOLERANCE / 2.0,
    TOLERANCE * 1.5,
    -TOLERANCE * 2.0,
    1e-9,
    0.25,
    -0.5,
    1.0,
];

const STRANGE: [f64; 14] = [
    f64::NAN,
    f64::INFINITY,
    f64::NEG_INFINITY,
    -0.0,
    0.0,
    1.0,
    -1.0,
    1.0 + f64::EPSILON,
    1.0 - TOLERANCE,
    5e-324,
    1e300,
    262_144.0,
    -262_144.0,
    262_144.0 * (1.0 + f64::EPSILON),
];

pub fn divider(r: &mut Random, table: Option<&Table>) -> Hyperplane {
    let mut divider = match table {
        Some(table) => divider_of(r, table),
        None => Hyperplane { normal: unit_normal(r, 2), distance: r.fraction() },
    };
    if r.one_in(12) {
        divider.distance = r.pick(&[f64::INFINITY, f64::NEG_INFINITY]);
    }
    if r.one_in(12) {
        spoil(r, &mut divider);
    }
    divider
}

fn divider_of(r: &mut Random, table: &Table) -> Hyperplane {
    if let Some(last) = table.hyperplanes.last().filter(|_| r.one_in(8)) {
        return *last;
    }
    if !table.hyperplanes.is_empty() && r.one_in(5) {
        let earlier = r.pick(&table.hyperplanes);
        return beside(r, earlier);
    }
    hyperplane(r, table)
}

/// One that a sound table may have; some take a corner off.
pub fn hyperplane(r: &mut Random, table: &Table) -> Hyperplane {
    let corner = if table.vertices.is_empty() { [0.0; 4] } else { r.pick(&table.vertices) };
    let length = length(&corner);
    if r.one_in(6) && length > 0.1 {
        return Hyperplane { normal: corner.map(|x| x / length), distance: length * r.pick(&[0.995, 0.9, 0.5]) };
    }
    let normal = unit_normal(r, table.dimension);
    let through = (0..4).map(|axis| normal[axis] * corner[axis]).sum::<f64>();
    let distance = match r.below(3) {
        0 => through + r.pick(&NUDGES),
        1 => through * r.pick(&[0.5, 0.25, -0.5, 0.0]),
        _ => through * r.fraction(),
    };
    Hyperplane { normal, distance }
}

/// An earlier hyperplane again, from either side, with a component or the distance moved a little.
fn beside(r: &mut Random, earlier: Hyperplane) -> Hyperplane {
    let mut divider = earlier;
    if r.one_in(3) {
        divider =
            Hyperplane { normal: earlier.normal.map(|x| if x == 0.0 { x } else { -x }), distance: -earlier.distance };
    }
    let axis = r.below(4);
    if r.one_in(4) && divider.normal[axis] != 0.0 {
        divider.normal[axis] -= r.pick(&[TOLERANCE / 4.0, TOLERANCE, -TOLERANCE / 4.0, TOLERANCE / 2.0]);
    }
    divider.distance += r.pick(&NUDGES);
    divider
}

/// Along an axis, or with one component so great that the others cannot make it zero.
pub fn unit_normal(r: &mut Random, dimension: usize) -> Point {
    let mut normal = [0.0; 4];
    if r.one_in(2) {
        normal[r.below(dimension)] = r.pick(&[1.0, -1.0]);
        return normal;
    }
    let whole = r.one_in(2);
    for x in &mut normal[..dimension] {
        *x = if whole { r.from_to(0, 6) as f64 - 3.0 } else { r.fraction() };
    }
    normal[r.below(dimension)] += 7.0;
    let length = length(&normal);
    normal.map(|x| x / length)
}

fn length(point: &Point) -> f64 {
    point.iter().map(|x| x * x).sum::<f64>().sqrt()
}

/// One of the five floats becomes a strange one, also on an axis past the dimension.
fn spoil(r: &mut Random, divider: &mut Hyperplane) {
    let strange = if r.one_in(4) { f64::from_bits(r.word()) } else { r.pick(&STRANGE) };
    match r.below(6) {
        axis @ 0..=3 => divider.normal[axis] = strange,
        _ => divider.distance = strange,
    }
}
