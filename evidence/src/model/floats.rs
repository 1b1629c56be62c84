//! "Floats": distances, sides, crossings and matches.

/// 2^-20 exactly.
pub const TOLERANCE: f64 = 1.0 / 1_048_576.0;

/// 16 T: a corner that is as near to the plane, and not on it, is a close call.
pub const CLOSE: f64 = 16.0 * TOLERANCE;

/// A point or a normal; axes past the dimension are zero.
pub type Point = [f64; 4];

#[derive(Clone, Copy, Debug, PartialEq)]
pub struct Hyperplane {
    pub normal: Point,
    pub distance: f64,
}

#[derive(Clone, Copy, Debug, PartialEq, Eq)]
pub enum Side {
    On,
    Inside,
    Outside,
}

pub fn signed_distance(divider: &Hyperplane, point: &Point) -> f64 {
    let mut sum = 0.0;
    for (component, coordinate) in divider.normal.iter().zip(point) {
        sum += component * coordinate;
    }
    sum - divider.distance
}

pub fn side(s: f64) -> Side {
    if (-TOLERANCE..=TOLERANCE).contains(&s) {
        Side::On
    } else if s < -TOLERANCE {
        Side::Inside
    } else {
        Side::Outside
    }
}

/// Document 02, order 2: within 16 T without being on the plane.
pub fn is_close_call(s: f64) -> bool {
    (-CLOSE..=CLOSE).contains(&s) && side(s) != Side::On
}

pub fn is_unit(normal: &Point, dimension: usize) -> bool {
    let squares = normal[..dimension].iter().fold(0.0, |sum, x| sum + x * x);
    normal[..dimension].iter().all(|x| (-1.0..=1.0).contains(x))
        && normal[dimension..].iter().all(|x| x.to_bits() == 0)
        && (1.0 - TOLERANCE..=1.0 + TOLERANCE).contains(&squares)
}

pub fn is_distance(distance: f64) -> bool {
    (-262_144.0..=262_144.0).contains(&distance)
}

/// Where the edge from `a`, the lower-numbered end, to `b` meets the divider.
pub fn crossing(a: &Point, b: &Point, sa: f64, sb: f64) -> Point {
    let t = sa / (sa - sb);
    let mut point = [0.0; 4];
    for axis in 0..4 {
        point[axis] = clamp(a[axis] + (b[axis] - a[axis]) * t, a[axis], b[axis]);
    }
    point
}

fn clamp(x: f64, a: f64, b: f64) -> f64 {
    let (lesser, greater) = if b < a { (b, a) } else { (a, b) };
    if x > greater {
        greater
    } else if x < lesser || x.is_nan() {
        lesser
    } else {
        x
    }
}

pub fn coordinates_match(earlier: f64, later: f64) -> bool {
    earlier.to_bits() == later.to_bits() || (-TOLERANCE..=TOLERANCE).contains(&(earlier - later))
}

pub fn points_match(earlier: &Point, later: &Point) -> bool {
    (0..4).all(|axis| coordinates_match(earlier[axis], later[axis]))
}

pub fn hyperplanes_match(earlier: &Hyperplane, later: &Hyperplane) -> bool {
    points_match(&earlier.normal, &later.normal) && coordinates_match(earlier.distance, later.distance)
}
