//! Cubes and cuts that the tests of the model share.

use evidence::model::cube::with_primordial_cube_radius;
use evidence::model::cut::{Answer, Kept, Output};
use evidence::model::floats::Hyperplane;
use evidence::model::memory::{Lent, Memory};

pub const BOTH: Kept = Kept { inside: true, outside: true };
pub const INSIDE: Kept = Kept { inside: true, outside: false };
pub const OUTSIDE: Kept = Kept { inside: false, outside: true };

pub const FLUSH: Answer = Answer { output: Output::Flush, warning: false };

pub fn cube(dimension: u32) -> Lent {
    let mut lent = Lent::new(Memory::clear());
    with_primordial_cube_radius(&mut lent, dimension, 1.0).unwrap();
    lent
}

pub fn at_x(distance: f64) -> Hyperplane {
    Hyperplane { normal: [1.0, 0.0, 0.0, 0.0], distance }
}

pub fn parts(inside: Option<u16>, outside: Option<u16>, intersection: Option<u16>) -> Answer {
    Answer { output: Output::NonFlush { inside, outside, intersection }, warning: false }
}
