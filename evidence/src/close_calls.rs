//! What a run has to meet of close calls (document 02, order 2): corners at the ends of what is on the plane and of what is
//! close to it, and at the floats past them, on both sides.

use crate::model::floats::{CLOSE, TOLERANCE};

/// By name, first those outside.
pub const PLACES: [&str; 8] = [
    "T",
    "the float past T",
    "16 T",
    "the float past 16 T",
    "-T",
    "the float past -T",
    "-16 T",
    "the float past -16 T",
];

/// Which of them a signed distance is, if any.
pub fn place(s: f64) -> Option<&'static str> {
    let ends = [TOLERANCE, past(TOLERANCE), CLOSE, past(CLOSE)];
    let at = ends.iter().position(|&end| s.abs() == end)?;
    Some(PLACES[if s < 0.0 { at + ends.len() } else { at }])
}

/// The next float, away from zero.
pub fn past(x: f64) -> f64 {
    f64::from_bits(x.to_bits() + 1)
}
