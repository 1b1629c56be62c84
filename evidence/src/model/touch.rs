//! Document 02, order 6: whether a plane touches a piece.

use super::cut::is_divider;
use super::floats::{side, signed_distance, Hyperplane, Side};
use super::memory::Lent;
use super::questions::corners;
use super::Refusal;

#[derive(Clone, Copy, Debug, PartialEq, Eq)]
pub enum Touch {
    AllOn,
    InsideOrOn,
    OutsideOrOn,
    Both,
}

/// The answer, and how many corners are tested.
pub fn touch(lent: &Lent, divider: Hyperplane, root: u32) -> Result<(Touch, usize), Refusal> {
    let table = lent.table()?;
    let root = table.in_use(root).ok_or(4)?;
    if !is_divider(&divider, table.dimension) {
        return Err(5);
    }
    if divider.distance.is_infinite() {
        return Ok((if divider.distance > 0.0 { Touch::InsideOrOn } else { Touch::OutsideOrOn }, 0));
    }
    let side_of = |vertex: u16| side(signed_distance(&divider, &table.vertices[usize::from(vertex)]));
    let sides: Vec<Side> = corners(table, root).into_iter().map(side_of).collect();
    Ok((read(&sides), tested(&sides)))
}

/// What is read from the sides of some corners.
fn read(sides: &[Side]) -> Touch {
    match (sides.contains(&Side::Inside), sides.contains(&Side::Outside)) {
        (false, false) => Touch::AllOn,
        (true, false) => Touch::InsideOrOn,
        (false, true) => Touch::OutsideOrOn,
        (true, true) => Touch::Both,
    }
}

/// Up to and with the first at which both an inside and an outside corner have been met, or all.
fn tested(sides: &[Side]) -> usize {
    (1..=sides.len()).find(|&count| read(&sides[..count]) == Touch::Both).unwrap_or(sides.len())
}
