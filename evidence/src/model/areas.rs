//! Document 02, order 13: the area sheet of flat pieces, by whole numbers of any size that they take.

use super::exact::exact;
use super::memory::Lent;
use super::questions::{corners_in_order, fill};
use super::table::Table;
use super::Refusal;

pub const MOST_PIECES: usize = 16;

/// A coordinate is counted in units of 1 / 2^10.
const UNIT_BITS: i32 = 10;

/// Each refusal is asked of all pieces before the next.
pub fn areas(lent: &Lent, pieces: &[u16], room: &mut [i64]) -> Result<usize, Refusal> {
    let table = lent.table()?;
    if pieces.len() > MOST_PIECES {
        return Err(26);
    }
    pieces.iter().try_for_each(|&piece| table.in_use(piece.into()).map(|_| ()).ok_or(4))?;
    if table.dimension != 2 || pieces.iter().any(|&piece| table.rank(piece) != 2) {
        return Err(6);
    }
    let mut sheet = pieces.iter().map(|&piece| twice_area(table, piece)).collect::<Option<Vec<_>>>().ok_or(25)?;
    let sizes: i128 = sheet.iter().map(|area| area.abs()).sum();
    sheet.extend([pieces.len() as i128, sizes]);
    let sheet: Vec<i64> = sheet.into_iter().map(|number| number.try_into().expect("it fits")).collect();
    fill(room, &sheet)
}

/// Of the strips between the walk's steps and axis 1, which is another sum than that of the triangles with the origin; none where a
/// coordinate is off the grid.
pub fn twice_area(table: &Table, piece: u16) -> Option<i128> {
    let corners = corners_in_order(table, piece);
    let points = corners.iter().map(|&v| units_at(table, v)).collect::<Option<Vec<_>>>()?;
    let next = points.iter().cycle().skip(1);
    Some(points.iter().zip(next).map(|(a, b)| (a[0] + b[0]) * (b[1] - a[1])).sum())
}

fn units_at(table: &Table, vertex: u16) -> Option<[i128; 2]> {
    let point = table.vertices[usize::from(vertex)];
    Some([units(point[0])?, units(point[1])?])
}

/// How many there are in a coordinate, where it is on the grid.
fn units(x: f64) -> Option<i128> {
    let (whole, exponent) = exact(x);
    (exponent >= -UNIT_BITS).then(|| i128::from(whole) << (exponent + UNIT_BITS))
}
