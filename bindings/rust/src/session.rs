//! Sessions: records of bytes as document 01 has them, and for each the line that cutlist prints.

use crate::PolytopeFate::{Keep, Remove};
use crate::{Counts, ElementCutOutput, ElementId, Hyperplane, Refused, Table};

/// The line of the first record of these bytes, and how many bytes it has; its call is made of the table that stands. None for a
/// bad record: another mark, too few bytes, a kept side above 3, or a cut where no table stands. A line does not say a warning.
///
/// ```
/// use spoonvelvet::{session, Refused, Table};
///
/// let mut stands = Some(Table::with_primordial_cube_radius(1, 1.0)?);
/// let middle = [b"CT\x03\x02\0".as_slice(), &1f64.to_le_bytes(), &0f64.to_le_bytes()].concat();
/// assert_eq!(session::turn(&mut stands, &middle), Some(("cut 4 5 3 6 3 1".into(), 21)));
/// assert_eq!(session::turn(&mut None, &middle), None);
/// # Ok::<(), Refused>(())
/// ```
pub fn turn(table: &mut Option<Table>, bytes: &[u8]) -> Option<(String, usize)> {
    match bytes.get(..2)? {
        [0x43, 0x55] => cube(table, bytes.get(..11)?),
        [0x43, 0x54] => cut(table.as_mut()?, bytes),
        _ => None,
    }
}

/// A refused cube keeps the table before it.
fn cube(table: &mut Option<Table>, bytes: &[u8]) -> Option<(String, usize)> {
    let line = match Table::with_primordial_cube_radius(bytes[2].into(), float(&bytes[3..])) {
        Ok(cube) => format!("cube {}", counts(table.insert(cube))),
        Err(refused) => refused_line(refused),
    };
    Some((line, bytes.len()))
}

fn cut(table: &mut Table, bytes: &[u8]) -> Option<(String, usize)> {
    let dimensions = table.dimensions() as usize;
    let length = 5 + 8 * (dimensions + 1);
    let bytes = bytes.get(..length).filter(|bytes| bytes[2] <= 3)?;
    let mut normal = [0.0; 4];
    for axis in 0..dimensions {
        normal[axis] = float(&bytes[5 + 8 * axis..]);
    }
    let divider = Hyperplane { normal, distance: float(&bytes[length - 8..]) };
    let [inside, outside] = [1, 2].map(|side| if bytes[2] & side == 0 { Remove } else { Keep });
    let root = ElementId(u16::from_le_bytes([bytes[3], bytes[4]]));
    let line = match table.cut(divider, inside, outside, root) {
        Ok(answer) => format!("{} {}", shown(answer.output), counts(table)),
        Err(refused) => refused_line(refused),
    };
    Some((line, length))
}

fn float(bytes: &[u8]) -> f64 {
    let mut eight = [0; 8];
    eight.copy_from_slice(&bytes[..8]);
    f64::from_le_bytes(eight)
}

fn counts(table: &Table) -> String {
    let Counts { elements, vertices, hyperplanes } = table.counts();
    format!("{elements} {vertices} {hyperplanes}")
}

fn shown(output: ElementCutOutput) -> String {
    let place = |element: Option<ElementId>| element.map_or("-".into(), |e| e.0.to_string());
    match output {
        ElementCutOutput::Flush => "flush".into(),
        ElementCutOutput::NonFlush { inside, outside, intersection } => {
            format!("cut {} {} {}", place(inside), place(outside), place(intersection))
        }
    }
}

fn refused_line(Refused(number): Refused) -> String {
    format!("refused {number}")
}
