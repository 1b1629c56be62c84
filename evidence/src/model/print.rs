//! Document 02, order 11: a piece as binary STL.

use super::exact::narrowed;
use super::memory::Lent;
use super::questions::{corners_in_order, fill, is_primordial, table_with};
use super::table::Table;
use super::Refusal;

const HEADER: usize = 80;

pub fn stl(lent: &Lent, root: u32, room: &mut [u8]) -> Result<usize, Refusal> {
    let (table, root) = table_with(lent, root)?;
    if table.dimension != 3 || table.rank(root) != 3 {
        return Err(6);
    }
    if table.boundary(root).iter().any(|&facet| is_primordial(table, facet)) {
        return Err(16);
    }
    let triangles: Vec<[u16; 3]> = table.boundary(root).iter().flat_map(|&face| fan(table, face)).collect();
    let mut file = vec![0; HEADER];
    file.extend((triangles.len() as u32).to_le_bytes());
    for corners in triangles {
        file.extend([0; 12]);
        for vertex in corners {
            let point = table.vertices[usize::from(vertex)];
            file.extend(point[..3].iter().flat_map(|&x| narrowed(x).to_le_bytes()));
        }
        file.extend([0; 2]);
    }
    fill(room, &file)
}

/// The first corner with each two that follow one another behind it.
fn fan(table: &Table, face: u16) -> Vec<[u16; 3]> {
    let corners = corners_in_order(table, face);
    corners[1..].windows(2).map(|pair| [corners[0], pair[0], pair[1]]).collect()
}
