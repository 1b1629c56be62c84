//! The 3 x 3 x 3 grid: a cube of radius 3, and each piece sliced by the planes at -1 and 1 on every axis, all pieces of a plane in one
//! call. Prints a sheet of the pieces: where each lies, its corners, and the pieces that it shares a face with.

use spoonvelvet::{raw, ElementCutOutput, ElementId, Hyperplane, ListedCut, Refused, Table};

fn main() -> Result<(), Refused> {
    let mut table = Table::with_primordial_cube_radius(3, 3.0)?;
    let mut pieces = vec![table.last_element()];
    for axis in 0..3 {
        for distance in [-1.0, 1.0] {
            let mut normal = [0.0; 3];
            normal[axis] = 1.0;
            pieces = sliced(&mut table, Hyperplane::new(&normal, distance)?, &pieces)?;
        }
    }
    let mut shared = 0;
    for &piece in &pieces {
        let beside = beside(&table, piece, &pieces)?;
        shared += beside.iter().filter(|&&other| other > piece).count();
        println!("{}", sheet_line(&table, piece, &beside)?);
    }
    println!("{} pieces, {shared} shared faces, {:?}", pieces.len(), table.counts());
    Ok(())
}

/// The pieces on either side. A piece that the plane misses is its old entry.
fn sliced(table: &mut Table, divider: Hyperplane, pieces: &[ElementId]) -> Result<Vec<ElementId>, Refused> {
    let mut sides = vec![];
    for some in pieces.chunks(raw::MOST_CUTS) {
        let cuts: Vec<ListedCut> = some.iter().map(|&piece| ListedCut::slice(divider, piece)).collect();
        for answer in table.cut_all(&cuts)? {
            match answer.output {
                ElementCutOutput::Flush => {}
                ElementCutOutput::NonFlush { inside, outside, .. } => sides.extend(inside.into_iter().chain(outside)),
            }
        }
    }
    Ok(sides)
}

/// The other pieces that have a face in common with this one.
fn beside(table: &Table, piece: ElementId, pieces: &[ElementId]) -> Result<Vec<ElementId>, Refused> {
    let mut found = vec![];
    for &other in pieces.iter().filter(|&&other| other != piece) {
        let common = table.greatest_common_subelements(&[piece, other])?;
        if common.first().is_some_and(|&e| table.rank_of(e) == Ok(2)) {
            found.push(other);
        }
    }
    Ok(found)
}

fn sheet_line(table: &Table, piece: ElementId, beside: &[ElementId]) -> Result<String, Refused> {
    let corners = table.vertex_set(piece)?;
    let points: Vec<&[f64]> = corners.iter().filter_map(|&vertex| table.coordinates_of(vertex)).collect();
    let bound = |axis: usize, of: fn(f64, f64) -> f64| points.iter().map(|point| point[axis]).reduce(of).unwrap_or_default();
    let [low, high] = [f64::min, f64::max].map(|of| [0, 1, 2].map(|axis| bound(axis, of)));
    let numbers: Vec<u16> = corners.iter().map(|vertex| vertex.0).collect();
    let others: Vec<u16> = beside.iter().map(|other| other.0).collect();
    Ok(format!("piece {}: from {low:?} to {high:?}, vertices {numbers:?}, beside pieces {others:?}", piece.0))
}
