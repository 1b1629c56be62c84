//! "Questions": each gives its list, and fills the front of the room that was lent for it.

use super::memory::Lent;
use super::table::{other_end, Element, Table};
use super::Refusal;

/// The size of a list that fits, once it is at the front of its room.
type Size = usize;

pub fn subelements_of(lent: &Lent, root: u32, room: &mut [u16]) -> Result<Size, Refusal> {
    let (table, root) = table_with(lent, root)?;
    fill(room, &below(table, root))
}

pub fn subelements_with_rank(lent: &Lent, root: u32, rank: u32, room: &mut [u16]) -> Result<Size, Refusal> {
    let (table, root) = table_with(lent, root)?;
    fill(room, &of_rank(table, &below(table, root), rank))
}

pub fn vertex_set(lent: &Lent, root: u32, room: &mut [u16]) -> Result<Size, Refusal> {
    let (table, root) = table_with(lent, root)?;
    fill(room, &corners(table, root))
}

pub fn greatest_common_subelements(lent: &Lent, roots: &[u16], room: &mut [u16]) -> Result<Size, Refusal> {
    let table = lent.table()?;
    roots.iter().try_for_each(|&root| table.in_use(root.into()).map(|_| ()).ok_or(4))?;
    let rank = roots.first().map(|&root| table.rank(root)).ok_or(6)?;
    if roots.iter().any(|&root| table.rank(root) != rank) {
        return Err(6);
    }
    let common = common_to_all(table, roots);
    let by_rank = (1..=rank).rev().map(|rank| of_rank(table, &common, rank.into()));
    let greatest = by_rank.into_iter().find(|list| !list.is_empty());
    fill(room, &greatest.unwrap_or_default())
}

pub fn edges_in_order(lent: &Lent, root: u32, room: &mut [u16]) -> Result<Size, Refusal> {
    let (table, root) = table_with(lent, root)?;
    if table.rank(root) != 2 {
        return Err(6);
    }
    fill(room, &walk(edges_of(table, root))?)
}

pub fn has_primordial_facet(lent: &Lent, root: u32) -> Result<bool, Refusal> {
    let (table, root) = table_with(lent, root)?;
    if usize::from(table.rank(root)) != table.dimension {
        return Err(6);
    }
    Ok(table.boundary(root).iter().any(|&facet| is_primordial(table, facet)))
}

/// Refusals 3 and 4.
pub fn table_with(lent: &Lent, root: u32) -> Result<(&Table, u16), Refusal> {
    let table = lent.table()?;
    Ok((table, table.in_use(root).ok_or(4)?))
}

pub fn fill<T: Copy>(room: &mut [T], list: &[T]) -> Result<Size, Refusal> {
    room.get_mut(..list.len()).ok_or(12)?.copy_from_slice(list);
    Ok(list.len())
}

/// The vertices of an element, rising.
pub fn corners(table: &Table, root: u16) -> Vec<u16> {
    let mut vertices: Vec<u16> = below(table, root).into_iter().filter_map(|e| table.vertex_number(e)).collect();
    vertices.sort_unstable();
    vertices
}

/// The root and all below it, rising: a boundary is earlier than what it bounds.
fn below(table: &Table, root: u16) -> Vec<u16> {
    let mut marked = vec![false; usize::from(root) + 1];
    marked[usize::from(root)] = true;
    for element in (0..=root).rev().filter(|&e| table.rank(e) > 0) {
        if marked[usize::from(element)] {
            table.boundary(element).iter().for_each(|&e| marked[usize::from(e)] = true);
        }
    }
    (0..=root).filter(|&e| marked[usize::from(e)]).collect()
}

fn of_rank(table: &Table, list: &[u16], rank: u32) -> Vec<u16> {
    list.iter().copied().filter(|&e| u32::from(table.rank(e)) == rank).collect()
}

fn common_to_all(table: &Table, roots: &[u16]) -> Vec<u16> {
    let sets: Vec<Vec<u16>> = roots.iter().map(|&root| below(table, root)).collect();
    sets[0].iter().copied().filter(|e| sets.iter().all(|set| set.binary_search(e).is_ok())).collect()
}

/// Of a face: each edge by the vertices that are its ends.
fn edges_of(table: &Table, face: u16) -> Vec<[u16; 2]> {
    table.ends(table.boundary(face)).into_iter().map(|ends| ends.map(|end| vertex_of(table, end))).collect()
}

/// The corners of a face of a sound table, each once, in the order of its walk.
pub fn corners_in_order(table: &Table, face: u16) -> Vec<u16> {
    let numbers = walk(edges_of(table, face)).expect("a face of a sound table is one ring");
    numbers.into_iter().step_by(2).collect()
}

fn vertex_of(table: &Table, end: u16) -> u16 {
    table.vertex_number(end).expect("an edge ends in vertices")
}

/// From the lowest vertex, first to the lower of its two neighbours, round to the start: 7 unless it takes every edge once,
/// which is not met on a sound table.
fn walk(mut edges: Vec<[u16; 2]>) -> Result<Vec<u16>, Refusal> {
    let mut at = edges.iter().flatten().copied().min().ok_or(7u8)?;
    let mut numbers = vec![];
    while let Some(place) = edge_to_the_lowest_neighbour(&edges, at) {
        let next = other_end(edges.remove(place), at);
        numbers.extend([at, next]);
        at = next;
    }
    if edges.is_empty() {
        Ok(numbers)
    } else {
        Err(7)
    }
}

/// Of the edges that are left; only at the start there are two.
fn edge_to_the_lowest_neighbour(edges: &[[u16; 2]], at: u16) -> Option<usize> {
    let places = (0..edges.len()).filter(|&place| edges[place].contains(&at));
    places.min_by_key(|&place| other_end(edges[place], at))
}

pub fn is_primordial(table: &Table, number: u16) -> bool {
    match table.element(number) {
        Some(Element::Polytope(p)) => p.primordial,
        _ => false,
    }
}
