//! "The primordial cube".

use super::floats::{Hyperplane, Point};
use super::memory::{write, Lent};
use super::table::{Element, Polytope, Table};
use super::Refusal;

pub fn with_primordial_cube_radius(lent: &mut Lent, dimension: u32, radius: f64) -> Result<(), Refusal> {
    if !(1..=4).contains(&dimension) {
        return Err(1);
    }
    if !(1.0..=65_536.0).contains(&radius) {
        return Err(2);
    }
    if !lent.memory().has_the_lengths() {
        return Err(3);
    }
    *lent = Lent::new(write(&cube(dimension as usize, radius)));
    Ok(())
}

fn cube(dimension: usize, radius: f64) -> Table {
    let mut table = Table { dimension, vertices: vec![], hyperplanes: vec![], elements: vec![] };
    for number in 0..3u16.pow(dimension as u32) {
        let element = add_element(&mut table, number, radius);
        table.elements.push(element);
    }
    table
}

/// The element of a number, with its vertex or hyperplane added to the table's.
fn add_element(table: &mut Table, number: u16, radius: f64) -> Element {
    let digits = digits_of(number, table.dimension);
    let rank = digits.iter().filter(|&&digit| digit == 2).count();
    if rank == 0 {
        table.vertices.push(corner(&digits, radius));
        return Element::Vertex(table.vertices.len() as u16 - 1);
    }
    let primordial = rank + 1 == table.dimension;
    if primordial {
        table.hyperplanes.push(Hyperplane { normal: outward(&digits), distance: radius });
    }
    let hyperplane = primordial.then(|| table.hyperplanes.len() as u16 - 1);
    Element::Polytope(Polytope { rank: rank as u16, boundary: boundary_of(number, &digits), hyperplane, primordial })
}

/// Base 3, axis 0 the lowest digit.
fn digits_of(number: u16, dimension: usize) -> Vec<u16> {
    (0..dimension).map(|axis| number / 3u16.pow(axis as u32) % 3).collect()
}

fn corner(digits: &[u16], radius: f64) -> Point {
    let mut point = [0.0; 4];
    for (axis, &digit) in digits.iter().enumerate() {
        point[axis] = if digit == 0 { -radius } else { radius };
    }
    point
}

/// Of a facet: the one axis that it does not span.
fn outward(digits: &[u16]) -> Point {
    let mut normal = [0.0; 4];
    for (axis, &digit) in digits.iter().enumerate().filter(|(_, &digit)| digit != 2) {
        normal[axis] = if digit == 0 { -1.0 } else { 1.0 };
    }
    normal
}

/// Each 2 replaced by 1 and by 0.
fn boundary_of(number: u16, digits: &[u16]) -> Vec<u16> {
    let spanned = (0..digits.len()).filter(|&axis| digits[axis] == 2);
    let mut boundary: Vec<u16> =
        spanned.flat_map(|axis| [1, 2].map(|less| number - less * 3u16.pow(axis as u32))).collect();
    boundary.sort_unstable();
    boundary
}
