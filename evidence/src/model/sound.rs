//! "A table is sound when": one function for each line. Unused room is told by the memory, not by the table.

use super::floats::{is_distance, is_unit};
use super::table::{Element, Polytope, Table};
use std::collections::HashSet;

pub fn is_sound(table: &Table) -> bool {
    is_sound_but_for_rings(table) && face_of_no_ring(table).is_none()
}

/// All but that the edges of a face make one ring.
pub fn is_sound_but_for_rings(table: &Table) -> bool {
    (1..=4).contains(&table.dimension)
        && floats_lie_in_range(table)
        && table.hyperplanes.len() >= table.primordial_hyperplanes()
        && vertices_are_named_in_order(table)
        && (0..table.elements.len()).all(|number| is_sound_element(table, number))
        && no_two_are_equal(table)
}

fn floats_lie_in_range(table: &Table) -> bool {
    let mut coordinates = table.vertices.iter().flatten();
    coordinates.all(|x| (-65_536.0..=65_536.0).contains(x))
        && table.hyperplanes.iter().all(|h| is_unit(&h.normal, table.dimension) && is_distance(h.distance))
}

fn vertices_are_named_in_order(table: &Table) -> bool {
    let named = table.elements.iter().filter_map(|element| match element {
        Element::Vertex(vertex) => Some(usize::from(*vertex)),
        Element::Polytope(_) => None,
    });
    named.eq(0..table.vertices.len())
}

fn is_sound_element(table: &Table, number: usize) -> bool {
    match &table.elements[number] {
        Element::Vertex(_) => true,
        Element::Polytope(p) => has_sound_boundary(table, number, p) && has_sound_facts(table, p),
    }
}

fn has_sound_boundary(table: &Table, number: usize, p: &Polytope) -> bool {
    p.boundary.windows(2).all(|pair| pair[0] < pair[1])
        && p.boundary.iter().all(|&below| usize::from(below) < number && table.rank(below) + 1 == p.rank)
        && p.boundary.len() > usize::from(p.rank)
        && (p.rank != 1 || p.boundary.len() == 2)
}

fn has_sound_facts(table: &Table, p: &Polytope) -> bool {
    let is_facet = usize::from(p.rank) + 1 == table.dimension;
    let names_one_in_use = p.hyperplane.map(|h| usize::from(h) < table.hyperplanes.len());
    (1..=table.dimension).contains(&usize::from(p.rank))
        && names_one_in_use == is_facet.then_some(true)
        && (is_facet || !p.primordial)
}

fn no_two_are_equal(table: &Table) -> bool {
    let mut met = HashSet::new();
    table.elements.iter().all(|element| met.insert(element))
}

/// The first face whose edges do not make one ring.
pub fn face_of_no_ring(table: &Table) -> Option<&Element> {
    table.elements.iter().find(|element| element.rank() == 2 && !table.is_one_ring(element.boundary()))
}
