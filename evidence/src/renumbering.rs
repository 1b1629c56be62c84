//! Order 14: a slice and the two carvings leave one table, up to one renumbering of the elements that were appended. It is
//! found by what the elements are, and checked against each line of its statement, however it was found.

use crate::model::cut::{Answer, Output};
use crate::model::table::{Element, Polytope, Table};
use std::collections::HashMap;

/// For each element of the slice's table its number in the carvings' table; none where an element is not there. A boundary
/// is earlier than what it bounds, so it is renumbered first; no two elements are equal, so there is no choice.
pub fn find(old: usize, slice: &Table, carved: &Table) -> Option<Vec<u16>> {
    let numbers: HashMap<&Element, u16> = carved.elements.iter().zip(0..).collect();
    let mut found: Vec<u16> = (0..old as u16).collect();
    for element in &slice.elements[old..] {
        found.push(*numbers.get(&renumbered(&found, element))?);
    }
    Some(found)
}

fn renumbered(f: &[u16], element: &Element) -> Element {
    match element {
        Element::Vertex(vertex) => Element::Vertex(*vertex),
        Element::Polytope(p) => {
            let mut boundary = image(f, &p.boundary);
            boundary.sort_unstable();
            Element::Polytope(Polytope { boundary, ..p.clone() })
        }
    }
}

fn image(f: &[u16], boundary: &[u16]) -> Vec<u16> {
    boundary.iter().map(|&below| f[usize::from(below)]).collect()
}

/// Each line of the statement, or the first that does not hold.
pub fn check(f: &[u16], old: usize, slice: &Table, carved: &Table) -> Result<(), &'static str> {
    let count = slice.elements.len();
    holds(f.len() == count && carved.elements.len() == count, "a number for each element")?;
    holds(f[..old].iter().copied().eq(0..old as u16), "old elements stay")?;
    holds(f[old..].iter().all(|&number| usize::from(number) >= old), "appended ones are appended ones")?;
    let mut taken = f.to_vec();
    taken.sort_unstable();
    holds(taken.into_iter().eq(0..count as u16), "one to one and onto")?;
    let mut pairs = slice.elements.iter().zip(f);
    holds(pairs.all(|(element, &number)| is_renumbered(f, element, carved.element(number))), "each element, renumbered")
}

/// The line, where it does not hold.
pub fn holds(fact: bool, line: &'static str) -> Result<(), &'static str> {
    fact.then_some(()).ok_or(line)
}

/// Whether the element of the carvings is that of the slice, with its boundary renumbered and rising.
fn is_renumbered(f: &[u16], slice: &Element, carved: Option<&Element>) -> bool {
    match (slice, carved) {
        (Element::Vertex(vertex), Some(Element::Vertex(other))) => vertex == other,
        (Element::Polytope(p), Some(Element::Polytope(q))) => {
            (p.rank, p.hyperplane, p.primordial) == (q.rank, q.hyperplane, q.primordial)
                && p.boundary.len() == q.boundary.len()
                && p.boundary.iter().all(|&below| q.boundary.contains(&f[usize::from(below)]))
                && q.boundary.windows(2).all(|pair| pair[0] < pair[1])
        }
        _ => false,
    }
}

/// Whether the answers of the carvings, for the inside and for the outside, are the slice's, renumbered, without the sides
/// that were removed, and with its warning.
pub fn corresponds(f: &[u16], slice: Answer, carved: [Answer; 2]) -> bool {
    let place = |element: Option<u16>| element.map(|e| f[usize::from(e)]);
    let outputs = match slice.output {
        Output::Flush => [Output::Flush; 2],
        Output::NonFlush { inside, outside, intersection } => {
            let [inside, outside, intersection] = [inside, outside, intersection].map(place);
            let first = Output::NonFlush { inside, outside: None, intersection };
            [first, Output::NonFlush { inside: None, outside, intersection }]
        }
    };
    carved == outputs.map(|output| Answer { output, warning: slice.warning })
}

/// Whether every boundary, renumbered as it stands, rises.
pub fn keeps_orders(f: &[u16], slice: &Table) -> bool {
    slice.elements.iter().all(|element| image(f, element.boundary()).is_sorted())
}
