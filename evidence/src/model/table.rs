//! "The table": vertices, elements and hyperplanes, three lists with numbers of their own.

use super::floats::{Hyperplane, Point};

pub const VERTEX_ROOM: usize = 256;
pub const ELEMENT_ROOM: usize = 512;
pub const HYPERPLANE_ROOM: usize = 64;
pub const BOUNDARY_ROOM: usize = 32;

#[derive(Clone, Debug, PartialEq, Eq, Hash)]
pub enum Element {
    /// Its vertex number.
    Vertex(u16),
    Polytope(Polytope),
}

#[derive(Clone, Debug, PartialEq, Eq, Hash)]
pub struct Polytope {
    pub rank: u16,
    pub boundary: Vec<u16>,
    pub hyperplane: Option<u16>,
    pub primordial: bool,
}

#[derive(Clone, Debug)]
pub struct Table {
    pub dimension: usize,
    pub vertices: Vec<Point>,
    pub hyperplanes: Vec<Hyperplane>,
    pub elements: Vec<Element>,
}

impl Element {
    pub fn rank(&self) -> u16 {
        match self {
            Element::Vertex(_) => 0,
            Element::Polytope(p) => p.rank,
        }
    }

    /// The numbers of the elements that bound it: none for a vertex.
    pub fn boundary(&self) -> &[u16] {
        match self {
            Element::Vertex(_) => &[],
            Element::Polytope(p) => &p.boundary,
        }
    }
}

impl Table {
    pub fn element(&self, number: u16) -> Option<&Element> {
        self.elements.get(usize::from(number))
    }

    /// A number as a host gives it, where it is in use.
    pub fn in_use(&self, given: u32) -> Option<u16> {
        ((given as usize) < self.elements.len()).then_some(given as u16)
    }

    pub fn rank(&self, number: u16) -> u16 {
        self.elements[usize::from(number)].rank()
    }

    pub fn boundary(&self, number: u16) -> &[u16] {
        self.elements[usize::from(number)].boundary()
    }

    /// The vertex number of a vertex element.
    pub fn vertex_number(&self, number: u16) -> Option<u16> {
        match self.element(number) {
            Some(Element::Vertex(vertex)) => Some(*vertex),
            _ => None,
        }
    }

    /// P: as many hyperplanes as the cube of this dimension has.
    pub fn primordial_hyperplanes(&self) -> usize {
        if self.dimension == 1 {
            0
        } else {
            2 * self.dimension
        }
    }

    /// The edges make one ring (document 02, order 4): from the end of one of them just one other goes on, and so from
    /// corner to corner; back where it began, none is left.
    pub fn is_one_ring(&self, edges: &[u16]) -> bool {
        let mut left = self.ends(edges);
        let Some([start, mut at]) = left.pop() else { return false };
        while at != start {
            let mut going_on = (0..left.len()).filter(|&place| left[place].contains(&at));
            let (Some(place), None) = (going_on.next(), going_on.next()) else { return false };
            at = other_end(left.remove(place), at);
        }
        left.is_empty()
    }

    /// What a face was before order 4: each corner lies on exactly two of the edges.
    pub fn meets_each_corner_twice(&self, edges: &[u16]) -> bool {
        let ends = self.ends(edges).concat();
        ends.iter().all(|end| ends.iter().filter(|other| *other == end).count() == 2)
    }

    /// The two corners of each edge.
    pub fn ends(&self, edges: &[u16]) -> Vec<[u16; 2]> {
        edges.iter().map(|&edge| self.boundary(edge)).map(|ends| [ends[0], ends[1]]).collect()
    }
}

pub fn other_end(ends: [u16; 2], from: u16) -> u16 {
    if ends[0] == from {
        ends[1]
    } else {
        ends[0]
    }
}
