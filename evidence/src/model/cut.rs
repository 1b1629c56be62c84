//! "The cut": rules 1 to 8, and the warning of document 02, order 2.

use super::floats::{
    crossing, hyperplanes_match, is_close_call, is_distance, is_unit, points_match, side, signed_distance, Hyperplane,
    Point, Side,
};
use super::memory::{write, Lent};
use super::questions::corners;
use super::table::{Element, Polytope, Table, BOUNDARY_ROOM, ELEMENT_ROOM, HYPERPLANE_ROOM, VERTEX_ROOM};
use super::Refusal;
use std::collections::BTreeSet;

#[derive(Clone, Copy, Debug, PartialEq, Eq)]
pub enum Output {
    Flush,
    NonFlush { inside: Option<u16>, outside: Option<u16>, intersection: Option<u16> },
}

/// What a cut gives, and whether a corner that the rules test was a close call.
#[derive(Clone, Copy, Debug, PartialEq, Eq)]
pub struct Answer {
    pub output: Output,
    pub warning: bool,
}

/// Which sides are kept.
#[derive(Clone, Copy, Debug)]
pub struct Kept {
    pub inside: bool,
    pub outside: bool,
}

pub fn cut(lent: &mut Lent, divider: Hyperplane, kept: Kept, root: u32) -> Result<Answer, Refusal> {
    let table = lent.table()?;
    let root = table.in_use(root).ok_or(4)?;
    if !is_divider(&divider, table.dimension) {
        return Err(5);
    }
    if divider.distance.is_infinite() {
        return Ok(Answer { output: given_on(divider.distance > 0.0, root), warning: false });
    }
    let warning = tested(table, &divider, root).into_iter().any(is_close_call);
    let mut cut = Cut::new(table, divider, kept);
    let output = cut.root(root)?;
    *lent = Lent::new(write(&cut.table));
    Ok(Answer { output, warning })
}

/// What is not refused with 5.
pub fn is_divider(divider: &Hyperplane, dimension: usize) -> bool {
    is_unit(&divider.normal, dimension) && (divider.distance.is_infinite() || is_distance(divider.distance))
}

/// The signed distances of the corners that the rules test at a finite distance: all that the root has.
pub fn tested(table: &Table, divider: &Hyperplane, root: u16) -> Vec<f64> {
    let distance = |vertex: u16| signed_distance(divider, &table.vertices[usize::from(vertex)]);
    corners(table, root).into_iter().map(distance).collect()
}

/// The edges, by their ends, of the face for which such a cut is refused with 7, where it is refused for a face.
pub fn refused_face(table: &Table, divider: Hyperplane, kept: Kept, root: u32) -> Option<Vec<[u16; 2]>> {
    let mut cut = Cut::new(table, divider, kept);
    cut.root(table.in_use(root)?).err()?;
    cut.refused_face
}

/// Whether such a cut was taken before order 4.
pub fn was_taken(table: &Table, divider: Hyperplane, kept: Kept, root: u32) -> bool {
    let mut cut = Cut { is_face: Table::meets_each_corner_twice, ..Cut::new(table, divider, kept) };
    table.in_use(root).is_some_and(|root| cut.root(root).is_ok())
}

fn given_on(inside: bool, element: u16) -> Output {
    Output::NonFlush { inside: inside.then_some(element), outside: (!inside).then_some(element), intersection: None }
}

struct Cut {
    table: Table,
    divider: Hyperplane,
    /// The divider's number.
    hyperplane: u16,
    kept: Kept,
    /// Test 7 of a face.
    is_face: fn(&Table, &[u16]) -> bool,
    refused_face: Option<Vec<[u16; 2]>>,
}

/// What a boundary's elements answer.
#[derive(Default)]
struct Gathered {
    flush: Vec<u16>,
    inside: BTreeSet<u16>,
    outside: BTreeSet<u16>,
    intersections: BTreeSet<u16>,
}

impl Gathered {
    fn take(&mut self, element: u16, output: Output) {
        match output {
            Output::Flush => self.flush.push(element),
            Output::NonFlush { inside, outside, intersection } => {
                self.inside.extend(inside);
                self.outside.extend(outside);
                self.intersections.extend(intersection);
            }
        }
    }
}

impl Cut {
    fn new(table: &Table, divider: Hyperplane, kept: Kept) -> Self {
        Self { table: table.clone(), divider, hyperplane: 0, kept, is_face: Table::is_one_ring, refused_face: None }
    }

    fn root(&mut self, root: u16) -> Result<Output, Refusal> {
        self.hyperplane = self.matched_or_appended_hyperplane()?;
        self.element(root)
    }

    /// Rule 2.
    fn matched_or_appended_hyperplane(&mut self) -> Result<u16, Refusal> {
        let first = self.table.primordial_hyperplanes();
        let hyperplanes = &mut self.table.hyperplanes;
        let matched = (first..hyperplanes.len()).find(|&h| hyperplanes_match(&hyperplanes[h], &self.divider));
        if let Some(number) = matched {
            return Ok(number as u16);
        }
        if hyperplanes.len() == HYPERPLANE_ROOM {
            return Err(10);
        }
        hyperplanes.push(self.divider);
        Ok(hyperplanes.len() as u16 - 1)
    }

    fn element(&mut self, number: u16) -> Result<Output, Refusal> {
        match self.table.elements[usize::from(number)].clone() {
            Element::Vertex(vertex) => Ok(self.vertex(number, vertex)),
            Element::Polytope(old) => {
                let mut gathered = self.boundary(&old.boundary)?;
                if old.rank == 1 && gathered.flush.is_empty() {
                    gathered.flush.extend(self.edge_crossing(&old.boundary)?);
                }
                self.parts(&old, &gathered)
            }
        }
    }

    /// Rule 3.
    fn vertex(&self, number: u16, vertex: u16) -> Output {
        match side(self.distance_of(vertex)) {
            Side::On => Output::Flush,
            Side::Inside => given_on(true, number),
            Side::Outside => given_on(false, number),
        }
    }

    fn distance_of(&self, vertex: u16) -> f64 {
        signed_distance(&self.divider, &self.table.vertices[usize::from(vertex)])
    }

    /// Rule 5, and rule 4's "ends on the plane are flush; other ends go to their side".
    fn boundary(&mut self, boundary: &[u16]) -> Result<Gathered, Refusal> {
        let mut gathered = Gathered::default();
        for &element in boundary {
            let output = self.element(element)?;
            gathered.take(element, output);
        }
        Ok(gathered)
    }

    /// Rule 4: the element of the crossing, if one end is inside and the other outside.
    fn edge_crossing(&mut self, ends: &[u16]) -> Result<Option<u16>, Refusal> {
        let vertices: Vec<u16> = ends.iter().filter_map(|&end| self.table.vertex_number(end)).collect();
        let [sa, sb] = [vertices[0], vertices[1]].map(|vertex| self.distance_of(vertex));
        if side(sa) == side(sb) {
            return Ok(None);
        }
        let [a, b] = [vertices[0], vertices[1]].map(|vertex| self.table.vertices[usize::from(vertex)]);
        self.matched_or_appended_vertex(crossing(&a, &b, sa, sb)).map(Some)
    }

    /// The element of the lowest vertex that matches, or of a new one.
    fn matched_or_appended_vertex(&mut self, point: Point) -> Result<u16, Refusal> {
        let matched = self.table.vertices.iter().position(|earlier| points_match(earlier, &point));
        if let Some(vertex) = matched {
            return Ok(self.element_of(vertex as u16));
        }
        if self.table.vertices.len() == VERTEX_ROOM {
            return Err(8);
        }
        self.table.vertices.push(point);
        self.append(Element::Vertex(self.table.vertices.len() as u16 - 1))
    }

    fn element_of(&self, vertex: u16) -> u16 {
        let named = |element: &Element| *element == Element::Vertex(vertex);
        self.table.elements.iter().position(named).expect("each vertex in use has its element") as u16
    }

    fn append(&mut self, element: Element) -> Result<u16, Refusal> {
        if self.table.elements.len() == ELEMENT_ROOM {
            return Err(9);
        }
        self.table.elements.push(element);
        Ok(self.table.elements.len() as u16 - 1)
    }

    /// Rules 6 and 7.
    fn parts(&mut self, old: &Polytope, gathered: &Gathered) -> Result<Output, Refusal> {
        let intersection = match gathered.flush[..] {
            [] => self.new_intersection(old.rank, &gathered.intersections)?,
            [flush] => Some(flush),
            _ => return Ok(Output::Flush),
        };
        let inside = self.part(self.kept.inside, old, &gathered.inside, intersection)?;
        let outside = self.part(self.kept.outside, old, &gathered.outside, intersection)?;
        Ok(Output::NonFlush { inside, outside, intersection })
    }

    fn new_intersection(&mut self, rank: u16, set: &BTreeSet<u16>) -> Result<Option<u16>, Refusal> {
        let hyperplane = Some(self.hyperplane).filter(|_| usize::from(rank) == self.table.dimension);
        self.add(Polytope { rank: rank - 1, boundary: set.iter().copied().collect(), hyperplane, primordial: false })
    }

    /// A removed side is none.
    fn part(
        &mut self,
        kept: bool,
        old: &Polytope,
        set: &BTreeSet<u16>,
        intersection: Option<u16>,
    ) -> Result<Option<u16>, Refusal> {
        if !kept {
            return Ok(None);
        }
        let mut set = set.clone();
        set.extend(intersection);
        self.add(Polytope { boundary: set.into_iter().collect(), ..old.clone() })
    }

    /// Rule 8: tests rule 8's count, 11, 7, equal entry, 9.
    fn add(&mut self, new: Polytope) -> Result<Option<u16>, Refusal> {
        if new.boundary.len() <= usize::from(new.rank) {
            return Ok(None);
        }
        if new.boundary.len() > BOUNDARY_ROOM {
            return Err(11);
        }
        if new.rank == 1 && new.boundary.len() != 2 {
            return Err(7);
        }
        if new.rank == 2 && !(self.is_face)(&self.table, &new.boundary) {
            self.refused_face = Some(self.table.ends(&new.boundary));
            return Err(7);
        }
        let new = Element::Polytope(new);
        let equal = self.table.elements.iter().position(|element| *element == new);
        equal.map_or_else(|| self.append(new), |number| Ok(number as u16)).map(Some)
    }
}
