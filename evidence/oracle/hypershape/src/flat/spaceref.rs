//! Stand-in: a number with its space. Beside it, what the driver reads of a space.

use super::*;
use std::fmt::Write;

pub struct SpaceRef<'a, I> {
    pub(super) space: &'a Space,
    pub(super) id: I,
}

impl<I: Copy> Copy for SpaceRef<'_, I> {}

impl<I: Clone> Clone for SpaceRef<'_, I> {
    fn clone(&self) -> Self {
        SpaceRef { space: self.space, id: self.id.clone() }
    }
}

impl<I: fmt::Debug> fmt::Debug for SpaceRef<'_, I> {
    fn fmt(&self, f: &mut fmt::Formatter<'_>) -> fmt::Result {
        self.id.fmt(f)
    }
}

impl<'a, I> SpaceRef<'a, I> {
    pub fn new(space: &'a Space, id: I) -> Self {
        SpaceRef { space, id }
    }

    pub fn space(&self) -> &'a Space {
        self.space
    }

    pub fn id(&self) -> I
    where
        I: Clone,
    {
        self.id.clone()
    }

    pub fn map_id<J>(self, f: impl FnOnce(I) -> J) -> SpaceRef<'a, J> {
        SpaceRef { space: self.space, id: f(self.id) }
    }
}

fn bits(floats: impl IntoIterator<Item = f64>) -> String {
    floats.into_iter().map(|x| format!("{:016x}", x.to_bits())).join(" ")
}

impl Space {
    /// Elements, vertices, hyperplanes.
    pub fn probe_counts(&self) -> [usize; 3] {
        [self.polytopes.len(), self.vertex_coordinates.len(), self.hyperplanes.len()]
    }

    pub fn probe_rank(&self, e: ElementId) -> u8 {
        self.polytopes[e].rank()
    }

    pub fn probe_boundary(&self, e: ElementId) -> Vec<u32> {
        self.polytopes[e].boundary().map(|b| b.iter().map(|x| x.0).collect()).unwrap_or_default()
    }

    /// A face of these edges between these points. Each edge has a hyperplane of its own, so that no two are equal.
    pub fn probe_add_face(&mut self, points: &[[f64; 2]], edges: &[[usize; 2]]) -> Result<ElementId> {
        let mut corners = vec![];
        for point in points {
            corners.push(self.add_vertex(Point::from(&point[..]))?.1);
        }
        let mut boundary = Set64::new();
        for (i, edge) in edges.iter().enumerate() {
            boundary.insert(self.add_polytope(PolytopeData::Polytope {
                rank: 1,
                boundary: edge.iter().map(|&end| corners[end]).collect(),
                boundary_portals: BoundaryPortals::EMPTY,
                hyperplane: Some(HyperplaneId(i as u16 % 4)),
                is_primordial: false,
            })?);
        }
        self.add_polytope(PolytopeData::Polytope {
            rank: 2,
            boundary,
            boundary_portals: BoundaryPortals::EMPTY,
            hyperplane: None,
            is_primordial: false,
        })
    }

    /// A line for each entry, floats by their bits. A corner's last number is its vertex's.
    pub fn probe_rows(&self) -> String {
        let mut rows = String::new();
        for (i, point) in self.vertex_coordinates.iter() {
            let _ = writeln!(rows, "v {i} {}", bits(point.iter().copied()));
        }
        for (i, plane) in self.hyperplanes.iter() {
            let _ = writeln!(rows, "h {i} {}", bits(plane.normal().iter().chain([plane.distance()])));
        }
        for (i, element) in self.polytopes.iter() {
            let _ = match element {
                PolytopeData::Vertex(v) => writeln!(rows, "e {i} 0 0 - {v}"),
                PolytopeData::Polytope { rank, boundary, hyperplane, is_primordial, .. } => {
                    let plane = hyperplane.map_or("-".into(), |h| h.to_string());
                    writeln!(rows, "e {i} {rank} {} {plane} {}", u8::from(*is_primordial), boundary.iter().join(" "))
                }
            };
        }
        rows
    }
}
