//! Stand-in: what an element is.

use super::*;

#[derive(Debug, Clone, PartialEq, Eq, Hash)]
pub enum PolytopeData {
    Vertex(VertexId),
    Polytope {
        rank: u8,
        boundary: Set64<ElementId>,
        boundary_portals: BoundaryPortals,
        hyperplane: Option<HyperplaneId>,
        is_primordial: bool,
    },
}

impl From<VertexId> for PolytopeData {
    fn from(v: VertexId) -> Self {
        PolytopeData::Vertex(v)
    }
}

#[derive(Debug)]
pub struct NoBoundary;

impl PolytopeData {
    pub fn rank(&self) -> u8 {
        match self {
            PolytopeData::Vertex(_) => 0,
            PolytopeData::Polytope { rank, .. } => *rank,
        }
    }

    pub fn boundary(&self) -> Result<&Set64<ElementId>, NoBoundary> {
        match self {
            PolytopeData::Vertex(_) => Err(NoBoundary),
            PolytopeData::Polytope { boundary, .. } => Ok(boundary),
        }
    }

    pub fn to_vertex(&self) -> Option<VertexId> {
        match self {
            PolytopeData::Vertex(v) => Some(*v),
            PolytopeData::Polytope { .. } => None,
        }
    }
}

impl hypuz_util::ti::PushCheck for PolytopeData {
    /// 11, which is asked only when the element is appended: after the Rust's own test 7.
    fn refusal(&self) -> Option<&'static str> {
        match self {
            PolytopeData::Polytope { boundary, .. } if boundary.len() > 32 => Some("reply 11"),
            _ => None,
        }
    }
}

/// Pairs of a portal and a boundary element, which rise.
#[derive(Debug, Clone, PartialEq, Eq, Hash)]
pub struct BoundaryPortals(Option<Vec<(PortalId, ElementId)>>);

impl BoundaryPortals {
    pub const EMPTY: Self = Self(None);

    pub fn new(pairs: impl IntoIterator<Item = (PortalId, ElementId)>) -> Self {
        let mut pairs: Vec<_> = pairs.into_iter().collect();
        pairs.sort_unstable();
        pairs.dedup();
        Self((!pairs.is_empty()).then_some(pairs))
    }

    pub fn pairs(&self) -> &[(PortalId, ElementId)] {
        self.0.as_deref().unwrap_or(&[])
    }

    pub fn is_empty(&self) -> bool {
        self.0.is_none()
    }

    pub fn pairs_for_element(&self, e: ElementId) -> impl Iterator<Item = (PortalId, ElementId)> {
        self.pairs().iter().copied().filter(move |pair| pair.1 == e)
    }

    pub fn portals_for_element(&self, e: ElementId) -> impl Iterator<Item = PortalId> {
        self.pairs_for_element(e).map(|pair| pair.0)
    }

    pub fn contains_element(&self, e: ElementId) -> bool {
        self.pairs().iter().any(|pair| pair.1 == e)
    }

    /// Each portal once, rising.
    pub fn iter_portals(&self) -> impl Iterator<Item = PortalId> {
        let mut portals: Vec<PortalId> = self.pairs().iter().map(|pair| pair.0).collect();
        portals.dedup();
        portals.into_iter()
    }
}
