//! Stand-in. No session makes a portal.

use super::*;

#[derive(Debug, Clone)]
pub struct PortalData {
    pub hyperplane: HyperplaneId,
}

impl hypuz_util::ti::PushCheck for PortalData {}
