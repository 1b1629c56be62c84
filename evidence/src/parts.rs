//! What a run has to meet of lists of cuts and of touches beside their outcomes: where a list stopped, why it was refused with 26, and how
//! many corners a touch tested.

use crate::call::Call;
use crate::cut_lists::{why_26, NOT_TOGETHER, TOO_MANY};
use crate::model::memory::Lent;
use crate::model::questions;

pub const PARTS: [(&str, &[&str]); 3] = [
    (STOPPED, &["the first cut", "a cut in the middle", "the last cut of two or more"]),
    (LONG, &[TOO_MANY, NOT_TOGETHER]),
    (TESTED, &["none, all inside", "none, all outside", "all, both at the last", "all, not both", "some, and both"]),
];
const STOPPED: &str = "cut_all, stopped at";
const LONG: &str = "cut_all, refused with 26 for";
const TESTED: &str = "touch, corners tested";

/// Which of them a reply is, if any.
pub fn part(call: &Call, lent: &Lent, word: u64) -> Option<(&'static str, &'static str)> {
    match (call, word as u8) {
        (Call::CutAll { list }, 26) => Some((LONG, why_26(list)?)),
        (Call::CutAll { .. }, 0 | 3 | 12) => None,
        (Call::CutAll { list }, _) => Some((STOPPED, stopped(word >> 8, list.roots.len() as u64 - 1))),
        (Call::Touch { root, .. }, 0) => {
            let corners = questions::vertex_set(lent, *root, &mut [0; 512]).ok()?;
            Some((TESTED, tested(word, corners as u64)))
        }
        _ => None,
    }
}

pub fn stopped(position: u64, last: u64) -> &'static str {
    match position {
        0 => "the first cut",
        _ if position == last => "the last cut of two or more",
        _ => "a cut in the middle",
    }
}

fn tested(word: u64, corners: u64) -> &'static str {
    match (word >> 16, word >> 8 & 3) {
        (0, 1) => "none, all inside",
        (0, _) => "none, all outside",
        (count, 3) if count == corners => "all, both at the last",
        (_, 3) => "some, and both",
        _ => "all, not both",
    }
}
