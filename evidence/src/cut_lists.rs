//! Random lists of cuts: mostly ones that are answered to their end, some that stop in the middle, and each kind that is refused.

use crate::arguments;
use crate::call::Call;
use crate::model::cut_list::{CutList, ListedCut, MOST_CUTS};
use crate::model::table::Table;
use crate::random::Random;

/// What keeps a list from being begun.
pub const TOO_MANY: &str = "more than 64 cuts";
pub const NOT_TOGETHER: &str = "slices that do not belong together";

/// One cut with arguments as a single cut has them; a root of a list has 16 bits. Other bits of the kept sides say nothing.
pub fn cut(r: &mut Random, table: Option<&Table>) -> ListedCut {
    let Call::Cut { divider, inside, outside, root } = arguments::cut(r, table) else { unreachable!() };
    let kept = u8::from(inside != 0) | u8::from(outside != 0) << 1;
    let other_bits = if r.one_in(4) { r.word() as u8 & !3 } else { 0 };
    ListedCut { divider, kept: kept | other_bits, root: root.min(0xffff) as u16 }
}

/// A list for this table: now and then its roots are elements that it would add, or the same cut comes again and again.
pub fn any(r: &mut Random, table: Option<&Table>) -> CutList {
    let in_use = table.map_or(9, |table| table.elements.len());
    let count = match r.below(40) {
        0 => MOST_CUTS,
        1 | 2 => r.from_to(MOST_CUTS + 1, MOST_CUTS + 3),
        3..=5 => 0,
        _ => r.from_to(1, 5),
    };
    let mut list = CutList::default();
    let mut last = cut(r, table);
    let again = r.one_in(8) || count == MOST_CUTS && !r.one_in(4);
    for place in 0..count {
        if !again {
            last = cut(r, table);
            if place > 0 && r.one_in(3) {
                last.root = (in_use + r.below(9 * place)) as u16;
            }
        }
        list.push(last);
    }
    if r.one_in(12) {
        take_apart(r, &mut list);
    }
    list
}

/// One slice gets another length.
pub fn take_apart(r: &mut Random, list: &mut CutList) {
    match r.below(6) {
        0 => list.dividers.push(0.0),
        1 => list.dividers.truncate(list.dividers.len().saturating_sub(1)),
        2 => list.kept.push(3),
        3 => list.kept.truncate(list.kept.len() / 2),
        4 => list.roots.push(0),
        _ => list.roots.truncate(list.roots.len().saturating_sub(1)),
    }
}

/// Why a list is refused with 26, if it is.
pub fn why_26(list: &CutList) -> Option<&'static str> {
    match list.roots.len() > MOST_CUTS {
        true => Some(TOO_MANY),
        false => (!list.fits()).then_some(NOT_TOGETHER),
    }
}
