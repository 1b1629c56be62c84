//! Document 02, order 5: a list of cuts in one call.

use super::cut::{cut, Answer, Kept};
use super::floats::Hyperplane;
use super::memory::{Lent, PLANE_WIDTH};
use super::Refusal;

pub const MOST_CUTS: usize = 64;

/// As it is lent: a row for each divider, a byte for the kept sides of each cut, and the roots.
#[derive(Clone, Debug, Default)]
pub struct CutList {
    pub dividers: Vec<f64>,
    pub kept: Vec<u8>,
    pub roots: Vec<u16>,
}

/// One cut, its kept sides as a byte: bit 0 keeps the inside, bit 1 the outside, and the others say nothing.
#[derive(Clone, Copy, Debug)]
pub struct ListedCut {
    pub divider: Hyperplane,
    pub kept: u8,
    pub root: u16,
}

impl CutList {
    pub fn push(&mut self, cut: ListedCut) {
        self.dividers.extend(cut.divider.normal);
        self.dividers.push(cut.divider.distance);
        self.kept.push(cut.kept);
        self.roots.push(cut.root);
    }

    pub fn fits(&self) -> bool {
        let count = self.roots.len();
        count <= MOST_CUTS && self.kept.len() == count && self.dividers.len() == PLANE_WIDTH * count
    }

    /// Of a list that fits.
    pub fn cuts(&self) -> Vec<ListedCut> {
        let rows = self.dividers.chunks(PLANE_WIDTH).zip(&self.kept).zip(&self.roots);
        rows.map(|((row, &kept), &root)| {
            let divider = Hyperplane { normal: [row[0], row[1], row[2], row[3]], distance: row[4] };
            ListedCut { divider, kept, root }
        })
        .collect()
    }
}

/// The answers that are written, and the refusal that ended the list or kept it from being begun.
pub fn cut_all(lent: &mut Lent, list: &CutList, room: usize) -> (Vec<Answer>, Option<Refusal>) {
    let before_any = lent.table().err().or((!list.fits()).then_some(26)).or((room < list.roots.len()).then_some(12));
    let mut answers = vec![];
    if before_any.is_some() {
        return (answers, before_any);
    }
    for ListedCut { divider, kept, root } in list.cuts() {
        let kept = Kept { inside: kept & 1 != 0, outside: kept & 2 != 0 };
        match cut(lent, divider, kept, root.into()) {
            Ok(answer) => answers.push(answer),
            Err(refusal) => return (answers, Some(refusal)),
        }
    }
    (answers, None)
}
