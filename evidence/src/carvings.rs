//! Order 14 on the engine: a slice, and two carvings of the same table, for the inside and then for the outside.

use crate::call::{cut_reply, Call, Room};
use crate::model::cut::{Answer, Output};
use crate::model::floats::Hyperplane;
use crate::model::memory::{Lent, Memory};
use crate::model::Refusal;
use crate::renumbering::{self, holds};

/// What a cut replies and leaves.
pub struct Left {
    reply: Result<Answer, Refusal>,
    pub memory: Memory,
}

/// The slice, and the two carvings, the second of what the first leaves.
pub struct Trial<'a> {
    before: &'a Memory,
    pub slice: Left,
    pub first: Left,
    pub second: Left,
}

/// What they come to, where every line of the statement holds.
pub enum Outcome {
    Taken { is_flush: bool, has_warning: bool, same_numbers: bool, same_orders: bool },
    Refused(Refusals),
}

/// The slice's number, which carving is the first that is refused, and its number.
pub type Refusals = (Refusal, &'static str, Refusal);

impl<'a> Trial<'a> {
    pub fn new(before: &'a Memory, divider: Hyperplane, root: u16) -> Self {
        let cut = |inside, outside, memory: &Memory| {
            let mut memory = memory.clone();
            let call = Call::Cut { divider, inside, outside, root: root.into() };
            let word = call.by_engine(&mut memory, &mut Room::default());
            Left { reply: cut_reply(word), memory }
        };
        let first = cut(1, 0, before);
        Self { before, slice: cut(1, 1, before), second: cut(0, 1, &first.memory), first }
    }

    /// The outcome, or the first line of the statement that does not hold.
    pub fn outcome(&self) -> Result<Outcome, &'static str> {
        match (self.slice.reply, self.first.reply, self.second.reply) {
            (Ok(slice), Ok(first), Ok(second)) => self.taken(slice, [first, second]),
            (Err(slice), Err(first), _) => Ok(Outcome::Refused((slice, "first", first))),
            (Err(slice), Ok(_), Err(second)) => Ok(Outcome::Refused((slice, "second", second))),
            _ => Err("the slice is taken exactly when both carvings are"),
        }
    }

    fn taken(&self, answer: Answer, answers: [Answer; 2]) -> Result<Outcome, &'static str> {
        holds(self.slice.memory.is_same_but_for_elements(&self.second.memory), "all but the elements is the same")?;
        let [slice, carved] = [&self.slice, &self.second].map(|left| Lent::new(left.memory.clone()));
        let [slice, carved] = [slice.table(), carved.table()].map(|table| table.map_err(|_| "sound tables are left"));
        let (slice, carved, old) = (slice?, carved?, usize::from(self.before.counts[1]));
        let f = renumbering::find(old, slice, carved).ok_or("there is a renumbering")?;
        renumbering::check(&f, old, slice, carved)?;
        holds(renumbering::corresponds(&f, answer, answers), "the answers correspond")?;
        let (is_flush, same_orders) = (answer.output == Output::Flush, renumbering::keeps_orders(&f, slice));
        Ok(Outcome::Taken { is_flush, has_warning: answer.warning, same_numbers: f.is_sorted(), same_orders })
    }

    /// All four memories, and the replies.
    pub fn shown(&self) -> String {
        let left = [("slice", &self.slice), ("first carving", &self.first), ("second carving", &self.second)];
        let after = left.map(|(name, left)| format!("{name}: {:?}, after it\n{}\n", left.reply, left.memory.shown()));
        format!("memory before\n{}\n{}", self.before.shown(), after.concat())
    }
}
