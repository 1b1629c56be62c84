//! Order 5 on the engine: a list of cuts in one call, and the same cuts made singly from the same memory.

use crate::call::{Call, Room};
use crate::model::cut_list::{CutList, ListedCut};
use crate::model::memory::{self, Memory};
use crate::model::table::Table;
use crate::model::Refusal;

/// A single cut, by the engine: its reply.
pub fn single(memory: &mut Memory, cut: ListedCut) -> u64 {
    let ListedCut { divider, kept, root } = cut;
    let [inside, outside] = [kept & 1, kept >> 1 & 1].map(u32::from);
    Call::Cut { divider, inside, outside, root: root.into() }.by_engine(memory, &mut Room::default())
}

/// What a list replies, and what it leaves of what was lent.
pub struct Left {
    pub reply: u64,
    pub answers: Vec<u64>,
    pub memory: Memory,
}

impl Left {
    /// In one call.
    pub fn by_list(memory: &Memory, list: &CutList, room: &[u64]) -> Self {
        let (mut memory, mut room) = (memory.clone(), Room { answers: room.to_vec(), ..Room::default() });
        let reply = Call::CutAll { list: list.clone() }.by_engine(&mut memory, &mut room);
        Self { reply, answers: room.answers, memory }
    }

    /// As the order says it of single cuts: what refuses the list as such, and else one after another up to the first that is refused.
    pub fn singly(memory: &Memory, list: &CutList, room: &[u64]) -> Self {
        let mut left = Self { reply: 0, answers: room.to_vec(), memory: memory.clone() };
        left.reply = match every_reason(memory, list, room).first() {
            Some(&number) => number.into(),
            None => left.make(list.cuts()),
        };
        left
    }

    fn make(&mut self, cuts: Vec<ListedCut>) -> u64 {
        for (position, cut) in cuts.iter().enumerate() {
            let reply = single(&mut self.memory, *cut);
            if reply as u8 != 0 {
                return (reply & 0xff) | (position as u64) << 8;
            }
            self.answers[position] = reply;
        }
        (cuts.len() as u64) << 8
    }

    pub fn is_same(&self, other: &Self) -> bool {
        self.reply == other.reply && self.answers == other.answers && self.memory.is_same(&other.memory)
    }

    pub fn shown(&self) -> String {
        format!("reply {:#x}, answers {:x?}, memory\n{}", self.reply, self.answers, self.memory.shown())
    }
}

/// The numbers that refuse the list before any cut, in their order.
pub fn every_reason(memory: &Memory, list: &CutList, room: &[u64]) -> Vec<Refusal> {
    let reasons = [(!is_sound(memory), 3), (!list.fits(), 26), (room.len() < list.roots.len(), 12)];
    reasons.into_iter().filter_map(|(holds, number)| holds.then_some(number)).collect()
}

/// What a memory holds that the engine calls sound.
pub fn table_in(memory: &Memory) -> Option<Table> {
    memory::read(memory).filter(|_| is_sound(memory))
}

fn is_sound(memory: &Memory) -> bool {
    Call::IsSound.by_engine(&mut memory.clone(), &mut Room::default()) == 0
}
