//! `lists N SEED`: N random lists of cuts, each in one call and each cut singly from the same memory, all by the engine (order 5).
//! The reply with its position, every answer and the room behind them, and every word of the memory left are compared. The first list
//! that is not its cuts is shown.

use evidence::cut_lists;
use evidence::memories::{self, Kind};
use evidence::model::cut_list::{CutList, MOST_CUTS};
use evidence::model::memory::{Lent, Memory};
use evidence::parts::stopped;
use evidence::random::Random;
use evidence::seeded;
use evidence::singly::{every_reason, single, table_in, Left};
use std::collections::BTreeMap;
use std::process::ExitCode;

/// What a run has to meet.
const OUTCOMES: [&str; 23] = [
    "answered, an empty list",
    "answered, one cut",
    "answered, 2 to 8 cuts",
    "answered, 9 to 63 cuts",
    "answered, 64 cuts",
    "stopped at the first cut",
    "stopped at a cut in the middle",
    "stopped at the last cut of two or more",
    "stopped with 4",
    "stopped with 5",
    "stopped with 7",
    "stopped with 8",
    "stopped with 9",
    "stopped with 10",
    "stopped with 11",
    "refused 3",
    "refused 3, where 26 holds too",
    "refused 26, more than 64 cuts",
    "refused 26, slices that do not belong together",
    "refused 26, where 12 holds too",
    "refused 12",
    "refused 12, where a cut would be refused",
    "refused 12, with no room at all",
];

#[derive(Default)]
struct Met {
    lists: u64,
    cuts: u64,
    outcomes: BTreeMap<String, u64>,
}

fn main() -> ExitCode {
    seeded::run("lists N SEED", compare, report)
}

/// Each step is a list for one memory; a memory stands for some steps.
fn compare(n: u64, seed: u64, met: &mut Met) -> Result<(), String> {
    let mut r = Random::new(seed);
    let (mut stands, mut left) = (Memory::clear(), 0);
    while met.lists < n {
        if left == 0 {
            let kind = r.pick(&[Kind::Session, Kind::Session, Kind::Strange, Kind::TakenApart, Kind::TwoRings]);
            stands = memories::memory(&mut r, kind);
            left = memories::steps(&mut r, kind).min(7);
        }
        left -= 1;
        if r.one_in(8) {
            stands = crowded(&mut r, stands);
        }
        let lent = if r.one_in(12) { damaged(&mut r, &stands) } else { stands.clone() };
        let list = list_for(&mut r, &lent);
        let room = room(&mut r, list.roots.len());
        compare_list(&lent, &list, &room, met)?;
        stands = grown(&mut r, stands);
    }
    Ok(())
}

fn crowded(r: &mut Random, memory: Memory) -> Memory {
    match Lent::new(memory.clone()).table() {
        Ok(table) => memories::crowded(r, table),
        Err(_) => memory,
    }
}

/// Most are no longer sound.
fn damaged(r: &mut Random, memory: &Memory) -> Memory {
    let mut damaged = memory.clone();
    match table_in(memory) {
        Some(table) if !r.one_in(4) => memories::damage(r, &mut damaged, &table),
        _ => damaged = memories::memory(r, Kind::OtherLengths),
    }
    damaged
}

/// The next list is for a table with another entry or two.
fn grown(r: &mut Random, mut memory: Memory) -> Memory {
    let cut = cut_lists::cut(r, table_in(&memory).as_ref());
    single(&mut memory, cut);
    memory
}

/// Its cuts are tried singly while it is made, so that its roots may be elements that it adds. Most that are refused are left out, and
/// what is behind one that is not left out is a list of its own.
fn list_for(r: &mut Random, memory: &Memory) -> CutList {
    let mut list = CutList::default();
    let wanted = match r.below(24) {
        0 => r.from_to(MOST_CUTS + 1, MOST_CUTS + 4),
        1 | 2 => MOST_CUTS,
        3 => 0,
        _ => r.pick(&[1, 1, 2, 2, 3, 3, 4, 5, 8, 13, 21, 40]),
    };
    let takes_refused = r.one_in(3);
    let mut after = memory.clone();
    for _ in 0..2 * wanted + 4 {
        if list.roots.len() == wanted {
            break;
        }
        let cut = cut_lists::cut(r, table_in(&after).as_ref());
        if single(&mut after, cut) as u8 == 0 || takes_refused && r.one_in(4) || wanted > MOST_CUTS {
            list.push(cut);
        }
    }
    if r.one_in(20) {
        cut_lists::take_apart(r, &mut list);
    }
    list
}

/// Old words, mostly one or more for each cut.
fn room(r: &mut Random, cuts: usize) -> Vec<u64> {
    let length = match r.below(20) {
        0 => r.pick(&[0, cuts / 2, cuts.saturating_sub(1)]),
        1 => cuts + r.from_to(1, 9),
        _ => cuts,
    };
    (0..length).map(|_| r.word()).collect()
}

fn compare_list(memory: &Memory, list: &CutList, room: &[u64], met: &mut Met) -> Result<(), String> {
    let (by_list, singly) = (Left::by_list(memory, list, room), Left::singly(memory, list, room));
    if !by_list.is_same(&singly) {
        let [by_list, singly] = [by_list.shown(), singly.shown()];
        return Err(format!(
            "list {}: {list:x?}\nroom {room:x?}, memory before\n{}\nin one call: {by_list}\nsingly: {singly}",
            met.lists,
            memory.shown()
        ));
    }
    met.enter(memory, list, room, by_list.reply);
    Ok(())
}

impl Met {
    fn enter(&mut self, memory: &Memory, list: &CutList, room: &[u64], reply: u64) {
        let (number, written, count) = (reply as u8, (reply >> 8) as usize, list.roots.len());
        self.lists += 1;
        self.cuts += written as u64;
        match number {
            0 => self.count(match count {
                0 => "answered, an empty list",
                1 => "answered, one cut",
                2..=8 => "answered, 2 to 8 cuts",
                9..=63 => "answered, 9 to 63 cuts",
                _ => "answered, 64 cuts",
            }),
            3 | 12 | 26 => self.refused(memory, list, room),
            _ => {
                self.count(&format!("stopped with {number}"));
                self.count(&format!("stopped at {}", stopped(written as u64, count as u64 - 1)));
            }
        }
    }

    /// Before any cut.
    fn refused(&mut self, memory: &Memory, list: &CutList, room: &[u64]) {
        match every_reason(memory, list, room)[..] {
            [3, ref others @ ..] => {
                self.count("refused 3");
                if others.contains(&26) {
                    self.count("refused 3, where 26 holds too");
                }
            }
            [26, ref others @ ..] => {
                self.count(&format!("refused 26, {}", cut_lists::why_26(list).expect("it does not fit")));
                if others.contains(&12) {
                    self.count("refused 26, where 12 holds too");
                }
            }
            _ => {
                self.count("refused 12");
                if room.is_empty() {
                    self.count("refused 12, with no room at all");
                }
                if Left::by_list(memory, list, &vec![0; list.roots.len()]).reply as u8 != 0 {
                    self.count("refused 12, where a cut would be refused");
                }
            }
        }
    }

    fn count(&mut self, outcome: &str) {
        *self.outcomes.entry(outcome.into()).or_default() += 1;
    }
}

/// How often each outcome was met. One that was never met, or that is not named, makes the run fail.
fn report(n: u64, met: &Met) -> bool {
    let unmet = OUTCOMES.iter().filter(|outcome| !seeded::is_met(met.outcomes.get(**outcome), outcome)).count();
    let unnamed: Vec<_> = met.outcomes.keys().filter(|outcome| !OUTCOMES.contains(&outcome.as_str())).collect();
    unnamed.iter().for_each(|outcome| println!("{outcome}  NOT NAMED"));
    println!("{n} lists, {} cuts of them answered: no difference from single cuts", met.cuts);
    unmet == 0 && unnamed.is_empty()
}
