//! `pieces N SEED`: the area sheets of N random flat puzzles and the print files of the pieces of N random solids, by the engine and by
//! the model (orders 13 and 11). The first difference is shown. Counted besides: whether the parts of a square add up to it, and whether
//! the triangles of a solid close.

use evidence::call::{Call, Room};
use evidence::flat::puzzle;
use evidence::model::areas::MOST_PIECES;
use evidence::model::exact::narrowed;
use evidence::model::memory::{Lent, Memory};
use evidence::random::Random;
use evidence::seeded;
use evidence::solids::{shell, solids, Shell};
use std::collections::BTreeMap;
use std::process::ExitCode;

/// What a run has to meet.
const OUTCOMES: [&str; 20] = [
    "sheet of 0 pieces",
    "sheet of 1 piece",
    "sheet of 2 to 15 pieces",
    "sheet of 16 pieces",
    "sheet refused with 12",
    "sheet refused with 25",
    "sheet refused with 26",
    "walk towards axis 1",
    "walk the other way",
    "a whole puzzle, which adds up to its square",
    "print file of 4 to 6 faces",
    "print file of 7 to 12 faces",
    "print file of 13 faces or more",
    "print file refused with 12",
    "print file refused with 16",
    "coordinate narrowed to itself",
    "coordinate narrowed down",
    "coordinate narrowed up",
    "triangles that close",
    "triangles of which corners fell together when they were narrowed",
];

/// What a run may meet besides: near a corner or an earlier vertex a cut takes the vertex that is there.
const SELDOM: [&str; 2] = ["a whole puzzle, which does not", "triangles that do not close"];

#[derive(Default)]
struct Met {
    outcomes: BTreeMap<String, u64>,
    files: u64,
}

fn main() -> ExitCode {
    seeded::run("pieces N SEED", compare, report)
}

fn compare(n: u64, seed: u64, met: &mut Met) -> Result<(), String> {
    let mut r = Random::new(seed);
    for step in 0..n {
        compare_puzzle(&mut r, met).map_err(|difference| format!("puzzle {step}: {difference}"))?;
        compare_solid(&mut r, met).map_err(|difference| format!("solid {step}: {difference}"))?;
    }
    Ok(())
}

/// A sheet of some pieces, and one of all of them.
fn compare_puzzle(r: &mut Random, met: &mut Met) -> Result<(), String> {
    let (memory, whole) = puzzle(r);
    let mut some = whole.clone();
    r.shuffle(&mut some);
    let wanted = r.pick(&[0, 1, 2, 3, 5, 8, 13, MOST_PIECES, MOST_PIECES, MOST_PIECES + 1]);
    some = some.into_iter().cycle().take(wanted).collect();
    let room = (wanted + 2).saturating_sub(usize::from(r.one_in(12))) + if r.one_in(4) { r.below(5) } else { 0 };
    let (word, sheet) = compare_sheet(&memory, some, room)?;
    met.sheet(word, wanted, &sheet);
    let (word, sheet) = compare_sheet(&memory, whole.clone(), whole.len() + 2)?;
    let (_, square) = compare_sheet(&memory, vec![8], 3)?;
    if word as u8 == 0 {
        met.count(if sheet[whole.len() + 1] == square[2] { OUTCOMES[9] } else { SELDOM[0] });
    }
    Ok(())
}

fn compare_sheet(memory: &Memory, pieces: Vec<u16>, room: usize) -> Result<(u64, Vec<i64>), String> {
    let room = Room { areas: vec![-7; room], ..Room::default() };
    let (word, room) = compare_call(memory, &Call::Areas { pieces }, &room)?;
    Ok((word, room.areas))
}

fn compare_solid(r: &mut Random, met: &mut Met) -> Result<(), String> {
    let (memory, pieces) = solids(r);
    for piece in pieces {
        let call = Call::Stl { root: piece.into() };
        let mut longest = call.longest();
        let size = call.by_engine(&mut memory.clone(), &mut longest) >> 8;
        let room =
            (size as usize).saturating_sub(usize::from(r.one_in(12))) + if r.one_in(4) { r.below(99) } else { 0 };
        let (word, room) = compare_call(&memory, &call, &Room { file: vec![0xa5; room], ..Room::default() })?;
        met.file(word, &memory, piece, &room.file[..(word >> 8) as usize]);
    }
    narrowing(&memory, met)
}

/// The model narrows by comparisons that do not round; the processor has an instruction for it.
fn narrowing(memory: &Memory, met: &mut Met) -> Result<(), String> {
    for &x in &memory.points[..4 * usize::from(memory.counts[2])] {
        let host = x as f32;
        if narrowed(x) != host.to_bits() {
            return Err(format!(
                "{x:e} narrowed: by the model {:#x}, by the processor {:#x}",
                narrowed(x),
                host.to_bits()
            ));
        }
        met.count(match f64::from(host).abs().total_cmp(&x.abs()) {
            std::cmp::Ordering::Equal => OUTCOMES[15],
            std::cmp::Ordering::Less => OUTCOMES[16],
            std::cmp::Ordering::Greater => OUTCOMES[17],
        });
    }
    Ok(())
}

/// The reply and the room, where both have the same; the memory is only read.
fn compare_call(memory: &Memory, call: &Call, room: &Room) -> Result<(u64, Room), String> {
    let (mut model_room, mut engine_room) = (room.clone(), room.clone());
    let by_model = call.by_model(&mut Lent::new(memory.clone()), &mut model_room);
    let mut left = memory.clone();
    let by_engine = call.by_engine(&mut left, &mut engine_room);
    if by_model == by_engine && model_room == engine_room && left.is_same(memory) {
        return Ok((by_engine, engine_room));
    }
    Err(format!(
        "{call:x?}\nreply by the model {by_model:#x}, by the engine {by_engine:#x}\nroom {room:x?}, by the model {model_room:x?}, \
         by the engine {engine_room:x?}\nmemory\n{}",
        memory.shown()
    ))
}

impl Met {
    fn sheet(&mut self, word: u64, pieces: usize, sheet: &[i64]) {
        match (word as u8, pieces) {
            (0, 0) => self.count("sheet of 0 pieces"),
            (0, 1) => self.count("sheet of 1 piece"),
            (0, MOST_PIECES) => self.count("sheet of 16 pieces"),
            (0, _) => self.count("sheet of 2 to 15 pieces"),
            (number, _) => self.count(&format!("sheet refused with {number}")),
        }
        for area in sheet.iter().take(if word as u8 == 0 { pieces } else { 0 }) {
            self.count(if *area > 0 { OUTCOMES[7] } else { OUTCOMES[8] });
        }
    }

    fn file(&mut self, word: u64, memory: &Memory, piece: u16, file: &[u8]) {
        if word as u8 != 0 {
            return self.count(&format!("print file refused with {}", word as u8));
        }
        self.files += 1;
        self.count(match memory.elements[36 * usize::from(piece) + 3] {
            ..=6 => OUTCOMES[10],
            7..=12 => OUTCOMES[11],
            _ => OUTCOMES[12],
        });
        self.count(match shell(file) {
            Shell::Closed => OUTCOMES[18],
            Shell::FallenTogether => OUTCOMES[19],
            Shell::Open => SELDOM[1],
        });
    }

    fn count(&mut self, outcome: &str) {
        *self.outcomes.entry(outcome.into()).or_default() += 1;
    }
}

/// How often each outcome was met. One that was never met, or that is not named, makes the run fail.
fn report(n: u64, met: &Met) -> bool {
    let unmet = OUTCOMES.iter().filter(|outcome| !seeded::is_met(met.outcomes.get(**outcome), outcome)).count();
    for seldom in SELDOM {
        println!("{:>12}  {seldom}", met.outcomes.get(seldom).unwrap_or(&0));
    }
    let is_named = |outcome: &str| OUTCOMES.contains(&outcome) || SELDOM.contains(&outcome);
    let unnamed: Vec<_> = met.outcomes.keys().filter(|outcome| !is_named(outcome)).collect();
    unnamed.iter().for_each(|outcome| println!("{outcome}  NOT NAMED"));
    println!("{n} puzzles and {} print files of {n} solids: no difference from the model", met.files);
    unmet == 0 && unnamed.is_empty()
}
