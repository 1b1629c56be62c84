//! `calls N SEED [--bytes]`: N calls of every entry point, on random, damaged and strange memory, by the engine and by the model.
//! The reply and every word of the memory and of the room for a list, a file, answers or areas afterwards are compared; the first
//! difference is shown. With --bytes each call is written to standard output with what the engine made of it, for another engine; words go to
//! the other.

use evidence::arguments;
use evidence::bytes::{self, Calls};
use evidence::call::{is_warning, Call, Room};
use evidence::close_calls::{place, PLACES};
use evidence::cut_lists;
use evidence::files;
use evidence::memories;
use evidence::model::memory::{Lent, Memory};
use evidence::model::table::Table;
use evidence::no_rings::{shape, SHAPES};
use evidence::parts::{part, PARTS};
use evidence::random::Random;
use evidence::seeded;
use std::collections::BTreeMap;
use std::io::{self, BufWriter, Stdout};
use std::process::ExitCode;

/// Each outcome that documents 01 and 02 name for an entry point, which a run has to meet.
const OUTCOMES: [(&str, &[&str]); 15] = [
    ("is_sound", &["sound", "refused 3"]),
    ("with_primordial_cube_radius", &["done", "refused 1", "refused 2", "refused 3"]),
    (
        "cut",
        &[
            "flush",
            "- - -",
            "- - intersection",
            "- outside -",
            "- outside intersection",
            "inside - -",
            "inside - intersection",
            "inside outside intersection",
            "inside outside -",
            "refused 3",
            "refused 4",
            "refused 5",
            "refused 7",
            "refused 8",
            "refused 9",
            "refused 10",
            "refused 11",
        ],
    ),
    ("subelements_of", &["list", "refused 3", "refused 4", "refused 12"]),
    ("subelements_with_rank", &["list", "empty list", "refused 3", "refused 4", "refused 12"]),
    ("vertex_set", &["list", "refused 3", "refused 4", "refused 12"]),
    ("greatest_common_subelements", &["list", "empty list", "refused 3", "refused 4", "refused 6", "refused 12"]),
    ("edges_in_order", &["list", "refused 3", "refused 4", "refused 6", "refused 12"]),
    ("has_primordial_facet", &["yes", "no", "refused 3", "refused 4", "refused 6"]),
    ("save", &["file", "refused 3", "refused 12"]),
    ("open", &["done", "refused 3", "refused 13"]),
    (
        "cut_all",
        &[
            "answered",
            "empty list",
            "refused 3",
            "refused 12",
            "refused 26",
            "stopped 4",
            "stopped 5",
            "stopped 7",
            "stopped 8",
            "stopped 9",
            "stopped 10",
            "stopped 11",
        ],
    ),
    ("touch", &["all on", "inside or on", "outside or on", "both", "refused 3", "refused 4", "refused 5"]),
    ("areas", &["sheet", "refused 3", "refused 4", "refused 6", "refused 12", "refused 25", "refused 26"]),
    ("stl", &["file", "refused 3", "refused 4", "refused 6", "refused 12", "refused 16"]),
];

/// What a cut that is taken gives.
const CUTS: &[&str] = OUTCOMES[2].1.split_at(9).0;

/// What the edges of the one face make for which a call is refused, which a run has to meet too. A cut seldom meets the
/// last. Before order 4 two rings, and a pair of edges beside a ring, were taken.
const FACES: [(&str, &[&str]); 3] =
    [("is_sound", &SHAPES), ("cut", SHAPES.split_at(10).0), (TAKEN_BEFORE, SHAPES.split_at(3).0)];
const TAKEN_BEFORE: &str = "cut, taken before order 4";

/// What a cut gives with a warning and without, and where its corners lie, which a run has to meet too. With a warning both sides
/// and no intersection are seldom met.
const CLOSE_CALLS: [(&str, &[&str]); 3] = [(WARNED, CUTS.split_at(8).0), (NOT_WARNED, CUTS), (CORNER, &PLACES)];
const WARNED: &str = "cut, with a warning";
const NOT_WARNED: &str = "cut, without a warning";
const CORNER: &str = "cut, a corner at";

/// What becomes of a file by what it was made as, which a run has to meet too. A good one is refused for the memory's size.
const FILES: [(&str, &[&str]); 10] = [
    (files::SAVED, &["done", "refused 3"]),
    (files::CHANGED, &["done", "refused 3", "refused 13"]),
    (files::EARLY, &["refused 13"]),
    (files::LATE, &["refused 13"]),
    (files::OTHER_AXES, &["refused 3"]),
    (files::BEYOND, &["refused 3"]),
    (files::BROKEN, &["refused 3"]),
    (files::DAMAGED, &["done", "refused 3", "refused 13"]),
    (files::RECORDS, &["refused 3", "refused 13"]),
    (files::BYTES, &["refused 13"]),
];

type Counts = BTreeMap<(&'static str, String), u64>;

/// How often each outcome was met, each face that is refused, each part of a list or a touch, and each kind of file; and where the calls are written, if they are.
struct Met {
    outcomes: Counts,
    faces: Counts,
    close_calls: Counts,
    parts: Counts,
    files: Counts,
    written: Option<Calls<BufWriter<Stdout>>>,
}

impl Default for Met {
    fn default() -> Self {
        let written = seeded::is_written().then(|| Calls::new(BufWriter::with_capacity(1 << 20, io::stdout())));
        Self {
            outcomes: Counts::new(),
            faces: Counts::new(),
            close_calls: Counts::new(),
            parts: Counts::new(),
            files: Counts::new(),
            written,
        }
    }
}

impl Met {
    /// Of a cut that tested corners, if it did.
    fn close_calls(&mut self, tested: Option<Vec<f64>>, warning: bool, outcome: &str) {
        let Some(tested) = tested else { return };
        let given = if warning { WARNED } else { NOT_WARNED };
        let places = tested.into_iter().filter_map(place).map(|place| (CORNER, place));
        for (name, met) in places.chain([(given, outcome)]) {
            *self.close_calls.entry((name, met.into())).or_default() += 1;
        }
    }
}

/// The same memory, lent to the model and to the engine.
struct Pair {
    model: Lent,
    engine: Memory,
}

impl Pair {
    fn new(memory: Memory) -> Self {
        Self { model: Lent::new(memory.clone()), engine: memory }
    }

    fn copy(&self) -> Self {
        Self { model: self.model.clone(), engine: self.engine.clone() }
    }

    fn table(&self) -> Option<&Table> {
        self.model.table().ok()
    }
}

fn main() -> ExitCode {
    seeded::run("calls N SEED [--bytes]", compare, report)
}

/// Each step is one call of every entry point on one memory; a memory stands for some steps.
fn compare(n: u64, seed: u64, met: &mut Met) -> Result<(), String> {
    let mut r = Random::new(seed);
    let (mut pair, mut left) = (Pair::new(Memory::clear()), 0);
    for step in 0..n {
        if left == 0 {
            let kind = memories::kind(&mut r);
            pair = Pair::new(memories::memory(&mut r, kind));
            left = memories::steps(&mut r, kind);
        }
        left -= 1;
        let mut damaged = if r.one_in(4) { damaged_copy(&mut r, &pair) } else { None };
        let stand = damaged.as_mut().unwrap_or(&mut pair);
        compare_step(&mut r, stand, met).map_err(|difference| format!("step {step}: {difference}"))?;
    }
    met.written.as_mut().map_or(Ok(()), Calls::end).map_err(not_written)
}

fn damaged_copy(r: &mut Random, pair: &Pair) -> Option<Pair> {
    let mut memory = pair.engine.clone();
    memories::damage(r, &mut memory, pair.table()?);
    Some(Pair::new(memory))
}

/// Questions are asked of the table that the cut leaves; the list, the cube and the file take a copy away, or the file any words.
fn compare_step(r: &mut Random, pair: &mut Pair, met: &mut Met) -> Result<(), String> {
    let cut = arguments::cut(r, pair.table());
    compare_call(&cut, pair, &Room::default(), met)?;
    for call in arguments::questions(r, pair.table()) {
        let room = room(r, &call, &mut pair.model);
        compare_call(&call, pair, &room, met)?;
    }
    let list = cut_lists::any(r, pair.table());
    let room = Room { answers: answers(r, list.roots.len()), ..Room::default() };
    compare_call(&Call::CutAll { list }, &mut pair.copy(), &room, met)?;
    compare_call(&arguments::cube(r), &mut pair.copy(), &Room::default(), met)?;
    let (made_as, file) = files::any(r, pair.table());
    let mut other = r.one_in(2).then(|| Pair::new(memories::memory(r, memories::Kind::RandomWords)));
    let lent = other.get_or_insert_with(|| pair.copy());
    let outcome = compare_call(&Call::Open { file }, lent, &Room::default(), met)?;
    *met.files.entry((made_as, outcome)).or_default() += 1;
    Ok(())
}

/// Old words or bytes, and none, too few, enough or more of them than there is to write.
fn room(r: &mut Random, call: &Call, lent: &mut Lent) -> Room {
    let mut room = call.longest();
    let word = call.by_model(lent, &mut room);
    let size = if word as u8 == 0 { (word >> 8) as usize } else { r.below(8) };
    let longest = room.list.len().max(room.file.len()).max(room.areas.len());
    let length = r.pick(&[0, size / 2, size.saturating_sub(1), size, size, size, size + 1, size + 9, longest]);
    if !room.list.is_empty() {
        room.list = (0..length).map(|_| r.word() as u16).collect();
    }
    if !room.file.is_empty() {
        room.file = (0..length).map(|_| r.word() as u8).collect();
    }
    if !room.areas.is_empty() {
        room.areas = (0..length).map(|_| r.word() as i64).collect();
    }
    room
}

/// Old words, mostly one or more for each cut.
fn answers(r: &mut Random, cuts: usize) -> Vec<u64> {
    let length = r.pick(&[0, cuts / 2, cuts.saturating_sub(1), cuts, cuts, cuts, cuts, cuts, cuts + 1, cuts + 9]);
    (0..length).map(|_| r.word()).collect()
}

/// The outcome, or the difference.
fn compare_call(call: &Call, pair: &mut Pair, room: &Room, met: &mut Met) -> Result<String, String> {
    let before = pair.engine.clone();
    let (mut model_room, mut engine_room) = (room.clone(), room.clone());
    let by_model = call.by_model(&mut pair.model, &mut model_room);
    let by_engine = call.by_engine(&mut pair.engine, &mut engine_room);
    if by_model == by_engine && model_room == engine_room && pair.engine.is_same(pair.model.memory()) {
        let outcome = call.outcome(by_model);
        *met.outcomes.entry((call.name(), outcome.clone())).or_default() += 1;
        if let Some(edges) = call.refused_face(&pair.model, by_model) {
            *met.faces.entry((call.name(), shape(&edges))).or_default() += 1;
            if call.was_taken(&pair.model) {
                *met.faces.entry((TAKEN_BEFORE, shape(&edges))).or_default() += 1;
            }
        }
        if let Some((name, met_part)) = part(call, &pair.model, by_model) {
            *met.parts.entry((name, met_part.into())).or_default() += 1;
        }
        met.close_calls(call.tested(&pair.model, by_model), is_warning(by_model), &outcome);
        let Some(written) = &mut met.written else { return Ok(outcome) };
        let [before, after] =
            [(&before, room), (&pair.engine, &engine_room)].map(|(memory, room)| bytes::Lent { memory, room });
        return written.call(call, before, by_engine, after).map_err(not_written).map(|()| outcome);
    }
    let rooms = format!("room {room:x?}, by the model {model_room:x?}, by the engine {engine_room:x?}");
    let memories = [before.shown(), pair.model.memory().shown(), pair.engine.shown()];
    Err(format!(
        "{call:x?}\nreply by the model {by_model:#x}, by the engine {by_engine:#x}\n{rooms}\n\
         memory before\n{}\nafter, by the model\n{}\nafter, by the engine\n{}",
        memories[0], memories[1], memories[2]
    ))
}

fn not_written(error: io::Error) -> String {
    format!("not written: {error}")
}

/// How often each outcome was met. One that was never met makes the run fail.
fn report(n: u64, met: &Met) -> bool {
    let mut is_whole = are_met(&OUTCOMES, "", &met.outcomes)
        & are_met(&FACES, ", refused for a face of", &met.faces)
        & are_met(&CLOSE_CALLS, "", &met.close_calls)
        & are_met(&PARTS, "", &met.parts)
        & are_met(&FILES, ", opened", &met.files);
    let named =
        |(name, outcome): &(&str, String)| OUTCOMES.iter().any(|row| row.0 == *name && row.1.contains(&&**outcome));
    for unnamed in met.outcomes.keys().filter(|key| !named(key)) {
        seeded::say(&format!("{unnamed:?}  NOT NAMED FOR IT"));
        is_whole = false;
    }
    seeded::say(&format!("{n} calls of each of {} entry points, no difference", OUTCOMES.len()));
    is_whole
}

fn are_met(named: &[(&'static str, &[&str])], what: &str, met: &Counts) -> bool {
    let mut all = true;
    for (name, outcomes) in named {
        seeded::say(&format!("{name}{what}"));
        for outcome in *outcomes {
            all &= seeded::is_met(met.get(&(*name, outcome.to_string())), outcome);
        }
    }
    all
}
