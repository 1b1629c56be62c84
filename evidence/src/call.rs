//! One call of one entry point, made by the model and by the engine, with the reply as the engine's one number.

use crate::model::areas::areas;
use crate::model::cut::{Answer, Kept, Output};
use crate::model::cut_list::{self, CutList};
use crate::model::floats::Hyperplane;
use crate::model::memory::{Lent, Memory};
use crate::model::print::stl;
use crate::model::touch::{touch, Touch};
use crate::model::{cube, cut, files, questions, Refusal};
use spoonvelvet::raw;

#[derive(Clone, Debug)]
pub enum Call {
    IsSound,
    Cube { dimension: u32, radius: f64 },
    Cut { divider: Hyperplane, inside: u32, outside: u32, root: u32 },
    SubElements { root: u32 },
    WithRank { root: u32, rank: u32 },
    VertexSet { root: u32 },
    GreatestCommon { roots: Vec<u16> },
    EdgesInOrder { root: u32 },
    PrimordialFacet { root: u32 },
    Save,
    Open { file: Vec<u8> },
    CutAll { list: CutList },
    Touch { divider: Hyperplane, root: u32 },
    Areas { pieces: Vec<u16> },
    Stl { root: u32 },
}

/// What a call is lent beside the four slices to be filled: room for a list, for a file, for answers or for areas, or none.
#[derive(Clone, Debug, Default, PartialEq, Eq)]
pub struct Room {
    pub list: Vec<u16>,
    pub file: Vec<u8>,
    pub answers: Vec<u64>,
    pub areas: Vec<i64>,
}

impl Room {
    /// As it is lent, little-endian.
    pub fn bytes(&self) -> Vec<u8> {
        let list = self.list.iter().flat_map(|word| word.to_le_bytes());
        let answers = self.answers.iter().flat_map(|word| word.to_le_bytes());
        let areas = self.areas.iter().flat_map(|number| number.to_le_bytes());
        list.chain(self.file.iter().copied()).chain(answers).chain(areas).collect()
    }
}

impl Call {
    /// The model's reply; the memory and the room are left as the call leaves them.
    pub fn by_model(&self, lent: &mut Lent, room: &mut Room) -> u64 {
        let Room { list, file: file_room, answers, areas: area_room } = room;
        match self {
            Call::IsSound => done_word(lent.table().map(|_| ())),
            Call::Cube { dimension, radius } => done_word(cube::with_primordial_cube_radius(lent, *dimension, *radius)),
            Call::Cut { divider, inside, outside, root } => {
                cut_word(cut::cut(lent, *divider, kept(*inside, *outside), *root))
            }
            Call::SubElements { root } => list_word(questions::subelements_of(lent, *root, list)),
            Call::WithRank { root, rank } => list_word(questions::subelements_with_rank(lent, *root, *rank, list)),
            Call::VertexSet { root } => list_word(questions::vertex_set(lent, *root, list)),
            Call::GreatestCommon { roots } => list_word(questions::greatest_common_subelements(lent, roots, list)),
            Call::EdgesInOrder { root } => list_word(questions::edges_in_order(lent, *root, list)),
            Call::PrimordialFacet { root } => facet_word(questions::has_primordial_facet(lent, *root)),
            Call::Save => list_word(files::save(lent, file_room)),
            Call::Open { file } => done_word(files::open(lent, file)),
            Call::CutAll { list } => cut_list_word(cut_list::cut_all(lent, list, answers.len()), answers),
            Call::Touch { divider, root } => touch_word(touch(lent, *divider, *root)),
            Call::Areas { pieces } => list_word(areas(lent, pieces, area_room)),
            Call::Stl { root } => list_word(stl(lent, *root, file_room)),
        }
    }

    /// The engine's reply, through the functions that hosts link.
    pub fn by_engine(&self, memory: &mut Memory, room: &mut Room) -> u64 {
        let Memory { counts: c, points: p, planes: h, elements: e } = memory;
        let Room { list, file: file_room, answers, areas: area_room } = room;
        match self {
            Call::IsSound => raw::is_sound(c, p, h, e).into(),
            Call::Cube { dimension, radius } => raw::cube(c, p, h, e, *dimension, *radius).into(),
            Call::Cut { divider, inside, outside, root } => {
                raw::cut(c, p, h, e, lent(divider), *inside, *outside, *root)
            }
            Call::SubElements { root } => raw::subelements_of(c, p, h, e, *root, list).into(),
            Call::WithRank { root, rank } => raw::subelements_with_rank(c, p, h, e, *root, *rank, list).into(),
            Call::VertexSet { root } => raw::vertex_set(c, p, h, e, *root, list).into(),
            Call::GreatestCommon { roots } => raw::greatest_common_subelements(c, p, h, e, roots, list).into(),
            Call::EdgesInOrder { root } => raw::edges_in_order(c, p, h, e, *root, list).into(),
            Call::PrimordialFacet { root } => raw::has_primordial_facet(c, p, h, e, *root).into(),
            Call::Save => raw::save(c, p, h, e, file_room),
            Call::Open { file } => raw::open(c, p, h, e, file).into(),
            Call::CutAll { list } => {
                let CutList { dividers, kept, roots } = list;
                raw::cut_all(c, p, h, e, raw::CutList { dividers, kept, roots }, answers).into()
            }
            Call::Touch { divider, root } => raw::touch(c, p, h, e, lent(divider), *root).into(),
            Call::Areas { pieces } => raw::areas(c, p, h, e, pieces, area_room).into(),
            Call::Stl { root } => raw::stl(c, p, h, e, *root, file_room),
        }
    }

    pub fn name(&self) -> &'static str {
        match self {
            Call::IsSound => "is_sound",
            Call::Cube { .. } => "with_primordial_cube_radius",
            Call::Cut { .. } => "cut",
            Call::SubElements { .. } => "subelements_of",
            Call::WithRank { .. } => "subelements_with_rank",
            Call::VertexSet { .. } => "vertex_set",
            Call::GreatestCommon { .. } => "greatest_common_subelements",
            Call::EdgesInOrder { .. } => "edges_in_order",
            Call::PrimordialFacet { .. } => "has_primordial_facet",
            Call::Save => "save",
            Call::Open { .. } => "open",
            Call::CutAll { .. } => "cut_all",
            Call::Touch { .. } => "touch",
            Call::Areas { .. } => "areas",
            Call::Stl { .. } => "stl",
        }
    }

    /// The function's name in the archive and in the module.
    pub fn exported(&self) -> String {
        match self {
            Call::Cube { .. } => "desk_cube".into(),
            _ => format!("desk_{}", self.name()),
        }
    }

    /// So much room, in bytes or in words, that more is never needed; none for a call that is lent none.
    pub fn longest(&self) -> Room {
        match self {
            Call::Save => Room { file: vec![0; raw::LONGEST_FILE], ..Room::default() },
            Call::CutAll { list } => Room { answers: vec![0; list.roots.len()], ..Room::default() },
            Call::Areas { .. } => Room { areas: vec![0; raw::LONGEST_SHEET], ..Room::default() },
            Call::Stl { .. } => Room { file: vec![0; raw::LONGEST_PRINT], ..Room::default() },
            Call::IsSound
            | Call::Cube { .. }
            | Call::Cut { .. }
            | Call::PrimordialFacet { .. }
            | Call::Open { .. }
            | Call::Touch { .. } => Room::default(),
            _ => Room { list: vec![0; raw::LONGEST_LIST], ..Room::default() },
        }
    }

    /// Which refusal or kind of answer a reply of this call is.
    pub fn outcome(&self, word: u64) -> String {
        match (word as u8, self) {
            (0, Call::IsSound) => "sound".into(),
            (0, Call::Cube { .. } | Call::Open { .. }) => "done".into(),
            (0, Call::Save | Call::Stl { .. }) => "file".into(),
            (0, Call::Areas { .. }) => "sheet".into(),
            (0, Call::Cut { .. }) => output_outcome(output(word)),
            (0, Call::PrimordialFacet { .. }) => if is_set(word) { "yes" } else { "no" }.into(),
            (0, Call::CutAll { .. }) => if word == 0 { "empty list" } else { "answered" }.into(),
            (number, Call::CutAll { .. }) if ![3, 12, 26].contains(&number) => format!("stopped {number}"),
            (0, Call::Touch { .. }) => {
                ["all on", "inside or on", "outside or on", "both"][word as usize >> 8 & 3].into()
            }
            (0, _) => if word == 0 { "empty list" } else { "list" }.into(),
            (number, _) => format!("refused {number}"),
        }
    }

    /// The edges, by their ends, of the face for which alone the call is refused, a table's or one that a cut would add.
    pub fn refused_face(&self, lent: &Lent, word: u64) -> Option<Vec<[u16; 2]>> {
        match (word as u8, self) {
            (3, Call::IsSound) => lent.face_of_no_ring(),
            (7, Call::Cut { divider, inside, outside, root }) => {
                cut::refused_face(lent.table().ok()?, *divider, kept(*inside, *outside), *root)
            }
            _ => None,
        }
    }

    /// The signed distances that a cut tested, where it was taken at a finite distance.
    pub fn tested(&self, lent: &Lent, word: u64) -> Option<Vec<f64>> {
        match (word as u8, self) {
            (0, Call::Cut { divider, root, .. }) if divider.distance.is_finite() => {
                let table = lent.table().ok()?;
                Some(cut::tested(table, divider, table.in_use(*root)?))
            }
            _ => None,
        }
    }

    /// Whether this is a cut that was taken before order 4.
    pub fn was_taken(&self, lent: &Lent) -> bool {
        match (lent.table(), self) {
            (Ok(table), Call::Cut { divider, inside, outside, root }) => {
                cut::was_taken(table, *divider, kept(*inside, *outside), *root)
            }
            _ => false,
        }
    }
}

/// As the crate has it.
fn lent(divider: &Hyperplane) -> spoonvelvet::Hyperplane {
    spoonvelvet::Hyperplane { normal: divider.normal, distance: divider.distance }
}

fn kept(inside: u32, outside: u32) -> Kept {
    Kept { inside: inside != 0, outside: outside != 0 }
}

fn output_outcome(output: Output) -> String {
    match output {
        Output::Flush => "flush".into(),
        Output::NonFlush { inside, outside, intersection } => {
            let places = [(inside, "inside"), (outside, "outside"), (intersection, "intersection")];
            places.map(|(place, name)| place.map_or("-", |_| name)).join(" ")
        }
    }
}

/// Bit 8 of a reply.
fn is_set(word: u64) -> bool {
    word >> 8 & 1 == 1
}

fn done_word(reply: Result<(), Refusal>) -> u64 {
    reply.map_or_else(u64::from, |()| 0)
}

/// Bits 0 to 7 the number, above them the size.
fn list_word(reply: Result<usize, Refusal>) -> u64 {
    reply.map_or_else(u64::from, |size| (size as u64) << 8)
}

/// Bits 0 to 7 the number, bit 8 the answer.
fn facet_word(reply: Result<bool, Refusal>) -> u64 {
    reply.map_or_else(u64::from, |has| u64::from(has) << 8)
}

/// Bits 0 to 7 the number; bit 8 for flush; bit 9 for a warning; from 16, 32 and 48 inside, outside and intersection.
fn cut_word(reply: Result<Answer, Refusal>) -> u64 {
    reply.map_or_else(u64::from, |answer| output_word(answer.output) | u64::from(answer.warning) << 9)
}

/// Bits 0 to 7 the number, above them how many answers are written: each in a word as a cut has it, at the front of the room.
fn cut_list_word((answers, refusal): (Vec<Answer>, Option<Refusal>), room: &mut [u64]) -> u64 {
    for (word, answer) in room.iter_mut().zip(&answers) {
        *word = cut_word(Ok(*answer));
    }
    refusal.map_or(0, u64::from) | (answers.len() as u64) << 8
}

/// Bits 0 to 7 the number, bits 8 and 9 the answer, from 16 on how many corners are tested.
fn touch_word(reply: Result<(Touch, usize), Refusal>) -> u64 {
    reply.map_or_else(u64::from, |(touch, tested)| (touch as u64) << 8 | (tested as u64) << 16)
}

fn output_word(output: Output) -> u64 {
    let place = |element: Option<u16>| u64::from(element.unwrap_or(raw::NONE));
    match output {
        Output::Flush => 1 << 8,
        Output::NonFlush { inside, outside, intersection } => {
            place(inside) << 16 | place(outside) << 32 | place(intersection) << 48
        }
    }
}

/// What the number of a cut's reply says.
pub fn cut_reply(word: u64) -> Result<Answer, Refusal> {
    match word as u8 {
        0 => Ok(Answer { output: output(word), warning: is_warning(word) }),
        number => Err(number),
    }
}

fn output(word: u64) -> Output {
    let place = |shift: u32| Some((word >> shift) as u16).filter(|&element| element != raw::NONE);
    if is_set(word) {
        return Output::Flush;
    }
    Output::NonFlush { inside: place(16), outside: place(32), intersection: place(48) }
}

/// Bit 9 of a cut's reply.
pub fn is_warning(word: u64) -> bool {
    word >> 9 & 1 == 1
}
