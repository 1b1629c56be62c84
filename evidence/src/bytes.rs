//! Calls as bytes, for an engine in another process: each with what it was lent before, and what the archive replied and left.
//!
//! Little-endian, floats by their bits, lengths in brackets:
//!
//! - a call: the exported name's length (1) and the name; memory; how many arguments (1), and each; reply (8); memory; bytes
//! - memory: 0 where it is the memory before it, else 1 and four slices, each its length (4) and its entries
//! - an argument: `n` and a number (4), `f` and a float (8), `w` and words, `b` and bytes, `d` and floats, or `a` and answers or areas
//! - words, floats, answers, areas: their length (4) and each of them (2, 8, 8, 8)
//! - bytes: their length (4) and the bytes; those at the end are the room for a list, a file, answers or areas as it was left, or none

use crate::call::{Call, Room};
use crate::model::floats::Hyperplane;
use crate::model::memory::Memory;
use std::io::{Result, Write};

/// What a call is lent, before it or after it.
pub struct Lent<'a> {
    pub memory: &'a Memory,
    pub room: &'a Room,
}

pub struct Calls<W: Write> {
    out: W,
    stands: Option<Memory>,
}

impl<W: Write> Calls<W> {
    pub fn new(out: W) -> Self {
        Self { out, stands: None }
    }

    pub fn call(&mut self, call: &Call, before: Lent, reply: u64, after: Lent) -> Result<()> {
        let name = call.exported();
        self.out.write_all(&[name.len() as u8])?;
        self.out.write_all(name.as_bytes())?;
        self.memory(before.memory)?;
        self.arguments(call, before.room)?;
        self.out.write_all(&reply.to_le_bytes())?;
        self.memory(after.memory)?;
        self.bytes(&after.room.bytes())
    }

    pub fn end(&mut self) -> Result<()> {
        self.out.flush()
    }

    fn memory(&mut self, memory: &Memory) -> Result<()> {
        if self.stands.as_ref().is_some_and(|stands| stands.is_same(memory)) {
            return self.out.write_all(&[0]);
        }
        self.out.write_all(&[1])?;
        self.words(&memory.counts)?;
        self.floats(&memory.points)?;
        self.floats(&memory.planes)?;
        self.words(&memory.elements)?;
        self.stands = Some(memory.clone());
        Ok(())
    }

    /// In the order of `bindings/c/desk.h`.
    fn arguments(&mut self, call: &Call, room: &Room) -> Result<()> {
        match call {
            Call::IsSound => self.out.write_all(&[0]),
            Call::Cube { dimension, radius } => {
                self.out.write_all(&[2])?;
                self.number(*dimension)?;
                self.float(*radius)
            }
            Call::Cut { divider, inside, outside, root } => {
                self.out.write_all(&[8])?;
                self.divider(divider)?;
                [*inside, *outside, *root].into_iter().try_for_each(|n| self.number(n))
            }
            Call::SubElements { root } | Call::VertexSet { root } | Call::EdgesInOrder { root } => {
                self.out.write_all(&[2])?;
                self.number(*root)?;
                self.slice(&room.list)
            }
            Call::WithRank { root, rank } => {
                self.out.write_all(&[3])?;
                self.number(*root)?;
                self.number(*rank)?;
                self.slice(&room.list)
            }
            Call::GreatestCommon { roots } => {
                self.out.write_all(&[2])?;
                self.slice(roots)?;
                self.slice(&room.list)
            }
            Call::PrimordialFacet { root } => {
                self.out.write_all(&[1])?;
                self.number(*root)
            }
            Call::CutAll { list } => {
                self.out.write_all(b"\x04d")?;
                self.floats(&list.dividers)?;
                self.out.write_all(b"b")?;
                self.bytes(&list.kept)?;
                self.slice(&list.roots)?;
                self.out.write_all(b"a")?;
                self.answers(&room.answers)
            }
            Call::Touch { divider, root } => {
                self.out.write_all(&[6])?;
                self.divider(divider)?;
                self.number(*root)
            }
            Call::Areas { pieces } => {
                self.out.write_all(&[2])?;
                self.slice(pieces)?;
                self.out.write_all(b"a")?;
                self.areas(&room.areas)
            }
            Call::Stl { root } => {
                self.out.write_all(&[2])?;
                self.number(*root)?;
                self.out.write_all(b"b")?;
                self.bytes(&room.file)
            }
            Call::Save => self.file(&room.file),
            Call::Open { file } => self.file(file),
        }
    }

    fn divider(&mut self, divider: &Hyperplane) -> Result<()> {
        divider.normal.iter().try_for_each(|x| self.float(*x))?;
        self.float(divider.distance)
    }

    /// The only argument.
    fn file(&mut self, file: &[u8]) -> Result<()> {
        self.out.write_all(&[1])?;
        self.out.write_all(b"b")?;
        self.bytes(file)
    }

    fn number(&mut self, n: u32) -> Result<()> {
        self.out.write_all(b"n")?;
        self.out.write_all(&n.to_le_bytes())
    }

    fn float(&mut self, x: f64) -> Result<()> {
        self.out.write_all(b"f")?;
        self.out.write_all(&x.to_le_bytes())
    }

    fn slice(&mut self, words: &[u16]) -> Result<()> {
        self.out.write_all(b"w")?;
        self.words(words)
    }

    fn words(&mut self, words: &[u16]) -> Result<()> {
        self.out.write_all(&(words.len() as u32).to_le_bytes())?;
        self.out.write_all(&words.iter().flat_map(|word| word.to_le_bytes()).collect::<Vec<_>>())
    }

    fn bytes(&mut self, bytes: &[u8]) -> Result<()> {
        self.out.write_all(&(bytes.len() as u32).to_le_bytes())?;
        self.out.write_all(bytes)
    }

    fn answers(&mut self, answers: &[u64]) -> Result<()> {
        self.out.write_all(&(answers.len() as u32).to_le_bytes())?;
        self.out.write_all(&answers.iter().flat_map(|word| word.to_le_bytes()).collect::<Vec<_>>())
    }

    fn areas(&mut self, areas: &[i64]) -> Result<()> {
        self.out.write_all(&(areas.len() as u32).to_le_bytes())?;
        self.out.write_all(&areas.iter().flat_map(|number| number.to_le_bytes()).collect::<Vec<_>>())
    }

    fn floats(&mut self, floats: &[f64]) -> Result<()> {
        self.out.write_all(&(floats.len() as u32).to_le_bytes())?;
        self.out.write_all(&floats.iter().flat_map(|x| x.to_le_bytes()).collect::<Vec<_>>())
    }
}
