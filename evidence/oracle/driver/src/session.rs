//! The records of a session, and a line for each.

use crate::desk::{CutRecord, Desk, Divider, refused};
use hypershape::flat::{ElementCutOutput, ElementId};

#[derive(Default)]
pub struct Session {
    pub lines: Vec<String>,
    pub desk: Option<Desk>,
    pub refused: usize,
    pub is_bad: bool,
    rules: bool,
}

pub fn run(bytes: &[u8], rules: bool) -> Session {
    let mut session = Session { rules, ..Session::default() };
    let mut at = 0;
    while at < bytes.len() {
        match session.record(&bytes[at..]) {
            Some(length) => at += length,
            None => {
                session.lines.push(format!("bad {at}"));
                session.is_bad = true;
                break;
            }
        }
    }
    session
}

impl Session {
    /// The length of the first record, or none for a bad one.
    fn record(&mut self, bytes: &[u8]) -> Option<usize> {
        match bytes.get(..2)? {
            b"CU" => self.cube(bytes.get(..11)?),
            b"CT" => self.cut(bytes),
            _ => None,
        }
    }

    fn cube(&mut self, bytes: &[u8]) -> Option<usize> {
        match Desk::new(bytes[2], float(&bytes[3..]), self.rules) {
            Ok(desk) => {
                self.lines.push(format!("cube {}", desk.counts()));
                self.desk = Some(desk);
            }
            Err(error) => self.refuse(&error),
        }
        Some(bytes.len())
    }

    fn cut(&mut self, bytes: &[u8]) -> Option<usize> {
        let desk = self.desk.as_mut()?;
        let length = 5 + 8 * (usize::from(desk.dimensions) + 1);
        let bytes = bytes.get(..length).filter(|bytes| bytes[2] <= 3)?;
        let mut normal: Vec<f64> = bytes[5..].chunks(8).map(float).collect();
        let distance = normal.pop()?;
        let divider = Divider { normal, distance };
        let root = u16::from_le_bytes([bytes[3], bytes[4]]);
        match desk.cut(CutRecord { kept: bytes[2], root, divider }) {
            Ok(answer) => self.lines.push(format!("{} {}", shown(&answer), desk.counts())),
            Err(error) => self.refuse(&error),
        }
        Some(length)
    }

    fn refuse(&mut self, error: &eyre::Report) {
        self.refused += 1;
        self.lines.push(refused(error, self.rules));
    }
}

fn float(bytes: &[u8]) -> f64 {
    f64::from_le_bytes(bytes[..8].try_into().expect("eight bytes"))
}

fn shown(answer: &ElementCutOutput) -> String {
    let place = |element: &Option<ElementId>| element.map_or("-".into(), |e| e.to_string());
    match answer {
        ElementCutOutput::Flush => "flush".into(),
        ElementCutOutput::NonFlush { inside, outside, intersection } => {
            format!("cut {} {} {}", place(inside), place(outside), place(intersection))
        }
    }
}
