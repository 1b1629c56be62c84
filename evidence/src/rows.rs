//! The table that a session leaves, a line for each entry, floats by their bits: as the published Rust's driver prints it.

use crate::model::memory::{Memory, ELEMENT_WIDTH};
use spoonvelvet::raw::{self, NONE};
use spoonvelvet::Hyperplane;

/// The rows after these bytes, up to the first bad record.
pub fn after(bytes: &[u8]) -> Vec<String> {
    let (mut memory, mut stands, mut at) = (Memory::clear(), false, 0);
    while let Some(length) = record(&bytes[at..], &mut memory, &mut stands) {
        at += length;
    }
    rows(&memory)
}

/// The length of the first record, whose call is made; none for a bad one.
fn record(bytes: &[u8], memory: &mut Memory, stands: &mut bool) -> Option<usize> {
    let Memory { counts: c, points: p, planes: h, elements: e } = memory;
    match bytes.get(..2)? {
        b"CU" => {
            let bytes = bytes.get(..11)?;
            *stands |= raw::cube(c, p, h, e, bytes[2].into(), floats(&bytes[3..])[0]) == 0;
            Some(bytes.len())
        }
        b"CT" if *stands => {
            let length = 5 + 8 * (usize::from(c[0]) + 1);
            let bytes = bytes.get(..length).filter(|bytes| bytes[2] <= 3)?;
            let mut components = floats(&bytes[5..]);
            let distance = components.pop()?;
            components.resize(4, 0.0);
            let divider = Hyperplane { normal: components.try_into().ok()?, distance };
            let root = u16::from_le_bytes([bytes[3], bytes[4]]).into();
            raw::cut(c, p, h, e, divider, (bytes[2] & 1).into(), (bytes[2] & 2).into(), root);
            Some(length)
        }
        _ => None,
    }
}

fn floats(bytes: &[u8]) -> Vec<f64> {
    let float = |eight: &[u8]| f64::from_le_bytes(eight.try_into().expect("eight bytes"));
    bytes.chunks_exact(8).map(float).collect()
}

fn rows(memory: &Memory) -> Vec<String> {
    let [dimension, elements, vertices, hyperplanes] = [0, 1, 2, 3].map(|i| usize::from(memory.counts[i]));
    let bits = |floats: &[f64]| floats.iter().map(|x| format!("{:016x}", x.to_bits())).collect::<Vec<_>>().join(" ");
    let point = |(i, row): (usize, &[f64])| format!("v {i} {}", bits(&row[..dimension]));
    let plane = |(i, row): (usize, &[f64])| format!("h {i} {} {}", bits(&row[..dimension]), bits(&row[4..]));
    let points = memory.points.chunks(4).take(vertices).enumerate().map(point);
    let planes = memory.planes.chunks(5).take(hyperplanes).enumerate().map(plane);
    let elements = memory.elements.chunks(ELEMENT_WIDTH).take(elements).enumerate().map(element);
    points.chain(planes).chain(elements).collect()
}

fn element((i, row): (usize, &[u16])) -> String {
    let plane = if row[2] == NONE { "-".into() } else { row[2].to_string() };
    let boundary = row[4..][..row[3].into()].iter().map(u16::to_string).collect::<Vec<_>>().join(" ");
    format!("e {i} {} {} {plane} {boundary}", row[0], row[1])
}
