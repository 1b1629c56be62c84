//! A file opened by the engine and by the model, and saved by the engine where it is taken.

use crate::call::{Call, Room};
use crate::model::memory::{Lent, Memory, COUNTS, ELEMENTS, PLANES, POINTS};
use crate::model::Refusal;

/// A memory with something in every word, all of which a file that is taken replaces.
pub fn old_memory() -> Lent {
    Lent::new(Memory {
        counts: vec![7; COUNTS],
        points: vec![0.5; POINTS],
        planes: vec![-0.0; PLANES],
        elements: vec![7; ELEMENTS],
    })
}

/// The number, 0 for a file that is taken, where both reply it and leave the same memory, and where what is taken is saved as the
/// bytes that it was opened from. Otherwise the difference.
pub fn number(file: &[u8], lent: &Lent) -> Result<Refusal, String> {
    let (mut model, mut engine) = (lent.clone(), lent.memory().clone());
    let open = Call::Open { file: file.to_vec() };
    let by_model = open.by_model(&mut model, &mut Room::default());
    let by_engine = open.by_engine(&mut engine, &mut Room::default());
    if by_model != by_engine {
        return Err(format!("{file:02x?}\nreply by the model {by_model}, by the engine {by_engine}"));
    }
    if !engine.is_same(model.memory()) {
        let [model, engine] = [model.memory(), &engine].map(|memory| memory.shown());
        return Err(format!("{file:02x?}\nafter, by the model\n{model}\nafter, by the engine\n{engine}"));
    }
    if by_engine == 0 {
        let mut room = Room { file: vec![0; file.len()], ..Room::default() };
        let reply = Call::Save.by_engine(&mut engine, &mut room);
        if reply != (file.len() as u64) << 8 || room.file != file {
            return Err(format!("{file:02x?}\nis taken, and saved with reply {reply:#x} as\n{:02x?}", room.file));
        }
    }
    Ok(by_engine as Refusal)
}
