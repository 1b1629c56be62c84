//! `damaged`: three files, each byte of them made every byte that it can be, one at a time. The engine and the model have to reply the
//! same and leave the same memory, and what is taken has to be saved as the very bytes that it was opened from.

use evidence::opened;
use evidence::seeded::{is_met, say};
use spoonvelvet::{Hyperplane, Refused, Table};
use std::collections::BTreeMap;
use std::process::ExitCode;

const NAMES: [&str; 3] = ["a line", "a square", "a cube"];

fn main() -> ExitCode {
    let all = NAMES.iter().zip(1..).map(|(name, ndim)| damage(name, &in_two(ndim).expect("such a cube is cut").save()));
    if all.fold(true, |all, one| all & one) {
        ExitCode::SUCCESS
    } else {
        ExitCode::FAILURE
    }
}

/// The cube of that dimension, cut in two at x = 0.25.
fn in_two(ndim: u32) -> Result<Table, Refused> {
    let mut table = Table::with_primordial_cube_radius(ndim, 1.0)?;
    table.slice(Hyperplane::new(&[1.0], 0.25)?, table.last_element())?;
    Ok(table)
}

/// Whether no file made a difference, and each number was met.
fn damage(name: &str, file: &[u8]) -> bool {
    let (lent, mut file, mut met) = (opened::old_memory(), file.to_vec(), BTreeMap::<u8, u64>::new());
    say(&format!("{name} cut in two, {} bytes, each in 256 ways", file.len()));
    for place in 0..file.len() {
        let byte = file[place];
        for other in 0..=255 {
            file[place] = other;
            match opened::number(&file, &lent) {
                Ok(number) => *met.entry(number).or_default() += 1,
                Err(difference) => {
                    say(&format!("byte {place}: {difference}"));
                    return false;
                }
            }
        }
        file[place] = byte;
    }
    let numbers = [(0, "taken"), (3, "refused 3"), (13, "refused 13")];
    numbers.iter().fold(true, |all, (number, name)| all & is_met(met.get(number), name))
}
