//! docs/FILE.md with the model and the engine: the file shown there is the one of its table, and each change to it gives the number
//! beside it.

use evidence::model::cube::with_primordial_cube_radius;
use evidence::model::cut::{cut, Kept};
use evidence::model::files::{open, save};
use evidence::model::floats::Hyperplane;
use evidence::model::memory::{Lent, Memory};
use evidence::opened;

const PAGE: &str = include_str!("../../docs/FILE.md");

/// The line from -1 to 1, cut in two at 0.
fn line() -> Lent {
    let mut lent = Lent::new(Memory::clear());
    with_primordial_cube_radius(&mut lent, 1, 1.0).unwrap();
    let divider = Hyperplane { normal: [1.0, 0.0, 0.0, 0.0], distance: 0.0 };
    cut(&mut lent, divider, Kept { inside: true, outside: true }, 2).unwrap();
    lent
}

/// Two digits a byte.
fn bytes<'a>(words: impl Iterator<Item = &'a str>) -> Vec<u8> {
    words.map_while(|word| u8::from_str_radix(word, 16).ok().filter(|_| word.len() == 2)).collect()
}

/// The bytes of the block, which stand after the offset of each row.
fn shown() -> Vec<u8> {
    let block = PAGE.split("```").find_map(|block| block.strip_prefix("file\n")).unwrap();
    block.lines().flat_map(|row| bytes(row.split_whitespace().skip(1))).collect()
}

/// The file after a change in the page's words.
fn changed(mut file: Vec<u8>, change: &str) -> Vec<u8> {
    if let Some(length) = change.strip_prefix("only ") {
        file.truncate(length.parse().unwrap());
        return file;
    }
    for one in change.split(", ") {
        let (at, new) = one.strip_prefix("at ").and_then(|one| one.split_once(": ")).unwrap();
        let (at, new) = (at.parse::<usize>().unwrap(), bytes(new.split_whitespace()));
        file.resize(file.len().max(at + new.len()), 0);
        file[at..][..new.len()].copy_from_slice(&new);
    }
    file
}

/// Each change of the page's table with its number.
fn changes() -> Vec<(&'static str, u8)> {
    let row = |line: &'static str| {
        let mut cells = line.split('|').map(str::trim).skip(1);
        let change = cells.next()?.strip_prefix('`')?.strip_suffix('`')?;
        Some((change, cells.next()?.parse().ok()?))
    };
    PAGE.lines().filter_map(row).collect()
}

#[test]
fn the_file_shown_is_the_one_of_its_table() {
    let mut room = [0; 200];
    let size = save(&line(), &mut room).unwrap();
    assert_eq!(shown(), room[..size]);
    let mut lent = Lent::new(Memory::clear());
    open(&mut lent, &shown()).unwrap();
    assert!(lent.memory().is_same(line().memory()));
}

#[test]
fn each_change_gives_its_number() {
    let changes = changes();
    assert!(changes.len() > 15 && [0, 3, 13].iter().all(|number| changes.iter().any(|row| row.1 == *number)));
    for (change, number) in changes {
        assert_eq!(opened::number(&changed(shown(), change), &opened::old_memory()), Ok(number), "{change}");
    }
}
