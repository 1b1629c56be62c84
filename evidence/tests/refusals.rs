//! Where a slice is refused, so is one of its carvings, but not always by the same number: a solid of each kind, by the
//! engine. The slice adds the outside of a face before it comes to the next face, the carvings after all that is inside.

use evidence::carvings::{Outcome, Refusals, Trial};
use evidence::model::memory;
use evidence::random::Random;
use evidence::strange::fill;
use evidence::taken_apart::{crossed, long, missed, open, solid, triangle, turned, Ring};

/// How the slice is refused that takes two faces apart, and its carvings, where there is room for so many vertices and
/// elements.
fn refused(faces: [Ring; 2], vertices: usize, elements: usize) -> Refusals {
    let mut r = Random::new(1);
    let [first, second] = faces;
    let mut table = solid(&mut r, [first, second, missed(), missed()]);
    let (divider, root) = (table.hyperplanes[6], table.elements.len() as u16 - 1);
    fill(&mut r, &mut table, vertices, elements);
    match Trial::new(&memory::write(&table), divider, root).outcome() {
        Ok(Outcome::Refused(refusals)) => refusals,
        _ => panic!("it is taken"),
    }
}

#[test]
fn by_the_same_number_where_it_is_the_first_side() {
    assert_eq!(refused([crossed(), triangle()], 200, 200), (7, "first", 7));
    assert_eq!(refused([turned(long()), triangle()], 180, 200), (11, "first", 11));
    assert_eq!(refused([triangle(), triangle()], 1, 200), (8, "first", 8));
    assert_eq!(refused([triangle(), triangle()], 200, 1), (9, "first", 9));
}

#[test]
fn by_the_same_number_where_it_is_the_last_side() {
    assert_eq!(refused([triangle(), open()], 200, 200), (7, "second", 7));
    assert_eq!(refused([triangle(), long()], 180, 200), (11, "second", 11));
}

#[test]
fn the_outside_first_and_then_another_face() {
    assert_eq!(refused([open(), triangle()], 1, 200), (7, "first", 8));
    assert_eq!(refused([open(), triangle()], 200, 6), (7, "first", 9));
    assert_eq!(refused([open(), turned(long())], 180, 200), (7, "first", 11));
    assert_eq!(refused([long(), crossed()], 180, 200), (11, "first", 7));
    assert_eq!(refused([long(), triangle()], 2, 200), (11, "first", 8));
    assert_eq!(refused([long(), triangle()], 180, 8), (11, "first", 9));
}

#[test]
fn no_room_for_the_outside_first() {
    assert_eq!(refused([triangle(), crossed()], 200, 14), (9, "first", 7));
    assert_eq!(refused([triangle(), triangle()], 1, 2), (9, "first", 8));
    assert_eq!(refused([turned(long()), triangle()], 180, 6), (9, "first", 11));
}

#[test]
fn no_room_left_by_the_first_carving() {
    assert_eq!(refused([open(), triangle()], 200, 12), (7, "second", 9));
    assert_eq!(refused([long(), triangle()], 180, 13), (11, "second", 9));
}
