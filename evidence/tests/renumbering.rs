//! The slice of the square and its two carvings, on the model alone: the renumbering that is found, and others, each
//! refused at a line of the statement.

mod common;

use common::{at_x, cube, parts, BOTH, FLUSH, INSIDE, OUTSIDE};
use evidence::model::cut::{cut, Answer};
use evidence::model::memory::Lent;
use evidence::model::table::Table;
use evidence::renumbering::{check, corresponds, find, keeps_orders};

/// The square's elements.
const OLD: usize = 9;

/// For each element after the slice its number after the carvings.
const NUMBERS: [u16; 18] = [0, 1, 2, 3, 4, 5, 6, 7, 8, 9, 10, 15, 11, 12, 16, 13, 14, 17];

struct Square {
    slice: Lent,
    answer: Answer,
    carved: Lent,
    answers: [Answer; 2],
}

fn square() -> Square {
    let (mut slice, mut carved) = (cube(2), cube(2));
    let answer = cut(&mut slice, at_x(0.0), BOTH, 8).unwrap();
    let answers = [INSIDE, OUTSIDE].map(|kept| cut(&mut carved, at_x(0.0), kept, 8).unwrap());
    Square { slice, answer, carved, answers }
}

impl Square {
    fn tables(&self) -> [&Table; 2] {
        [&self.slice, &self.carved].map(|lent| lent.table().unwrap())
    }

    fn check(&self, f: &[u16]) -> Result<(), &'static str> {
        let [slice, carved] = self.tables();
        check(f, OLD, slice, carved)
    }
}

/// The numbers with two of them exchanged.
fn exchanged(a: usize, b: usize) -> [u16; 18] {
    let mut f = NUMBERS;
    f.swap(a, b);
    f
}

#[test]
fn it_is_found_and_holds() {
    let square = square();
    let [slice, carved] = square.tables();
    assert_eq!(find(OLD, slice, carved).as_deref(), Some(&NUMBERS[..]));
    assert_eq!(square.check(&NUMBERS), Ok(()));
    assert!(square.slice.memory().is_same_but_for_elements(square.carved.memory()));
    assert!(!keeps_orders(&NUMBERS, slice));
}

#[test]
fn the_answers_correspond() {
    let Square { answer, answers: [first, second], .. } = square();
    assert_eq!(answer, parts(Some(16), Some(17), Some(15)));
    assert_eq!([first, second], [parts(Some(14), None, Some(13)), parts(None, Some(17), Some(13))]);
    assert!(corresponds(&NUMBERS, answer, [first, second]));
    assert!(corresponds(&NUMBERS, FLUSH, [FLUSH; 2]));
}

#[test]
fn answers_swapped_or_not_renumbered_do_not() {
    let Square { answer, answers: [first, second], .. } = square();
    let same: Vec<u16> = (0..18).collect();
    assert!(!corresponds(&NUMBERS, answer, [second, first]));
    assert!(!corresponds(&same, answer, [first, second]));
    assert!(!corresponds(&NUMBERS, FLUSH, [first, second]));
    assert!(!corresponds(&NUMBERS, answer, [FLUSH; 2]));
}

#[test]
fn answers_with_other_warnings_do_not() {
    let Square { answer, answers: [first, second], .. } = square();
    let warned = |answer: Answer| Answer { warning: true, ..answer };
    assert!(corresponds(&NUMBERS, warned(answer), [first, second].map(warned)));
    assert!(!corresponds(&NUMBERS, warned(answer), [first, second]));
    assert!(!corresponds(&NUMBERS, answer, [warned(first), second]));
    assert!(!corresponds(&NUMBERS, FLUSH, [FLUSH, warned(FLUSH)]));
}

#[test]
fn one_that_is_not_onto_is_refused() {
    let mut f = NUMBERS;
    f[17] = f[16];
    assert_eq!(square().check(&f), Err("one to one and onto"));
    assert_eq!(square().check(&NUMBERS[..17]), Err("a number for each element"));
}

#[test]
fn one_that_moves_an_old_entry_is_refused() {
    assert_eq!(square().check(&exchanged(2, 5)), Err("old elements stay"));
    assert_eq!(square().check(&exchanged(8, 16)), Err("old elements stay"));
}

#[test]
fn appended_entries_that_take_old_numbers_are_refused() {
    let mut f = NUMBERS;
    f[16] = 8;
    assert_eq!(square().check(&f), Err("appended ones are appended ones"));
}

#[test]
fn other_elements_are_refused() {
    let same: Vec<u16> = (0..18).collect();
    assert_eq!(square().check(&same), Err("each element, renumbered"));
    assert_eq!(square().check(&exchanged(9, 10)), Err("each element, renumbered"));
    assert_eq!(square().check(&exchanged(16, 17)), Err("each element, renumbered"));
}
