//! The marked examples of document 01, and the close calls of document 02, order 2, on the model alone.

mod common;

use common::{at_x, cube, parts, BOTH, FLUSH, INSIDE, OUTSIDE};
use evidence::close_calls::{past, place};
use evidence::model::cut::{cut, Answer, Kept, Output};
use evidence::model::floats::{is_close_call, side, Hyperplane, Side, CLOSE, TOLERANCE};
use evidence::model::memory::Lent;
use evidence::model::questions::{edges_in_order, greatest_common_subelements};

const NEITHER: Kept = Kept { inside: false, outside: false };

/// The answer, and the counts of elements, vertices and hyperplanes after it.
fn counted(mut lent: Lent, divider: Hyperplane, kept: Kept, root: u32) -> (Answer, Vec<u16>) {
    let answer = cut(&mut lent, divider, kept, root).unwrap();
    (answer, lent.memory().counts[1..].to_vec())
}

#[test]
fn m1_to_m4_m7_and_m8() {
    assert_eq!(counted(cube(2), at_x(0.0), BOTH, 8), (parts(Some(16), Some(17), Some(15)), vec![18, 6, 5]));
    assert_eq!(counted(cube(2), at_x(0.0), NEITHER, 8), (parts(None, None, Some(11)), vec![12, 6, 5]));
    assert_eq!(counted(cube(2), at_x(1.0), INSIDE, 8), (parts(Some(8), None, Some(7)), vec![9, 4, 5]));
    assert_eq!(counted(cube(2), at_x(f64::INFINITY), NEITHER, 8), (parts(Some(8), None, None), vec![9, 4, 4]));
    let slanted = Hyperplane { normal: [0.6, 0.8, 0.0, 0.0], distance: 1.4 };
    assert_eq!(counted(cube(2), slanted, BOTH, 8).0, parts(Some(8), None, None));
    assert_eq!(counted(cube(1), at_x(0.0), BOTH, 2), (parts(Some(4), Some(5), Some(3)), vec![6, 3, 1]));
}

#[test]
fn m5_and_m6() {
    assert_eq!(counted(cube(2), at_x(0.0), OUTSIDE, 0).0, parts(Some(0), None, None));
    assert_eq!(counted(cube(2), at_x(1.0), BOTH, 7).0, FLUSH);
}

#[test]
fn m9_and_m10() {
    let (lent, mut room) = (cube(2), [0; 8]);
    assert_eq!(greatest_common_subelements(&lent, &[2, 6], &mut room), Ok(0));
    assert_eq!(greatest_common_subelements(&lent, &[0], &mut room), Ok(0));
    assert_eq!((greatest_common_subelements(&lent, &[8], &mut room), room[0]), (Ok(1), 8));
    assert_eq!((edges_in_order(&lent, 8, &mut room), room), (Ok(8), [0, 1, 1, 3, 3, 2, 2, 0]));
}

#[test]
fn m11() {
    assert_eq!(side(TOLERANCE), Side::On);
    assert_eq!(side(past(TOLERANCE)), Side::Outside);
}

#[test]
fn close_calls_end_at_t_and_at_16_t() {
    let ends = [TOLERANCE, past(TOLERANCE), CLOSE, past(CLOSE)];
    assert_eq!(ends.map(is_close_call), [false, true, true, false]);
    assert_eq!(ends.map(|s| is_close_call(-s)), [false, true, true, false]);
    assert_eq!([0.0, f64::NAN, f64::INFINITY, 1.0].map(is_close_call), [false; 4]);
    assert_eq!(ends.map(place), ["T", "the float past T", "16 T", "the float past 16 T"].map(Some));
    assert_eq!([-TOLERANCE, -past(CLOSE), 1.0].map(place), [Some("-T"), Some("the float past -16 T"), None]);
}

#[test]
fn a_cut_warns_where_a_corner_of_its_root_is_a_close_call() {
    for nudge in [CLOSE / 2.0, -CLOSE / 2.0] {
        let past_a_corner = Hyperplane { normal: [0.6, 0.8, 0.0, 0.0], distance: 1.4 + nudge };
        let warns = |root: &u32| cut(&mut cube(2), past_a_corner, NEITHER, *root).unwrap().warning;
        assert_eq!((0..9).filter(warns).collect::<Vec<_>>(), [4, 5, 7, 8]);
    }
    let tilted = Hyperplane { normal: [1.0, TOLERANCE, TOLERANCE, 0.0], distance: 1.0 - TOLERANCE };
    assert_eq!(cut(&mut cube(3), tilted, BOTH, 25), Ok(Answer { output: Output::Flush, warning: true }));
    assert_eq!(cut(&mut cube(3), at_x(1.0), BOTH, 25), Ok(FLUSH));
}
