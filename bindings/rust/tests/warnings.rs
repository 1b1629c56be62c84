//! Close calls, document 02, order 2: within 16 T of the plane and not on it, T being 2^-20.

use spoonvelvet::ElementCutOutput::{Flush, NonFlush};
use spoonvelvet::PolytopeFate::{Keep, Remove};
use spoonvelvet::{CutAnswer, ElementCutOutput, ElementId, Hyperplane, PolytopeFate, Refused, Table};

const T: f64 = 1.0 / 1_048_576.0;
const SQUARE: ElementId = ElementId(8);
/// Of a square cut at x = 0: its two corners lie as far from another such plane as that does from 0.
const EDGE: ElementId = ElementId(15);
const FATES: [[PolytopeFate; 2]; 4] = [[Keep, Keep], [Keep, Remove], [Remove, Keep], [Remove, Remove]];

fn square() -> Table {
    Table::with_primordial_cube_radius(2, 1.0).unwrap()
}

fn at_x(distance: f64) -> Hyperplane {
    Hyperplane::new(&[1.0], distance).unwrap()
}

/// Past the corner (1, 1) and no other.
fn past_a_corner(distance: f64) -> Hyperplane {
    Hyperplane::new(&[0.6, 0.8], 1.4 - distance).unwrap()
}

/// The next float, away from zero.
fn next(x: f64) -> f64 {
    f64::from_bits(x.to_bits() + 1)
}

fn of_the_edge(distance: f64) -> CutAnswer {
    let mut table = square();
    table.slice(at_x(0.0), SQUARE).unwrap();
    table.slice(at_x(distance), EDGE).unwrap()
}

fn warns(divider: Hyperplane, root: ElementId) -> bool {
    square().slice(divider, root).unwrap().warning
}

fn missed(inside: Option<ElementId>, outside: Option<ElementId>) -> ElementCutOutput {
    NonFlush { inside, outside, intersection: None }
}

#[test]
fn t_and_16_t_and_the_floats_next_to_them_on_both_sides() {
    for (side, output) in [(1.0, missed(Some(EDGE), None)), (-1.0, missed(None, Some(EDGE)))] {
        assert_eq!(of_the_edge(side * T), CutAnswer { output: Flush, warning: false });
        assert_eq!(of_the_edge(side * next(T)), CutAnswer { output, warning: true });
        assert_eq!(of_the_edge(side * 16.0 * T), CutAnswer { output, warning: true });
        assert_eq!(of_the_edge(side * next(16.0 * T)), CutAnswer { output, warning: false });
    }
}

#[test]
fn one_corner_is_enough_and_it_has_to_be_the_root_s() {
    for distance in [8.0 * T, -8.0 * T] {
        assert!(warns(past_a_corner(distance), SQUARE));
        assert!(warns(past_a_corner(distance), ElementId(7))); // the edge at x = 1
        assert!(warns(past_a_corner(distance), ElementId(4))); // the corner itself
        assert!(!warns(past_a_corner(distance), ElementId(2))); // the edge at y = -1
        assert!(!warns(past_a_corner(distance), ElementId(0)));
    }
    assert!(!warns(past_a_corner(0.0), SQUARE) && !warns(past_a_corner(32.0 * T), SQUARE) && !warns(at_x(0.0), SQUARE));
}

#[test]
fn whichever_sides_are_kept_and_again_later() {
    let mut table = square();
    for [inside, outside] in FATES {
        assert!(table.cut(past_a_corner(8.0 * T), inside, outside, SQUARE).unwrap().warning);
    }
    let first = table.slice(past_a_corner(8.0 * T), SQUARE);
    table.slice(at_x(0.0), SQUARE).unwrap();
    assert_eq!(table.slice(past_a_corner(8.0 * T), SQUARE), first);
}

/// Three corners of a face lie on the plane, and with them two edges; the fourth is 3 T away from it.
#[test]
fn a_flush_answer_may_come_with_a_warning() {
    let mut cube = Table::with_primordial_cube_radius(3, 1.0).unwrap();
    let (face, tilted) = (ElementId(25), Hyperplane::new(&[1.0, T, T], 1.0 - T).unwrap());
    for [inside, outside] in FATES {
        assert_eq!(cube.cut(tilted, inside, outside, face), Ok(CutAnswer { output: Flush, warning: true }));
    }
    assert_eq!(cube.slice(at_x(1.0), face), Ok(CutAnswer { output: Flush, warning: false }));
}

#[test]
fn no_warning_at_an_infinite_distance_nor_with_a_refusal() {
    assert_eq!(square().slice(at_x(f64::INFINITY), SQUARE), Ok(CutAnswer { output: missed(Some(SQUARE), None), warning: false }));
    assert_eq!(square().slice(at_x(f64::NEG_INFINITY), SQUARE), Ok(CutAnswer { output: missed(None, Some(SQUARE)), warning: false }));
    assert_eq!(square().slice(past_a_corner(8.0 * T), ElementId(9)), Err(Refused::NOT_IN_USE));
}
