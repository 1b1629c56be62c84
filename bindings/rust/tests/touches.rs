//! Whether a plane touches a piece: document 02, order 6.

use spoonvelvet::{raw, ElementId, Hyperplane, Refused, Slices, Table, Touch, Touched};

const T: f64 = 1.0 / 1_048_576.0;
const SQUARE: ElementId = ElementId(8);

fn square() -> Table {
    Table::with_primordial_cube_radius(2, 1.0).unwrap()
}

fn at_x(distance: f64) -> Hyperplane {
    Hyperplane::new(&[1.0], distance).unwrap()
}

fn touched(divider: Hyperplane, root: ElementId) -> (Touch, u32) {
    let Touched { answer, tested } = square().touch(divider, root).unwrap();
    (answer, tested)
}

#[test]
fn the_four_answers() {
    assert_eq!(touched(at_x(0.0), SQUARE), (Touch::Both, 2));
    assert_eq!(touched(at_x(1.0), SQUARE), (Touch::InsideOrOn, 4));
    assert_eq!(touched(at_x(2.0), SQUARE), (Touch::InsideOrOn, 4));
    assert_eq!(touched(at_x(-1.0), SQUARE), (Touch::OutsideOrOn, 4));
    assert_eq!(touched(at_x(1.0), ElementId(7)), (Touch::AllOn, 2));
}

/// The corners are (-1, -1), (1, -1), (-1, 1) and (1, 1), in this order.
#[test]
fn corners_are_tested_up_to_the_first_at_which_both_were_met() {
    assert_eq!(touched(Hyperplane::new(&[0.0, 1.0], 0.0).unwrap(), SQUARE), (Touch::Both, 3));
    assert_eq!(touched(Hyperplane::new(&[0.6, 0.8], 1.0).unwrap(), SQUARE), (Touch::Both, 4));
    assert_eq!(touched(Hyperplane::new(&[-0.6, 0.8], 0.2).unwrap(), SQUARE), (Touch::Both, 3)); // the first and the last are on it
}

#[test]
fn a_corner_is_one() {
    assert_eq!(touched(at_x(0.0), ElementId(0)), (Touch::InsideOrOn, 1));
    assert_eq!(touched(at_x(-1.0), ElementId(0)), (Touch::AllOn, 1));
    assert_eq!(touched(at_x(0.0), ElementId(4)), (Touch::OutsideOrOn, 1));
}

#[test]
fn an_infinite_distance_tests_none() {
    for root in [SQUARE, ElementId(7), ElementId(0)] {
        assert_eq!(touched(at_x(f64::INFINITY), root), (Touch::InsideOrOn, 0));
        assert_eq!(touched(at_x(f64::NEG_INFINITY), root), (Touch::OutsideOrOn, 0));
    }
}

#[test]
fn within_t_is_on() {
    let next = |x: f64| f64::from_bits(x.to_bits() + 1);
    let mut table = square();
    table.slice(at_x(0.0), SQUARE).unwrap();
    let answer = |distance| table.touch(at_x(distance), ElementId(15)).unwrap().answer; // its corners are at x = 0
    assert_eq!([T, -T].map(answer), [Touch::AllOn; 2]);
    assert_eq!([next(T), next(-T)].map(answer), [Touch::InsideOrOn, Touch::OutsideOrOn]);
}

#[test]
fn it_is_as_the_vertex_set_has_it_and_nothing_is_added() {
    let mut table = Table::with_primordial_cube_radius(3, 1.0).unwrap();
    for (normal, distance) in [([0.6, 0.8, 0.0], 0.5), ([0.0, 0.6, -0.8], 0.1), ([0.36, 0.48, 0.8], 0.7)] {
        table.slice(Hyperplane::new(&normal, distance).unwrap(), ElementId(26)).unwrap();
    }
    let before = table.clone();
    for root in (0..table.counts().elements).map(ElementId) {
        for divider in [[1.0, 0.0, 0.0], [0.6, 0.8, 0.0], [0.36, -0.48, 0.8]].map(|n| Hyperplane::new(&n, 0.5).unwrap()) {
            let corners = table.vertex_set(root).unwrap();
            let s = |n: &[f64]| n.iter().zip(divider.normal).fold(0.0, |sum, (x, n)| sum + n * x) - divider.distance;
            let sides: Vec<f64> = corners.iter().map(|&v| s(table.coordinates_of(v).unwrap())).collect();
            let [inside, outside] = [sides.iter().position(|&s| s < -T), sides.iter().position(|&s| s > T)];
            let wanted = match (inside, outside) {
                (None, None) => (Touch::AllOn, corners.len()),
                (Some(_), None) => (Touch::InsideOrOn, corners.len()),
                (None, Some(_)) => (Touch::OutsideOrOn, corners.len()),
                (Some(i), Some(o)) => (Touch::Both, i.max(o) + 1),
            };
            let Touched { answer, tested } = table.touch(divider, root).unwrap();
            assert_eq!((answer, tested as usize), wanted);
        }
    }
    assert_eq!(table, before);
}

#[test]
fn refusals_in_the_old_order() {
    assert_eq!(square().touch(at_x(f64::NAN), ElementId(9)), Err(Refused::NOT_IN_USE));
    assert_eq!(square().touch(at_x(f64::INFINITY), ElementId(9)), Err(Refused::NOT_IN_USE));
    assert_eq!(square().touch(at_x(f64::NAN), SQUARE), Err(Refused::DIVIDER));
    assert_eq!(square().touch(at_x(262_145.0), SQUARE), Err(Refused::DIVIDER));
    let short = Hyperplane { normal: [0.5, 0.0, 0.0, 0.0], distance: f64::INFINITY };
    assert_eq!(square().touch(short, SQUARE), Err(Refused::DIVIDER));
    let table = square();
    let Slices { points, planes, elements, .. } = table.slices();
    assert_eq!(raw::touch(&[5, 9, 4, 4], points, planes, elements, at_x(f64::NAN), 9), 3);
    assert_eq!(raw::touch(&[2, 9, 4, 4], points, planes, elements, at_x(0.0), 65_544), 4);
}
