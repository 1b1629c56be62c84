//! The rows of a table, what is handed to it and what it gives, and the same words for refusals.

use spoonvelvet::PolytopeFate::{Keep, Remove};
use spoonvelvet::{raw, Counts, ElementCutOutput, ElementId, Hyperplane, HyperplaneId, Refused, Slices, Table, VertexId};

const SQUARE: ElementId = ElementId(8);

fn square() -> Table {
    Table::with_primordial_cube_radius(2, 1.0).unwrap()
}

fn at_x(distance: f64) -> Hyperplane {
    Hyperplane::new(&[1.0], distance).unwrap()
}

#[test]
fn elements() {
    let mut table = square();
    let ranks: Vec<_> = (0..9).map(|n| table.rank_of(ElementId(n)).unwrap()).collect();
    assert_eq!(ranks, [0, 0, 1, 0, 0, 1, 1, 1, 2]);
    let vertices: Vec<_> = (0..5).map(|n| table.vertex_of(ElementId(n)).unwrap()).collect();
    assert_eq!(vertices, [Some(0), Some(1), None, Some(2), Some(3)].map(|n| n.map(VertexId)));
    assert_eq!(table.boundary_of(SQUARE).unwrap(), [2, 5, 6, 7].map(ElementId));
    assert_eq!(table.boundary_of(ElementId(4)).unwrap(), []);
    let planes: Vec<_> = [2, 7, 8, 0].map(|n| table.hyperplane_of(ElementId(n)).unwrap()).to_vec();
    assert_eq!(planes, [Some(0), Some(3), None, None].map(|n| n.map(HyperplaneId)));
    assert_eq!([7, 8, 0].map(|n| table.is_primordial(ElementId(n)).unwrap()), [true, false, false]);
    table.slice(at_x(0.0), SQUARE).unwrap();
    assert_eq!(table.hyperplane_of(ElementId(15)), Ok(Some(HyperplaneId(4))));
    assert_eq!(table.is_primordial(ElementId(15)), Ok(false));
}

#[test]
fn vertices_and_hyperplanes() {
    let mut table = square();
    let points: Vec<_> = (0..4).map(|n| table.coordinates_of(VertexId(n)).unwrap().to_vec()).collect();
    assert_eq!(points, [[-1.0, -1.0], [1.0, -1.0], [-1.0, 1.0], [1.0, 1.0]]);
    assert_eq!(table.hyperplane_at(HyperplaneId(3)), Some(at_x(1.0)));
    for number in [4, 256, 0xffff] {
        assert_eq!(table.coordinates_of(VertexId(number)), None);
        assert_eq!(table.hyperplane_at(HyperplaneId(number)), None);
    }
    table.slice(at_x(0.25), SQUARE).unwrap();
    assert_eq!(table.coordinates_of(VertexId(5)), Some(&[0.25, 1.0][..]));
    assert_eq!(table.hyperplane_at(HyperplaneId(4)), Some(at_x(0.25)));
}

#[test]
fn numbers_not_in_use_are_refused() {
    let table = square();
    for element in [9, 512, 0xffff].map(ElementId) {
        assert_eq!(table.rank_of(element), Err(Refused::NOT_IN_USE));
        assert_eq!(table.boundary_of(element), Err(Refused::NOT_IN_USE));
        assert_eq!(table.vertex_of(element), Err(Refused::NOT_IN_USE));
        assert_eq!(table.hyperplane_of(element), Err(Refused::NOT_IN_USE));
        assert_eq!(table.is_primordial(element), Err(Refused::NOT_IN_USE));
    }
}

#[test]
fn a_fresh_cube_is_the_last_element() {
    for (ndim, root) in [(1, 2), (2, 8), (3, 26), (4, 80)] {
        let table = Table::with_primordial_cube_radius(ndim, 1.0).unwrap();
        assert_eq!((table.dimensions(), table.last_element()), (ndim, ElementId(root)));
        assert_eq!(table.rank_of(table.last_element()), Ok(ndim));
    }
}

#[test]
fn no_number_is_cut_to_another() {
    assert_eq!(Table::with_primordial_cube_radius(258, 1.0), Err(Refused::DIMENSION));
    let table = square();
    assert_eq!(table.subelements_with_rank(SQUARE, 257), Ok(vec![]));
    let Slices { counts, points, planes, elements } = table.slices();
    for root in [9, 264, 65_544, u32::MAX] {
        assert_eq!(raw::has_primordial_facet(counts, points, planes, elements, root), 4);
    }
}

#[test]
fn room_left_and_counts_fill_the_room() {
    let mut table = square();
    table.slice(at_x(0.0), SQUARE).unwrap();
    assert_eq!(table.counts(), Counts { elements: 18, vertices: 6, hyperplanes: 5 });
    assert_eq!(table.room_left(), Counts { elements: 494, vertices: 250, hyperplanes: 59 });
    assert_eq!(format!("{table:?}"), "Table { dimensions: 2, counts: Counts { elements: 18, vertices: 6, hyperplanes: 5 }, .. }");
}

#[test]
fn refusals_are_shown_with_their_words() {
    assert_eq!(Refused::BOUNDARY_FULL.to_string(), "refused 11: a boundary would have more than 32 elements");
    assert_eq!(format!("{:?}", Refused(12)), "Refused(12: the room for the list or the file is too short)");
    assert_eq!(Refused(14).words(), "no refusal has this number");
}

#[test]
fn slices_there_and_back() {
    let mut table = square();
    table.slice(at_x(0.0), SQUARE).unwrap();
    assert_eq!(Table::from_slices(table.slices()), Ok(table.clone()));
    let slices = table.slices();
    let shorter = Slices { points: &slices.points[1..], ..slices };
    assert_eq!(Table::from_slices(shorter), Err(Refused::NOT_SOUND));
    let mut damaged = slices.points.to_vec();
    damaged[1023] = -0.0;
    assert_eq!(Table::from_slices(Slices { points: &damaged, ..slices }), Err(Refused::NOT_SOUND));
}

#[test]
fn a_table_without_elements_has_no_last_one() {
    let table = Table::with_primordial_cube_radius(1, 1.0).unwrap();
    let Slices { points, planes, elements, .. } = table.slices();
    let zeros = (vec![0.0; points.len()], vec![0.0; planes.len()], vec![0; elements.len()]);
    let empty = Table::from_slices(Slices { counts: &[1, 0, 0, 0], points: &zeros.0, planes: &zeros.1, elements: &zeros.2 });
    let empty = empty.unwrap();
    assert_eq!(empty.rank_of(empty.last_element()), Err(Refused::NOT_IN_USE));
}

#[test]
fn past_the_dimension_only_plus_zero_is_taken() {
    let negative = Hyperplane { normal: [1.0, 0.0, -0.0, 0.0], distance: 0.0 };
    assert_eq!(square().slice(negative, SQUARE), Err(Refused::DIVIDER));
    let inside = |divider: Hyperplane| {
        let mut table = square();
        let answer = table.carve(divider, SQUARE).unwrap();
        let ElementCutOutput::NonFlush { inside: Some(inside), .. } = answer.output else { panic!("{answer:?}") };
        table.vertex_set(inside).unwrap()
    };
    assert_eq!(inside(at_x(0.5)), [0, 2, 4, 5].map(VertexId));
    assert_eq!(inside(at_x(0.5).flipped()), [1, 3, 4, 5].map(VertexId));
}

#[test]
#[allow(clippy::approx_constant)] // how many digits it takes is what is asked
fn how_exact_a_unit_normal_is() {
    let oblique = |x: f64| Hyperplane::new(&[x, x], 0.0).unwrap();
    assert_eq!(square().slice(oblique(0.7071), SQUARE), Err(Refused::DIVIDER));
    assert!(square().slice(oblique(0.707107), SQUARE).is_ok());
    assert!(square().slice(oblique(0.5_f64.sqrt()), SQUARE).is_ok());
}

#[test]
fn the_two_answers_that_give_a_removed_side() {
    let vertex = square().cut(at_x(0.0), Remove, Keep, ElementId(0)).unwrap();
    assert_eq!(vertex.output, ElementCutOutput::NonFlush { inside: Some(ElementId(0)), outside: None, intersection: None });
    let infinite = square().cut(at_x(f64::NEG_INFINITY), Remove, Remove, SQUARE).unwrap();
    assert_eq!(infinite.output, ElementCutOutput::NonFlush { inside: None, outside: Some(SQUARE), intersection: None });
}
