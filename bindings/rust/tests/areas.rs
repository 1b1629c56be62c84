//! The area sheet in exact numbers: document 02, order 13.

use spoonvelvet::{raw, AreaSheet, ElementCutOutput, ElementId, Hyperplane, Refused, Slices, Table};

const SQUARE: ElementId = ElementId(8);

fn square(radius: f64) -> Table {
    Table::with_primordial_cube_radius(2, radius).unwrap()
}

fn at_x(distance: f64) -> Hyperplane {
    Hyperplane::new(&[1.0], distance).unwrap()
}

/// Inside and outside.
fn sliced(table: &mut Table, divider: Hyperplane, root: ElementId) -> [ElementId; 2] {
    match table.slice(divider, root).unwrap().output {
        ElementCutOutput::NonFlush { inside: Some(inside), outside: Some(outside), .. } => [inside, outside],
        other => panic!("{other:?}"),
    }
}

#[test]
fn a_square_and_its_parts() {
    let mut table = square(1.0);
    let [inside, outside] = sliced(&mut table, at_x(0.25), SQUARE);
    let sheet = table.areas(&[SQUARE, inside, outside, inside]).unwrap();
    let eighths = AreaSheet::IN_ONE / 8;
    assert_eq!(sheet, AreaSheet { twice_areas: vec![32 * eighths, -20 * eighths, 12 * eighths, -20 * eighths], sum_of_sizes: 84 * eighths });
}

/// By the walk that the engine gives, in whole units.
#[test]
fn it_is_the_sum_over_the_walk() {
    let mut table = square(65_536.0);
    let slanted = Hyperplane::new(&[0.6, 0.8], 0.5).unwrap();
    let [inside, outside] = sliced(&mut table, slanted, SQUARE);
    assert_eq!(table.areas(&[inside]), Err(Refused::OFF_GRID));
    let [left, right] = sliced(&mut table, at_x(-65_535.0 - 1023.0 / 1024.0), SQUARE);
    for piece in [SQUARE, left, right] {
        let units = |v| table.coordinates_of(v).unwrap().iter().map(|x| (x * 1024.0) as i128).collect::<Vec<_>>();
        let steps = table.edges_in_order(piece).unwrap();
        let twice: i128 = steps.iter().map(|&[a, b]| (units(a), units(b))).map(|(a, b)| a[0] * b[1] - b[0] * a[1]).sum();
        assert_eq!(table.areas(&[piece]).unwrap().twice_areas, [twice as i64]);
    }
    assert_eq!(table.areas(&[left]).unwrap().sum_of_sizes, 2 * 131_072 * 1024);
    assert_eq!(table.areas(&[SQUARE]).unwrap().sum_of_sizes, 1 << 55);
    assert_eq!(table.areas(&[outside, ElementId(600)]), Err(Refused::NOT_IN_USE));
}

#[test]
fn no_piece_sixteen_pieces_and_no_more() {
    let table = square(1.0);
    assert_eq!(table.areas(&[]), Ok(AreaSheet { twice_areas: vec![], sum_of_sizes: 0 }));
    let all = table.areas(&[SQUARE; raw::MOST_PIECES]).unwrap();
    assert_eq!((all.twice_areas.len(), all.sum_of_sizes), (16, 64 * AreaSheet::IN_ONE));
    assert_eq!(table.areas(&[ElementId(9); raw::MOST_PIECES + 1]), Err(Refused::LIST_LONG));
}

#[test]
fn two_dimensions_and_rank_2() {
    assert_eq!(square(1.0).areas(&[SQUARE, ElementId(7)]), Err(Refused::RANK));
    for (ndim, face) in [(1, 2), (3, 8), (4, 8)] {
        let table = Table::with_primordial_cube_radius(ndim, 1.0).unwrap();
        assert_eq!(table.areas(&[]), Err(Refused::RANK));
        assert_eq!(table.areas(&[ElementId(face)]), Err(Refused::RANK));
    }
}

#[test]
fn the_grid_is_of_1024ths_and_minus_zero_is_on_it() {
    let mut table = square(1.0);
    let mut sheet = |x| {
        let pieces = sliced(&mut table, at_x(x), SQUARE);
        table.areas(&pieces).map(|sheet| sheet.sum_of_sizes)
    };
    assert_eq!([1.0 / 1024.0, -0.0, -1023.0 / 1024.0].map(&mut sheet), [Ok(4 * AreaSheet::IN_ONE); 3]);
    assert_eq!([1.0 / 2048.0, 1.0 / 3.0, 0.5 + f64::EPSILON].map(&mut sheet), [Err(Refused::OFF_GRID); 3]);
}

/// 3, 26, 4, 6, 25, 12: each of all pieces before the next, and each leaves the room as it came.
#[test]
fn refusals_in_their_order() {
    let mut table = square(1.0);
    let [off, _] = sliced(&mut table, at_x(1.0 / 3.0), SQUARE).map(|e| e.0);
    let Slices { counts, points, planes, elements } = table.slices();
    let areas = |counts: &[u16], pieces: &[u16], room: usize| {
        let mut areas = vec![7; room];
        (raw::areas(counts, points, planes, elements, pieces, &mut areas), areas)
    };
    assert_eq!(areas(&[5, 9, 4, 4], &[600; 17], 0), (3, vec![]));
    assert_eq!(areas(counts, &[600; 17], 0), (26, vec![]));
    assert_eq!(areas(counts, &[off, 7, 600], 0), (4, vec![]));
    assert_eq!(areas(counts, &[off, 8, 7], 0), (6, vec![]));
    assert_eq!(areas(counts, &[8, off], 0), (25, vec![]));
    assert_eq!(areas(counts, &[8, 8], 3), (12, vec![7; 3]));
    assert_eq!(areas(counts, &[8, 8], 5), (4 << 8, vec![8 << 20, 8 << 20, 2, 16 << 20, 7]));
    assert_eq!(areas(counts, &[], 1), (12, vec![7]));
}
