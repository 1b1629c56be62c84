//! The marked examples of document 01, through the archive that hosts link.

use spoonvelvet::ElementCutOutput::{Flush, NonFlush};
use spoonvelvet::PolytopeFate::{Keep, Remove};
use spoonvelvet::{Counts, CutAnswer, ElementId, Hyperplane, PolytopeFate, Refused, Table, VertexId};

fn square() -> Table {
    Table::with_primordial_cube_radius(2, 1.0).unwrap()
}

fn at_x(distance: f64) -> Hyperplane {
    Hyperplane { normal: [1.0, 0.0, 0.0, 0.0], distance }
}

const FLUSH: CutAnswer = CutAnswer { output: Flush, warning: false };

fn parts(inside: Option<u16>, outside: Option<u16>, intersection: Option<u16>) -> CutAnswer {
    let id = |n: Option<u16>| n.map(ElementId);
    CutAnswer { output: NonFlush { inside: id(inside), outside: id(outside), intersection: id(intersection) }, warning: false }
}

fn cut(table: &mut Table, divider: Hyperplane, inside: PolytopeFate, outside: PolytopeFate, root: u16) -> (CutAnswer, [u16; 3]) {
    let answer = table.cut(divider, inside, outside, ElementId(root)).unwrap();
    let Counts { elements, vertices, hyperplanes } = table.counts();
    (answer, [elements, vertices, hyperplanes])
}

#[test]
fn a_cut_adds_entries() {
    assert_eq!(cut(&mut square(), at_x(0.0), Keep, Keep, 8), (parts(Some(16), Some(17), Some(15)), [18, 6, 5]));
    assert_eq!(cut(&mut square(), at_x(0.0), Remove, Remove, 8), (parts(None, None, Some(11)), [12, 6, 5]));
    let mut segment = Table::with_primordial_cube_radius(1, 1.0).unwrap();
    assert_eq!(cut(&mut segment, at_x(0.0), Keep, Keep, 2), (parts(Some(4), Some(5), Some(3)), [6, 3, 1]));
}

#[test]
fn a_missed_piece_is_its_old_entry() {
    assert_eq!(cut(&mut square(), at_x(1.0), Keep, Remove, 8), (parts(Some(8), None, Some(7)), [9, 4, 5]));
    assert_eq!(cut(&mut square(), at_x(f64::INFINITY), Remove, Remove, 8), (parts(Some(8), None, None), [9, 4, 4]));
    let slanted = Hyperplane { normal: [0.6, 0.8, 0.0, 0.0], distance: 1.4 };
    assert_eq!(cut(&mut square(), slanted, Keep, Keep, 8), (parts(Some(8), None, None), [9, 4, 5]));
}

#[test]
fn vertices_and_edges() {
    assert_eq!(cut(&mut square(), at_x(0.0), Remove, Keep, 0), (parts(Some(0), None, None), [9, 4, 5]));
    assert_eq!(cut(&mut square(), at_x(1.0), Keep, Keep, 7), (FLUSH, [9, 4, 5]));
}

#[test]
fn the_same_cut_again_adds_nothing() {
    let mut table = square();
    let first = cut(&mut table, at_x(0.0), Keep, Keep, 8);
    let before = table.clone();
    assert_eq!(cut(&mut table, at_x(0.0), Keep, Keep, 8), first);
    assert!(table == before && table.is_sound());
}

#[test]
fn questions() {
    let table = square();
    let ids = |ns: &[u16]| ns.iter().map(|&n| ElementId(n)).collect::<Vec<_>>();
    assert_eq!(table.greatest_common_subelements(&ids(&[2, 6])), Ok(vec![]));
    assert_eq!(table.greatest_common_subelements(&ids(&[8])), Ok(ids(&[8])));
    assert_eq!(table.greatest_common_subelements(&ids(&[0])), Ok(vec![]));
    assert_eq!(table.greatest_common_subelements(&[]), Err(Refused(6)));
    assert_eq!(table.subelements_of(ElementId(7)), Ok(ids(&[1, 4, 7])));
    assert_eq!(table.subelements_with_rank(ElementId(8), 1), Ok(ids(&[2, 5, 6, 7])));
    assert_eq!(table.vertex_set(ElementId(7)), Ok(vec![VertexId(1), VertexId(3)]));
    let walk = [[0, 1], [1, 3], [3, 2], [2, 0]].map(|pair| pair.map(VertexId));
    assert_eq!(table.edges_in_order(ElementId(8)), Ok(walk.to_vec()));
    assert_eq!(table.edges_in_order(ElementId(7)), Err(Refused(6)));
    assert_eq!(table.has_primordial_facet(ElementId(8)), Ok(true));
}

#[test]
fn refusals_leave_the_table() {
    assert_eq!(Table::with_primordial_cube_radius(5, 1.0).err(), Some(Refused(1)));
    assert_eq!(Table::with_primordial_cube_radius(2, f64::NAN).err(), Some(Refused(2)));
    let mut table = square();
    let before = table.clone();
    assert_eq!(table.slice(at_x(0.0), ElementId(9)), Err(Refused(4)));
    assert_eq!(table.slice(at_x(f64::NAN), ElementId(8)), Err(Refused(5)));
    assert_eq!(table.vertex_set(ElementId(600)), Err(Refused(4)));
    assert!(table == before);
}
