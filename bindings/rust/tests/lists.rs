//! A list of cuts in one call: document 02, order 5.

use spoonvelvet::PolytopeFate::{Keep, Remove};
use spoonvelvet::{raw, CutAnswer, ElementCutOutput, ElementId, Hyperplane, ListedCut, Refused, Stopped, Table};

const SQUARE: ElementId = ElementId(8);

fn square() -> Table {
    Table::with_primordial_cube_radius(2, 1.0).unwrap()
}

fn at(axis: usize, distance: f64) -> Hyperplane {
    let mut normal = [0.0; 4];
    normal[axis] = 1.0;
    Hyperplane { normal, distance }
}

/// The same cuts one by one: the answers until the first that is refused, and its refusal.
fn singly(table: &mut Table, cuts: &[ListedCut]) -> (Vec<CutAnswer>, Option<Refused>) {
    let mut answers = vec![];
    for cut in cuts {
        match table.cut(cut.divider, cut.inside, cut.outside, cut.root) {
            Ok(answer) => answers.push(answer),
            Err(refused) => return (answers, Some(refused)),
        }
    }
    (answers, None)
}

/// Given by both ways, from the same table, which both leave the same.
fn alike(table: &mut Table, cuts: &[ListedCut]) -> Result<Vec<CutAnswer>, Stopped> {
    let mut other = table.clone();
    let (answers, refused) = singly(&mut other, cuts);
    let given = table.cut_all(cuts);
    let wanted = match refused {
        None => Ok(answers),
        Some(refused) => Err(Stopped { refused, position: Some(answers.len()), answers }),
    };
    assert_eq!(given, wanted);
    assert_eq!(*table, other);
    given
}

#[test]
fn a_list_is_its_cuts_in_turn() {
    for (inside, outside) in [(Keep, Keep), (Keep, Remove), (Remove, Keep), (Remove, Remove)] {
        let cut = |divider, root| ListedCut { divider, inside, outside, root: ElementId(root) };
        let cuts = [cut(at(0, 0.0), 8), cut(at(1, 0.5), 8), cut(at(0, 1.0), 7), cut(at(0, f64::INFINITY), 8), cut(at(0, 0.0), 8)];
        let answers = alike(&mut square(), &cuts).unwrap();
        assert_eq!((answers.len(), answers[0]), (5, answers[4]));
        assert_eq!(answers[2].output, ElementCutOutput::Flush);
    }
}

#[test]
fn a_root_may_be_what_a_cut_before_it_adds() {
    let cuts = [(at(0, 0.0), 8), (at(1, 0.0), 16), (at(1, 0.0), 17)].map(|(divider, root)| ListedCut::slice(divider, ElementId(root)));
    let mut table = square();
    assert_eq!(alike(&mut table, &cuts).unwrap().len(), 3);
    assert_eq!(table.counts().vertices, 9);
}

#[test]
fn warnings_come_with_the_answers() {
    let close = Hyperplane::new(&[0.6, 0.8], 1.4 - 1.0 / 131_072.0).unwrap();
    let answers = alike(&mut square(), &[ListedCut::slice(at(0, 0.0), SQUARE), ListedCut::slice(close, SQUARE)]).unwrap();
    assert_eq!([answers[0].warning, answers[1].warning], [false, true]);
}

#[test]
fn the_first_refusal_ends_the_list_and_what_is_before_it_stays() {
    for (wrong, refused) in [
        (ListedCut::slice(at(0, 0.5), ElementId(600)), Refused::NOT_IN_USE),
        (ListedCut::slice(at(0, f64::NAN), SQUARE), Refused::DIVIDER),
        (ListedCut::slice(Hyperplane { normal: [1.0; 4], distance: 0.0 }, SQUARE), Refused::DIVIDER),
    ] {
        for position in 0..3 {
            let mut cuts = [0.0, 0.25, 0.5].map(|x| ListedCut::slice(at(0, x), SQUARE)).to_vec();
            cuts.insert(position, wrong);
            let mut table = square();
            let stopped = alike(&mut table, &cuts).unwrap_err();
            assert_eq!((stopped.refused, stopped.position, stopped.answers.len()), (refused, Some(position), position));
            assert_eq!(usize::from(table.counts().hyperplanes), 4 + position);
        }
    }
}

#[test]
fn a_room_may_be_full_in_the_middle() {
    let planes = |count: usize| (0..count).map(|n| ListedCut::carve(at(0, 0.5 - n as f64 / 256.0), SQUARE)).collect::<Vec<_>>();
    let mut table = square();
    let stopped = alike(&mut table, &planes(64)).unwrap_err();
    assert_eq!((stopped.refused, stopped.position), (Refused::HYPERPLANES_FULL, Some(60)));
    assert_eq!(table.room_left().hyperplanes, 0);
    assert_eq!(alike(&mut table, &planes(60)).unwrap(), stopped.answers);
}

#[test]
fn an_empty_list_is_done() {
    let mut table = square();
    assert_eq!(table.cut_all(&[]), Ok(vec![]));
    assert_eq!(table, square());
}

#[test]
fn sixty_four_cuts_and_no_more() {
    let cut = ListedCut::slice(at(0, 0.0), SQUARE);
    assert_eq!(alike(&mut square(), &[cut; raw::MOST_CUTS]).unwrap().len(), 64);
    let mut table = square();
    let stopped = table.cut_all(&[cut; raw::MOST_CUTS + 1]).unwrap_err();
    assert_eq!(stopped, Stopped { refused: Refused::LIST_LONG, position: None, answers: vec![] });
    assert_eq!(stopped.to_string(), "refused 26: the list has more than its limit, or its parts do not belong together");
    assert_eq!(Refused::from(stopped), Refused(26));
    assert_eq!(table, square());
}

/// Other bits of a kept side say nothing; 3, then 26, then 12, and each leaves all as it came.
#[test]
fn lent_by_the_host() {
    let table = square();
    let lent = table.slices();
    let cut_all = |counts: &[u16], cuts: raw::CutList, room: usize| {
        let (mut c, mut p, mut h, mut e) = (counts.to_vec(), lent.points.to_vec(), lent.planes.to_vec(), lent.elements.to_vec());
        let mut answers = vec![7; room];
        let reply = raw::cut_all(&mut c, &mut p, &mut h, &mut e, cuts, &mut answers);
        let as_it_came = (&c[..], &p[..], &h[..], &e[..]) == (counts, lent.points, lent.planes, lent.elements);
        (reply, answers, as_it_came)
    };
    let dividers = [1.0, 0.0, 0.0, 0.0, 0.0].repeat(65);
    let list = |floats: usize, kept: &'static [u8], roots: &'static [u16]| raw::CutList { dividers: &dividers[..floats], kept, roots };
    let [both, more] = [&[3], &[0xff]].map(|kept| cut_all(lent.counts, list(5, kept, &[8]), 2));
    assert_eq!((both.0, both.1[1], both.2), (1 << 8, 7, false));
    assert_eq!(both, more);
    for wrong in [list(4, &[3], &[8]), list(6, &[3], &[8]), list(5, &[], &[8]), list(5, &[3], &[]), list(0, &[3], &[8]), list(325, &[3; 65], &[8; 65])] {
        assert_eq!(cut_all(lent.counts, wrong, 0), (26, vec![], true));
        assert_eq!(cut_all(&[5, 9, 4, 4], wrong, 0), (3, vec![], true));
    }
    assert_eq!(cut_all(lent.counts, list(10, &[3, 3], &[600, 8]), 1), (12, vec![7], true));
    assert_eq!(cut_all(lent.counts, list(10, &[3, 3], &[600, 8]), 2), (4, vec![7, 7], true));
    assert_eq!(cut_all(&[5, 9, 4, 4], list(0, &[], &[]), 0), (3, vec![], true));
}
