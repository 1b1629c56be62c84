//! Document 02, orders 5 and 6, on the model and on the engine: the smallest lists of cuts and touches, with their replies written out.

use evidence::call::{Call, Room};
use evidence::model::cube::with_primordial_cube_radius;
use evidence::model::cut_list::{CutList, ListedCut};
use evidence::model::floats::{Hyperplane, TOLERANCE};
use evidence::model::memory::{Lent, Memory};

const OLD: u64 = 0xa5a5;
/// Bits 48 to 63, 32 to 47 and 16 to 31: the face of the cut, the outside and the inside.
const IN_TWO: u64 = 15 << 48 | 17 << 32 | 16 << 16;

fn square() -> Lent {
    let mut lent = Lent::new(Memory::clear());
    with_primordial_cube_radius(&mut lent, 2, 1.0).unwrap();
    lent
}

fn at_x(distance: f64) -> Hyperplane {
    Hyperplane { normal: [1.0, 0.0, 0.0, 0.0], distance }
}

fn list(cuts: &[(Hyperplane, u8, u16)]) -> CutList {
    let mut list = CutList::default();
    cuts.iter().for_each(|&(divider, kept, root)| list.push(ListedCut { divider, kept, root }));
    list
}

/// The reply, the room for answers and how many elements there are afterwards, where model and engine have the same.
fn replied(lent: &Lent, list: CutList, room: usize) -> (u64, Vec<u64>, u16) {
    let call = Call::CutAll { list };
    let (mut model, mut engine) = (lent.clone(), lent.memory().clone());
    let [mut room, mut other] = [0; 2].map(|_| Room { answers: vec![OLD; room], ..Room::default() });
    let replies = [call.by_model(&mut model, &mut room), call.by_engine(&mut engine, &mut other)];
    assert_eq!(replies[0], replies[1]);
    assert_eq!(room, other);
    assert!(engine.is_same(model.memory()));
    (replies[0], room.answers, engine.counts[1])
}

fn touched(lent: &Lent, divider: Hyperplane, root: u32) -> [u64; 3] {
    let call = Call::Touch { divider, root };
    let word = call.by_model(&mut lent.clone(), &mut Room::default());
    let mut engine = lent.memory().clone();
    assert_eq!(word, call.by_engine(&mut engine, &mut Room::default()));
    assert!(engine.is_same(lent.memory()));
    [word & 0xff, word >> 8 & 3, word >> 16]
}

#[test]
fn a_list_that_is_answered_and_one_that_stops() {
    let (cut, wrong) = ((at_x(0.0), 3, 8), (at_x(0.0), 3, 99));
    assert_eq!(replied(&square(), list(&[]), 1), (0, vec![OLD], 9));
    assert_eq!(replied(&square(), list(&[cut, cut]), 3), (2 << 8, vec![IN_TWO, IN_TWO, OLD], 18));
    assert_eq!(replied(&square(), list(&[cut, wrong, cut]), 3), (1 << 8 | 4, vec![IN_TWO, OLD, OLD], 18));
    assert_eq!(replied(&square(), list(&[wrong, cut]), 2), (4, vec![OLD, OLD], 9));
    assert_eq!(replied(&square(), list(&[cut, (at_x(f64::NAN), 0, 17)]), 2), (1 << 8 | 5, vec![IN_TWO, OLD], 18));
}

#[test]
fn a_kept_side_is_a_bit_and_other_bits_say_nothing() {
    for other_bits in [0, 4, 0xfc] {
        let counts = [0, 1, 2, 3].map(|kept| replied(&square(), list(&[(at_x(0.0), kept | other_bits, 8)]), 1).2);
        assert_eq!(counts, [12, 15, 15, 18]);
    }
}

#[test]
fn three_then_26_then_12() {
    let cut = (at_x(0.0), 3, 99);
    let not_sound = Lent::new(Memory::clear());
    let apart = [
        CutList { dividers: vec![0.0; 4], ..list(&[cut]) },
        CutList { dividers: vec![0.0; 10], ..list(&[cut]) },
        CutList { kept: vec![], ..list(&[cut]) },
        CutList { kept: vec![3, 3], ..list(&[cut]) },
        CutList { roots: vec![], ..list(&[cut]) },
        list(&[cut; 65]),
    ];
    for wrong in apart {
        assert_eq!(replied(&not_sound, wrong.clone(), 0), (3, vec![], 0));
        assert_eq!(replied(&square(), wrong, 0), (26, vec![], 9));
    }
    assert_eq!(replied(&not_sound, list(&[]), 0), (3, vec![], 0));
    assert_eq!(replied(&square(), list(&[cut; 64]), 63), (12, vec![OLD; 63], 9));
    assert_eq!(replied(&square(), list(&[cut; 64]), 64), (4, vec![OLD; 64], 9));
}

/// The corners of the square are (-1, -1), (1, -1), (-1, 1) and (1, 1); element 0 is the first of them, element 7 the edge at x = 1.
#[test]
fn touches() {
    let (square, slanted) = (square(), |distance| Hyperplane { normal: [0.6, 0.8, 0.0, 0.0], distance });
    assert_eq!([1.0, 1.0 + TOLERANCE].map(|x| touched(&square, at_x(x), 7)), [[0, 0, 2]; 2]);
    assert_eq!(touched(&square, at_x(1.0), 8), [0, 1, 4]);
    assert_eq!(touched(&square, at_x(-1.0), 8), [0, 2, 4]);
    assert_eq!(touched(&square, at_x(0.0), 8), [0, 3, 2]);
    assert_eq!([-1.0, 0.0, 0.5].map(|x| touched(&square, slanted(x), 8)[2]), [2, 3, 4]);
    assert_eq!([-2.0, 0.0].map(|x| touched(&square, at_x(x), 0)), [[0, 2, 1], [0, 1, 1]]);
    assert_eq!([f64::INFINITY, f64::NEG_INFINITY].map(|x| touched(&square, at_x(x), 8)), [[0, 1, 0], [0, 2, 0]]);
    assert_eq!([8, 9, 65_544].map(|root| touched(&square, at_x(f64::NAN), root)[0]), [5, 4, 4]);
    assert_eq!(touched(&Lent::new(Memory::clear()), at_x(f64::NAN), 9), [3, 0, 0]);
}
