//! Document 02, orders 13 and 11, on the model and on the engine: the smallest area sheets and a print file, with their replies written out;
//! and floats narrowed to 32 bits.

use evidence::call::{Call, Room};
use evidence::model::cube::with_primordial_cube_radius;
use evidence::model::exact::{exact, narrowed};
use evidence::model::floats::Hyperplane;
use evidence::model::memory::{Lent, Memory};

const OLD: i64 = -7;

fn cube(dimension: u32) -> Lent {
    let mut lent = Lent::new(Memory::clear());
    with_primordial_cube_radius(&mut lent, dimension, 1.0).unwrap();
    lent
}

fn at_x(distance: f64) -> Hyperplane {
    Hyperplane { normal: [1.0, 0.0, 0.0, 0.0], distance }
}

/// The reply and the room, where model and engine have the same, and leave the memory.
fn replied(lent: &Lent, call: &Call, room: &Room) -> (u64, Room) {
    let (mut model, mut engine) = (lent.clone(), lent.memory().clone());
    let (mut by_model, mut by_engine) = (room.clone(), room.clone());
    let replies = [call.by_model(&mut model, &mut by_model), call.by_engine(&mut engine, &mut by_engine)];
    assert_eq!(replies[0], replies[1]);
    assert_eq!(by_model, by_engine);
    assert!(engine.is_same(lent.memory()) && engine.is_same(model.memory()));
    (replies[0], by_model)
}

fn sheet(lent: &Lent, pieces: &[u16], room: usize) -> (u64, Vec<i64>) {
    let room = Room { areas: vec![OLD; room], ..Room::default() };
    let (word, room) = replied(lent, &Call::Areas { pieces: pieces.to_vec() }, &room);
    (word, room.areas)
}

/// Both sides kept.
fn cut(lent: &mut Lent, divider: Hyperplane, root: u32) -> u64 {
    Call::Cut { divider, inside: 1, outside: 1, root }.by_model(lent, &mut Room::default())
}

#[test]
fn sheets_of_a_square() {
    let mut square = cube(2);
    assert_eq!(sheet(&square, &[], 3), (2 << 8, vec![0, 0, OLD]));
    assert_eq!(sheet(&square, &[8], 3), (3 << 8, vec![8 << 20, 1, 8 << 20]));
    cut(&mut square, at_x(0.25), 8);
    assert_eq!(sheet(&square, &[16, 8, 17], 6), (5 << 8, vec![-5 << 20, 8 << 20, 3 << 20, 3, 16 << 20, OLD]));
    let all = sheet(&square, &[17; 16], 18);
    assert_eq!((all.0, all.1[16], all.1[17]), (18 << 8, 16, 48 << 20));
}

#[test]
fn each_refusal_of_all_pieces_before_the_next() {
    let mut square = cube(2);
    cut(&mut square, at_x(1.0 / 2048.0), 8);
    assert_eq!(sheet(&square, &[600; 17], 0), (26, vec![]));
    assert_eq!(sheet(&square, &[16, 7, 18], 0), (4, vec![]));
    assert_eq!(sheet(&square, &[16, 8, 7], 0), (6, vec![]));
    assert_eq!(sheet(&square, &[8, 16], 0), (25, vec![]));
    assert_eq!(sheet(&square, &[8], 2), (12, vec![OLD; 2]));
    for dimension in [1, 3, 4] {
        assert_eq!(sheet(&cube(dimension), &[], 0), (6, vec![]));
    }
}

/// The coordinates of a piece decide, not those of the table.
#[test]
fn a_piece_on_the_grid_beside_others_that_are_not() {
    let mut square = cube(2);
    cut(&mut square, at_x(1.0 / 3.0), 8);
    assert_eq!(sheet(&square, &[16], 3).0, 25);
    assert_eq!(sheet(&square, &[8], 3).0, 3 << 8);
}

fn print(lent: &Lent, root: u32, room: usize) -> (u64, Vec<u8>) {
    let (word, room) = replied(lent, &Call::Stl { root }, &Room { file: vec![0xa5; room], ..Room::default() });
    (word, room.file)
}

/// The six planes at 1/2.
fn small_cube() -> (Lent, u32) {
    let (mut lent, mut root) = (cube(3), 26);
    for side in 0..6 {
        let mut normal = [0.0; 4];
        normal[side / 2] = [1.0, -1.0][side % 2];
        root = (cut(&mut lent, Hyperplane { normal, distance: 0.5 }, root) >> 16) as u16 as u32;
    }
    (lent, root)
}

#[test]
fn the_file_of_a_cube() {
    let (lent, root) = small_cube();
    let (word, file) = print(&lent, root, 700);
    assert_eq!((word, &file[684..]), (684 << 8, &[0xa5; 16][..]));
    assert_eq!((&file[..80], &file[80..84]), (&[0; 80][..], &[12, 0, 0, 0][..]));
    let corners: Vec<f32> = file[84..684]
        .chunks(50)
        .flat_map(|triangle| triangle[12..48].chunks(4).map(|x| f32::from_le_bytes(x.try_into().unwrap())))
        .collect();
    assert_eq!(corners.len(), 12 * 9);
    assert!(corners.iter().all(|x| x.abs() == 0.5));
    assert!(file[84..684].chunks(50).all(|t| t[..12] == [0; 12] && t[48..] == [0; 2]));
}

#[test]
fn refusals_of_a_print_file_in_their_order() {
    let (lent, root) = small_cube();
    assert_eq!(print(&lent, 65_536 + root, 0).0, 4);
    assert_eq!(print(&lent, 25, 0).0, 6);
    assert_eq!(print(&lent, 26, 0).0, 16);
    assert_eq!(print(&lent, root, 683), (12, vec![0xa5; 683]));
    for (dimension, root) in [(1, 2), (2, 8), (4, 80), (4, 26)] {
        assert_eq!(print(&cube(dimension), root, 0).0, 6);
    }
}

/// By comparisons that do not round, and by the processor: around floats of 32 bits, the middles between them, and what is too small.
#[test]
fn narrowed_to_nearest_and_ties_to_even() {
    for (x, bits) in [
        (1.0, 0x3f80_0000),
        (-0.0, 1 << 31),
        (1.0 + 2f64.powi(-24), 0x3f80_0000),
        (1.0 + 3.0 * 2f64.powi(-24), 0x3f80_0002),
    ] {
        assert_eq!(narrowed(x), bits);
    }
    let starts = [
        0,
        1,
        2,
        0x007f_ffff,
        0x0080_0000,
        0x3eaa_aaaa,
        0x3eaa_aaab,
        0x3f7f_ffff,
        0x3f80_0000,
        0x477f_ffff,
        0x4780_0000,
    ];
    for bits in starts {
        let [low, high] = [bits, bits + 1].map(|bits| f64::from(f32::from_bits(bits)));
        let middle = low + (high - low) / 2.0;
        let beside = |x: f64| [x, f64::from_bits(x.to_bits().saturating_sub(1)), f64::from_bits(x.to_bits() + 1)];
        for x in [low, middle, high].into_iter().flat_map(beside) {
            for x in [x, -x] {
                assert_eq!(narrowed(x), (x as f32).to_bits(), "{x:e}");
            }
        }
    }
}

#[test]
fn a_float_is_an_odd_number_times_a_power_of_two() {
    for (x, parts) in
        [(0.0, (0, 0)), (-0.0, (0, 0)), (3.0, (3, 0)), (-0.75, (-3, -2)), (1024.0, (1, 10)), (5e-324, (1, -1074))]
    {
        assert_eq!(exact(x), parts);
    }
    assert_eq!(exact(0.1).0 as f64 * 2f64.powi(exact(0.1).1), 0.1);
}
