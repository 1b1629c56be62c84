//! Order 1, save a table and open it tomorrow, by the model and by the engine: files written out record by record, from the
//! document's words.

use evidence::memories;
use evidence::model::cube::with_primordial_cube_radius;
use evidence::model::cut::{cut, Kept};
use evidence::model::files::{file_of, open, save};
use evidence::model::floats::Hyperplane;
use evidence::model::memory::{write, Lent, Memory};
use evidence::model::table::{Element, Polytope, Table};
use evidence::opened;
use evidence::random::Random;
use std::sync::LazyLock;

const NONE: u16 = 0xffff;

/// A memory with something else in it, which a file that is taken replaces.
static OLD: LazyLock<Lent> = LazyLock::new(|| after_cut(3, 0.25));

fn cube(dimension: u32) -> Lent {
    let mut lent = Lent::new(Memory::clear());
    with_primordial_cube_radius(&mut lent, dimension, 1.0).unwrap();
    lent
}

/// A cube cut in two at such an x.
fn after_cut(dimension: u32, distance: f64) -> Lent {
    let mut lent = cube(dimension);
    slice(&mut lent, Hyperplane { normal: [1.0, 0.0, 0.0, 0.0], distance });
    lent
}

fn slice(lent: &mut Lent, divider: Hyperplane) {
    let root = u32::from(lent.memory().counts[1]) - 1;
    cut(lent, divider, Kept { inside: true, outside: true }, root).unwrap();
}

fn numbers(mark: &[u8; 2], numbers: &[u16]) -> Vec<u8> {
    mark.iter().copied().chain(numbers.iter().flat_map(|n| n.to_le_bytes())).collect()
}

fn floats(mark: &[u8; 2], floats: &[f64]) -> Vec<u8> {
    mark.iter().copied().chain(floats.iter().flat_map(|x| x.to_bits().to_le_bytes())).collect()
}

/// Dimension, elements, vertices, hyperplanes.
fn header(counts: [u16; 4]) -> Vec<u8> {
    numbers(b"HD", &counts)
}

fn vertex(coordinates: &[f64]) -> Vec<u8> {
    floats(b"VX", coordinates)
}

/// The components, then the distance.
fn hyperplane(row: &[f64]) -> Vec<u8> {
    floats(b"HP", row)
}

fn element(rank: u8, mark: u8, hyperplane: u16, boundary: &[u16]) -> Vec<u8> {
    let words = numbers(&[rank, mark], &[&[hyperplane, boundary.len() as u16], boundary].concat());
    [b"EL".to_vec(), words].concat()
}

fn corner(vertex: u16) -> Vec<u8> {
    element(0, 0, NONE, &[vertex])
}

/// The one-dimensional cube, the line from -1 to 1, record by record.
fn line() -> [Vec<u8>; 6] {
    let edge = element(1, 0, NONE, &[0, 1]);
    [header([1, 3, 2, 0]), vertex(&[-1.0]), vertex(&[1.0]), corner(0), corner(1), edge]
}

/// The line with one record in place of another.
fn line_with(place: usize, record: Vec<u8>) -> Vec<u8> {
    let mut records = line();
    records[place] = record;
    records.concat()
}

fn square() -> Vec<u8> {
    file_of(cube(2).table().unwrap())
}

/// The number, which is the engine's too; a refused file leaves the memory, and one that is taken is saved as it was.
fn opened(file: &[u8]) -> u8 {
    let mut lent = OLD.clone();
    let reply = open(&mut lent, file);
    match reply {
        Ok(()) => assert_eq!(saved(&lent), file),
        Err(_) => assert!(lent.memory().is_same(OLD.memory())),
    }
    let number = reply.err().unwrap_or(0);
    assert_eq!(opened::number(file, &OLD), Ok(number));
    number
}

fn saved(lent: &Lent) -> Vec<u8> {
    let mut room = [0xa5; 50_000];
    let size = save(lent, &mut room).unwrap();
    assert!(room[size..].iter().all(|&byte| byte == 0xa5));
    room[..size].to_vec()
}

#[test]
fn the_line_byte_by_byte() {
    let bytes = [
        [0x48, 0x44, 1, 0, 3, 0, 2, 0, 0, 0].as_slice(),
        &[0x56, 0x58, 0, 0, 0, 0, 0, 0, 0xf0, 0xbf],
        &[0x56, 0x58, 0, 0, 0, 0, 0, 0, 0xf0, 0x3f],
        &[0x45, 0x4c, 0, 0, 0xff, 0xff, 1, 0, 0, 0],
        &[0x45, 0x4c, 0, 0, 0xff, 0xff, 1, 0, 1, 0],
        &[0x45, 0x4c, 1, 0, 0xff, 0xff, 2, 0, 0, 0, 1, 0],
    ];
    assert_eq!(saved(&cube(1)), bytes.concat());
    assert_eq!(line().concat(), bytes.concat());
    assert_eq!(opened(&bytes.concat()), 0);
}

#[test]
fn a_plane_has_its_distance_last_and_a_facet_its_number() {
    let mut lent = cube(2);
    slice(&mut lent, Hyperplane { normal: [0.6, 0.8, 0.0, 0.0], distance: 0.5 });
    let file = saved(&lent);
    assert_eq!(&file[..10], header([2, 18, 6, 5]));
    let planes = 10 + 6 * 18;
    assert_eq!(&file[planes..][..26], hyperplane(&[0.0, -1.0, 1.0]));
    assert_eq!(&file[planes + 4 * 26..][..26], hyperplane(&[0.6, 0.8, 0.5]));
    let elements = planes + 5 * 26;
    assert_eq!(&file[elements + 20..][..12], element(1, 1, 0, &[0, 1]));
    assert_eq!(opened(&file), 0);
}

#[test]
fn what_was_saved_opens_as_the_same_table() {
    for dimension in 1..=4 {
        let lent = cube(dimension);
        let mut other = OLD.clone();
        open(&mut other, &saved(&lent)).unwrap();
        assert!(other.memory().is_same(lent.memory()));
    }
}

/// Tables of every kind, and files with some bytes changed: what is accepted is the one file of its table.
#[test]
fn random_tables_there_and_back() {
    let mut r = Random::new(1);
    let mut taken = 0;
    for _ in 0..300 {
        let kind = memories::kind(&mut r);
        let lent = Lent::new(memories::memory(&mut r, kind));
        let Ok(table) = lent.table() else {
            assert_eq!(save(&lent, &mut []), Err(3));
            continue;
        };
        let mut file = file_of(table);
        assert_eq!(saved(&lent), file);
        assert_eq!(opened(&file), 0);
        for _ in 0..r.below(4) {
            let place = r.below(file.len());
            file[place] ^= 1 << r.below(8);
        }
        taken += usize::from(opened(&file) == 0);
    }
    assert!(taken > 20);
}

#[test]
fn another_mark_is_13() {
    let file = saved(&after_cut(1, 0.5));
    let marks = [0, 10, 20, 30, 40, 58, 68, 78, 90, 100, 112];
    for place in marks.into_iter().flat_map(|mark| [mark, mark + 1]) {
        for other in (1..=255).map(|change| file[place] ^ change) {
            let mut file = file.clone();
            file[place] = other;
            assert_eq!(opened(&file), 13);
        }
    }
    assert_eq!(file.len(), 124);
}

#[test]
fn marks_in_another_order_are_13() {
    let mut records = line();
    records.swap(2, 3);
    assert_eq!(opened(&records.concat()), 13);
    let (plane, corners) = (hyperplane(&[1.0, 0.0]), [corner(0), corner(1)].concat());
    let vertices = [vertex(&[-1.0]), vertex(&[1.0])].concat();
    let [of_one, edge] = [header([1, 3, 2, 1]), element(1, 0, NONE, &[0, 1])];
    assert_eq!(opened(&[&of_one[..], &vertices, &plane, &corners, &edge].concat()), 0);
    assert_eq!(opened(&[&of_one[..], &plane, &vertices, &corners, &edge].concat()), 13);
}

#[test]
fn a_file_that_ends_early_or_late_is_13() {
    for file in [line().concat(), square(), saved(&OLD)] {
        for length in 0..file.len() {
            assert_eq!(opened(&file[..length]), 13);
        }
        for more in [&[0][..], &[0x45, 0x4c], &corner(0), &file] {
            assert_eq!(opened(&[&file, more].concat()), 13);
        }
    }
}

#[test]
fn counts_other_than_the_records_are_13() {
    for place in 1..4 {
        for change in [0, 1, 2, 3, 4, 0xffff] {
            let mut counts = [1, 3, 2, 0];
            let is_other = counts[place] != change;
            counts[place] = change;
            assert_eq!(opened(&line_with(0, header(counts))), if is_other { 13 } else { 0 });
        }
    }
    for dimension in [0, 2, 3, 4, 5, 300, 0xffff] {
        assert_eq!(opened(&line_with(0, header([dimension, 3, 2, 0]))), 13);
    }
}

#[test]
fn a_corner_record_of_another_form_is_13() {
    for record in [
        element(0, 1, NONE, &[1]),
        element(0, 0, 0, &[1]),
        element(0, 0, NONE - 1, &[1]),
        element(0, 0, NONE, &[]),
        element(0, 0, NONE, &[1, 2]),
        element(0, 2, NONE, &[1]),
    ] {
        assert_eq!(opened(&line_with(4, record)), 13);
    }
}

#[test]
fn a_primordial_byte_above_1_is_13_and_a_wrong_1_is_3() {
    for mark in 2..=255 {
        assert_eq!(opened(&line_with(5, element(1, mark, NONE, &[0, 1]))), 13);
    }
    assert_eq!(opened(&line_with(5, element(1, 1, NONE, &[0, 1]))), 3);
}

/// So many floats as the header says: the layout fits, and no table has that dimension.
#[test]
fn a_dimension_that_no_table_has_is_3() {
    for dimension in [0, 5, 300] {
        let coordinates = vec![0.0; usize::from(dimension)];
        let plane = hyperplane(&[&coordinates[..], &[1.0]].concat());
        let records = [header([dimension, 1, 1, 1]), vertex(&coordinates), plane, corner(0)].concat();
        assert_eq!(opened(&records), 3);
        assert_eq!(opened(&records[1..]), 13);
        assert_eq!(opened(&header([dimension, 0, 0, 0])), 3);
    }
}

/// So many of each, sound but for the room.
fn crowd(vertices: u16, hyperplanes: u16, edges: u16) -> Vec<u8> {
    let mut file = header([1, vertices + edges, vertices, hyperplanes]);
    (0..vertices).for_each(|n| file.extend(vertex(&[n.into()])));
    (0..hyperplanes).for_each(|_| file.extend(hyperplane(&[1.0, 0.0])));
    (0..vertices).for_each(|n| file.extend(corner(n)));
    (0..edges).for_each(|n| file.extend(element(1, 0, NONE, &[n / 128, 128 + n % 128])));
    file
}

#[test]
fn counts_above_the_room_are_3() {
    let crowds = [crowd(256, 64, 0), crowd(257, 64, 0), crowd(256, 65, 0), crowd(256, 64, 256), crowd(256, 64, 257)];
    assert_eq!(crowds.map(|file| opened(&file)), [0, 3, 3, 0, 3]);
}

/// A face of 32 edges, and one of 33, which is one ring too.
#[test]
fn a_boundary_above_the_room_is_3() {
    let ring = |size: u16| {
        let edges = (0..size).map(|n| vec![n.min((n + 1) % size), n.max((n + 1) % size)]);
        let mut table = Table { dimension: 3, vertices: vec![], hyperplanes: vec![], elements: vec![] };
        table.vertices = (0..size).map(|n| [n.into(), 0.0, 0.0, 0.0]).collect();
        table.hyperplanes = vec![Hyperplane { normal: [1.0, 0.0, 0.0, 0.0], distance: 0.0 }; 6];
        table.elements = (0..size).map(Element::Vertex).collect();
        table.elements.extend(edges.map(|boundary| polytope(1, boundary, None)));
        table.elements.push(polytope(2, (size..2 * size).collect(), Some(0)));
        file_of(&table)
    };
    assert_eq!([32, 33].map(|size| opened(&ring(size))), [0, 3]);
}

fn polytope(rank: u16, boundary: Vec<u16>, hyperplane: Option<u16>) -> Element {
    Element::Polytope(Polytope { rank, boundary, hyperplane, primordial: false })
}

#[test]
fn elements_that_are_not_sound_are_3() {
    for record in [
        element(1, 0, NONE, &[]),
        element(1, 0, NONE, &[0]),
        element(1, 0, NONE, &[0, 0]),
        element(1, 0, NONE, &[1, 0]),
        element(1, 0, NONE, &[0, 2]),
        element(1, 0, NONE, &[0, NONE]),
        element(1, 0, 0, &[0, 1]),
        element(2, 0, NONE, &[0, 1]),
        element(2, 0, NONE, &[]),
        element(255, 1, 7, &[3; 300]),
    ] {
        assert_eq!(opened(&line_with(5, record)), 3);
    }
    for wrong in [0, 2, NONE] {
        assert_eq!(opened(&line_with(4, corner(wrong))), 3);
    }
    let twice = [line_with(0, header([1, 4, 2, 0])), element(1, 0, NONE, &[0, 1])].concat();
    assert_eq!(opened(&twice), 3);
}

/// A square with a facet that names no plane, or one that is not in use, with a plane that is none, or with one plane less.
#[test]
fn hyperplanes_that_are_not_sound_are_3() {
    let square = square();
    let facet = square.len() - (16 + 12);
    let planes = 10 + 4 * 18;
    assert_eq!(&square[facet..][..12], element(1, 1, 3, &[1, 4]));
    for (place, bytes) in [
        (facet + 4, &NONE.to_le_bytes()[..]),
        (facet + 4, &[4, 0]),
        (planes + 2, &0.5f64.to_bits().to_le_bytes()),
        (planes + 18, &262_145.0f64.to_bits().to_le_bytes()),
        (planes + 18, &f64::INFINITY.to_bits().to_le_bytes()),
    ] {
        let mut file = square.clone();
        file[place..][..bytes.len()].copy_from_slice(bytes);
        assert_eq!(opened(&file), 3);
    }
    let mut fewer = square;
    fewer.drain(planes..planes + 26);
    fewer[8] = 3;
    assert_eq!(opened(&fewer), 3);
}

#[test]
fn minus_zero_is_kept_and_no_nan_is() {
    let with = |x: f64| line_with(1, vertex(&[x]));
    let mut lent = OLD.clone();
    open(&mut lent, &with(-0.0)).unwrap();
    assert_eq!(lent.memory().points[0].to_bits(), 1 << 63);
    assert_eq!(saved(&lent), with(-0.0));
    for bits in [0x7ff8_0000_0000_0000, 0x7ff0_0000_0000_0001, 0xfff8_0000_0000_0000, 0xffff_ffff_ffff_ffff] {
        assert_eq!(opened(&with(f64::from_bits(bits))), 3);
    }
    assert_eq!([65_536.0, 65_536.1, f64::INFINITY].map(|x| opened(&with(x))), [0, 3, 3]);
    for axis in 0..3 {
        let mut row = [1.0, 0.0, 0.0];
        row[axis] = f64::NAN;
        let mut file = square();
        file.splice(82..108, hyperplane(&row));
        assert_eq!(opened(&file), 3);
    }
}

#[test]
fn an_empty_table_of_one_dimension_is_its_header() {
    let file = header([1, 0, 0, 0]);
    let mut lent = OLD.clone();
    open(&mut lent, &file).unwrap();
    assert_eq!((saved(&lent), lent.memory().counts.clone()), (file, vec![1, 0, 0, 0]));
    assert_eq!(opened(&header([2, 0, 0, 0])), 3);
}

/// Five corners, their ten edges, 32 of the rings, 128 bodies of these, and 337 more of 32 bodies: the longest that is known.
#[test]
fn a_long_file() {
    let rings = (0..1u32 << 10).map(|set| (5..15).filter(|n| set >> (n - 5) & 1 == 1).collect::<Vec<u16>>());
    let ends: Vec<Vec<u16>> = (0..5).flat_map(|b| (0..b).map(move |a| vec![a, b])).collect();
    let plane = Hyperplane { normal: [0.0, 0.0, 0.0, 1.0], distance: 1.0 };
    let mut table = Table { dimension: 4, vertices: vec![[0.5; 4]; 5], hyperplanes: vec![plane; 64], elements: vec![] };
    table.elements.extend((0..5).map(Element::Vertex));
    table.elements.extend(ends.into_iter().map(|ends| polytope(1, ends, None)));
    let mut rings: Vec<Vec<u16>> = rings.filter(|set| set.len() > 2 && table.is_one_ring(set)).collect();
    rings.sort_by_key(|ring| 10 - ring.len());
    table.elements.extend(rings.into_iter().take(32).map(|ring| polytope(2, ring, None)));
    for (hyperplane, primordial) in (0..64).flat_map(|h| [(Some(h), false), (Some(h), true)]) {
        table.elements.push(Element::Polytope(Polytope {
            rank: 3,
            boundary: (15..47).collect(),
            hyperplane,
            primordial,
        }));
    }
    let left_out = (47..81).flat_map(|b| (47..b).map(move |a| [a, b]));
    for pair in left_out.take(337) {
        table.elements.push(polytope(4, (47..81).filter(|e| !pair.contains(e)).collect(), None));
    }
    let file = file_of(&table);
    assert_eq!((table.elements.len(), file.len(), opened(&file)), (512, 37_044, 0));
    assert!(file.len() <= 48_266);
}

#[test]
fn thirteen_comes_before_every_3() {
    let mut lent = Lent::new(Memory { points: OLD.memory().points[1..].to_vec(), ..OLD.memory().clone() });
    let before = lent.memory().clone();
    assert_eq!(open(&mut lent, &line().concat()), Err(3));
    assert_eq!(open(&mut lent, &line().concat()[1..]), Err(13));
    assert_eq!(open(&mut lent, &[]), Err(13));
    assert!(lent.memory().is_same(&before));
    let mut both = line_with(1, vertex(&[f64::NAN]));
    both[0] = 0;
    assert_eq!(opened(&both), 13);
    let last = line_with(5, element(1, 2, NONE, &[9, 9, 9]));
    assert_eq!(opened(&last), 13);
}

#[test]
fn saving_refuses_with_3_and_then_with_12() {
    let lent = &*OLD;
    let size = saved(lent).len();
    for short in [0, 1, size / 2, size - 1] {
        let mut room = vec![0xa5; short];
        assert_eq!(save(lent, &mut room), Err(12));
        assert!(room.iter().all(|&byte| byte == 0xa5));
    }
    assert_eq!(save(lent, &mut vec![0; size]), Ok(size));
    let mut damaged = lent.memory().clone();
    damaged.elements[0] = 9;
    let mut room = [0xa5; 50_000];
    assert_eq!(save(&Lent::new(damaged.clone()), &mut room), Err(3));
    assert_eq!(save(&Lent::new(damaged), &mut []), Err(3));
    assert!(room.iter().all(|&byte| byte == 0xa5));
    assert_eq!(save(&Lent::new(Memory::clear()), &mut []), Err(3));
}

#[test]
fn a_file_that_is_taken_replaces_all_of_the_memory() {
    let mut lent = Lent::new(Memory { elements: vec![7; 18_432], points: vec![f64::NAN; 1024], ..Memory::clear() });
    open(&mut lent, &square()).unwrap();
    assert!(lent.memory().is_same(cube(2).memory()));
    assert!(lent.memory().is_same(&write(cube(2).table().unwrap())));
}
