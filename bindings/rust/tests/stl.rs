//! A piece as a file for a printer: document 02, order 11.

use spoonvelvet::{raw, ElementCutOutput, ElementId, Hyperplane, Refused, Slices, Table};

const CUBE: ElementId = ElementId(26);

fn carved(table: &mut Table, normal: &[f64], distance: f64, root: ElementId) -> ElementId {
    match table.carve(Hyperplane::new(normal, distance).unwrap(), root).unwrap().output {
        ElementCutOutput::NonFlush { inside: Some(inside), .. } => inside,
        other => panic!("{other:?}"),
    }
}

/// A box of such a radius within a cube of radius 1, and the table.
fn boxed(radius: f64) -> (Table, ElementId) {
    let mut table = Table::with_primordial_cube_radius(3, 1.0).unwrap();
    let sides = (0..6).map(|side| (0..3).map(|axis| if axis == side / 2 { [-1.0, 1.0][side % 2] } else { 0.0 }).collect::<Vec<_>>());
    let piece = sides.fold(CUBE, |piece, normal| carved(&mut table, &normal, radius, piece));
    (table, piece)
}

/// The bytes by the questions that there were before.
fn by_questions(table: &Table, piece: ElementId) -> Vec<u8> {
    let mut triangles = vec![];
    for face in table.boundary_of(piece).unwrap() {
        let walk = table.edges_in_order(face).unwrap();
        triangles.extend(walk[1..walk.len() - 1].iter().map(|&[a, b]| [walk[0][0], a, b]));
    }
    let mut file = vec![0; 80];
    file.extend((triangles.len() as u32).to_le_bytes());
    for corners in triangles {
        file.extend([0; 12]);
        let coordinates = corners.iter().flat_map(|&v| table.coordinates_of(v).unwrap());
        file.extend(coordinates.flat_map(|&x| (x as f32).to_le_bytes()));
        file.extend([0; 2]);
    }
    file
}

#[test]
fn a_box_byte_by_byte() {
    let (table, piece) = boxed(0.5);
    let file = table.stl(piece).unwrap();
    assert_eq!(file.len(), 84 + 50 * 12);
    assert_eq!((&file[..80], &file[80..84]), (&[0; 80][..], &[12, 0, 0, 0][..]));
    assert_eq!(file, by_questions(&table, piece));
    for triangle in file[84..].chunks(50) {
        assert_eq!((&triangle[..12], &triangle[48..]), (&[0; 12][..], &[0; 2][..]));
        assert!(triangle[12..48].chunks(4).all(|x| [[0, 0, 0, 0x3f], [0, 0, 0, 0xbf]].contains(&[x[0], x[1], x[2], x[3]])));
    }
}

#[test]
fn slanted_faces_and_narrowed_floats() {
    let (mut table, mut piece) = boxed(1.0 / 3.0);
    for normal in [[0.6, 0.8, 0.0], [0.0, 0.6, 0.8], [-0.8, 0.0, 0.6], [0.36, -0.48, -0.8]] {
        piece = carved(&mut table, &normal, 0.3, piece);
        let file = table.stl(piece).unwrap();
        assert_eq!(file, by_questions(&table, piece));
        assert!(file.len() <= raw::LONGEST_PRINT);
    }
}

/// A little more than a float of 32 bits, half way between two of them, and a little more than that: to nearest, ties to even.
#[test]
fn to_nearest_and_ties_to_even() {
    let step = f64::from(f32::EPSILON) / 4.0; // from 1/4 to 1/2
    for (steps, narrowed) in [(0.25, 0.0), (0.5, 0.0), (0.75, 1.0), (1.5, 2.0), (2.5, 2.0), (3.5, 4.0)] {
        let (table, piece) = boxed(0.25 + steps * step);
        let wanted = (0.25 + narrowed * step) as f32;
        assert_eq!(table.stl(piece).unwrap()[84 + 12..][..4], (-wanted).to_le_bytes());
    }
}

#[test]
fn refusals_in_their_order() {
    let (table, piece) = boxed(0.5);
    assert_eq!(table.stl(CUBE), Err(Refused::PRIMORDIAL_FACET));
    assert_eq!(table.stl(ElementId(25)), Err(Refused::RANK));
    assert_eq!(table.stl(ElementId(600)), Err(Refused::NOT_IN_USE));
    for ndim in [1, 2, 4] {
        let table = Table::with_primordial_cube_radius(ndim, 1.0).unwrap();
        for root in (0..table.counts().elements).map(ElementId) {
            assert_eq!(table.stl(root), Err(Refused::RANK));
        }
    }
    let Slices { counts, points, planes, elements } = table.slices();
    let stl = |counts: &[u16], root: u32, room: usize| {
        let mut file = vec![0xa5; room];
        (raw::stl(counts, points, planes, elements, root, &mut file), file)
    };
    assert_eq!(stl(&[5, 9, 4, 4], 600, 3), (3, vec![0xa5; 3]));
    assert_eq!(stl(counts, 65_536 + 26, 3), (4, vec![0xa5; 3]));
    assert_eq!(stl(counts, 25, 3), (6, vec![0xa5; 3]));
    assert_eq!(stl(counts, 26, 3), (16, vec![0xa5; 3]));
    assert_eq!(stl(counts, piece.0.into(), 683), (12, vec![0xa5; 683]));
    let (reply, file) = stl(counts, piece.0.into(), 700);
    assert_eq!((reply, &file[684..]), (684 << 8, &[0xa5; 16][..]));
}
