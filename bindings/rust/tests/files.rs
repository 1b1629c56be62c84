//! A table as its one file, and back: document 02, order 1.

use spoonvelvet::{raw, ElementId, Hyperplane, Refused, Slices, Table};

const OLD: u8 = 0xa5;

fn cube(ndim: u32) -> Table {
    Table::with_primordial_cube_radius(ndim, 1.0).unwrap()
}

/// A cube cut in two at such an x.
fn in_two(ndim: u32, distance: f64) -> Table {
    let mut table = cube(ndim);
    table.slice(Hyperplane::new(&[1.0], distance).unwrap(), table.last_element()).unwrap();
    table
}

#[test]
fn the_line_byte_by_byte() {
    let records = [
        [0x48, 0x44, 1, 0, 3, 0, 2, 0, 0, 0].as_slice(),
        &[0x56, 0x58, 0, 0, 0, 0, 0, 0, 0xf0, 0xbf],
        &[0x56, 0x58, 0, 0, 0, 0, 0, 0, 0xf0, 0x3f],
        &[0x45, 0x4c, 0, 0, 0xff, 0xff, 1, 0, 0, 0],
        &[0x45, 0x4c, 0, 0, 0xff, 0xff, 1, 0, 1, 0],
        &[0x45, 0x4c, 1, 0, 0xff, 0xff, 2, 0, 0, 0, 1, 0],
    ];
    assert_eq!(cube(1).save(), records.concat());
    assert_eq!(Table::open(&records.concat()), Ok(cube(1)));
}

#[test]
fn what_was_saved_opens_as_the_same_table() {
    for table in (1..=4).flat_map(|ndim| [cube(ndim), in_two(ndim, 0.25)]) {
        let opened = Table::open(&table.save()).unwrap();
        assert_eq!(opened, table);
        assert_eq!(opened.save(), table.save());
    }
}

#[test]
fn the_same_cuts_are_made_of_what_was_opened() {
    let mut table = in_two(3, 0.25);
    let mut opened = Table::open(&table.save()).unwrap();
    let slanted = Hyperplane::new(&[0.6, 0.8], 0.1).unwrap();
    assert_eq!(opened.slice(slanted, ElementId(26)), table.slice(slanted, ElementId(26)));
    assert_eq!(opened, table);
}

#[test]
fn minus_zero_is_another_table() {
    let [zero, minus_zero] = [0.0, -0.0].map(|distance| in_two(1, distance));
    assert!(zero != minus_zero && zero.save() != minus_zero.save());
    assert_eq!(Table::open(&minus_zero.save()), Ok(minus_zero));
}

#[test]
fn a_table_without_elements_has_a_file() {
    let empty = Table::open(b"HD\x01\0\0\0\0\0\0\0").unwrap();
    assert_eq!((empty.dimensions(), empty.counts().elements), (1, 0));
    assert_eq!(empty.save().len(), 10);
}

#[test]
fn another_layout_is_13_and_an_unsound_table_3() {
    let file = in_two(1, 0.0).save();
    let open_with = |place: usize, byte: u8| {
        let mut file = file.clone();
        file[place] = byte;
        Table::open(&file).map(|table| assert_eq!(table.save(), file))
    };
    assert_eq!(open_with(0, 0x4a), Err(Refused::LAYOUT));
    assert_eq!(open_with(81, 2), Err(Refused::LAYOUT));
    assert_eq!(open_with(81, 1), Err(Refused::NOT_SOUND));
    assert_eq!(open_with(86, 1), Err(Refused::NOT_SOUND));
    assert_eq!(open_with(50, 1), Ok(()));
    for length in 0..file.len() {
        assert_eq!(Table::open(&file[..length]), Err(Refused::LAYOUT));
    }
    assert_eq!(Table::open(&[&file[..], &[0]].concat()), Err(Refused::LAYOUT));
    let five_dimensions = b"HD\x05\0\0\0\0\0\0\0";
    assert_eq!(Table::open(five_dimensions), Err(Refused::NOT_SOUND));
}

#[test]
fn a_file_fills_the_front_of_its_room() {
    let table = in_two(2, 0.5);
    let Slices { counts, points, planes, elements } = table.slices();
    let file = table.save();
    for length in [file.len(), file.len() + 1, raw::LONGEST_FILE] {
        let mut room = vec![OLD; length];
        assert_eq!(raw::save(counts, points, planes, elements, &mut room), (file.len() as u64) << 8);
        assert!(room[..file.len()] == file && room[file.len()..].iter().all(|&byte| byte == OLD));
    }
}

#[test]
fn a_refused_save_leaves_its_room() {
    let table = in_two(2, 0.5);
    let Slices { counts, points, planes, elements } = table.slices();
    for length in [0, 1, table.save().len() - 1] {
        let mut room = vec![OLD; length];
        assert_eq!(raw::save(counts, points, planes, elements, &mut room), 12);
        assert_eq!(raw::save(counts, &points[1..], planes, elements, &mut room), 3);
        assert!(room.iter().all(|&byte| byte == OLD));
    }
}

#[test]
fn a_refused_file_leaves_the_memory() {
    let file = in_two(3, 0.25).save();
    let (mut counts, mut points, mut planes, mut elements) =
        (vec![7; raw::COUNTS], vec![0.5; raw::POINTS], vec![-0.0; raw::PLANES], vec![9; raw::ELEMENTS]);
    let old = (counts.clone(), points.clone(), planes.clone(), elements.clone());
    let twice = [&file[..], &file].concat();
    for refused in [&file[1..], &twice, b"HD\x05\0\0\0\0\0\0\0"] {
        let number = raw::open(&mut counts, &mut points, &mut planes, &mut elements, refused);
        assert_eq!(number, if refused.len() == 10 { 3 } else { 13 });
    }
    assert_eq!(raw::open(&mut counts[1..], &mut points, &mut planes, &mut elements, &file), 3);
    assert_eq!(raw::open(&mut counts[1..], &mut points, &mut planes, &mut elements, &file[1..]), 13);
    assert!(old.0 == counts && old.1 == points && old.3 == elements && planes.iter().all(|x| x.is_sign_negative()));
    assert_eq!(raw::open(&mut counts, &mut points, &mut planes, &mut elements, &file), 0);
    assert_eq!(Table::from_slices(Slices { counts: &counts, points: &points, planes: &planes, elements: &elements }).unwrap().save(), file);
}

#[test]
fn the_longest_file() {
    assert_eq!(raw::LONGEST_FILE, 48_266);
}
