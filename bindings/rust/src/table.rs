//! The room of one table, the calls that add entries to it, the questions about it, and its rows as they lie there.

use crate::raw;
use crate::{
    AreaSheet, Counts, CutAnswer, ElementCutOutput, ElementId, Hyperplane, HyperplaneId, ListedCut, PolytopeFate, Refused, Slices, Stopped,
    Touch, Touched, VertexId,
};
use std::fmt;

/// Dimension and counts, points, hyperplanes, elements. Only the engine writes them, so a table stays sound.
///
/// There is no undo: a clone taken before is the table as it was. To start over, make another cube. Two tables are equal when
/// every word and float of theirs has the same bits.
#[derive(Clone)]
pub struct Table {
    counts: [u16; raw::COUNTS],
    points: Box<[f64; raw::POINTS]>,
    planes: Box<[f64; raw::PLANES]>,
    elements: Box<[u16; raw::ELEMENTS]>,
}

impl Table {
    /// The primordial cube, of 1 to 4 dimensions and radius 1 to 65,536. It is the last element. Refuses with 1 or 2.
    ///
    /// ```
    /// # use spoonvelvet::{ElementId, Refused, Table};
    /// let cube = Table::with_primordial_cube_radius(3, 1.0)?;
    /// assert_eq!(cube.last_element(), ElementId(26));
    /// assert_eq!(Table::with_primordial_cube_radius(258, 1.0), Err(Refused::DIMENSION));
    /// # Ok::<(), Refused>(())
    /// ```
    pub fn with_primordial_cube_radius(ndim: u32, radius: f64) -> Result<Self, Refused> {
        let mut table = Self::blank();
        let number =
            raw::cube(&mut table.counts, &mut *table.points, &mut *table.planes, &mut *table.elements, ndim, radius);
        refusal(number).map_or(Ok(table), Err)
    }

    /// A table from slices that were put aside. Refuses with 3 what is not a sound table.
    ///
    /// ```
    /// # use spoonvelvet::{Refused, Table};
    /// let table = Table::with_primordial_cube_radius(2, 1.0)?;
    /// assert_eq!(Table::from_slices(table.slices()), Ok(table));
    /// # Ok::<(), Refused>(())
    /// ```
    pub fn from_slices(slices: Slices) -> Result<Self, Refused> {
        let Slices { counts, points, planes, elements } = slices;
        refusal(raw::is_sound(counts, points, planes, elements)).map_or(Ok(()), Err)?;
        let mut table = Self::blank();
        table.counts.copy_from_slice(counts);
        table.points.copy_from_slice(points);
        table.planes.copy_from_slice(planes);
        table.elements.copy_from_slice(elements);
        Ok(table)
    }

    /// The table of a file, as [`save`](Table::save) gives it. Refuses with 13 bytes that are not laid out as a file, and with 3
    /// a table that is not sound or has no room.
    ///
    /// ```
    /// # use spoonvelvet::{Refused, Table};
    /// let file = Table::with_primordial_cube_radius(2, 1.0)?.save();
    /// assert_eq!(Table::open(&file)?.save(), file);
    /// assert_eq!(Table::open(&file[1..]), Err(Refused::LAYOUT));
    /// # Ok::<(), Refused>(())
    /// ```
    pub fn open(file: &[u8]) -> Result<Self, Refused> {
        let mut table = Self::blank();
        let number = raw::open(&mut table.counts, &mut *table.points, &mut *table.planes, &mut *table.elements, file);
        refusal(number).map_or(Ok(table), Err)
    }

    /// The one file of the table, whose bytes are in `docs/FILE.md`: two tables are equal exactly when their files are. A table
    /// is sound and no file is longer than its room, so this is never refused.
    ///
    /// ```
    /// # use spoonvelvet::{Refused, Table};
    /// let line = Table::with_primordial_cube_radius(1, 1.0)?;
    /// assert_eq!(line.save()[..10], *b"HD\x01\0\x03\0\x02\0\0\0");
    /// # Ok::<(), Refused>(())
    /// ```
    pub fn save(&self) -> Vec<u8> {
        let mut file = vec![0; raw::LONGEST_FILE];
        let word = raw::save(&self.counts, &*self.points, &*self.planes, &*self.elements, &mut file);
        assert_eq!(refusal(word as u32), None);
        file.truncate((word >> 8) as usize);
        file
    }

    /// The four slices, to be put aside or lent to [`raw`].
    pub fn slices(&self) -> Slices<'_> {
        Slices { counts: &self.counts, points: &*self.points, planes: &*self.planes, elements: &*self.elements }
    }

    fn blank() -> Self {
        Self {
            counts: [0; raw::COUNTS],
            points: Box::new([0.0; raw::POINTS]),
            planes: Box::new([0.0; raw::PLANES]),
            elements: Box::new([0; raw::ELEMENTS]),
        }
    }
}

/// The calls that add entries.
impl Table {
    /// The cut of `root` by `divider`; the entries that it needs and that are not there are added. The answer warns of a corner that is
    /// close to the plane. Refuses with 4, 5, 7, 8, 9, 10 or 11. With both sides removed the intersection is there all the same:
    ///
    /// ```
    /// # use spoonvelvet::{ElementCutOutput, ElementId, Hyperplane, PolytopeFate::Remove, Refused, Table};
    /// let mut square = Table::with_primordial_cube_radius(2, 1.0)?;
    /// let answer = square.cut(Hyperplane::new(&[1.0], 0.0)?, Remove, Remove, ElementId(8))?;
    /// let intersection = Some(ElementId(11));
    /// assert_eq!(answer.output, ElementCutOutput::NonFlush { inside: None, outside: None, intersection });
    /// # Ok::<(), Refused>(())
    /// ```
    pub fn cut(
        &mut self,
        divider: Hyperplane,
        inside: PolytopeFate,
        outside: PolytopeFate,
        root: ElementId,
    ) -> Result<CutAnswer, Refused> {
        let [inside, outside] = [inside, outside].map(|fate| u32::from(fate.is_kept()));
        let Self { counts, points, planes, elements } = self;
        let word = raw::cut(counts, &mut **points, &mut **planes, &mut **elements, divider, inside, outside, root.0.into());
        refusal(word as u32).map_or(Ok(answer(word)), Err)
    }

    /// A cut that keeps what lies inside.
    pub fn carve(&mut self, divider: Hyperplane, root: ElementId) -> Result<CutAnswer, Refused> {
        self.cut(divider, PolytopeFate::Keep, PolytopeFate::Remove, root)
    }

    /// A cut that keeps what lies on either side. A piece that the plane misses is its old entry:
    ///
    /// ```
    /// # use spoonvelvet::{ElementCutOutput, ElementId, Hyperplane, Refused, Table};
    /// let mut square = Table::with_primordial_cube_radius(2, 1.0)?;
    /// let answer = square.slice(Hyperplane::new(&[0.6, 0.8], 1.4)?, ElementId(8))?;
    /// let inside = Some(ElementId(8));
    /// assert_eq!(answer.output, ElementCutOutput::NonFlush { inside, outside: None, intersection: None });
    /// # Ok::<(), Refused>(())
    /// ```
    pub fn slice(&mut self, divider: Hyperplane, root: ElementId) -> Result<CutAnswer, Refused> {
        self.cut(divider, PolytopeFate::Keep, PolytopeFate::Keep, root)
    }

    /// A list of at most [`raw::MOST_CUTS`] cuts in one call, each of what the one before it left. The answers and the table are those of
    /// the same cuts made singly, in that order. The first cut that is refused ends the list: those before it stay, and [`Stopped`] has
    /// their answers and its position. A longer list is refused with 26 before any cut.
    ///
    /// ```
    /// # use spoonvelvet::{ElementId, Hyperplane, ListedCut, Refused, Table};
    /// let mut square = Table::with_primordial_cube_radius(2, 1.0)?;
    /// let (x, y) = (Hyperplane::new(&[1.0, 0.0], 0.0)?, Hyperplane::new(&[0.0, 1.0], 0.0)?);
    /// let pieces = [(x, 8), (y, 16), (y, 17)].map(|(divider, root)| ListedCut::slice(divider, ElementId(root)));
    /// let answers = square.cut_all(&pieces)?;
    /// let mut singly = Table::with_primordial_cube_radius(2, 1.0)?;
    /// for (cut, answer) in pieces.iter().zip(answers) {
    ///     assert_eq!(singly.slice(cut.divider, cut.root)?, answer);
    /// }
    /// assert_eq!(singly, square);
    /// # Ok::<(), Refused>(())
    /// ```
    pub fn cut_all(&mut self, cuts: &[ListedCut]) -> Result<Vec<CutAnswer>, Stopped> {
        let dividers: Vec<f64> = cuts.iter().flat_map(|cut| cut.divider.normal.into_iter().chain([cut.divider.distance])).collect();
        let kept: Vec<u8> = cuts.iter().map(|cut| u8::from(cut.inside.is_kept()) | u8::from(cut.outside.is_kept()) << 1).collect();
        let roots: Vec<u16> = cuts.iter().map(|cut| cut.root.0).collect();
        let mut words = vec![0; cuts.len()];
        let Self { counts, points, planes, elements } = self;
        let list = raw::CutList { dividers: &dividers, kept: &kept, roots: &roots };
        let reply = raw::cut_all(counts, &mut **points, &mut **planes, &mut **elements, list, &mut words);
        let written = (reply >> 8) as usize;
        let answers = words[..written].iter().map(|&word| answer(word)).collect();
        match refusal(reply) {
            None => Ok(answers),
            Some(refused) => {
                let is_a_cut_s = ![Refused::NOT_SOUND, Refused::LIST_LONG, Refused::ROOM_SHORT].contains(&refused);
                Err(Stopped { refused, position: is_a_cut_s.then_some(written), answers })
            }
        }
    }
}

/// The questions.
impl Table {
    /// Whether the table is sound. Calls keep it so.
    pub fn is_sound(&self) -> bool {
        raw::is_sound(&self.counts, &*self.points, &*self.planes, &*self.elements) == 0
    }

    /// Where the corners of `root` lie to `divider`, without a cut: for a plane that is dragged. Nothing is added. Refuses with 4 or 5.
    ///
    /// ```
    /// # use spoonvelvet::{ElementId, Hyperplane, Refused, Table, Touch, Touched};
    /// let square = Table::with_primordial_cube_radius(2, 1.0)?;
    /// let at = |distance: f64| square.touch(Hyperplane::new(&[1.0, 0.0], distance)?, ElementId(8));
    /// assert_eq!(at(0.0)?, Touched { answer: Touch::Both, tested: 2 });
    /// assert_eq!(at(1.0)?, Touched { answer: Touch::InsideOrOn, tested: 4 });
    /// # Ok::<(), Refused>(())
    /// ```
    pub fn touch(&self, divider: Hyperplane, root: ElementId) -> Result<Touched, Refused> {
        let word = raw::touch(&self.counts, &*self.points, &*self.planes, &*self.elements, divider, root.0.into());
        let answer = [Touch::AllOn, Touch::InsideOrOn, Touch::OutsideOrOn, Touch::Both][(word >> 8 & 3) as usize];
        refusal(word).map_or(Ok(Touched { answer, tested: word >> 16 }), Err)
    }

    /// The root and all below it, vertex elements too, rising. Refuses with 4.
    pub fn subelements_of(&self, root: ElementId) -> Result<Vec<ElementId>, Refused> {
        self.list(ElementId, |c, p, h, e, room| raw::subelements_of(c, p, h, e, root.0.into(), room))
    }

    /// Those of a rank, if any; a rank that nobody has is no refusal. Refuses with 4.
    ///
    /// ```
    /// # use spoonvelvet::{ElementId, Refused, Table};
    /// let square = Table::with_primordial_cube_radius(2, 1.0)?;
    /// assert_eq!(square.subelements_with_rank(ElementId(8), 1)?, [2, 5, 6, 7].map(ElementId));
    /// assert_eq!(square.subelements_with_rank(ElementId(8), 257)?, []);
    /// # Ok::<(), Refused>(())
    /// ```
    pub fn subelements_with_rank(&self, root: ElementId, rank: u32) -> Result<Vec<ElementId>, Refused> {
        self.list(ElementId, |c, p, h, e, room| raw::subelements_with_rank(c, p, h, e, root.0.into(), rank, room))
    }

    /// The vertices of an element, rising. Refuses with 4.
    pub fn vertex_set(&self, root: ElementId) -> Result<Vec<VertexId>, Refused> {
        self.list(VertexId, |c, p, h, e, room| raw::vertex_set(c, p, h, e, root.0.into(), room))
    }

    /// Those of the highest rank above 0 that all roots have. Refuses with 4, or with 6: roots have one rank, and there is one.
    pub fn greatest_common_subelements(&self, roots: &[ElementId]) -> Result<Vec<ElementId>, Refused> {
        let numbers: Vec<u16> = roots.iter().map(|e| e.0).collect();
        self.list(ElementId, |c, p, h, e, room| raw::greatest_common_subelements(c, p, h, e, &numbers, room))
    }

    /// The edges of a face in order, as pairs of vertices, round to the start. Refuses with 4, 6 or 7.
    ///
    /// ```
    /// # use spoonvelvet::{ElementId, Refused, Table, VertexId};
    /// let square = Table::with_primordial_cube_radius(2, 1.0)?;
    /// let walk = [[0, 1], [1, 3], [3, 2], [2, 0]].map(|pair| pair.map(VertexId));
    /// assert_eq!(square.edges_in_order(ElementId(8))?, walk);
    /// # Ok::<(), Refused>(())
    /// ```
    pub fn edges_in_order(&self, root: ElementId) -> Result<Vec<[VertexId; 2]>, Refused> {
        let ends = self.list(VertexId, |c, p, h, e, room| raw::edges_in_order(c, p, h, e, root.0.into(), room))?;
        Ok(ends.chunks_exact(2).map(|pair| [pair[0], pair[1]]).collect())
    }

    /// Whether an element of full rank has a primordial facet. Refuses with 4 or 6.
    pub fn has_primordial_facet(&self, root: ElementId) -> Result<bool, Refused> {
        let word = raw::has_primordial_facet(&self.counts, &*self.points, &*self.planes, &*self.elements, root.0.into());
        refusal(word).map_or(Ok(word >> 8 & 1 == 1), Err)
    }

    /// The areas of up to [`raw::MOST_PIECES`] flat pieces, in exact numbers. The table has two dimensions and each piece rank 2, or it is
    /// refused with 6, and every coordinate is a multiple of 1/1,024, or with 25. More pieces are refused with 26, and 4 is refused too.
    ///
    /// ```
    /// # use spoonvelvet::{AreaSheet, ElementId, Hyperplane, Refused, Table};
    /// let mut square = Table::with_primordial_cube_radius(2, 1.0)?;
    /// square.slice(Hyperplane::new(&[1.0, 0.0], 0.5)?, ElementId(8))?;
    /// let sheet = square.areas(&[16, 17].map(ElementId))?;
    /// assert_eq!(sheet.twice_areas, [-3 * AreaSheet::IN_ONE, AreaSheet::IN_ONE]);
    /// assert_eq!(sheet.sum_of_sizes, 4 * AreaSheet::IN_ONE);
    /// # Ok::<(), Refused>(())
    /// ```
    pub fn areas(&self, pieces: &[ElementId]) -> Result<AreaSheet, Refused> {
        let numbers: Vec<u16> = pieces.iter().map(|e| e.0).collect();
        let mut room = [0; raw::LONGEST_SHEET];
        let word = raw::areas(&self.counts, &*self.points, &*self.planes, &*self.elements, &numbers, &mut room);
        refusal(word).map_or(Ok(()), Err)?;
        Ok(AreaSheet { twice_areas: room[..pieces.len()].to_vec(), sum_of_sizes: room[pieces.len() + 1] })
    }

    /// A piece of three dimensions as binary STL, for a printer: each face as a fan of triangles from the first corner of its walk, with
    /// coordinates narrowed to 32 bits. The winding is the walk's, which need not be outward, and no normal is given, so a reader
    /// has to turn the faces. Refuses with 4, with 6 what is not of rank 3 in a table of three dimensions, and with 16 a piece
    /// that still has a facet of the cube.
    ///
    /// ```
    /// # use spoonvelvet::{ElementId, Refused, Table};
    /// let cube = Table::with_primordial_cube_radius(3, 1.0)?;
    /// assert_eq!(cube.stl(cube.last_element()), Err(Refused::PRIMORDIAL_FACET));
    /// # Ok::<(), Refused>(())
    /// ```
    pub fn stl(&self, root: ElementId) -> Result<Vec<u8>, Refused> {
        let mut file = vec![0; raw::LONGEST_PRINT];
        let word = raw::stl(&self.counts, &*self.points, &*self.planes, &*self.elements, root.0.into(), &mut file);
        file.truncate((word >> 8) as usize);
        refusal(word as u32).map_or(Ok(file), Err)
    }

    /// No list is longer than the table has elements, so there is always room.
    fn list<T>(
        &self,
        of: fn(u16) -> T,
        ask: impl FnOnce(&[u16], &[f64], &[f64], &[u16], &mut [u16]) -> u32,
    ) -> Result<Vec<T>, Refused> {
        let mut room = [0; raw::LONGEST_LIST];
        let word = ask(&self.counts, &*self.points, &*self.planes, &*self.elements, &mut room);
        refusal(word).map_or_else(|| Ok(room[..(word >> 8) as usize].iter().map(|&n| of(n)).collect()), Err)
    }
}

/// The rows, as they lie in the table.
impl Table {
    /// How many dimensions the space has.
    pub fn dimensions(&self) -> u32 {
        self.counts[0].into()
    }

    /// How many elements, vertices and hyperplanes are in use.
    pub fn counts(&self) -> Counts {
        Counts { elements: self.counts[1], vertices: self.counts[2], hyperplanes: self.counts[3] }
    }

    /// How many more of each there is room for.
    ///
    /// ```
    /// # use spoonvelvet::{Counts, Refused, Table};
    /// let square = Table::with_primordial_cube_radius(2, 1.0)?;
    /// assert_eq!(square.room_left(), Counts { elements: 503, vertices: 252, hyperplanes: 60 });
    /// # Ok::<(), Refused>(())
    /// ```
    pub fn room_left(&self) -> Counts {
        let Counts { elements, vertices, hyperplanes } = self.counts();
        Counts {
            elements: raw::ELEMENT_ROOM as u16 - elements,
            vertices: raw::VERTEX_ROOM as u16 - vertices,
            hyperplanes: raw::HYPERPLANE_ROOM as u16 - hyperplanes,
        }
    }

    /// The last element in use. Of a fresh cube that is the cube itself, the root of its first cut. A table from slices may have
    /// no element; then this is a number that is not in use.
    pub fn last_element(&self) -> ElementId {
        ElementId(self.counts[1].wrapping_sub(1))
    }

    /// 0 for a vertex element, 1 for an edge, 2 for a face. Refuses with 4, as all that read an element's row do.
    pub fn rank_of(&self, element: ElementId) -> Result<u32, Refused> {
        Ok(self.row(element)?[raw::ROW_RANK].into())
    }

    /// The elements of its boundary, rising. A vertex element has none.
    ///
    /// ```
    /// # use spoonvelvet::{ElementId, Refused, Table};
    /// let square = Table::with_primordial_cube_radius(2, 1.0)?;
    /// assert_eq!(square.boundary_of(ElementId(7))?, [1, 4].map(ElementId));
    /// # Ok::<(), Refused>(())
    /// ```
    pub fn boundary_of(&self, element: ElementId) -> Result<Vec<ElementId>, Refused> {
        let row = self.row(element)?;
        let count = if row[raw::ROW_RANK] > 0 { usize::from(row[raw::ROW_COUNT]) } else { 0 };
        Ok(row[raw::ROW_BOUNDARY..][..count].iter().map(|&n| ElementId(n)).collect())
    }

    /// The vertex that a vertex element names; none for any other element.
    ///
    /// ```
    /// # use spoonvelvet::{ElementId, Refused, Table, VertexId};
    /// let square = Table::with_primordial_cube_radius(2, 1.0)?;
    /// assert_eq!(square.vertex_of(ElementId(4))?, Some(VertexId(3)));
    /// # Ok::<(), Refused>(())
    /// ```
    pub fn vertex_of(&self, element: ElementId) -> Result<Option<VertexId>, Refused> {
        let row = self.row(element)?;
        Ok((row[raw::ROW_RANK] == 0).then(|| VertexId(row[raw::ROW_BOUNDARY])))
    }

    /// The hyperplane that a facet names; none for any other element.
    pub fn hyperplane_of(&self, element: ElementId) -> Result<Option<HyperplaneId>, Refused> {
        let number = self.row(element)?[raw::ROW_HYPERPLANE];
        Ok(Some(number).filter(|&n| n != raw::NONE).map(HyperplaneId))
    }

    /// Whether it has the primordial mark: the cube's own facets do, and the entries that a cut adds for a side of one.
    pub fn is_primordial(&self, element: ElementId) -> Result<bool, Refused> {
        Ok(self.row(element)?[raw::ROW_MARK] == 1)
    }

    /// One coordinate for each dimension. None for a vertex number that is not in use.
    ///
    /// ```
    /// # use spoonvelvet::{Refused, Table, VertexId};
    /// let square = Table::with_primordial_cube_radius(2, 1.0)?;
    /// assert_eq!(square.coordinates_of(VertexId(2)), Some(&[-1.0, 1.0][..]));
    /// assert_eq!(square.coordinates_of(VertexId(4)), None);
    /// # Ok::<(), Refused>(())
    /// ```
    pub fn coordinates_of(&self, vertex: VertexId) -> Option<&[f64]> {
        let start = usize::from(vertex.0) * raw::AXES;
        (vertex.0 < self.counts().vertices).then(|| &self.points[start..][..self.dimensions() as usize])
    }

    /// The hyperplane of that number. None for one that is not in use.
    pub fn hyperplane_at(&self, hyperplane: HyperplaneId) -> Option<Hyperplane> {
        let start = usize::from(hyperplane.0) * raw::PLANE_WIDTH;
        (hyperplane.0 < self.counts().hyperplanes).then(|| {
            let row = &self.planes[start..][..raw::PLANE_WIDTH];
            Hyperplane { normal: [row[0], row[1], row[2], row[3]], distance: row[4] }
        })
    }

    fn row(&self, element: ElementId) -> Result<&[u16], Refused> {
        let start = usize::from(element.0) * raw::ELEMENT_WIDTH;
        let in_use = element.0 < self.counts().elements;
        in_use.then(|| &self.elements[start..][..raw::ELEMENT_WIDTH]).ok_or(Refused::NOT_IN_USE)
    }
}

impl PartialEq for Table {
    fn eq(&self, other: &Self) -> bool {
        let bits = |floats: &[f64]| floats.iter().map(|x| x.to_bits()).collect::<Vec<_>>();
        self.counts == other.counts
            && self.elements == other.elements
            && bits(&*self.points) == bits(&*other.points)
            && bits(&*self.planes) == bits(&*other.planes)
    }
}

impl Eq for Table {}

impl fmt::Debug for Table {
    fn fmt(&self, f: &mut fmt::Formatter<'_>) -> fmt::Result {
        let mut shown = f.debug_struct("Table");
        shown.field("dimensions", &self.dimensions()).field("counts", &self.counts()).finish_non_exhaustive()
    }
}

/// What the reply of a cut says, where it is done.
fn answer(word: u64) -> CutAnswer {
    CutAnswer { output: output(word), warning: word & raw::WARNING != 0 }
}

fn output(word: u64) -> ElementCutOutput {
    if word >> 8 & 1 == 1 {
        return ElementCutOutput::Flush;
    }
    let place = |shift: u32| Some((word >> shift) as u16).filter(|&e| e != raw::NONE).map(ElementId);
    ElementCutOutput::NonFlush { inside: place(16), outside: place(32), intersection: place(48) }
}

/// Bits 0 to 7 of a reply: 0 is done.
fn refusal(word: u32) -> Option<Refused> {
    Some(word as u8).filter(|&number| number != 0).map(Refused)
}
