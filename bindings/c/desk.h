/* Every entry point of the desk, for C: first what there is to know, then the fifteen functions of the archive, then readers of
   their replies and a table as one struct, which are written here. What each function does is its contract in
   crates/desk/src/lib.rt: every table, number, float and byte is allowed, and a refused call leaves the table and the room for a
   list or a file as they came. In a list of cuts the refused one does: those before it stay.

   A cut does not make pieces: it adds entries to a table, and a piece that the plane misses is its old entry. Elements,
   vertices and hyperplanes are three lists, each numbered from 0: a vertex number is no element number.

   Numbers are handed over in 32 bits, so that no int is cut to another number: dimension 258 is refused with 1, roots 65,544 and -1
   with 4, and a rank that nobody has gives an empty list. A longer type is the host's to test. Words of tables and lists have 16
   bits, also the lists of roots and of pieces.

   Lent: each slice is a pointer and how many entries it has, which is not how many bytes. Slices lie apart from one another.
   Stack: a call takes less than 16 KB of it, and nothing of the heap. A table has 47,624 bytes, so make it static or allocate it.
   Threads: nothing is held between calls. Tables that differ may be used at the same time, and one by many calls that only read.
   Floats: the processor rounds to nearest and keeps subnormals, as it does when a program starts.

   A divider is a normal and a distance, and the signed distance of a point is normal . point - distance. Inside is below -2^-20,
   outside above 2^-20, between them is on the plane. The normal has components from -1 to 1 whose squares add up to 1, give or
   take 2^-20: 0.7071 twice is not unit, 0.707107 twice is. Past the dimension its components are +0.0, and -0.0 is refused.
   The distance is from -262,144 to 262,144, or infinite: then the answer is the root itself. Coordinates are from -65,536 to 65,536.

   A corner within 2^-16 of the plane, and not on it, is a close call: an edge may vanish there, or be left too short to be seen. Where
   some corner of the root is one, the cut comes with a warning, and is made all the same. Move the plane, through the corner or farther
   from it, and make the cut in a copy of the table from before it, for no entry is ever taken out. */
#ifndef SPOONVELVET_DESK_H
#define SPOONVELVET_DESK_H

#include <stddef.h>
#include <stdint.h>

#ifdef __cplusplus
extern "C" {
#endif

#define DESK_VERSION "0.1.0"

/* How many of each there is room for, in a table and in the boundary of one element. */
#define DESK_ELEMENT_ROOM 512
#define DESK_VERTEX_ROOM 256
#define DESK_HYPERPLANE_ROOM 64
#define DESK_BOUNDARY_ROOM 32

/* A vertex is a row of DESK_AXES coordinates, a hyperplane one of DESK_AXES components and the distance. Unused room is zero bits. */
#define DESK_AXES 4
#define DESK_PLANE_WIDTH 5

/* An element is a row of words. A vertex element has rank 0, mark 0, DESK_NONE, count 1 and its vertex number. */
#define DESK_ELEMENT_WIDTH 36
#define DESK_ROW_RANK 0       /* 1 for an edge, 2 for a face */
#define DESK_ROW_MARK 1       /* 1 where the element is primordial */
#define DESK_ROW_HYPERPLANE 2 /* the number of a facet's hyperplane, else DESK_NONE */
#define DESK_ROW_COUNT 3      /* of the boundary */
#define DESK_ROW_BOUNDARY 4   /* so many element numbers, rising */

/* What the counts of a table are. */
#define DESK_COUNT_DIMENSION 0
#define DESK_COUNT_ELEMENTS 1
#define DESK_COUNT_VERTICES 2
#define DESK_COUNT_HYPERPLANES 3

/* The lengths of a table's four slices. */
#define DESK_COUNTS 4
#define DESK_POINTS 1024
#define DESK_PLANES 320
#define DESK_ELEMENTS 18432

/* No list is longer. */
#define DESK_LONGEST_LIST 512

/* A list of cuts has no more of them. */
#define DESK_MOST_CUTS 64

/* An area sheet has no more pieces, and so many numbers with their count and the sum of their sizes. */
#define DESK_MOST_PIECES 16
#define DESK_LONGEST_SHEET 18

/* No file of a table has more bytes: a header, and so many vertices, hyperplanes and elements as there is room for. */
#define DESK_LONGEST_FILE 48266

/* No print file has more bytes: a header, and for each face of a boundary, triangles two fewer than a boundary has edges. */
#define DESK_LONGEST_PRINT 48084

/* What stands for "none" in the reply of a cut, and for "no hyperplane" in a row. */
#define DESK_NONE 0xffff

/* What is set in the reply of a cut that comes with a warning: bit 9. */
#define DESK_WARNING 0x200

/* The numbers of refusals: DESK_REFUSED_DIMENSION is 1, and so on. */
#define DESK_REFUSALS(each)                                                                                   \
    each(1, DIMENSION, "the dimension is not 1 to 4")                                                         \
    each(2, RADIUS, "the radius is not a number from 1 to 65,536")                                            \
    each(3, NOT_SOUND, "the table is not sound, or its room has another size")                                \
    each(4, NOT_IN_USE, "an element number is not in use")                                                    \
    each(5, DIVIDER, "the normal is not unit, or the distance is not a number or finite beyond 262,144")      \
    each(6, RANK, "an element of another rank or kind is asked for")                                          \
    each(7, NOT_CLOSED, "an edge would not have two ends, or the edges of a face do not go round once")       \
    each(8, VERTICES_FULL, "there is no room for another vertex")                                             \
    each(9, ELEMENTS_FULL, "there is no room for another element")                                            \
    each(10, HYPERPLANES_FULL, "there is no room for another hyperplane")                                     \
    each(11, BOUNDARY_FULL, "a boundary would have more than 32 elements")                                    \
    each(12, ROOM_SHORT, "the room for the list or the file is too short")                                    \
    each(13, LAYOUT, "the bytes are not laid out as a file")                                                  \
    each(16, PRIMORDIAL_FACET, "the piece has a primordial facet")                                            \
    each(25, OFF_GRID, "a coordinate of a piece is no multiple of 1/1,024")                                   \
    each(26, LIST_LONG, "the list has more than its limit, or its parts do not belong together")

#define DESK_NAMED(number, name, words) DESK_REFUSED_##name = number,
enum desk_number { DESK_REFUSALS(DESK_NAMED) DESK_DONE = 0 };
#undef DESK_NAMED

/* Where the corners of an element lie to a plane. */
enum desk_touched { DESK_ALL_ON = 0, DESK_INSIDE_OR_ON = 1, DESK_OUTSIDE_OR_ON = 2, DESK_BOTH = 3 };

/* ---- The functions of the archive */

/* The four slices of a table: for a function that only reads it, and for one that may add entries. */
#define DESK_READS                                                                                      \
    const uint16_t *counts, size_t counts_len, const double *points, size_t points_len,                \
        const double *planes, size_t planes_len, const uint16_t *elements, size_t elements_len
#define DESK_WRITES                                                                                     \
    uint16_t *counts, size_t counts_len, double *points, size_t points_len, double *planes,            \
        size_t planes_len, uint16_t *elements, size_t elements_len

/* 0 or 3. */
uint32_t desk_is_sound(DESK_READS);

/* 0 to 3: a cube of 1 to 4 dimensions and radius 1 to 65,536, in place of all that the memory had. The cube is the last element:
   2, 8, 26 or 80. */
uint32_t desk_cube(DESK_WRITES, uint32_t ndim, double radius);

/* Bits 0 to 7 the reply's number; bit 8 set for flush; bit 9 set for a warning; 16 to 31 inside, 32 to 47 outside, 48 to 63
   intersection, DESK_NONE for none; refused or flush, the three are 0. A flush answer may come with a warning; at an infinite
   distance no corner is tested, so there is none, and a refused cut has none. inside and outside: 0 removes that side, any other
   number keeps it. A removed side is none, and the intersection is there either way. Two exceptions give a side also when it is
   removed: a root that is a vertex element, and an infinite distance. */
uint64_t desk_cut(DESK_WRITES, double n0, double n1, double n2, double n3, double distance, uint32_t inside,
                  uint32_t outside, uint32_t root);

/* A list of cuts in one call, each of what the one before it left: a row of DESK_PLANE_WIDTH floats for each divider, a byte for what it
   keeps (bit 0 the inside, bit 1 the outside; the others say nothing) and its root. The answers are words as desk_cut replies them, from
   the front of their room on, and are those of the same cuts made singly. Bits 0 to 7 the number, above them how many answers were
   written. Refused before any cut, in this order: 3; 26 for more than DESK_MOST_CUTS cuts, or slices that do not belong together; 12 where
   there is not a word for each cut. Else the first cut that is refused ends the list with its number, and how many answers were
   written is its position: the cuts before it stay, and it leaves the table, and the words from its own on, as they came. */
uint32_t desk_cut_all(DESK_WRITES, const double *dividers, size_t dividers_len, const uint8_t *kept, size_t kept_len,
                      const uint16_t *roots, size_t roots_len, uint64_t *answers, size_t answers_len);

/* Where the corners of an element lie to a plane, without a cut: the table is only read. Bits 0 to 7 the number, 0, 3, 4 or 5; bits 8
   and 9 a number of enum desk_touched; from bit 16 how many corners were tested, in rising vertex order: up to and with the first at
   which both an inside and an outside corner have been met, or all. An infinite distance tests none. */
uint32_t desk_touch(DESK_READS, double n0, double n1, double n2, double n3, double distance, uint32_t root);

/* Bits 0 to 7 the number, above them the size of the list. The list fills the front of its room. */
uint32_t desk_subelements_of(DESK_READS, uint32_t root, uint16_t *list, size_t list_len);
uint32_t desk_subelements_with_rank(DESK_READS, uint32_t root, uint32_t rank, uint16_t *list, size_t list_len);
uint32_t desk_vertex_set(DESK_READS, uint32_t root, uint16_t *list, size_t list_len);
uint32_t desk_greatest_common_subelements(DESK_READS, const uint16_t *roots, size_t roots_len, uint16_t *list,
                                          size_t list_len);

/* The same; two vertex numbers an edge, and the size in numbers. */
uint32_t desk_edges_in_order(DESK_READS, uint32_t root, uint16_t *list, size_t list_len);

/* Bits 0 to 7 the number, bit 8 the answer. */
uint32_t desk_has_primordial_facet(DESK_READS, uint32_t root);

/* The area sheet of flat pieces, faces of a table of two dimensions: of each the twice signed area of its walk in units of 1/1,048,576,
   positive where the walk turns from axis 0 towards axis 1; then how many pieces there are, and the sum of the sizes. Bits 0 to 7 the
   number, above them how many numbers were written: two more than pieces. Refused, each of all pieces before the next: 3; 26 for more than
   DESK_MOST_PIECES; 4; 6 unless the table has two dimensions and each piece rank 2; 25 where a coordinate is no multiple of 1/1,024; 12. */
uint32_t desk_areas(DESK_READS, const uint16_t *pieces, size_t pieces_len, int64_t *areas, size_t areas_len);

/* A piece of three dimensions as binary STL, for a printer: 80 bytes of 0, the count of triangles in 4 bytes, and 50 for each triangle,
   all lowest byte first: a normal of zeros, three corners as 32-bit floats, and 0 in 2 bytes. A face is a fan from the first corner of its
   walk, and faces rise. A coordinate is narrowed to the nearest, and of two equally near to the even one. The winding of a face is
   its walk's, which need not be outward. Bits 0 to 7 the number: 0, 3, 4, 6 unless the table has three dimensions and the root is of rank 3,
   16 where the piece has a primordial facet, or 12; above them how many bytes the file has. It fills the front of its room. */
uint64_t desk_stl(DESK_READS, uint32_t root, uint8_t *file, size_t file_len);

/* A table as its one file, whose bytes are in docs/FILE.md. Bits 0 to 7 the number: 0, 3, or 12 where the room is too short; above
   them how many bytes the file has. It fills the front of its room. */
uint64_t desk_save(DESK_READS, uint8_t *file, size_t file_len);

/* 0, 3 or 13: the table of a file, in place of all that the memory had. Bytes that are not laid out as a file are 13, which comes
   before every 3; file_len is all of the file, for bytes after its last record are 13 too. */
uint32_t desk_open(DESK_WRITES, const uint8_t *file, size_t file_len);

/* ---- Readers of a reply */

/* DESK_DONE, or why it was refused. */
static inline enum desk_number desk_number_of(uint64_t reply) { return (enum desk_number)(reply & 0xff); }

static inline const char *desk_words(enum desk_number number) {
    switch (number) {
    case DESK_DONE: return "done";
#define DESK_SAID(number, name, words) \
    case DESK_REFUSED_##name: return words;
        DESK_REFUSALS(DESK_SAID)
#undef DESK_SAID
    }
    return "no refusal has this number";
}

/* Of a cut: whether the root lies in the plane; whether some corner of it was a close call; and, where it is not flush, the three
   places, each an element or DESK_NONE. */
static inline int desk_is_flush(uint64_t cut) { return (int)(cut >> 8 & 1); }
static inline int desk_has_warning(uint64_t cut) { return (cut & DESK_WARNING) != 0; }
static inline uint16_t desk_inside(uint64_t cut) { return (uint16_t)(cut >> 16); }
static inline uint16_t desk_outside(uint64_t cut) { return (uint16_t)(cut >> 32); }
static inline uint16_t desk_intersection(uint64_t cut) { return (uint16_t)(cut >> 48); }

/* Of a list of cuts: how many answers were written, and whether it stopped at a cut that was refused: then that is its position. */
static inline uint32_t desk_answers_written(uint32_t cut_all) { return cut_all >> 8; }
static inline int desk_is_stopped(uint32_t cut_all) {
    enum desk_number number = desk_number_of(cut_all);
    return number != DESK_DONE && number != DESK_REFUSED_NOT_SOUND && number != DESK_REFUSED_LIST_LONG && number != DESK_REFUSED_ROOM_SHORT;
}

/* Of a touch: the answer, and how many corners were tested. */
static inline enum desk_touched desk_touched_of(uint32_t touch) { return (enum desk_touched)(touch >> 8 & 3); }
static inline uint32_t desk_corners_tested(uint32_t touch) { return touch >> 16; }

/* Of a list or an area sheet: how many numbers it has. */
static inline uint32_t desk_size(uint32_t list) { return list >> 8; }

/* Of the question about a primordial facet: the answer. */
static inline int desk_is_yes(uint32_t facet) { return (int)(facet >> 8 & 1); }

/* Of saving and of printing: how many bytes the file has. */
static inline size_t desk_file_size(uint64_t file) { return (size_t)(file >> 8); }

/* ---- A table as one struct */

struct desk_table {
    uint16_t counts[DESK_COUNTS];
    double points[DESK_POINTS];
    double planes[DESK_PLANES];
    uint16_t elements[DESK_ELEMENTS];
};

struct desk_hyperplane {
    double normal[DESK_AXES];
    double distance;
};

/* What a cut keeps. */
#define DESK_KEEP_NEITHER 0
#define DESK_KEEP_INSIDE 1
#define DESK_KEEP_OUTSIDE 2
#define DESK_KEEP_BOTH 3

/* Cuts to be made in one call. Start with {0}, or take a count of 0. */
struct desk_cut_list {
    size_t count;
    double dividers[DESK_MOST_CUTS * DESK_PLANE_WIDTH];
    uint8_t kept[DESK_MOST_CUTS];
    uint16_t roots[DESK_MOST_CUTS];
};

#define DESK_LENT(table)                                                                                      \
    (table)->counts, DESK_COUNTS, (table)->points, DESK_POINTS, (table)->planes, DESK_PLANES, (table)->elements, \
        DESK_ELEMENTS

static inline uint32_t desk_table_is_sound(const struct desk_table *table) { return desk_is_sound(DESK_LENT(table)); }

static inline uint32_t desk_table_cube(struct desk_table *table, uint32_t ndim, double radius) {
    return desk_cube(DESK_LENT(table), ndim, radius);
}

static inline uint64_t desk_table_cut(struct desk_table *table, struct desk_hyperplane divider, uint32_t kept, uint32_t root) {
    const double *n = divider.normal;
    return desk_cut(DESK_LENT(table), n[0], n[1], n[2], n[3], divider.distance, kept & DESK_KEEP_INSIDE,
                    kept & DESK_KEEP_OUTSIDE, root);
}

/* Adds a cut to a list: 0, or 26 where it is full. A root has 16 bits there, so one that has more becomes 65,535, which is in no table. */
static inline uint32_t desk_cut_list_add(struct desk_cut_list *list, struct desk_hyperplane divider, uint32_t kept, uint32_t root) {
    size_t i = list->count;
    if (i >= DESK_MOST_CUTS) return DESK_REFUSED_LIST_LONG;
    for (int axis = 0; axis < DESK_AXES; axis++) list->dividers[DESK_PLANE_WIDTH * i + axis] = divider.normal[axis];
    list->dividers[DESK_PLANE_WIDTH * i + DESK_AXES] = divider.distance;
    list->kept[i] = (uint8_t)(kept & DESK_KEEP_BOTH);
    list->roots[i] = root < 0xffff ? (uint16_t)root : 0xffff;
    list->count = i + 1;
    return DESK_DONE;
}

/* DESK_MOST_CUTS words are enough for every list. */
static inline uint32_t desk_table_cut_all(struct desk_table *table, const struct desk_cut_list *list, uint64_t *answers, size_t answers_len) {
    return desk_cut_all(DESK_LENT(table), list->dividers, DESK_PLANE_WIDTH * list->count, list->kept, list->count, list->roots, list->count,
                        answers, answers_len);
}

static inline uint32_t desk_table_touch(const struct desk_table *table, struct desk_hyperplane divider, uint32_t root) {
    const double *n = divider.normal;
    return desk_touch(DESK_LENT(table), n[0], n[1], n[2], n[3], divider.distance, root);
}

static inline uint32_t desk_table_subelements_of(const struct desk_table *table, uint32_t root, uint16_t *list, size_t list_len) {
    return desk_subelements_of(DESK_LENT(table), root, list, list_len);
}

static inline uint32_t desk_table_subelements_with_rank(const struct desk_table *table, uint32_t root, uint32_t rank, uint16_t *list,
                                                        size_t list_len) {
    return desk_subelements_with_rank(DESK_LENT(table), root, rank, list, list_len);
}

static inline uint32_t desk_table_vertex_set(const struct desk_table *table, uint32_t root, uint16_t *list, size_t list_len) {
    return desk_vertex_set(DESK_LENT(table), root, list, list_len);
}

static inline uint32_t desk_table_greatest_common_subelements(const struct desk_table *table, const uint16_t *roots, size_t roots_len,
                                                              uint16_t *list, size_t list_len) {
    return desk_greatest_common_subelements(DESK_LENT(table), roots, roots_len, list, list_len);
}

static inline uint32_t desk_table_edges_in_order(const struct desk_table *table, uint32_t root, uint16_t *list, size_t list_len) {
    return desk_edges_in_order(DESK_LENT(table), root, list, list_len);
}

static inline uint32_t desk_table_has_primordial_facet(const struct desk_table *table, uint32_t root) {
    return desk_has_primordial_facet(DESK_LENT(table), root);
}

/* The area sheet of up to DESK_MOST_PIECES pieces. Start with {0}, or take a count of 0. */
struct desk_sheet {
    size_t count;
    uint16_t pieces[DESK_MOST_PIECES];
    int64_t areas[DESK_LONGEST_SHEET];
};

/* Adds a piece to a sheet: 0, or 26 where it is full. A number has 16 bits there, so one that has more becomes 65,535, which is in no table. */
static inline uint32_t desk_sheet_add(struct desk_sheet *sheet, uint32_t piece) {
    if (sheet->count >= DESK_MOST_PIECES) return DESK_REFUSED_LIST_LONG;
    sheet->pieces[sheet->count++] = piece < 0xffff ? (uint16_t)piece : 0xffff;
    return DESK_DONE;
}

/* Reads count and pieces, and writes areas: so many as there are pieces, then their count and the sum of sizes. */
static inline uint32_t desk_table_areas(const struct desk_table *table, struct desk_sheet *sheet) {
    return desk_areas(DESK_LENT(table), sheet->pieces, sheet->count, sheet->areas, DESK_LONGEST_SHEET);
}

/* Of a sheet that is done: the sum of the sizes of its areas, twice and in units of 1/1,048,576 as they are. */
static inline int64_t desk_sum_of_sizes(const struct desk_sheet *sheet) { return sheet->areas[sheet->count + 1]; }

/* DESK_LONGEST_PRINT bytes are enough for every piece. */
static inline uint64_t desk_table_stl(const struct desk_table *table, uint32_t root, uint8_t *file, size_t file_len) {
    return desk_stl(DESK_LENT(table), root, file, file_len);
}

/* DESK_LONGEST_FILE bytes are enough for every table. */
static inline uint64_t desk_table_save(const struct desk_table *table, uint8_t *file, size_t file_len) {
    return desk_save(DESK_LENT(table), file, file_len);
}

/* It may be any memory, as for a cube. */
static inline uint32_t desk_table_open(struct desk_table *table, const uint8_t *file, size_t file_len) {
    return desk_open(DESK_LENT(table), file, file_len);
}

/* The last element in use; of a fresh cube the cube itself, the root of its first cut. DESK_NONE in a table without elements. */
static inline uint16_t desk_table_last_element(const struct desk_table *table) {
    return (uint16_t)(table->counts[DESK_COUNT_ELEMENTS] - 1);
}

/* The row of an element, of which DESK_ROW_RANK and the others name the words. NULL where the number is not in use. */
static inline const uint16_t *desk_table_row_of(const struct desk_table *table, uint32_t element) {
    return element < table->counts[DESK_COUNT_ELEMENTS] ? table->elements + DESK_ELEMENT_WIDTH * element : NULL;
}

/* The coordinates of a vertex, which is no element number. NULL where the number is not in use. */
static inline const double *desk_table_coordinates_of(const struct desk_table *table, uint32_t vertex) {
    return vertex < table->counts[DESK_COUNT_VERTICES] ? table->points + DESK_AXES * vertex : NULL;
}

/* The components and the distance of a hyperplane. NULL where the number is not in use. */
static inline const double *desk_table_hyperplane_at(const struct desk_table *table, uint32_t hyperplane) {
    return hyperplane < table->counts[DESK_COUNT_HYPERPLANES] ? table->planes + DESK_PLANE_WIDTH * hyperplane : NULL;
}

#ifdef __cplusplus
}
#endif

#endif
