/* What desk.h says of rows, replies, warnings, lists of cuts, touches, area sheets, print files and refusals, by a table of the engine's. Ends
   with the line that does not hold. */
#include "desk.h"
#include <math.h>
#include <stdio.h>
#include <string.h>

#define HOLDS(what) \
    if (!(what)) return printf("%s:%d: %s\n", __FILE__, __LINE__, #what), 1

static struct desk_table table, before;
static uint8_t file[DESK_LONGEST_FILE], old_file[DESK_LONGEST_FILE];
static struct desk_cut_list cuts;
static uint64_t answers[DESK_MOST_CUTS + 1];

static uint64_t at_x(double distance, uint32_t kept, uint32_t root) {
    struct desk_hyperplane divider = {{1.0, 0.0, 0.0, 0.0}, distance};
    return desk_table_cut(&table, divider, kept, root);
}

static enum desk_number oblique(double x, double past) {
    struct desk_hyperplane divider = {{x, x, past, 0.0}, 0.0};
    return desk_number_of(desk_table_cut(&table, divider, DESK_KEEP_BOTH, 8));
}

static int rows(void) {
    HOLDS(desk_number_of(desk_table_cube(&table, 2, 1.0)) == DESK_DONE);
    HOLDS(desk_table_is_sound(&table) == DESK_DONE);
    HOLDS(desk_table_last_element(&table) == 8);
    HOLDS(table.counts[DESK_COUNT_DIMENSION] == 2 && table.counts[DESK_COUNT_ELEMENTS] == 9);
    HOLDS(table.counts[DESK_COUNT_VERTICES] == 4 && table.counts[DESK_COUNT_HYPERPLANES] == 4);
    const uint16_t *corner = desk_table_row_of(&table, 4), *edge = desk_table_row_of(&table, 7);
    HOLDS(corner[DESK_ROW_RANK] == 0 && corner[DESK_ROW_HYPERPLANE] == DESK_NONE && corner[DESK_ROW_BOUNDARY] == 3);
    HOLDS(edge[DESK_ROW_RANK] == 1 && edge[DESK_ROW_MARK] == 1 && edge[DESK_ROW_HYPERPLANE] == 3 && edge[DESK_ROW_COUNT] == 2);
    HOLDS(edge[DESK_ROW_BOUNDARY] == 1 && edge[DESK_ROW_BOUNDARY + 1] == 4);
    HOLDS(desk_table_coordinates_of(&table, 2)[0] == -1.0 && desk_table_coordinates_of(&table, 2)[1] == 1.0);
    HOLDS(desk_table_hyperplane_at(&table, 3)[0] == 1.0 && desk_table_hyperplane_at(&table, 3)[DESK_PLANE_WIDTH - 1] == 1.0);
    HOLDS(!desk_table_row_of(&table, 9) && !desk_table_coordinates_of(&table, 4) && !desk_table_hyperplane_at(&table, 4));
    HOLDS(DESK_POINTS == DESK_VERTEX_ROOM * DESK_AXES && DESK_PLANES == DESK_HYPERPLANE_ROOM * DESK_PLANE_WIDTH);
    HOLDS(DESK_ELEMENTS == DESK_ELEMENT_ROOM * DESK_ELEMENT_WIDTH && DESK_ELEMENT_WIDTH == DESK_ROW_BOUNDARY + DESK_BOUNDARY_ROOM);
    HOLDS(sizeof table == 47624);
    HOLDS(DESK_LONGEST_FILE == 10 + DESK_VERTEX_ROOM * (2 + 8 * DESK_AXES) + DESK_HYPERPLANE_ROOM * (10 + 8 * DESK_AXES) +
                                   DESK_ELEMENT_ROOM * (8 + 2 * DESK_BOUNDARY_ROOM));
    return 0;
}

static int replies(void) {
    uint16_t list[DESK_LONGEST_LIST], roots[] = {2, 6};
    HOLDS(desk_size(desk_table_subelements_of(&table, 8, list, DESK_LONGEST_LIST)) == 9 && list[8] == 8);
    HOLDS(desk_size(desk_table_subelements_with_rank(&table, 8, 1, list, DESK_LONGEST_LIST)) == 4 && list[0] == 2);
    HOLDS(desk_size(desk_table_vertex_set(&table, 7, list, 2)) == 2 && list[0] == 1 && list[1] == 3);
    HOLDS(desk_number_of(desk_table_vertex_set(&table, 7, list, 1)) == DESK_REFUSED_ROOM_SHORT);
    HOLDS(desk_table_greatest_common_subelements(&table, roots, 2, list, DESK_LONGEST_LIST) == 0);
    HOLDS(desk_size(desk_table_edges_in_order(&table, 8, list, 8)) == 8 && list[2] == 1 && list[3] == 3);
    HOLDS(desk_is_yes(desk_table_has_primordial_facet(&table, 8)));
    HOLDS(desk_number_of(desk_table_has_primordial_facet(&table, 7)) == DESK_REFUSED_RANK);
    HOLDS(desk_is_flush(at_x(1.0, DESK_KEEP_BOTH, 7)));
    uint64_t cut = at_x(0.0, DESK_KEEP_OUTSIDE, 8);
    HOLDS(desk_inside(cut) == DESK_NONE && desk_outside(cut) != DESK_NONE && desk_intersection(cut) != DESK_NONE && !desk_is_flush(cut));
    cut = at_x(0.0, DESK_KEEP_NEITHER, 8);
    HOLDS(desk_inside(cut) == DESK_NONE && desk_outside(cut) == DESK_NONE && desk_intersection(cut) != DESK_NONE);
    cut = at_x(0.0, DESK_KEEP_INSIDE, 8);
    HOLDS(desk_table_vertex_set(&table, desk_inside(cut), list, 4) >> 8 == 4 && list[0] == 0); /* (-1, -1) is inside x = 0 */
    HOLDS(desk_inside(at_x(0.0, DESK_KEEP_OUTSIDE, 0)) == 0);
    HOLDS(desk_outside(at_x(-INFINITY, DESK_KEEP_NEITHER, 8)) == 8);
    HOLDS(at_x(1.0 - 0x1p-20, DESK_KEEP_BOTH, 7) == 1 << 8 && !desk_is_flush(at_x(1.0 - 0x1.01p-20, DESK_KEEP_BOTH, 7)));
    return 0;
}

/* The corners at x = 0 lie as far from such a plane as it does from 0: 2^-20 and 2^-16, on either side, and the floats past them. */
static int warnings(void) {
    HOLDS(desk_number_of(desk_table_cube(&table, 2, 1.0)) == DESK_DONE);
    uint16_t edge = desk_intersection(at_x(0.0, DESK_KEEP_BOTH, 8));
    for (int side = -1; side <= 1; side += 2) {
        HOLDS(at_x(side * 0x1p-20, DESK_KEEP_BOTH, edge) == 1 << 8);
        uint64_t cut = at_x(side * 0x1.0000000000001p-20, DESK_KEEP_BOTH, edge);
        HOLDS(desk_has_warning(cut) && !desk_is_flush(cut) && (side < 0 ? desk_outside(cut) : desk_inside(cut)) == edge);
        HOLDS(at_x(side * 0x1p-16, DESK_KEEP_BOTH, edge) == cut && (cut & DESK_WARNING) == DESK_WARNING);
        HOLDS(at_x(side * 0x1.0000000000001p-16, DESK_KEEP_BOTH, edge) == (cut & ~(uint64_t)DESK_WARNING));
    }
    HOLDS(desk_has_warning(at_x(0x1p-17, DESK_KEEP_NEITHER, 8)) == 0 && desk_has_warning(at_x(1.0 + 0x1p-17, DESK_KEEP_NEITHER, 8)));
    HOLDS(!desk_has_warning(at_x(INFINITY, DESK_KEEP_BOTH, edge)) && at_x(0x1p-17, DESK_KEEP_BOTH, 9999) == DESK_REFUSED_NOT_IN_USE);
    return 0;
}

/* Three corners of a face lie on the plane, and with them two edges; the fourth is 3 * 2^-20 away from it. */
static int flush_with_a_warning(void) {
    struct desk_hyperplane tilted = {{1.0, 0x1p-20, 0x1p-20, 0.0}, 1.0 - 0x1p-20};
    HOLDS(desk_number_of(desk_table_cube(&table, 3, 1.0)) == DESK_DONE);
    uint64_t cut = desk_table_cut(&table, tilted, DESK_KEEP_BOTH, 25);
    HOLDS(cut == (1 << 8 | DESK_WARNING) && desk_is_flush(cut) && desk_has_warning(cut));
    HOLDS(desk_number_of(desk_table_cube(&table, 2, 1.0)) == DESK_DONE);
    return 0;
}

static int refusals(void) {
    before = table;
    HOLDS(desk_number_of(at_x(0.0, DESK_KEEP_BOTH, 9999)) == DESK_REFUSED_NOT_IN_USE);
    HOLDS(desk_number_of(at_x(262145.0, DESK_KEEP_BOTH, 8)) == DESK_REFUSED_DIVIDER && desk_number_of(at_x(262144.0, 3, 8)) == DESK_DONE);
    table = before;
    HOLDS(oblique(0.7071, 0.0) == DESK_REFUSED_DIVIDER && oblique(0.707107, -0.0) == DESK_REFUSED_DIVIDER);
    HOLDS(desk_number_of(desk_table_cube(&table, 5, 1.0)) == DESK_REFUSED_DIMENSION);
    HOLDS(desk_number_of(desk_table_cube(&table, 2, 0.5)) == DESK_REFUSED_RADIUS);
    HOLDS(memcmp(&table, &before, sizeof table) == 0);
    HOLDS(oblique(0.707107, 0.0) == DESK_DONE);
    HOLDS(strcmp(desk_words(DESK_REFUSED_NOT_IN_USE), "an element number is not in use") == 0);
    HOLDS(strcmp(desk_words(DESK_DONE), "done") == 0);
    return 0;
}

static uint32_t list_at_x(double distance, uint32_t kept, uint32_t root) {
    struct desk_hyperplane divider = {{1.0, 0.0, 0.0, 0.0}, distance};
    return desk_cut_list_add(&cuts, divider, kept, root);
}

/* The list's answers are those of single cuts, and so is the table. */
static int lists(void) {
    HOLDS(desk_table_cube(&table, 2, 1.0) == DESK_DONE);
    before = table;
    cuts.count = 0;
    HOLDS(desk_table_cut_all(&table, &cuts, answers, 0) == DESK_DONE && memcmp(&table, &before, sizeof table) == 0);
    HOLDS(!list_at_x(0.0, DESK_KEEP_BOTH, 8) && !list_at_x(0.5, DESK_KEEP_INSIDE, 17) && !list_at_x(1.0, DESK_KEEP_NEITHER, 7) && !list_at_x(0.0, DESK_KEEP_BOTH, 8));
    memset(answers, 0xa5, sizeof answers);
    uint32_t reply = desk_table_cut_all(&table, &cuts, answers, DESK_MOST_CUTS);
    HOLDS(desk_number_of(reply) == DESK_DONE && desk_answers_written(reply) == 4 && !desk_is_stopped(reply));
    HOLDS(desk_inside(answers[0]) == 16 && desk_outside(answers[0]) == 17 && desk_intersection(answers[0]) == 15 && answers[3] == answers[0]);
    HOLDS(desk_outside(answers[1]) == DESK_NONE && desk_is_flush(answers[2]) && answers[4] == 0xa5a5a5a5a5a5a5a5);
    struct desk_table left = table;
    table = before;
    HOLDS(at_x(0.0, DESK_KEEP_BOTH, 8) == answers[0] && at_x(0.5, DESK_KEEP_INSIDE, 17) == answers[1]);
    HOLDS(at_x(1.0, DESK_KEEP_NEITHER, 7) == answers[2] && memcmp(&table, &left, sizeof table) == 0);
    return 0;
}

static int stopped_lists(void) {
    HOLDS(desk_table_cube(&table, 2, 1.0) == DESK_DONE);
    before = table;
    cuts.count = 0;
    HOLDS(!list_at_x(0.0, DESK_KEEP_BOTH, 8) && !list_at_x(0.0, DESK_KEEP_BOTH, 9999) && !list_at_x(0.5, DESK_KEEP_BOTH, 8));
    memset(answers, 0xa5, sizeof answers);
    HOLDS(desk_table_cut_all(&table, &cuts, answers, 2) == DESK_REFUSED_ROOM_SHORT && memcmp(&table, &before, sizeof table) == 0);
    uint32_t reply = desk_table_cut_all(&table, &cuts, answers, 3);
    HOLDS(desk_number_of(reply) == DESK_REFUSED_NOT_IN_USE && desk_is_stopped(reply) && desk_answers_written(reply) == 1);
    HOLDS(desk_inside(answers[0]) == 16 && answers[1] == 0xa5a5a5a5a5a5a5a5 && answers[2] == answers[1]);
    HOLDS(table.counts[DESK_COUNT_ELEMENTS] == 18 && table.counts[DESK_COUNT_HYPERPLANES] == 5);
    table = before;
    cuts.count = 0;
    HOLDS(!list_at_x(0.0, DESK_KEEP_BOTH, 65544));
    reply = desk_table_cut_all(&table, &cuts, answers, 1);
    HOLDS(reply == DESK_REFUSED_NOT_IN_USE && desk_is_stopped(reply) && memcmp(&table, &before, sizeof table) == 0);
    return 0;
}

/* So many floats, bytes and words of the list, and no room for an answer. */
static uint32_t of_lengths(size_t dividers, size_t kept, size_t roots) {
    return desk_cut_all(DESK_LENT(&table), cuts.dividers, dividers, cuts.kept, kept, cuts.roots, roots, answers, 0);
}

/* 3, then 26, then 12; none of them has a position. */
static int refused_lists(void) {
    before = table;
    cuts.count = 0;
    for (int i = 0; i < DESK_MOST_CUTS; i++) HOLDS(list_at_x(0.0, DESK_KEEP_BOTH, 8) == DESK_DONE);
    HOLDS(list_at_x(0.0, DESK_KEEP_BOTH, 8) == DESK_REFUSED_LIST_LONG && cuts.count == DESK_MOST_CUTS);
    HOLDS(desk_answers_written(desk_table_cut_all(&table, &cuts, answers, DESK_MOST_CUTS)) == DESK_MOST_CUTS);
    HOLDS(desk_table_cut_all(&table, &cuts, answers, DESK_MOST_CUTS - 1) == DESK_REFUSED_ROOM_SHORT);
    table = before;
    HOLDS(of_lengths(5, 1, 2) == DESK_REFUSED_LIST_LONG && of_lengths(5, 2, 1) == DESK_REFUSED_LIST_LONG && of_lengths(4, 1, 1) == DESK_REFUSED_LIST_LONG);
    HOLDS(of_lengths(325, 65, 65) == DESK_REFUSED_LIST_LONG && of_lengths(5, 1, 1) == DESK_REFUSED_ROOM_SHORT && of_lengths(0, 0, 0) == DESK_DONE);
    HOLDS(!desk_is_stopped(of_lengths(5, 1, 2)) && !desk_is_stopped(of_lengths(5, 1, 1)) && memcmp(&table, &before, sizeof table) == 0);
    table.counts[DESK_COUNT_VERTICES]++;
    HOLDS(of_lengths(5, 1, 2) == DESK_REFUSED_NOT_SOUND && !desk_is_stopped(of_lengths(0, 0, 0)));
    table = before;
    HOLDS(strcmp(desk_words(DESK_REFUSED_LIST_LONG), "the list has more than its limit, or its parts do not belong together") == 0);
    return 0;
}

static uint32_t touched_at_x(double distance, uint32_t root) {
    struct desk_hyperplane divider = {{1.0, 0.0, 0.0, 0.0}, distance};
    return desk_table_touch(&table, divider, root);
}

static int is(uint32_t touch, enum desk_touched answer, uint32_t tested) {
    return desk_number_of(touch) == DESK_DONE && desk_touched_of(touch) == answer && desk_corners_tested(touch) == tested;
}

/* Vertices 0 and 2 of the square lie at x = -1, 1 and 3 at x = 1; element 0 is vertex 0, element 7 the edge at x = 1. */
static int touches(void) {
    HOLDS(desk_table_cube(&table, 2, 1.0) == DESK_DONE);
    before = table;
    HOLDS(is(touched_at_x(0.0, 8), DESK_BOTH, 2) && is(touched_at_x(1.0, 8), DESK_INSIDE_OR_ON, 4));
    HOLDS(is(touched_at_x(-1.0, 8), DESK_OUTSIDE_OR_ON, 4) && is(touched_at_x(1.0, 7), DESK_ALL_ON, 2));
    HOLDS(is(touched_at_x(0.0, 0), DESK_INSIDE_OR_ON, 1) && is(touched_at_x(-2.0, 7), DESK_OUTSIDE_OR_ON, 2));
    HOLDS(is(touched_at_x(INFINITY, 8), DESK_INSIDE_OR_ON, 0) && is(touched_at_x(-INFINITY, 8), DESK_OUTSIDE_OR_ON, 0));
    HOLDS(is(touched_at_x(1.0 - 0x1p-20, 7), DESK_ALL_ON, 2) && is(touched_at_x(1.0 - 0x1.01p-20, 7), DESK_OUTSIDE_OR_ON, 2));
    HOLDS(touched_at_x(0.0, 9) == DESK_REFUSED_NOT_IN_USE && touched_at_x(NAN, 65544) == DESK_REFUSED_NOT_IN_USE);
    HOLDS(touched_at_x(NAN, 8) == DESK_REFUSED_DIVIDER && touched_at_x(262145.0, 8) == DESK_REFUSED_DIVIDER);
    HOLDS(memcmp(&table, &before, sizeof table) == 0);
    table.counts[DESK_COUNT_VERTICES]++;
    HOLDS(touched_at_x(NAN, 9) == DESK_REFUSED_NOT_SOUND);
    table = before;
    return 0;
}

/* C converts what it hands over without a word: no number may become another on its way. */
static int numbers(void) {
    uint16_t list[DESK_LONGEST_LIST];
    const int dimensions[] = {0, 5, 256, 257, 258, 65538, 16777218, -1, -254}, roots[] = {9, 264, 65535, 65536, 65544, -1, -65528};
    before = table;
    for (size_t i = 0; i < sizeof dimensions / sizeof *dimensions; i++)
        HOLDS(desk_table_cube(&table, (uint32_t)dimensions[i], 1.0) == DESK_REFUSED_DIMENSION);
    HOLDS(desk_number_of(desk_table_cube(&table, 2, 1.0)) == DESK_DONE);
    for (size_t i = 0; i < sizeof roots / sizeof *roots; i++) {
        uint32_t root = (uint32_t)roots[i];
        HOLDS(at_x(0.0, DESK_KEEP_BOTH, root) == DESK_REFUSED_NOT_IN_USE);
        HOLDS(desk_table_subelements_of(&table, root, list, DESK_LONGEST_LIST) == DESK_REFUSED_NOT_IN_USE);
        HOLDS(desk_table_subelements_with_rank(&table, root, 1, list, DESK_LONGEST_LIST) == DESK_REFUSED_NOT_IN_USE);
        HOLDS(desk_table_vertex_set(&table, root, list, DESK_LONGEST_LIST) == DESK_REFUSED_NOT_IN_USE);
        HOLDS(desk_table_edges_in_order(&table, root, list, DESK_LONGEST_LIST) == DESK_REFUSED_NOT_IN_USE);
        HOLDS(desk_table_has_primordial_facet(&table, root) == DESK_REFUSED_NOT_IN_USE);
        HOLDS(!desk_table_row_of(&table, root) && !desk_table_coordinates_of(&table, root) && !desk_table_hyperplane_at(&table, root));
    }
    HOLDS(desk_table_subelements_with_rank(&table, 8, 257, list, DESK_LONGEST_LIST) == 0);
    HOLDS(desk_table_subelements_with_rank(&table, 8, 65537, list, 0) == 0);
    HOLDS(desk_inside(desk_cut(DESK_LENT(&table), 1.0, 0.0, 0.0, 0.0, 0.0, 256, 65536, 8)) != DESK_NONE);
    HOLDS(desk_outside(desk_cut(DESK_LENT(&table), 1.0, 0.0, 0.0, 0.0, 0.0, 256, 65536, 8)) != DESK_NONE);
    table = before;
    return 0;
}

/* A square of radius 1 cut at x = 0: two halves of twice 2 x 1,048,576 units, whose walks turn each its own way. */
static int areas(void) {
    struct desk_sheet sheet = {3, {8, 16, 17}, {7}};
    HOLDS(DESK_LONGEST_SHEET == DESK_MOST_PIECES + 2 && desk_table_cube(&table, 2, 1.0) == DESK_DONE);
    HOLDS(desk_number_of(at_x(0.0, DESK_KEEP_BOTH, 8)) == DESK_DONE);
    HOLDS(desk_table_areas(&table, &sheet) == 5 << 8 && desk_size(desk_table_areas(&table, &sheet)) == 5);
    HOLDS(sheet.areas[0] == 8 << 20 && sheet.areas[1] == -(4 << 20) && sheet.areas[2] == 4 << 20 && sheet.areas[3] == 3);
    HOLDS(desk_sum_of_sizes(&sheet) == 16 << 20);
    sheet.count = 0;
    HOLDS(desk_table_areas(&table, &sheet) == 2 << 8 && sheet.areas[0] == 0 && sheet.areas[1] == 0 && sheet.areas[2] == 4 << 20);
    HOLDS(desk_areas(DESK_LENT(&table), sheet.pieces, DESK_MOST_PIECES + 1, sheet.areas, 0) == DESK_REFUSED_LIST_LONG);
    sheet.count = 2;
    sheet.pieces[1] = 7;
    HOLDS(desk_table_areas(&table, &sheet) == DESK_REFUSED_RANK);
    sheet.pieces[0] = 600;
    HOLDS(desk_table_areas(&table, &sheet) == DESK_REFUSED_NOT_IN_USE);
    sheet.count = 0;
    HOLDS(desk_sheet_add(&sheet, 65544) == DESK_DONE && sheet.pieces[0] == 0xffff);
    for (int i = 1; i < DESK_MOST_PIECES; i++) HOLDS(desk_sheet_add(&sheet, 8) == DESK_DONE);
    HOLDS(desk_sheet_add(&sheet, 8) == DESK_REFUSED_LIST_LONG && sheet.count == DESK_MOST_PIECES && sheet.pieces[15] == 8);
    HOLDS(desk_table_areas(&table, &sheet) == DESK_REFUSED_NOT_IN_USE);
    sheet.pieces[0] = 17;
    HOLDS(desk_table_areas(&table, &sheet) == 18 << 8 && sheet.areas[16] == 16 && desk_sum_of_sizes(&sheet) == 124 << 20);
    sheet.count = 2;
    uint64_t cut = at_x(1.0 / 2048, DESK_KEEP_BOTH, 8);
    sheet.pieces[0] = 8, sheet.pieces[1] = desk_inside(cut);
    HOLDS(desk_table_areas(&table, &sheet) == DESK_REFUSED_OFF_GRID && sheet.areas[16] == 16);
    HOLDS(desk_areas(DESK_LENT(&table), sheet.pieces, 1, sheet.areas, 2) == DESK_REFUSED_ROOM_SHORT);
    HOLDS(desk_table_cube(&table, 3, 1.0) == DESK_DONE);
    sheet.count = 0;
    HOLDS(desk_table_areas(&table, &sheet) == DESK_REFUSED_RANK);
    return 0;
}

static float corner_at(size_t triangle, int corner, int axis) {
    float x;
    memcpy(&x, file + 84 + 50 * triangle + 12 * (1 + corner) + 4 * axis, 4);
    return x;
}

/* A cube of radius 1 carved on every side to radius 1/2: six squares, two triangles each. */
static int print_files(void) {
    uint16_t root = 26;
    HOLDS(DESK_LONGEST_PRINT == 84 + 50 * DESK_BOUNDARY_ROOM * (DESK_BOUNDARY_ROOM - 2) && desk_table_cube(&table, 3, 1.0) == DESK_DONE);
    HOLDS(desk_table_stl(&table, root, file, DESK_LONGEST_PRINT) == DESK_REFUSED_PRIMORDIAL_FACET);
    for (int side = 0; side < 6; side++) {
        struct desk_hyperplane divider = {{0.0, 0.0, 0.0, 0.0}, 0.5};
        divider.normal[side / 2] = side % 2 ? 1.0 : -1.0;
        root = desk_inside(desk_table_cut(&table, divider, DESK_KEEP_INSIDE, root));
    }
    memset(file, 0xa5, sizeof file);
    uint64_t print = desk_table_stl(&table, root, file, DESK_LONGEST_PRINT);
    size_t size = desk_file_size(print);
    HOLDS(desk_number_of(print) == DESK_DONE && size == 84 + 50 * 12 && file[79] == 0 && file[80] == 12 && file[81] == 0);
    HOLDS(file[size - 1] == 0 && file[size] == 0xa5);
    for (size_t i = 0; i < 12 * 9; i++) HOLDS(fabsf(corner_at(i / 9, (int)(i % 9 / 3), (int)(i % 3))) == 0.5f);
    HOLDS(desk_table_stl(&table, root, file, size) == print && desk_table_stl(&table, root, file, size - 1) == DESK_REFUSED_ROOM_SHORT);
    HOLDS(desk_table_stl(&table, 25, file, size) == DESK_REFUSED_RANK && desk_table_stl(&table, 600, file, 0) == DESK_REFUSED_NOT_IN_USE);
    HOLDS(desk_table_cube(&table, 2, 1.0) == DESK_DONE && desk_table_stl(&table, 8, file, size) == DESK_REFUSED_RANK);
    table.counts[DESK_COUNT_VERTICES] = 3;
    HOLDS(desk_table_stl(&table, 600, file, size) == DESK_REFUSED_NOT_SOUND);
    return 0;
}

/* The file of a square cut in two: a header, 6 vertices, 5 hyperplanes, 6 corners, 9 edges and 3 faces. */
static int files(void) {
    HOLDS(desk_table_cube(&table, 2, 1.0) == DESK_DONE && desk_number_of(at_x(0.0, DESK_KEEP_BOTH, 8)) == DESK_DONE);
    memset(file, 0xa5, sizeof file);
    uint64_t save = desk_table_save(&table, file, sizeof file);
    size_t size = desk_file_size(save);
    HOLDS(desk_number_of(save) == DESK_DONE && size == 10 + 6 * 18 + 5 * 26 + 6 * 10 + 9 * 12 + 3 * 16);
    HOLDS(memcmp(file, "HD\2\0\22\0\6\0\5\0VX", 12) == 0 && file[size] == 0xa5 && file[sizeof file - 1] == 0xa5);
    before = table;
    memset(&table, 0x5a, sizeof table);
    HOLDS(desk_table_open(&table, file, size) == DESK_DONE && memcmp(&table, &before, sizeof table) == 0);
    HOLDS(desk_table_save(&table, file, size) == save && desk_table_save(&table, file, size - 1) == DESK_REFUSED_ROOM_SHORT);
    return 0;
}

static int refused_files(void) {
    size_t size = desk_file_size(desk_table_save(&table, file, sizeof file));
    before = table;
    HOLDS(desk_table_open(&table, file, size - 1) == DESK_REFUSED_LAYOUT && desk_table_open(&table, file, size + 1) == DESK_REFUSED_LAYOUT);
    HOLDS(desk_table_open(&table, file, 0) == DESK_REFUSED_LAYOUT);
    HOLDS(desk_open(DESK_LENT(&table) - 1, file, size) == DESK_REFUSED_NOT_SOUND);
    HOLDS(desk_open(DESK_LENT(&table) - 1, file, size - 1) == DESK_REFUSED_LAYOUT);
    file[2] = 3; /* dimensions */
    HOLDS(desk_table_open(&table, file, size) == DESK_REFUSED_LAYOUT);
    file[2] = 2;
    file[10 + 6 * 18 + 9] = 0x40; /* a component of hyperplane 0 is 2 */
    HOLDS(desk_table_open(&table, file, size) == DESK_REFUSED_NOT_SOUND);
    HOLDS(memcmp(&table, &before, sizeof table) == 0);
    memcpy(old_file, file, sizeof file);
    table.counts[DESK_COUNT_VERTICES] = 5;
    HOLDS(desk_table_save(&table, file, sizeof file) == DESK_REFUSED_NOT_SOUND && desk_table_save(&table, file, 0) == DESK_REFUSED_NOT_SOUND);
    HOLDS(memcmp(old_file, file, sizeof file) == 0);
    return 0;
}

int main(void) {
    return rows() || replies() || warnings() || flush_with_a_warning() || refusals() || numbers() || lists() || stopped_lists() ||
           refused_lists() || touches() || areas() || print_files() || files() || refused_files();
}
