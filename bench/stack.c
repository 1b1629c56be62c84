/* Bytes of stack that each entry point takes. A stack is filled with a pattern, a call is made on it, and the bytes down to the
   lowest that changed are counted, less those of no call. Frames have fixed sizes and a cut goes down by rank alone, so a table
   of four dimensions takes the most that there is, where a cut adds faces of more than five edges, whose paths are joined; what a
   cut takes more than in the dimension below is its part that grows with the rank. Link with libdesk.a for the machine at hand. */
#include "desk.h"
#include <stdio.h>
#include <string.h>
#include <ucontext.h>

#define TABLE counts, DESK_COUNTS, points, DESK_POINTS, planes, DESK_PLANES, elements, DESK_ELEMENTS
#define STACK 65536
#define PATTERN 0xa5

static uint16_t counts[DESK_COUNTS], elements[DESK_ELEMENTS], list[512];
static double points[DESK_POINTS], planes[DESK_PLANES];
static uint8_t file[DESK_LONGEST_FILE];
static size_t file_size;
static const uint16_t cube = 80, face = 8, roots[2] = {80, 80};

static void no_call(void) {}
static void is_sound(void) { desk_is_sound(TABLE); }
static void new_cube(void) { desk_cube(TABLE, 4, 1.0); }

/* Each takes a corner off the squares of the first two axes: after the second these have six edges. */
static const double dividers[2 * DESK_PLANE_WIDTH] = {0.6, 0.8, 0.0, 0.0, 1.2, 0.6, -0.8, 0.0, 0.0, 1.2};
static uint16_t cut_roots[2];

static uint64_t cut(int i) {
    const double *row = dividers + DESK_PLANE_WIDTH * i;
    return desk_cut(TABLE, row[0], row[1], row[2], row[3], row[4], 1, 1, cut_roots[i]);
}

static void two_cuts(uint16_t root) {
    cut_roots[0] = root;
    cut_roots[1] = desk_inside(cut(0));
    cut(1);
}

static void edge_cut(void) { desk_cut(TABLE, 1.0, 0.0, 0.0, 0.0, 0.5, 1, 1, 2); }
static void square_cuts(void) { two_cuts(8); }
static void cube_cuts(void) { two_cuts(26); }
static void four_cuts(void) { two_cuts(80); }

/* The last two as a list, from a new cube again: their numbers are the same. */
static void list_of_two(void) {
    static const uint8_t kept[2] = {DESK_KEEP_BOTH, DESK_KEEP_BOTH};
    static uint64_t answers[2];
    desk_cut_all(TABLE, dividers, 2 * DESK_PLANE_WIDTH, kept, 2, cut_roots, 2, answers, 2);
}

static void touch(void) { desk_touch(TABLE, 0.6, 0.8, 0.0, 0.0, 3.0, cube); }

static void sub_elements(void) { desk_subelements_of(TABLE, cube, list, 512); }
static void with_rank(void) { desk_subelements_with_rank(TABLE, cube, 1, list, 512); }
static void vertex_set(void) { desk_vertex_set(TABLE, cube, list, 512); }
static void greatest_common(void) { desk_greatest_common_subelements(TABLE, roots, 2, list, 512); }
static void edges_in_order(void) { desk_edges_in_order(TABLE, face, list, 512); }
static void primordial_facet(void) { desk_has_primordial_facet(TABLE, cube); }
static void save_file(void) { file_size = desk_file_size(desk_save(TABLE, file, sizeof file)); }
static void open_file(void) { desk_open(TABLE, file, file_size); }

/* Each begins with a new cube of its dimensions, but for the last ones, which ask of the table that a cut has left. */
static const struct {
    const char *name;
    void (*make)(void);
    uint32_t dimensions;
} calls[] = {
    {"desk_is_sound", is_sound, 4},
    {"desk_cube", new_cube, 4},
    {"desk_cut, 1 dimension", edge_cut, 1},
    {"desk_cut, 2 dimensions", square_cuts, 2},
    {"desk_cut, 3 dimensions", cube_cuts, 3},
    {"desk_cut, 4 dimensions", four_cuts, 4},
    {"desk_cut_all, 4 dimensions", list_of_two, 4},
    {"desk_touch", touch, 0},
    {"desk_subelements_of", sub_elements, 0},
    {"desk_subelements_with_rank", with_rank, 0},
    {"desk_vertex_set", vertex_set, 0},
    {"desk_greatest_common_subelements", greatest_common, 0},
    {"desk_edges_in_order", edges_in_order, 0},
    {"desk_has_primordial_facet", primordial_facet, 0},
    {"desk_save", save_file, 0},
    {"desk_open", open_file, 0},
};

static int bytes_changed(void (*call)(void)) {
    static unsigned char stack[STACK];
    ucontext_t here, there;
    int unchanged = 0;
    memset(stack, PATTERN, STACK);
    getcontext(&there);
    there.uc_stack.ss_sp = stack;
    there.uc_stack.ss_size = STACK;
    there.uc_link = &here;
    makecontext(&there, call, 0);
    swapcontext(&here, &there);
    while (unchanged < STACK && stack[unchanged] == PATTERN) unchanged++;
    return STACK - unchanged;
}

int main(void) {
    for (size_t i = 0; i < sizeof calls / sizeof *calls; i++) {
        if (calls[i].dimensions) desk_cube(TABLE, calls[i].dimensions, 1.0);
        printf("%s %d\n", calls[i].name, bytes_changed(calls[i].make) - bytes_changed(no_call));
    }
    return 0;
}
