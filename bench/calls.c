/* What calls cost. `calls cuts`, `calls lists` and `calls questions` give nanoseconds, the best of many runs, one line each for
   bench/times; `calls count STEPS KIND TIMES` makes one kind of call, and `calls count-cuts NAME HOW TIMES` the cuts of one workload, for
   the instruction counter of bench/instructions; `calls names` has the workloads; `calls run NAME` goes through one once, for a
   profiler. */
#include "desk.h"
#include <math.h>
#include <stdio.h>
#include <stdlib.h>
#include <string.h>
#include <time.h>

#define TABLE counts, DESK_COUNTS, points, DESK_POINTS, planes, DESK_PLANES, elements, DESK_ELEMENTS
#define SIZE(array) (int)(sizeof(array) / sizeof *(array))
#define KINDS 11
#define BUDGET 0.2e9

static uint16_t counts[DESK_COUNTS], elements[DESK_ELEMENTS], list[512];
static double points[DESK_POINTS], planes[DESK_PLANES];
static uint8_t file[DESK_LONGEST_FILE];
static size_t file_size;

/* With one soundness test more before each cut, the difference is what the cut's own test costs. */
static int one_test_more, cuts;

/* The cuts of a workload, with their answers, as a run that made them singly left them: its roots are known then, and all may be made
   in one call. */
static double dividers[100 * DESK_PLANE_WIDTH];
static uint8_t kept[100];
static uint16_t roots[100];
static uint64_t answers[100], list_answers[DESK_MOST_CUTS];
static int is_recorded;

static void record(const double normal[4], double distance, uint8_t keep_outside, uint16_t root, uint64_t reply) {
    memcpy(dividers + DESK_PLANE_WIDTH * cuts, normal, 4 * sizeof *normal);
    dividers[DESK_PLANE_WIDTH * cuts + 4] = distance;
    kept[cuts] = keep_outside ? DESK_KEEP_BOTH : DESK_KEEP_INSIDE;
    roots[cuts] = root;
    answers[cuts] = reply;
}

static uint64_t cut(const double normal[4], double distance, uint8_t keep_outside, uint16_t root) {
    if (one_test_more) desk_is_sound(TABLE);
    uint64_t reply = desk_cut(TABLE, normal[0], normal[1], normal[2], normal[3], distance, 1, keep_outside, root);
    if (reply & 0xff) {
        fprintf(stderr, "calls: refused %u\n", (unsigned)(reply & 0xff));
        exit(1);
    }
    if (is_recorded) record(normal, distance, keep_outside, root, reply);
    cuts++;
    return reply;
}

static uint16_t inside_of(uint64_t reply) { return (uint16_t)(reply >> 16); }
static uint16_t outside_of(uint64_t reply) { return (uint16_t)(reply >> 32); }

/* Those that the published Rust is timed with and that the room has place for, under the same names. */
struct workload {
    const char *name;
    uint8_t dimensions;
    int size;
    void (*run)(const struct workload *w, uint16_t cube);
};

/* As many planes for each axis as the size says, each over every piece so far. */
static void grid(const struct workload *w, uint16_t cube) {
    uint16_t pieces[64] = {cube}, next[64];
    int k = w->size, count = 1;
    for (int plane = 0; plane < w->dimensions * k; plane++) {
        double normal[4] = {0};
        normal[plane / k] = 1.0;
        int found = 0;
        for (int i = 0; i < count; i++) {
            uint64_t reply = cut(normal, -1.0 + 2.0 * (plane % k + 1) / (k + 1), 1, pieces[i]);
            if (inside_of(reply) != DESK_NONE) next[found++] = inside_of(reply);
            if (outside_of(reply) != DESK_NONE) next[found++] = outside_of(reply);
        }
        memcpy(pieces, next, sizeof pieces);
        count = found;
    }
}

/* Planes tangent to a ball, spread over it; what lies inside all of them is kept. */
static void ball(const struct workload *w, uint16_t piece) {
    for (int i = 0; i < w->size; i++) {
        double z = 1.0 - 2.0 * (i + 0.5) / w->size, r = sqrt(1.0 - z * z), angle = i * 2.399963229728653;
        double normal[4] = {r * cos(angle), r * sin(angle), z};
        piece = inside_of(cut(normal, 0.9, 0, piece));
    }
}

static void disc(const struct workload *w, uint16_t piece) {
    for (int i = 0; i < w->size; i++) {
        double angle = i * 2.0 * 3.141592653589793 / w->size + 0.1;
        double normal[4] = {cos(angle), sin(angle)};
        piece = inside_of(cut(normal, 0.9, 0, piece));
    }
}

static void middle(const struct workload *w, uint16_t cube) {
    double normal[4] = {1.0};
    for (int i = 0; i < w->size; i++) cut(normal, 0.0, 1, cube);
}

static void diagonal(const struct workload *w, uint16_t cube) {
    double normal[4] = {0};
    for (int axis = 0; axis < w->dimensions; axis++) normal[axis] = 1.0 / sqrt(w->dimensions);
    for (int i = 0; i < w->size; i++) cut(normal, 0.3, 1, cube);
}

static const struct workload workloads[] = {
    {"2D grid 2^2", 2, 1, grid},
    {"2D grid 3^2", 2, 2, grid},
    {"2D grid 4^2", 2, 3, grid},
    {"3D grid 2^3", 3, 1, grid},
    {"3D grid 3^3", 3, 2, grid},
    {"3D carve, 6 tangent planes", 3, 6, ball},
    {"3D carve, 12 tangent planes", 3, 12, ball},
    {"2D carve, 8 tangent lines", 2, 8, disc},
    {"2D carve, 24 tangent lines", 2, 24, disc},
    {"1D cube, one middle slice", 1, 1, middle},
    {"2D cube, one middle slice", 2, 1, middle},
    {"3D cube, one middle slice", 3, 1, middle},
    {"4D cube, one middle slice", 4, 1, middle},
    {"3D cube, one diagonal slice", 3, 1, diagonal},
    {"4D cube, one diagonal slice", 4, 1, diagonal},
    {"3D cube, same slice 100 times", 3, 100, middle},
    {"4D cube, same slice 100 times", 4, 100, middle},
};

static double now(void) {
    struct timespec t;
    clock_gettime(CLOCK_MONOTONIC, &t);
    return t.tv_sec * 1e9 + t.tv_nsec;
}

/* Nanoseconds of a cut; the cube that it starts from is not counted. */
static double run_once(const struct workload *w) {
    desk_cube(TABLE, w->dimensions, 1.0);
    cuts = 0;
    double start = now();
    w->run(w, (uint16_t)(counts[1] - 1));
    return (now() - start) / cuts;
}

static double best_cut(const struct workload *w) {
    double best = INFINITY;
    for (double end = now() + BUDGET; now() < end;) best = fmin(best, run_once(w));
    return best;
}

static void run_named(const char *name) {
    for (int i = 0; i < SIZE(workloads); i++)
        if (strcmp(workloads[i].name, name) == 0) run_once(&workloads[i]);
}

/* How the cuts of a workload are made: one by one, as many in one call as a list may have, or in one call those of one plane, whose roots
   are there before the first of them. */
enum how { ONE_BY_ONE, IN_A_LIST, PLANE_BY_PLANE, NOT_AT_ALL };

static int together(int from, enum how how) {
    int count = 1;
    const double *first = dividers + DESK_PLANE_WIDTH * from;
    while (from + count < cuts && count < DESK_MOST_CUTS &&
           (how == IN_A_LIST || memcmp(first, first + DESK_PLANE_WIDTH * count, DESK_PLANE_WIDTH * sizeof *first) == 0))
        count++;
    return count;
}

/* Ends where an answer is not the one that the single cut gave. */
static void make_recorded(enum how how) {
    for (int from = 0, count; from < cuts; from += count) {
        count = together(from, how);
        uint32_t reply = desk_cut_all(TABLE, dividers + DESK_PLANE_WIDTH * from, (size_t)DESK_PLANE_WIDTH * count, kept + from, count,
                                      roots + from, count, list_answers, DESK_MOST_CUTS);
        if (reply != (uint32_t)count << 8 || memcmp(list_answers, answers + from, count * sizeof *answers) != 0) {
            fprintf(stderr, "calls: a list answers otherwise than its cuts, reply %u\n", (unsigned)reply);
            exit(1);
        }
    }
}

static void record_workload(const struct workload *w) {
    is_recorded = 1;
    run_once(w);
    is_recorded = 0;
}

/* The same as run_once, of the recorded cuts. */
static double run_list_once(const struct workload *w, enum how how) {
    desk_cube(TABLE, w->dimensions, 1.0);
    double start = now();
    make_recorded(how);
    return (now() - start) / cuts;
}

static double best_list(const struct workload *w, enum how how) {
    double best = INFINITY;
    for (double end = now() + BUDGET; now() < end;) best = fmin(best, run_list_once(w, how));
    return best;
}

static void time_lists(void) {
    for (int i = 0; i < SIZE(workloads); i++) {
        const struct workload *w = &workloads[i];
        double single = best_cut(w);
        record_workload(w);
        double in_a_list = best_list(w, IN_A_LIST), by_plane = best_list(w, PLANE_BY_PLANE);
        printf("%s;%d;%u;%.0f;%.0f;%.0f\n", w->name, cuts, counts[1], single, in_a_list, by_plane);
    }
}

/* How many cuts the workload has, and then so many rounds of it, each from a new cube. */
static void count_cuts(const char *name, enum how how, int times) {
    for (int i = 0; i < SIZE(workloads); i++) {
        const struct workload *w = &workloads[i];
        if (strcmp(w->name, name) != 0) continue;
        record_workload(w);
        printf("%d\n", cuts);
        for (int round = 0; round < times; round++) {
            desk_cube(TABLE, w->dimensions, 1.0);
            if (how == ONE_BY_ONE) {
                cuts = 0;
                w->run(w, (uint16_t)(counts[1] - 1));
            } else if (how != NOT_AT_ALL) make_recorded(how);
        }
    }
}

static void print_names(void) {
    for (int i = 0; i < SIZE(workloads); i++) printf("%s\n", workloads[i].name);
}

static void time_cuts(void) {
    for (int i = 0; i < SIZE(workloads); i++) {
        one_test_more = 0;
        double best = best_cut(&workloads[i]);
        one_test_more = 1;
        double tested = best_cut(&workloads[i]);
        printf("%s;%d;%u;%.0f;%.0f\n", workloads[i].name, cuts, counts[1], best, tested);
    }
}

/* Dividers that each take a corner off what is left of the cube. */
static uint64_t slanted_cut(int step, uint16_t root) {
    double angle = step * 0.7 + 0.2, lift = step % 5 * 0.3 - 0.6, length = sqrt(1.0 + lift * lift);
    double normal[4] = {cos(angle) / length, sin(angle) / length, lift / length};
    return cut(normal, 0.75, 1, root);
}

/* What is left of the cube. */
static uint16_t piece;

static void slanted_cuts(int steps) {
    desk_cube(TABLE, 3, 1.0);
    piece = 26;
    for (int step = 0; step < steps; step++) {
        uint16_t inside = inside_of(slanted_cut(step, piece));
        if (inside != DESK_NONE) piece = inside;
    }
    file_size = desk_file_size(desk_save(TABLE, file, sizeof file));
}

/* Kind 0 is the soundness test alone, which every other call makes first, and opening makes of the file. The root of a question is the
   last piece; the greatest common one is of the first two elements of its boundary, which stands from the fifth word of its row. The
   file that is opened is the table's own. The plane of the touch misses what is left of the cube, so that every corner is tested. */
static uint64_t call(int kind) {
    uint16_t last = (uint16_t)(counts[1] - 1);
    const uint16_t *roots = elements + 36 * last + 4;
    switch (kind) {
    case 1: return desk_subelements_of(TABLE, last, list, SIZE(list));
    case 2: return desk_subelements_with_rank(TABLE, last, 1, list, SIZE(list));
    case 3: return desk_vertex_set(TABLE, last, list, SIZE(list));
    case 4: return desk_greatest_common_subelements(TABLE, roots, 2, list, SIZE(list));
    case 5: return desk_edges_in_order(TABLE, 8, list, SIZE(list));
    case 6: return desk_has_primordial_facet(TABLE, 26);
    case 7: return slanted_cut(0, 26);
    case 8: return file_size = desk_file_size(desk_save(TABLE, file, sizeof file));
    case 9: return desk_open(TABLE, file, file_size);
    case 10: return desk_touch(TABLE, 0.6, 0.8, 0.0, 0.0, 2.0, piece);
    default: return desk_is_sound(TABLE);
    }
}

static double best_call(int kind) {
    double best = INFINITY;
    for (double end = now() + BUDGET; now() < end;) {
        double start = now();
        call(kind);
        best = fmin(best, now() - start);
    }
    return best;
}

static void time_questions(void) {
    for (int steps = 0; steps <= 14; steps += 2) {
        slanted_cuts(steps);
        printf("%u", counts[1]);
        for (int kind = 0; kind < KINDS; kind++) printf(";%.0f", best_call(kind));
        printf("\n");
    }
}

/* The elements at the start, before any of the calls. */
static void count_calls(int steps, int kind, int times) {
    slanted_cuts(steps);
    printf("%u\n", counts[1]);
    for (int i = 0; i < times; i++) call(kind);
}

int main(int argc, char **argv) {
    if (argc == 2 && strcmp(argv[1], "cuts") == 0) time_cuts();
    else if (argc == 2 && strcmp(argv[1], "lists") == 0) time_lists();
    else if (argc == 2 && strcmp(argv[1], "questions") == 0) time_questions();
    else if (argc == 2 && strcmp(argv[1], "names") == 0) print_names();
    else if (argc == 3 && strcmp(argv[1], "run") == 0) run_named(argv[2]);
    else if (argc == 5 && strcmp(argv[1], "count") == 0) count_calls(atoi(argv[2]), atoi(argv[3]), atoi(argv[4]));
    else if (argc == 5 && strcmp(argv[1], "count-cuts") == 0) count_cuts(argv[2], (enum how)atoi(argv[3]), atoi(argv[4]));
    else return 2;
    return 0;
}
