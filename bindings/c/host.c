/* The example session of document 01, from C: a square of radius 1, cut twice at x = 0 with both sides kept. */
#include "desk.h"
#include <stdio.h>

static struct desk_table table;

static int refused(enum desk_number number) {
    fprintf(stderr, "refused %u: %s\n", (unsigned)number, desk_words(number));
    return 1;
}

int main(void) {
    uint32_t cube = desk_table_cube(&table, 2, 1.0);
    if (desk_number_of(cube) != DESK_DONE) return refused(desk_number_of(cube));

    uint16_t square = desk_table_last_element(&table);
    struct desk_hyperplane divider = {{1.0, 0.0, 0.0, 0.0}, 0.0};
    for (int i = 0; i < 2; i++) {
        uint64_t cut = desk_table_cut(&table, divider, DESK_KEEP_BOTH, square);
        if (desk_number_of(cut) != DESK_DONE) return refused(desk_number_of(cut));
        printf("%u %u %u\n", desk_inside(cut), desk_outside(cut), desk_intersection(cut));
    }
    return 0;
}
