/* Balance beside p4est's, on the same forests: the leaves must be the same rectangles, and only the two
 * balances are timed, the best of several rounds. p4est runs as one process; a forest is a square of
 * unit trees that touch, as our roots do, and balance is across edges only.
 *
 * Prints a line for each forest; exits with 1 if leaves differ. */
#define _POSIX_C_SOURCE 199309L
#include <p4est.h>
#include <p4est_bits.h>
#include <p4est_extended.h>
#include <stdio.h>
#include <stdlib.h>
#include <string.h>
#include <time.h>

#include "leafmesh.h"

enum kind { CORNERS, DEEP, RANDOM, ALL };

/* Trees a side, the finest level, and for RANDOM how many of 1,000 cells are split. */
typedef struct {
    const char *name;
    enum kind kind;
    int side;
    int max_level;
    int chance;
} forest;

static const forest FORESTS[] = {
    {"corners 64", CORNERS, 64, 4, 0},    {"corners 100", CORNERS, 100, 4, 0},
    {"deep 1", DEEP, 1, 12, 0},           {"deep 64", DEEP, 64, 12, 0},
    {"random 8", RANDOM, 8, 4, 600},      {"random 16", RANDOM, 16, 5, 400},
    {"random 32", RANDOM, 32, 3, 400},    {"all 8", ALL, 8, 3, 0},
    {"all 5", ALL, 5, 4, 0},
};
enum { FOREST_COUNT = sizeof FORESTS / sizeof *FORESTS };

/* A cell by its south-west corner, in cells of the finest level, and its level. */
typedef struct {
    int64_t x, y;
    int level;
} cell;

typedef struct {
    cell *cells;
    size_t count;
} cell_list;

/* Rounds are repeated until so many seconds have gone by, and at least three times. */
static const double ENOUGH = 0.5;
enum { LEAST_ROUNDS = 3 };

static void fail(const forest *f, const char *why) {
    fprintf(stderr, "%s: %s\n", f->name, why);
    exit(2);
}

/* The processor's time of this thread. */
static double now(void) {
    struct timespec t;
    clock_gettime(CLOCK_THREAD_CPUTIME_ID, &t);
    return (double)t.tv_sec + 1e-9 * (double)t.tv_nsec;
}

/* Whether a finest cell, in a tree's corner or middle, lies in the cell. */
static int holds(const forest *f, const cell *c, int64_t x, int64_t y) {
    int64_t wide = (int64_t)1 << (f->max_level - c->level);
    return c->x <= x && x < c->x + wide && c->y <= y && y < c->y + wide;
}

/* Eight trees, spread over the board, are split towards one of their corners each. */
static int holds_a_corner(const forest *f, const cell *c) {
    int64_t last = f->side - 1, near = f->side / 4, far = last - near;
    int64_t wide = (int64_t)1 << f->max_level;
    const int64_t spread[8][4] = {
        {0, 0, 1, 1},       {last, 0, 0, 1},   {0, last, 1, 0},   {last, last, 0, 0},
        {near, near, 0, 0}, {far, near, 1, 0}, {near, far, 0, 1}, {far, far, 1, 1},
    };
    for (int n = 0; n < 8; n++) {
        int64_t x = spread[n][0] * wide + spread[n][2] * (wide - 1);
        int64_t y = spread[n][1] * wide + spread[n][3] * (wide - 1);
        if (holds(f, c, x, y)) return 1;
    }
    return 0;
}

/* The same for the same cell each time it is asked. */
static int by_chance(const forest *f, const cell *c) {
    uint64_t z = ((uint64_t)c->x << 32 ^ (uint64_t)c->y << 8 ^ (uint64_t)c->level) + 1;
    z *= 0x9e3779b97f4a7c15;
    z = (z ^ (z >> 30)) * 0xbf58476d1ce4e5b9;
    z = (z ^ (z >> 27)) * 0x94d049bb133111eb;
    return (int)((z ^ (z >> 31)) % 1000) < f->chance;
}

static int is_split(const forest *f, const cell *c) {
    if (c->level >= f->max_level) return 0;
    int64_t middle = ((int64_t)f->side << f->max_level) / 2 - 1;
    switch (f->kind) {
    case CORNERS: return holds_a_corner(f, c);
    case DEEP: return holds(f, c, middle, middle);
    case RANDOM: return by_chance(f, c);
    case ALL: return 1;
    }
    return 0;
}

/* Our side. A tree's side is twice as many ticks as finest cells, as a well-formed table asks. */

static int64_t *slot(int64_t *table, size_t id) { return table + id * LEAFMESH_SLOT; }

static void put(int64_t *table, size_t id, int64_t x, int64_t y, int64_t wide, int64_t level, int64_t parent) {
    const int64_t numbers[LEAFMESH_SLOT] = {x, y, x + wide, y + wide, level, parent, LEAFMESH_NO_CELL, 0};
    memcpy(slot(table, id), numbers, sizeof numbers);
}

static cell cell_of(const int64_t *s) {
    cell c = {s[LEAFMESH_X0] / 2, s[LEAFMESH_Y0] / 2, (int)s[LEAFMESH_LEVEL]};
    return c;
}

static void split(int64_t *table, size_t id, size_t count) {
    int64_t *s = slot(table, id);
    int64_t half = (s[LEAFMESH_X1] - s[LEAFMESH_X0]) / 2;
    for (size_t q = 0; q < 4; q++) {
        int64_t x = s[LEAFMESH_X0] + (q % 2 ? half : 0), y = s[LEAFMESH_Y0] + (q / 2 ? half : 0);
        put(table, count + q, x, y, half, s[LEAFMESH_LEVEL] + 1, (int64_t)id);
    }
    s[LEAFMESH_FIRST_CHILD] = (int64_t)count;
}

/* Fills a table of all slots; the answer is the count. */
static size_t make_table(const forest *f, int64_t *table) {
    int64_t wide = (int64_t)2 << f->max_level;
    size_t count = (size_t)f->side * (size_t)f->side;
    for (size_t id = 0; id < count; id++) {
        int64_t column = (int64_t)id % f->side, row = (int64_t)id / f->side;
        put(table, id, column * wide, row * wide, wide, 0, LEAFMESH_NO_CELL);
    }
    for (size_t id = 0; id < count; id++) {
        cell c = cell_of(slot(table, id));
        if (!is_split(f, &c)) continue;
        if (count + 4 > LEAFMESH_SLOTS) fail(f, "too many cells");
        split(table, id, count);
        count += 4;
    }
    return count;
}

static cell_list leaves_of_table(const int64_t *table, size_t count) {
    cell_list found = {malloc(count * sizeof(cell)), 0};
    for (size_t id = 0; id < count; id++) {
        const int64_t *s = table + id * LEAFMESH_SLOT;
        if (s[LEAFMESH_FIRST_CHILD] == LEAFMESH_NO_CELL) found.cells[found.count++] = cell_of(s);
    }
    return found;
}

/* The seconds of the best round; the balanced leaves, and the count before. */
static double balance_table(const forest *f, cell_list *leaves, size_t *leaves_before) {
    const size_t length = (size_t)LEAFMESH_SLOTS * LEAFMESH_SLOT;
    int64_t *before = calloc(length, sizeof *before), *table = malloc(length * sizeof *table);
    size_t count = make_table(f, before);
    cell_list list_before = leaves_of_table(before, count);
    *leaves_before = list_before.count;
    free(list_before.cells);
    double best = 1e9, start = now();
    leafmesh_table_outcome outcome = {0, 0, 0, 0, 0, 0};
    for (int round = 0; round < LEAST_ROUNDS || now() - start < ENOUGH; round++) {
        memcpy(table, before, length * sizeof *table);
        double from = now();
        outcome = leafmesh_balance(table, length, count, list_before.count, (uint64_t)f->max_level);
        double took = now() - from;
        if (took < best) best = took;
    }
    if (outcome.number != 0) fail(f, "balance is refused");
    *leaves = leaves_of_table(table, outcome.count);
    free(before);
    free(table);
    return best;
}

/* p4est's side. */

static cell cell_of_quadrant(const forest *f, p4est_t *p4est, p4est_topidx_t tree, const p4est_quadrant_t *q) {
    p4est_connectivity_t *connectivity = p4est->connectivity;
    const double *corner = connectivity->vertices + 3 * connectivity->tree_to_vertex[4 * tree];
    int shift = P4EST_MAXLEVEL - f->max_level;
    cell c = {((int64_t)corner[0] << f->max_level) + (q->x >> shift),
              ((int64_t)corner[1] << f->max_level) + (q->y >> shift), q->level};
    return c;
}

static int refine_by_forest(p4est_t *p4est, p4est_topidx_t tree, p4est_quadrant_t *q) {
    const forest *f = p4est->user_pointer;
    cell c = cell_of_quadrant(f, p4est, tree, q);
    return is_split(f, &c);
}

static cell_list leaves_of_p4est(const forest *f, p4est_t *p4est) {
    cell_list found = {malloc((size_t)p4est->local_num_quadrants * sizeof(cell)), 0};
    for (p4est_topidx_t t = p4est->first_local_tree; t <= p4est->last_local_tree; t++) {
        p4est_tree_t *tree = p4est_tree_array_index(p4est->trees, t);
        for (size_t n = 0; n < tree->quadrants.elem_count; n++) {
            p4est_quadrant_t *q = p4est_quadrant_array_index(&tree->quadrants, n);
            found.cells[found.count++] = cell_of_quadrant(f, p4est, t, q);
        }
    }
    return found;
}

static double balance_p4est(const forest *f, cell_list *leaves) {
    p4est_connectivity_t *connectivity = p4est_connectivity_new_brick(f->side, f->side, 0, 0);
    p4est_t *before = p4est_new(sc_MPI_COMM_WORLD, connectivity, 0, NULL, (void *)f);
    p4est_refine(before, 1, refine_by_forest, NULL);
    double best = 1e9, start = now();
    leaves->cells = NULL;
    for (int round = 0; round < LEAST_ROUNDS || now() - start < ENOUGH; round++) {
        p4est_t *p4est = p4est_copy(before, 0);
        double from = now();
        p4est_balance(p4est, P4EST_CONNECT_FACE, NULL);
        double took = now() - from;
        if (took < best) best = took;
        free(leaves->cells);
        *leaves = leaves_of_p4est(f, p4est);
        p4est_destroy(p4est);
    }
    p4est_destroy(before);
    p4est_connectivity_destroy(connectivity);
    return best;
}

/* Both. */

static int order(const void *left, const void *right) {
    const cell *a = left, *b = right;
    if (a->y != b->y) return a->y < b->y ? -1 : 1;
    if (a->x != b->x) return a->x < b->x ? -1 : 1;
    return a->level - b->level;
}

static int same_leaves(cell_list *a, cell_list *b) {
    if (a->count != b->count) return 0;
    qsort(a->cells, a->count, sizeof(cell), order);
    qsort(b->cells, b->count, sizeof(cell), order);
    for (size_t n = 0; n < a->count; n++)
        if (order(a->cells + n, b->cells + n) != 0) return 0;
    return 1;
}

static int run(const forest *f) {
    cell_list ours, theirs;
    size_t before;
    double port = balance_table(f, &ours, &before), p4est = balance_p4est(f, &theirs);
    int same = same_leaves(&ours, &theirs);
    printf("p4est, %s, level %d, %zu to %zu leaves: port %.3f ms, p4est %.3f ms, ratio %.3f%s\n", f->name,
           f->max_level, before, ours.count, port * 1e3, p4est * 1e3, port / p4est, same ? "" : ", LEAVES DIFFER");
    fflush(stdout);
    free(ours.cells);
    free(theirs.cells);
    return same;
}

int main(int argc, char **argv) {
    int same = 1;
    if (sc_MPI_Init(&argc, &argv) != sc_MPI_SUCCESS) return 2;
    sc_init(sc_MPI_COMM_WORLD, 0, 0, NULL, SC_LP_ERROR);
    p4est_init(NULL, SC_LP_ERROR);
    for (int n = 0; n < FOREST_COUNT; n++) same &= run(&FORESTS[n]);
    sc_finalize();
    sc_MPI_Finalize();
    return same ? 0 : 1;
}
