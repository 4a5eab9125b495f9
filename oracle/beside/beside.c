/* Times of two builds of the library, beside each other: this one, and an earlier one whose names begin with before_.
 *
 * A row is a call on a board: its name, the board's, and the least time that each build took, in microseconds of the
 * processor. The builds take turns, and what they answer and write must be the same, or the program ends with 1. Only
 * of the by-layer check, which looked at middles alone before version 0.5.0, another answer is told and no more.
 * Built and run by ../beside.sh, in two orders of linking. */
#define _POSIX_C_SOURCE 199309L
#include "leafmesh.h"

#include <stdio.h>
#include <stdlib.h>
#include <string.h>
#include <time.h>

#define CELL 8192 /* the side of a base cell, in ticks */
#define TURNS 15
#define ENOUGH 1e6 /* microseconds, for all turns of a row but the first two */
#define STRIPS LEAFMESH_STRIPS_LENGTH(LEAFMESH_RING_POINTS)

/* A call that says how many leaves a table has. */
typedef size_t leaves_of(const int64_t *table, size_t table_length, size_t count, size_t leaves, uint64_t max_level);

/* A build, as far as it is timed. */
typedef struct {
    __typeof__(leafmesh_strips) *strips;
    __typeof__(leafmesh_build) *build;
    leaves_of *leaf_count;
    __typeof__(leafmesh_leaf_order) *leaf_order;
    __typeof__(leafmesh_refine) *refine;
    __typeof__(leafmesh_balance) *balance;
    __typeof__(leafmesh_conform) *conform;
    __typeof__(leafmesh_network) *network;
    __typeof__(leafmesh_power) *power;
    __typeof__(leafmesh_check_network_conforming) *by_place;
    __typeof__(leafmesh_check_by_layer) *by_layer;
    __typeof__(leafmesh_read) *read;
    __typeof__(leafmesh_write) *write;
} library;

extern __typeof__(leafmesh_strips) before_leafmesh_strips;
extern __typeof__(leafmesh_power) before_leafmesh_power;
extern __typeof__(leafmesh_read) before_leafmesh_read;
extern __typeof__(leafmesh_write) before_leafmesh_write;

static size_t now_leaf_count(const int64_t *table, size_t table_length, size_t count, size_t leaves,
                             uint64_t max_level)
{
    (void)table, (void)table_length;
    return leafmesh_leaf_count(count, leaves, max_level);
}

#define TABLE_LENT const int64_t *table, size_t table_length, size_t count
#define POLYGONS_LENT \
    const uint16_t *layers, size_t layers_length, const uint32_t *components, size_t components_length
#define SHEETS_LENT const double *sheets, size_t sheets_length
#define LINKS_LENT \
    const leafmesh_contact_pair *contacts, size_t contacts_length, const leafmesh_via *vias, size_t vias_length, \
        uint16_t channel_layer, const leafmesh_channel *channels, size_t channels_length
#define NET_WRITTEN \
    leafmesh_node *nodes, size_t nodes_length, leafmesh_edge *edges, size_t edges_length, leafmesh_cell *cells, \
        size_t cells_length, uint64_t *work, size_t work_length
#define NET_LENT \
    const leafmesh_node *nodes, size_t nodes_length, const leafmesh_edge *edges, size_t edges_length, \
        const leafmesh_cell *cells, size_t cells_length

#ifdef WITHOUT_LEAVES
/* As it was before version 0.6.0: no call took the number of leaves, and a head was added up by the caller. */
leafmesh_outcome before_leafmesh_build(uint64_t max_level, uint64_t cap, uint64_t target, const leafmesh_layer *list,
                                       size_t list_length, POLYGONS_LENT, SHEETS_LENT, const uint64_t *counts,
                                       size_t counts_length, const leafmesh_point *points, size_t points_length,
                                       int64_t *table, size_t table_length);
leafmesh_outcome before_leafmesh_leaf_count(TABLE_LENT, uint64_t max_level);
leafmesh_outcome before_leafmesh_leaf_order(TABLE_LENT, uint64_t max_level, uint64_t *out, size_t out_length);
leafmesh_outcome before_leafmesh_refine(int64_t *table, size_t table_length, size_t count, uint64_t max_level,
                                        size_t id);
leafmesh_outcome before_leafmesh_balance(int64_t *table, size_t table_length, size_t count, uint64_t max_level);
leafmesh_outcome before_leafmesh_conform(int64_t *table, size_t table_length, size_t count, uint64_t max_level);
leafmesh_check_outcome before_leafmesh_check_network_conforming(TABLE_LENT, uint64_t max_level, NET_LENT,
                                                                uint64_t *work, size_t work_length);
leafmesh_check_outcome before_leafmesh_check_by_layer(TABLE_LENT, uint64_t max_level, NET_LENT, POLYGONS_LENT,
                                                      uint64_t *work, size_t work_length);

/* The head after so many splits of a table with this one. */
static leafmesh_table_outcome head_after(leafmesh_outcome o, uint64_t splits, size_t count, size_t leaves,
                                         uint64_t max_level)
{
    if (o.number != LEAFMESH_ACCEPTED)
        return (leafmesh_table_outcome){o.number, o.place, 0, 0, 0, 0};
    return (leafmesh_table_outcome){0, 0, 0, count + 4 * splits, leaves + 3 * splits, max_level};
}

static leafmesh_table_outcome before_build(uint64_t max_level, uint64_t cap, uint64_t target,
                                           const leafmesh_layer *list, size_t list_length, POLYGONS_LENT, SHEETS_LENT,
                                           const uint64_t *counts, size_t counts_length, const leafmesh_point *points,
                                           size_t points_length, int64_t *table, size_t table_length)
{
    const leafmesh_outcome o = before_leafmesh_build(max_level, cap, target, list, list_length, layers, layers_length,
                                                     components, components_length, sheets, sheets_length, counts,
                                                     counts_length, points, points_length, table, table_length);
    return head_after(o, 0, o.value, o.value, max_level);
}

static size_t before_leaf_count(TABLE_LENT, size_t leaves, uint64_t max_level)
{
    (void)leaves;
    return before_leafmesh_leaf_count(table, table_length, count, max_level).value;
}

static leafmesh_outcome before_leaf_order(TABLE_LENT, size_t leaves, uint64_t max_level, uint64_t *out,
                                          size_t out_length)
{
    (void)leaves;
    return before_leafmesh_leaf_order(table, table_length, count, max_level, out, out_length);
}

static leafmesh_table_outcome before_refine(int64_t *table, size_t table_length, size_t count, size_t leaves,
                                            uint64_t max_level, size_t id)
{
    return head_after(before_leafmesh_refine(table, table_length, count, max_level, id), 1, count, leaves, max_level);
}

static leafmesh_table_outcome evened(leafmesh_outcome o, size_t count, size_t leaves, uint64_t max_level)
{
    leafmesh_table_outcome after = head_after(o, o.value, count, leaves, max_level);
    after.splits = o.value;
    return after;
}

static leafmesh_table_outcome before_balance(int64_t *table, size_t table_length, size_t count, size_t leaves,
                                             uint64_t max_level)
{
    return evened(before_leafmesh_balance(table, table_length, count, max_level), count, leaves, max_level);
}

static leafmesh_table_outcome before_conform(int64_t *table, size_t table_length, size_t count, size_t leaves,
                                             uint64_t max_level)
{
    return evened(before_leafmesh_conform(table, table_length, count, max_level), count, leaves, max_level);
}

static leafmesh_check_outcome before_by_place(TABLE_LENT, size_t leaves, uint64_t max_level, NET_LENT, uint64_t *work,
                                              size_t work_length)
{
    (void)leaves;
    return before_leafmesh_check_network_conforming(table, table_length, count, max_level, nodes, nodes_length, edges,
                                                    edges_length, cells, cells_length, work, work_length);
}

static leafmesh_check_outcome before_by_layer(TABLE_LENT, size_t leaves, uint64_t max_level, NET_LENT, POLYGONS_LENT,
                                              uint64_t *work, size_t work_length)
{
    (void)leaves;
    return before_leafmesh_check_by_layer(table, table_length, count, max_level, nodes, nodes_length, edges,
                                          edges_length, cells, cells_length, layers, layers_length, components,
                                          components_length, work, work_length);
}

#ifdef WITHOUT_LINKS
/* As it was before version 0.4.0. No call here has links. */
typedef struct {
    uint64_t number, place, nodes, edges, cells;
} outcome_without_links;
outcome_without_links before_leafmesh_network(TABLE_LENT, uint64_t max_level, POLYGONS_LENT, SHEETS_LENT, NET_WRITTEN);
#define LINKS
#else
leafmesh_net_outcome before_leafmesh_network(TABLE_LENT, uint64_t max_level, POLYGONS_LENT, SHEETS_LENT, LINKS_LENT,
                                             NET_WRITTEN);
#define LINKS contacts, contacts_length, vias, vias_length, channel_layer, channels, channels_length,
#endif

static leafmesh_net_outcome before_network(TABLE_LENT, size_t leaves, uint64_t max_level, POLYGONS_LENT, SHEETS_LENT,
                                           LINKS_LENT, NET_WRITTEN)
{
    (void)leaves, (void)contacts, (void)vias, (void)channels, (void)channel_layer;
    (void)contacts_length, (void)vias_length, (void)channels_length;
    const __typeof__(before_leafmesh_network(table, table_length, count, max_level, layers, layers_length, components,
                                             components_length, sheets, sheets_length, LINKS nodes, nodes_length, edges,
                                             edges_length, cells, cells_length, work, work_length)) o =
        before_leafmesh_network(table, table_length, count, max_level, layers, layers_length, components,
                                components_length, sheets, sheets_length, LINKS nodes, nodes_length, edges,
                                edges_length, cells, cells_length, work, work_length);
    return (leafmesh_net_outcome){o.number, o.place, o.nodes, o.edges, o.cells, 0};
}
#else
extern __typeof__(leafmesh_build) before_leafmesh_build;
extern __typeof__(leafmesh_leaf_count) before_leafmesh_leaf_count;
extern __typeof__(leafmesh_leaf_order) before_leafmesh_leaf_order;
extern __typeof__(leafmesh_refine) before_leafmesh_refine;
extern __typeof__(leafmesh_balance) before_leafmesh_balance;
extern __typeof__(leafmesh_conform) before_leafmesh_conform;
extern __typeof__(leafmesh_network) before_leafmesh_network;
extern __typeof__(leafmesh_check_network_conforming) before_leafmesh_check_network_conforming;
extern __typeof__(leafmesh_check_by_layer) before_leafmesh_check_by_layer;
#define before_build before_leafmesh_build
#define before_leaf_order before_leafmesh_leaf_order
#define before_refine before_leafmesh_refine
#define before_balance before_leafmesh_balance
#define before_conform before_leafmesh_conform
#define before_network before_leafmesh_network
#define before_by_place before_leafmesh_check_network_conforming
#define before_by_layer before_leafmesh_check_by_layer

static size_t before_leaf_count(TABLE_LENT, size_t leaves, uint64_t max_level)
{
    (void)table, (void)table_length;
    return before_leafmesh_leaf_count(count, leaves, max_level);
}
#endif

static const library builds[2] = {
    {leafmesh_strips, leafmesh_build, now_leaf_count, leafmesh_leaf_order, leafmesh_refine, leafmesh_balance,
     leafmesh_conform, leafmesh_network, leafmesh_power, leafmesh_check_network_conforming, leafmesh_check_by_layer,
     leafmesh_read, leafmesh_write},
    {before_leafmesh_strips, before_build, before_leaf_count, before_leaf_order, before_refine, before_balance,
     before_conform, before_network, before_leafmesh_power, before_by_place, before_by_layer, before_leafmesh_read,
     before_leafmesh_write},
};

/* What the calls are lent, and what is written, by build. */
typedef struct {
    int64_t table[LEAFMESH_TABLE_LENGTH(LEAFMESH_SLOTS)];
    uint64_t order[LEAFMESH_SLOTS];
    leafmesh_node nodes[LEAFMESH_NODES_LENGTH(LEAFMESH_SLOTS)];
    leafmesh_edge edges[LEAFMESH_EDGES_LENGTH(LEAFMESH_SLOTS)];
    leafmesh_cell cells[LEAFMESH_CELLS_LENGTH(LEAFMESH_SLOTS)];
    double powers[LEAFMESH_SLOTS];
    leafmesh_rect strips[STRIPS];
    leafmesh_layer layers[LEAFMESH_LAYER_ENTRIES];
    leafmesh_polygon polygons[LEAFMESH_POLYGONS];
    double sheets[LEAFMESH_POLYGONS];
    leafmesh_point points[LEAFMESH_POLYGONS * LEAFMESH_RING_POINTS];
    uint64_t splits[LEAFMESH_SPLITS];
    uint8_t record[LEAFMESH_RECORD_LENGTH(LEAFMESH_LAYER_ENTRIES, LEAFMESH_POLYGONS,
                                          LEAFMESH_POLYGONS *LEAFMESH_RING_POINTS, LEAFMESH_SPLITS)];
    /* the answer, in as many words as the longest has */
    uint64_t said[9];
} rows;

static rows *written;
/* Room for the largest network, and so for the checks of its net. */
static uint64_t work[LEAFMESH_WORK_LENGTH(LEAFMESH_SLOTS)];
_Static_assert(LEAFMESH_CHECK_WORK_LENGTH(LEAFMESH_NODES_LENGTH(LEAFMESH_SLOTS),
                                          LEAFMESH_EDGES_LENGTH(LEAFMESH_SLOTS)) <= sizeof work / 8,
               "a check takes no more work room than network");

/* A board: a table, and its polygons. */
static struct {
    const char *name;
    int64_t table[LEAFMESH_TABLE_LENGTH(LEAFMESH_SLOTS)];
    size_t count, leaves;
    uint64_t max_level;
    size_t polygons;
    uint16_t layers[LEAFMESH_POLYGONS];
    uint32_t components[LEAFMESH_POLYGONS];
    double sheets[LEAFMESH_POLYGONS];
    double potentials[LEAFMESH_NODES_LENGTH(LEAFMESH_SLOTS)];
    leafmesh_net_outcome net;
} board;

/* An outline or a record. */
static struct {
    leafmesh_point points[LEAFMESH_POLYGONS * LEAFMESH_RING_POINTS];
    size_t length;
    leafmesh_layer layers[LEAFMESH_LAYER_ENTRIES];
    leafmesh_polygon polygons[LEAFMESH_POLYGONS];
    uint64_t splits[LEAFMESH_SPLITS];
    size_t layer_count, polygon_count, split_count, bytes;
} outline;

static double now(void)
{
    struct timespec t;
    clock_gettime(CLOCK_PROCESS_CPUTIME_ID, &t);
    return (double)t.tv_sec * 1e6 + (double)t.tv_nsec / 1e3;
}

static uint64_t seed = 88172645463325252ULL;

static uint64_t random_number(void)
{
    seed ^= seed << 13;
    seed ^= seed >> 7;
    return seed ^= seed << 17;
}

#define SAY(call) \
    __typeof__(call) said = call; \
    memcpy(r->said, &said, sizeof said)

static void leaf_count(const library *l, rows *r)
{
    SAY(l->leaf_count(r->table, sizeof r->table / 8, board.count, board.leaves, board.max_level));
}

static void leaf_order(const library *l, rows *r)
{
    SAY(l->leaf_order(r->table, sizeof r->table / 8, board.count, board.leaves, board.max_level, r->order,
                      LEAFMESH_SLOTS));
}

static void refine(const library *l, rows *r)
{
    SAY(l->refine(r->table, sizeof r->table / 8, board.count, board.leaves, board.max_level, board.count - 1));
}

static void balance(const library *l, rows *r)
{
    SAY(l->balance(r->table, sizeof r->table / 8, board.count, board.leaves, board.max_level));
}

static void conform(const library *l, rows *r)
{
    SAY(l->conform(r->table, sizeof r->table / 8, board.count, board.leaves, board.max_level));
}

static void network(const library *l, rows *r)
{
    SAY(l->network(r->table, sizeof r->table / 8, board.count, board.leaves, board.max_level, board.layers,
                   board.polygons, board.components, board.polygons, board.sheets, board.polygons, NULL, 0, NULL, 0, 0,
                   NULL, 0, r->nodes, sizeof r->nodes / sizeof *r->nodes, r->edges, sizeof r->edges / sizeof *r->edges,
                   r->cells, sizeof r->cells / sizeof *r->cells, work, LEAFMESH_WORK_LENGTH(LEAFMESH_SLOTS)));
}

static void power(const library *l, rows *r)
{
    SAY(l->power(r->nodes, board.net.nodes, r->edges, board.net.edges, r->cells, board.net.cells, board.potentials,
                 board.net.nodes, r->powers, LEAFMESH_SLOTS));
}

static void by_place(const library *l, rows *r)
{
    SAY(l->by_place(r->table, sizeof r->table / 8, board.count, board.leaves, board.max_level, r->nodes,
                    board.net.nodes, r->edges, board.net.edges, r->cells, board.net.cells, work,
                    LEAFMESH_CHECK_WORK_LENGTH(board.net.nodes, board.net.edges)));
}

static void by_layer(const library *l, rows *r)
{
    SAY(l->by_layer(r->table, sizeof r->table / 8, board.count, board.leaves, board.max_level, r->nodes,
                    board.net.nodes, r->edges, board.net.edges, r->cells, board.net.cells, board.layers,
                    board.polygons, board.components, board.polygons, work,
                    LEAFMESH_CHECK_WORK_LENGTH(board.net.nodes, board.net.edges)));
}

/* The walk without work room. */
static void by_layer_plain(const library *l, rows *r)
{
    SAY(l->by_layer(r->table, sizeof r->table / 8, board.count, board.leaves, board.max_level, r->nodes,
                    board.net.nodes, r->edges, board.net.edges, r->cells, board.net.cells, board.layers,
                    board.polygons, board.components, board.polygons, NULL, 0));
}

static void strips(const library *l, rows *r)
{
    SAY(l->strips(outline.points, outline.length, r->strips, STRIPS));
}

static void build(const library *l, rows *r)
{
    uint64_t points = outline.length;
    SAY(l->build(2, 8, 4 * CELL, NULL, 0, board.layers, 1, board.components, 1, board.sheets, 1, &points, 1,
                 outline.points, outline.length, r->table, sizeof r->table / 8));
}

static void write(const library *l, rows *r)
{
    SAY(l->write(3, 64, 1 << 20, outline.layers, outline.layer_count, outline.polygons, outline.polygon_count,
                 board.sheets, outline.polygon_count, outline.points, outline.length, outline.splits,
                 outline.split_count, r->record, sizeof r->record));
}

static void read(const library *l, rows *r)
{
    SAY(l->read(r->record, outline.bytes, r->layers, LEAFMESH_LAYER_ENTRIES, r->polygons, LEAFMESH_POLYGONS, r->sheets,
                LEAFMESH_POLYGONS, r->points, sizeof r->points / sizeof *r->points, r->splits, LEAFMESH_SPLITS));
}

/* Times a call. Whatever it writes to the table is taken back first where the call changes it. */
static void take_turns(const char *name, void (*call)(const library *, rows *), int changes_table)
{
    double least[2] = {1e18, 1e18}, begun = now();
    for (int turn = 0; turn < TURNS && (turn < 2 || now() - begun < ENOUGH); turn++)
        for (int b = 0; b < 2; b++) {
            if (changes_table)
                memcpy(written[b].table, board.table, sizeof board.table);
            double start = now();
            call(&builds[b], &written[b]);
            double took = now() - start;
            if (took < least[b])
                least[b] = took;
        }
    int checks = call == by_layer || call == by_layer_plain;
    if (checks && memcmp(written[0].said, written[1].said, sizeof written->said) != 0) {
        fprintf(stderr, "beside: %s of %s: the two builds answer otherwise\n", name, board.name);
        memcpy(written[1].said, written[0].said, sizeof written->said);
    }
    if (memcmp(&written[0], &written[1], sizeof *written) != 0) {
        fprintf(stderr, "beside: %s of %s: the two builds differ\n", name, board.name);
        exit(1);
    }
    printf("%s\t%s\t%.1f\t%.1f\n", name, board.name, least[0], least[1]);
    fflush(stdout);
}

static void root(int64_t x, int64_t y, int64_t side, int64_t polygon)
{
    int64_t slot[LEAFMESH_SLOT] = {x, y, x + side, y + side, 0, LEAFMESH_NO_CELL, LEAFMESH_NO_CELL, polygon};
    memcpy(board.table + LEAFMESH_SLOT * board.count++, slot, sizeof slot);
    board.leaves++;
}

static void keep_head(leafmesh_table_outcome o)
{
    if (o.number == LEAFMESH_ACCEPTED) {
        board.count = o.count;
        board.leaves = o.leaves;
    }
}

static void split(size_t id)
{
    keep_head(leafmesh_refine(board.table, sizeof board.table / 8, board.count, board.leaves, board.max_level, id));
}

static void begin(const char *name, size_t polygons, uint64_t max_level)
{
    memset(&board, 0, sizeof board);
    board.name = name;
    board.polygons = polygons;
    board.max_level = max_level;
    for (size_t p = 0; p < polygons; p++)
        board.sheets[p] = 0.0005;
    for (size_t n = 0; n < sizeof board.potentials / sizeof *board.potentials; n++)
        board.potentials[n] = (double)(n * 2654435761U % 20001) / 1e4 - 1;
}

/* All calls on a table. The net is that of the table as it stands. */
static void time_board(void)
{
    for (int b = 0; b < 2; b++)
        memcpy(written[b].table, board.table, sizeof board.table);
    take_turns("leaf_count", leaf_count, 0);
    take_turns("leaf_order", leaf_order, 0);
    take_turns("refine", refine, 1);
    take_turns("balance", balance, 1);
    take_turns("conform", conform, 1);
    for (int b = 0; b < 2; b++)
        memcpy(written[b].table, board.table, sizeof board.table);
    take_turns("network", network, 0);
    memcpy(&board.net, written[0].said, sizeof board.net);
    take_turns("power", power, 0);
    take_turns("by_place", by_place, 0);
    take_turns("by_layer", by_layer, 0);
}

static void grid(int wide, int high, int64_t shift, int64_t polygon)
{
    for (int j = 0; j < high; j++)
        for (int i = 0; i < wide; i++)
            root(i * CELL + shift, j * CELL + shift, CELL, polygon);
}

/* An L of 14 by 9 mm, split where its arms meet. */
static void neck(void)
{
    begin("an L with a neck", 1, 4);
    for (int j = 0; j < 16; j++)
        for (int i = 0; i < 24; i++)
            if (i < 12 || j < 8)
                root((int64_t)i * 20 * CELL * 1024, (int64_t)j * 20 * CELL * 1024, (int64_t)20 * CELL * 1024, 0);
    for (size_t id = 0; id < board.count && board.count < 1900; id++) {
        const int64_t *c = board.table + LEAFMESH_SLOT * id;
        int64_t x = (int64_t)12 * 20 * CELL * 1024, y = (int64_t)8 * 20 * CELL * 1024, near = x / 3;
        if (c[LEAFMESH_X1] > x - near && c[LEAFMESH_X0] < x + near && c[LEAFMESH_Y1] > y - near &&
            c[LEAFMESH_Y0] < y + near)
            split(id);
    }
    keep_head(leafmesh_balance(board.table, sizeof board.table / 8, board.count, board.leaves, board.max_level));
    time_board();
}

/* The net of the board as it stands, in the rows of both builds. */
static void make_net(void)
{
    for (int b = 0; b < 2; b++) {
        memcpy(written[b].table, board.table, sizeof board.table);
        network(&builds[b], &written[b]);
    }
    memcpy(&board.net, written[0].said, sizeof board.net);
}

static void put_node(int64_t x, int64_t y)
{
    leafmesh_node node = {.layer = 0, .component = 0, .x = x, .y = y};
    for (int b = 0; b < 2; b++)
        written[b].nodes[board.net.nodes] = node;
    board.net.nodes++;
}

static int along_rows(const void *a, const void *b)
{
    const leafmesh_node *p = &written[0].nodes[*(const size_t *)a], *q = &written[0].nodes[*(const size_t *)b];
    return p->y != q->y ? (p->y > q->y) - (p->y < q->y) : (p->x > q->x) - (p->x < q->x);
}

static int along_columns(const void *a, const void *b)
{
    const leafmesh_node *p = &written[0].nodes[*(const size_t *)a], *q = &written[0].nodes[*(const size_t *)b];
    return p->x != q->x ? (p->x > q->x) - (p->x < q->x) : (p->y > q->y) - (p->y < q->y);
}

/* Puts an edge between any two neighbours of a row or a column, so that every side of every leaf is joined and the
 * check goes to the end. */
static void join_all(void)
{
    static size_t order[LEAFMESH_NODES_LENGTH(LEAFMESH_SLOTS)];
    for (int rows_or_columns = 0; rows_or_columns < 2; rows_or_columns++) {
        for (size_t n = 0; n < board.net.nodes; n++)
            order[n] = n;
        qsort(order, board.net.nodes, sizeof *order, rows_or_columns ? along_columns : along_rows);
        for (size_t n = 1; n < board.net.nodes; n++) {
            const leafmesh_node *p = &written[0].nodes[order[n - 1]], *q = &written[0].nodes[order[n]];
            if (rows_or_columns ? p->x != q->x : p->y != q->y)
                continue;
            leafmesh_edge edge = {.from = order[n - 1], .to = order[n], .conductance = 1};
            for (int b = 0; b < 2; b++)
                written[b].edges[board.net.edges] = edge;
            board.net.edges++;
        }
    }
}

static void time_check(int plain)
{
    take_turns("by_layer", by_layer, 0);
    if (plain)
        take_turns("by_layer, no room", by_layer_plain, 0);
}

static void box(int64_t x0, int64_t y0, int64_t x1, int64_t y1)
{
    int64_t slot[LEAFMESH_SLOT] = {x0, y0, x1, y1, 0, LEAFMESH_NO_CELL, LEAFMESH_NO_CELL, 0};
    memcpy(board.table + LEAFMESH_SLOT * board.count++, slot, sizeof slot);
    board.leaves++;
}

/* One root over a row of others, an odd number of them, so that none of their corners is at its middle. */
static void long_side(const char *name, int roots)
{
    begin(name, 1, 0);
    box(0, CELL, (int64_t)roots * CELL, 2 * CELL);
    for (int i = 0; i < roots; i++)
        root((int64_t)i * CELL, 0, CELL, 0);
    make_net();
    time_check(roots < 2000);
}

/* Bands over each other whose roots are two and three cells wide, in turn. */
static void out_of_step(const char *name, int bands, int wide)
{
    begin(name, 1, 0);
    for (int j = 0; j < bands; j++)
        for (int i = 0; i < wide; i += 2 + j % 2)
            box((int64_t)i * CELL, (int64_t)j * CELL, (int64_t)(i + 2 + j % 2) * CELL, (int64_t)(j + 1) * CELL);
    make_net();
    join_all();
    time_check(0);
}

/* A grid with two nodes between the ends of every side. */
static void two_between(const char *name, int side)
{
    begin(name, 1, 0);
    grid(side, side, 0, 0);
    make_net();
    for (int64_t j = 0; j <= side; j++)
        for (int64_t i = 0; i <= side; i++)
            for (int64_t part = 1; part < 3; part++) {
                if (i < side)
                    put_node(i * CELL + part * CELL / 3, j * CELL);
                if (j < side)
                    put_node(i * CELL, j * CELL + part * CELL / 3);
            }
    join_all();
    time_check(0);
}

/* The same where many such roots lie at one place, so that every node is between the ends of each. */
static void many_sides(const char *name, int sides, int roots)
{
    begin(name, 1, 0);
    for (int i = 0; i < sides; i++)
        box(0, CELL, (int64_t)roots * CELL, 2 * CELL);
    for (int i = 0; i < roots; i++)
        root((int64_t)i * CELL, 0, CELL, 0);
    make_net();
    time_check(0);
}

/* The by-layer check where many nodes stand between the ends of sides, and all are joined. */
static void chains(void)
{
    long_side("one side with 9,998 nodes", 9999);
    long_side("one side with 998 nodes", 999);
    many_sides("1,000 sides at one place, 998 nodes on them", 1000, 999);
    out_of_step("100 bands out of step, all joined", 100, 240);
    two_between("100 by 100 roots, two nodes on each side", 100);
}

static void boards(void)
{
    neck();
    begin("100 by 100 roots", 1, 2);
    grid(100, 100, 0, 0);
    time_board();
    begin("400 roots, split at random", 1, 5);
    for (int i = 0; i < 400; i++)
        root((int64_t)(i % 20) * 64 * CELL, (int64_t)(i / 20) * 64 * CELL, 64 * CELL, 0);
    for (int i = 0; i < 1500; i++)
        split(random_number() % board.count);
    time_board();
    begin("three polygons by halves", 3, 1);
    for (int p = 0; p < 3; p++)
        grid(66, 50, (int64_t)p * CELL / 2, p);
    time_board();
    begin("256 components at one place", 256, 1);
    for (int p = 0; p < 256; p++) {
        board.components[p] = (uint32_t)p;
        grid(6, 6, 0, p);
    }
    time_board();
    begin("10,000 equal roots", 1, 1);
    for (int i = 0; i < 10000; i++)
        root(0, 0, CELL, 0);
    time_board();
    begin("10,000 roots scattered", 1, 1);
    for (int i = 0; i < 10000; i++) {
        int64_t x = (int64_t)(random_number() % 100000) * CELL;
        root(x, (int64_t)(random_number() % 100000) * CELL, CELL, 0);
    }
    time_board();
}

static void point(int64_t x, int64_t y)
{
    outline.points[outline.length++] = (leafmesh_point){x, y};
}

static void time_outline(const char *name)
{
    board.name = name;
    take_turns("strips", strips, 0);
    take_turns("build", build, 1);
    outline.length = 0;
}

static void outlines(void)
{
    begin("", 1, 2);
    for (int i = 0; i < 250; i++) {
        point((int64_t)4 * i * CELL, 8 * CELL);
        point((int64_t)4 * i * CELL, 64 * CELL);
        point((int64_t)(4 * i + 2) * CELL, 64 * CELL);
        point((int64_t)(4 * i + 2) * CELL, 8 * CELL);
    }
    point((int64_t)998 * CELL, 0);
    point(0, 0);
    time_outline("a comb of 1,002 points");
    for (int i = 0; i < 500; i++) {
        point((int64_t)i * CELL, (int64_t)i * CELL);
        point((int64_t)(i + 1) * CELL, (int64_t)i * CELL);
    }
    point((int64_t)500 * CELL, (int64_t)500 * CELL);
    point(0, (int64_t)500 * CELL);
    time_outline("stairs of 500 steps");
    int64_t y = 0;
    for (int i = 0; i < 256; i++) {
        int64_t x = (int64_t)(random_number() % 100000) * CELL;
        point(x, y);
        y = i == 255 ? 0 : (int64_t)(random_number() % 100000) * CELL;
        point(x, y);
    }
    time_outline("512 edges at random");
}

static void record(const char *name, size_t layers, size_t rings, size_t points, size_t splits)
{
    begin(name, LEAFMESH_POLYGONS, 2);
    memset(&outline, 0, sizeof outline);
    for (size_t i = 0; i < layers; i++)
        outline.layers[i] = (leafmesh_layer){i, i};
    for (size_t i = 0; i < rings; i++)
        outline.polygons[i] = (leafmesh_polygon){i % 4, i, points};
    for (size_t i = 0; i < rings * points; i++)
        point((int64_t)i * 512, -(int64_t)i * 64);
    for (size_t i = 0; i < splits; i++)
        outline.splits[i] = 5 * i;
    outline.layer_count = layers;
    outline.polygon_count = rings;
    outline.split_count = splits;
    take_turns("write", write, 0);
    leafmesh_outcome o;
    memcpy(&o, written[0].said, sizeof o);
    outline.bytes = o.value;
    take_turns("read", read, 0);
}

int main(void)
{
    written = calloc(2, sizeof *written);
    if (written == NULL)
        return 1;
    boards();
    chains();
    outlines();
    record("256 rings of 64 points", 4, 256, 64, 0);
    record("64 layers, 256 rings of 4, 100 splits", 64, 256, 4, 100);
    record("65,535 splits", 0, 0, 0, LEAFMESH_SPLITS);
    return 0;
}
