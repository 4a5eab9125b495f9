/* From outline to net in C: a square of 8 by 8 ticks, split once, balanced, its net and the borders of its leaves
 * printed; then the same square on two layers that a via joins, with just enough edge rows.
 *
 * Built and run by run.sh beside this file.
 */
#include "leafmesh.h"

#include <inttypes.h>
#include <stdio.h>
#include <stdlib.h>

enum { SLOTS = 64, LEAVES = 49 };

static int64_t row[LEAFMESH_TABLE_LENGTH(SLOTS)];
static leafmesh_node nodes[LEAFMESH_NODES_LENGTH(LEAVES)];
static leafmesh_edge edges[LEAFMESH_EDGES_LENGTH(LEAVES)];
static leafmesh_cell cells[LEAFMESH_CELLS_LENGTH(LEAVES)];
static uint64_t work[LEAFMESH_WORK_LENGTH(LEAVES)];

#define LENGTH(row) (sizeof(row) / sizeof((row)[0]))

static void judge(const char *call, uint64_t number, uint64_t place)
{
    if (number != LEAFMESH_ACCEPTED) {
        fprintf(stderr, "%s: refused %" PRIu64 " %" PRIu64 ": %s\n", call, number, place, leafmesh_words(number));
        exit(1);
    }
}

/* Every border that two of these leaves share, each once. */
static void print_borders(const uint64_t *ids, uint64_t count)
{
    static const char *const sides[] = {"south", "east", "north", "west"};
    for (uint64_t i = 0; i < count; i++) {
        for (uint64_t j = i + 1; j < count; j++) {
            const int64_t *a = row + LEAFMESH_SLOT * ids[i], *b = row + LEAFMESH_SLOT * ids[j];
            leafmesh_border_outcome border =
                leafmesh_contact(a[LEAFMESH_X0], a[LEAFMESH_Y0], a[LEAFMESH_X1], a[LEAFMESH_Y1], b[LEAFMESH_X0],
                                 b[LEAFMESH_Y0], b[LEAFMESH_X1], b[LEAFMESH_Y1]);
            judge("contact", border.number, border.place);
            if (border.length > 0) {
                printf("leaf %" PRIu64 " has leaf %" PRIu64 " on its %s side, %" PRIu64 " ticks\n", ids[i], ids[j],
                       sides[border.side], border.length);
            }
        }
    }
}

/* Two base cells of 8 by 8 ticks over each other, and a via of 2 ohms over their east side: what it makes of the rows
 * above, after asking how many edges there will be. */
static void link_layers(void)
{
    static const uint16_t layers[] = {1, 2};
    static const uint32_t components[] = {0, 0};
    static const double sheets[] = {1.0, 1.0};
    static const uint64_t counts[] = {4, 4};
    static const leafmesh_point points[] = {{0, 0}, {8, 0}, {8, 8}, {0, 8}, {0, 0}, {8, 0}, {8, 8}, {0, 8}};
    static const leafmesh_via vias[] = {{1, 2, 0, {8, 4, 1, 4}, 2.0}};

    leafmesh_table table = leafmesh_table_on(row, LENGTH(row));
    leafmesh_table_outcome built = leafmesh_table_build(
        &table, 1, LEAFMESH_CAP, 8, NULL, 0, layers, LENGTH(layers), components, LENGTH(components), sheets,
        LENGTH(sheets), counts, LENGTH(counts), points, LENGTH(points));
    judge("build", built.number, built.place);
    leafmesh_outcome rows = leafmesh_table_edge_rows(&table, layers, LENGTH(layers), components, LENGTH(components),
                                                     sheets, LENGTH(sheets), NULL, 0, vias, LENGTH(vias), 0, NULL, 0);
    judge("edge rows", rows.number, rows.place);
    if (rows.value > LENGTH(edges)) {
        fprintf(stderr, "no room for %" PRIu64 " edges\n", rows.value);
        exit(1);
    }
    leafmesh_net_outcome net = leafmesh_table_network(
        &table, layers, LENGTH(layers), components, LENGTH(components), sheets, LENGTH(sheets), NULL, 0, vias,
        LENGTH(vias), 0, NULL, 0, nodes, LENGTH(nodes), edges, rows.value, cells, LENGTH(cells), work, LENGTH(work));
    judge("network", net.number, net.place);
    printf("edge rows %" PRIu64 " edges %" PRIu64 " links %" PRIu64 "\n", rows.value, net.edges, net.links);
    for (uint64_t e = net.edges - net.links; e < net.edges; e++) {
        printf("link %" PRIu64 " %" PRIu64 " %g S, layer %u to layer %u\n", edges[e].from, edges[e].to,
               edges[e].conductance, (unsigned)nodes[edges[e].from].layer, (unsigned)nodes[edges[e].to].layer);
    }
}

int main(void)
{
    static const uint16_t layers[] = {1};
    static const uint32_t components[] = {0};
    static const double sheets[] = {1.0};
    static const uint64_t counts[] = {4};
    static const leafmesh_point points[] = {{0, 0}, {8, 0}, {8, 8}, {0, 8}};

    /* The table holds its row and its head, which each call below keeps. */
    leafmesh_table table = leafmesh_table_on(row, LENGTH(row));
    leafmesh_table_outcome built = leafmesh_table_build(
        &table, 2, LEAFMESH_CAP, 8, NULL, 0, layers, LENGTH(layers), components, LENGTH(components), sheets,
        LENGTH(sheets), counts, LENGTH(counts), points, LENGTH(points));
    judge("build", built.number, built.place);
    leafmesh_table_outcome split = leafmesh_table_refine(&table, 0);
    judge("refine", split.number, split.place);
    leafmesh_table_outcome even = leafmesh_table_balance(&table);
    judge("balance", even.number, even.place);

    leafmesh_net_outcome net = leafmesh_table_network(
        &table, layers, LENGTH(layers), components, LENGTH(components), sheets, LENGTH(sheets), NULL, 0, NULL, 0, 0,
        NULL, 0, nodes, LENGTH(nodes), edges, LENGTH(edges), cells, LENGTH(cells), work, LENGTH(work));
    judge("network", net.number, net.place);
    printf("cells %zu leaves %zu nodes %" PRIu64 " edges %" PRIu64 "\n", table.count,
           leafmesh_table_leaf_count(&table), net.nodes, net.edges);
    for (uint64_t e = 0; e < net.edges; e++) {
        printf("edge %" PRIu64 " %" PRIu64 " %g S\n", edges[e].from, edges[e].to, edges[e].conductance);
    }

    /* Cell i of the net is the i-th of these leaves. */
    uint64_t order[LEAVES];
    leafmesh_outcome listed = leafmesh_table_leaf_order(&table, order, LENGTH(order));
    judge("leaf order", listed.number, listed.place);
    leafmesh_check_outcome checked = leafmesh_table_check_by_layer(
        &table, nodes, net.nodes, edges, net.edges, cells, net.cells, layers, LENGTH(layers), components,
        LENGTH(components), work, LENGTH(work));
    judge("check by layer", checked.number, checked.place);
    printf("cell 0 is leaf %" PRIu64 " of %" PRIu64 "; %s\n", order[0], listed.value,
           checked.broken ? "a node isn't joined" : "all sides are joined");
    print_borders(order, listed.value);

    /* A refusal: there is no cell 99, and nothing is changed. */
    leafmesh_table_outcome none = leafmesh_table_refine(&table, 99);
    printf("refine 99: refused %" PRIu64 " %" PRIu64 ": %s\n", none.number, none.place,
           leafmesh_words(none.number));

    /* A head whose leaves aren't the row's: of the raw calls leaf_count hands it back, the others refuse it. */
    leafmesh_table_outcome stale =
        leafmesh_refine(row, LENGTH(row), table.count, table.leaves + 1, table.max_level, 1);
    printf("%zu leaves: refused %" PRIu64 " %" PRIu64 ": %s\n",
           leafmesh_leaf_count(table.count, table.leaves + 1, table.max_level), stale.number, stale.place,
           leafmesh_words(stale.number));
    link_layers();
    if (fflush(stdout) != 0 || ferror(stdout)) {
        perror("standard output");
        return 1;
    }
    return none.number == LEAFMESH_NO_SUCH_CELL && stale.number == LEAFMESH_BAD_TABLE ? 0 : 1;
}
