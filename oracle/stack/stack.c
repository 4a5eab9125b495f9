/* How much stack each call of the library takes.
 *
 * A call runs on a stack of its own that was painted with a pattern; afterwards the deepest word that lost its paint
 * says how far the call went. The same is done with a function in the call's place that returns at once: how far that
 * goes is its caller's share. So a figure is what a call takes below its caller, the return address included.
 *
 * A printed row is the most of some calls, accepted and refused. Built and run by ../stack.sh. */
#include "leafmesh.h"

#include <stdio.h>
#include <stdlib.h>
#include <string.h>

/* Runs work on the stack that ends at top. */
void on_stack(void *top, void (*work)(void));
/* Stands in for a call. Hands back its first word, since that is where the answer of a call goes. */
void nothing(void);
__asm__(".text\n"
        "on_stack:\n"
        "    push %rbx\n"
        "    mov %rsp, %rbx\n"
        "    mov %rdi, %rsp\n"
        "    call *%rsi\n"
        "    mov %rbx, %rsp\n"
        "    pop %rbx\n"
        "    ret\n"
        "nothing:\n"
        "    mov %rdi, %rax\n"
        "    ret\n");

enum { WORDS = 1 << 17 };
static const uint64_t PAINT = 0xa5c3965a69f0c35bu;
static uint64_t painted[WORDS] __attribute__((aligned(64)));

/* What a caller below calls: a function of the library, or nothing. */
static void (*callee)(void);
#define CALL(function) ((__typeof__(&(function)))callee)

static size_t depth(void (*called)(void), void (*caller)(void))
{
    for (size_t i = 0; i < WORDS; i++) {
        painted[i] = PAINT;
    }
    callee = called;
    on_stack(painted + WORDS, caller);
    size_t n = 0;
    while (n < WORDS && painted[n] == PAINT) {
        n++;
    }
    if (n == 0) {
        fprintf(stderr, "the painted stack is too short\n");
        exit(1);
    }
    return (WORDS - n) * sizeof(painted[0]);
}

/* The most of a row, and of how many calls. */
static size_t most, calls;

static void measure_function(void (*called)(void), void (*caller)(void))
{
    size_t above = depth(nothing, caller);
    size_t took = depth(called, caller) - above + sizeof(void *);
    most = took > most ? took : most;
    calls++;
}
#define MEASURE(function, caller) measure_function((void (*)(void))(function), caller)

static void print_row(const char *name)
{
    printf("%s: stack %zu of %zu calls\n", name, most, calls);
    most = calls = 0;
}

/* What the calls are given, and what they leave. */
enum { SLOTS = LEAFMESH_SLOTS, RECTS = 1 << 18, WORK = LEAFMESH_WORK_A_LEAF * SLOTS };
static leafmesh_point points[LEAFMESH_RING_POINTS + 1];
static leafmesh_rect rects[RECTS];
static size_t point_count, rect_room = RECTS;
static uint16_t layers[LEAFMESH_POLYGONS];
static uint32_t components[LEAFMESH_POLYGONS];
static double sheets[LEAFMESH_POLYGONS];
static uint64_t counts[LEAFMESH_POLYGONS], splits[1];
static leafmesh_polygon polygons[LEAFMESH_POLYGONS];
static size_t polygon_count;
static uint64_t max_level, target;
static int64_t table[LEAFMESH_SLOT * SLOTS], kept[LEAFMESH_SLOT * SLOTS];
static size_t count, leaf_number, room, id;
static uint64_t ids[SLOTS];
static leafmesh_node nodes[LEAFMESH_NODES_LENGTH(SLOTS)];
static leafmesh_edge edges[LEAFMESH_EDGES_LENGTH(SLOTS)];
static leafmesh_cell cells[LEAFMESH_CELLS_LENGTH(SLOTS)];
static uint64_t work[WORK];
static double potentials[LEAFMESH_NODES_LENGTH(SLOTS)], powers[SLOTS];
static leafmesh_contact_pair contacts[2];
static leafmesh_via vias[2];
static leafmesh_channel channels[2];
static size_t link_count, edge_room = LEAFMESH_EDGES_LENGTH(SLOTS);
static size_t work_length, edge_count, byte_count;
static uint8_t bytes[1 << 15];
static leafmesh_outcome outcome;
static leafmesh_border_outcome border;
static leafmesh_table_outcome made;
static leafmesh_net_outcome net;
static leafmesh_check_outcome checked;
static leafmesh_read_outcome record;

static void contact(void)
{
    border = CALL(leafmesh_contact)(0, 0, 8, 8, 8, 0, points[0].x, 8);
    outcome.number = border.number;
}

static void strips(void)
{
    outcome = CALL(leafmesh_strips)(points, point_count, rects, rect_room);
}

static void build(void)
{
    made = CALL(leafmesh_build)(max_level, LEAFMESH_CAP, target, NULL, 0, layers, polygon_count, components,
                                polygon_count, sheets, polygon_count, counts, polygon_count, points, point_count,
                                table, LEAFMESH_SLOT * room);
    outcome.number = made.number;
}

static void leaf_count(void)
{
    outcome.value = CALL(leafmesh_leaf_count)(count, leaf_number, max_level);
}

static void leaves(void)
{
    outcome = CALL(leafmesh_leaves)(table, LEAFMESH_SLOT * SLOTS, count, leaf_number, max_level, ids, room);
}

static void leaf_order(void)
{
    outcome = CALL(leafmesh_leaf_order)(table, LEAFMESH_SLOT * SLOTS, count, leaf_number, max_level, ids, room);
}

static void refine(void)
{
    made = CALL(leafmesh_refine)(table, LEAFMESH_SLOT * room, count, leaf_number, max_level, id);
    outcome.number = made.number;
}

static void balance(void)
{
    made = CALL(leafmesh_balance)(table, LEAFMESH_SLOT * room, count, leaf_number, max_level);
    outcome.number = made.number;
}

static void conform(void)
{
    made = CALL(leafmesh_conform)(table, LEAFMESH_SLOT * room, count, leaf_number, max_level);
    outcome.number = made.number;
}

static void network(void)
{
    net = CALL(leafmesh_network)(table, LEAFMESH_SLOT * SLOTS, count, leaf_number, max_level, layers, polygon_count,
                                 components, polygon_count, sheets, polygon_count, contacts, link_count, vias,
                                 link_count, 1, channels, link_count, nodes, LEAFMESH_NODES_LENGTH(SLOTS), edges,
                                 edge_room, cells, LEAFMESH_CELLS_LENGTH(SLOTS), work, work_length);
}

static void edge_rows(void)
{
    outcome = CALL(leafmesh_edge_rows)(table, LEAFMESH_SLOT * SLOTS, count, leaf_number, max_level, layers,
                                       polygon_count, components, polygon_count, sheets, polygon_count, contacts,
                                       link_count, vias, link_count, 1, channels, link_count);
}

static void power(void)
{
    outcome = CALL(leafmesh_power)(nodes, net.nodes, edges, net.edges, cells, net.cells, potentials, net.nodes, powers,
                                   room);
}

static void check_network_conforming(void)
{
    checked = CALL(leafmesh_check_network_conforming)(table, LEAFMESH_SLOT * SLOTS, count, leaf_number, max_level,
                                                      nodes, net.nodes, edges, edge_count, cells, net.cells, work,
                                                      work_length);
}

static void check_by_layer(void)
{
    checked =
        CALL(leafmesh_check_by_layer)(table, LEAFMESH_SLOT * SLOTS, count, leaf_number, max_level, nodes, net.nodes,
                                      edges, edge_count, cells, net.cells, layers, polygon_count, components,
                                      polygon_count, work, work_length);
}

static void read_record(void)
{
    record = CALL(leafmesh_read)(bytes, byte_count, NULL, 0, polygons, LEAFMESH_POLYGONS, sheets, LEAFMESH_POLYGONS,
                                 points, LEAFMESH_RING_POINTS, splits, 1);
}

static void write_record(void)
{
    outcome = CALL(leafmesh_write)(max_level, LEAFMESH_CAP, target, NULL, 0, polygons, polygon_count, sheets,
                                   polygon_count, points, point_count, splits, 1, bytes, byte_count);
}

/* Calls that prepare others must be accepted. */
static void accepted(const char *call, uint64_t number)
{
    if (number != LEAFMESH_ACCEPTED) {
        fprintf(stderr, "%s: refused %d\n", call, (int)number);
        exit(1);
    }
}

static void prepare(const char *name, void (*called)(void), void (*caller)(void))
{
    callee = called;
    caller();
    accepted(name, outcome.number);
}
#define PREPARE(function, caller) prepare(#function, (void (*)(void))(function), caller)

static void keep_table(void)
{
    memcpy(kept, table, sizeof table);
}

static void take_back_table(void)
{
    memcpy(table, kept, sizeof table);
}

/* One polygon on layer 1, whose ring is made of the first n points. */
static void one_polygon(size_t n)
{
    point_count = n;
    polygon_count = 1;
    layers[0] = 1;
    components[0] = 0;
    sheets[0] = 1.5;
    counts[0] = n;
    polygons[0].layer = 1;
    polygons[0].component = 0;
    polygons[0].points = n;
}

/* A skyline of n points: houses side by side, each as wide as a unit, of some heights in turn. An odd n gives the last
 * point twice. */
static void skyline(size_t n, int64_t unit, size_t heights)
{
    size_t houses = (n - 2) / 2;
    points[0].x = points[0].y = points[1].y = 0;
    points[1].x = unit * (int64_t)houses;
    for (size_t i = 0; i < houses; i++) {
        int64_t height = unit * (int64_t)(1 + i * 37 % heights);
        points[2 + 2 * i].x = unit * (int64_t)(houses - i);
        points[3 + 2 * i].x = unit * (int64_t)(houses - i - 1);
        points[2 + 2 * i].y = points[3 + 2 * i].y = height;
    }
    if (n % 2 == 1) {
        points[n - 1] = points[n - 2];
    }
    one_polygon(n);
}

/* How many rings and boards are drawn by chance for a row. */
enum { DRAWINGS = 96 };

/* The same numbers whenever the program runs, and no order to be seen in them. */
static uint64_t drawn(uint64_t below)
{
    static uint64_t state = 1;
    state = state * 6364136223846793005u + 1442695040888963407u;
    return (state >> 33) % below;
}

/* A ring of n points, an even number, that goes to and fro: its edges stand in no order, and cross. */
static void tangle(size_t n, int64_t unit, size_t columns, size_t heights)
{
    for (size_t i = 0; i < n; i += 2) {
        points[i].x = points[i + 1].x = unit * (int64_t)drawn(columns);
        points[i + 1].y = unit * (int64_t)drawn(heights);
        points[i + 2].y = points[i + 1].y;
    }
    points[0].y = points[n - 1].y;
    one_polygon(n);
}

/* Sixteen by sixteen squares with gaps between them. */
static void many_squares(int64_t side)
{
    one_polygon(4);
    point_count = 4 * LEAFMESH_POLYGONS;
    polygon_count = LEAFMESH_POLYGONS;
    for (size_t i = 0; i < LEAFMESH_POLYGONS; i++) {
        int64_t x = 2 * side * (int64_t)(i % 16), y = 2 * side * (int64_t)(i / 16);
        leafmesh_point ring[4] = {{x, y}, {x + side, y}, {x + side, y + side}, {x, y + side}};
        memcpy(&points[4 * i], ring, sizeof ring);
        layers[i] = layers[0];
        components[i] = components[0];
        sheets[i] = sheets[0];
        counts[i] = counts[0];
    }
}

/* The head that the last call answered. */
static void keep_head(void)
{
    count = made.count;
    leaf_number = made.leaves;
}

/* The roots of a square board. */
static void square_board(int64_t cells, uint64_t levels)
{
    int64_t side = 2 << levels, end = cells * side;
    leafmesh_point ring[4] = {{0, 0}, {end, 0}, {end, end}, {0, end}};
    memcpy(points, ring, sizeof ring);
    one_polygon(4);
    max_level = levels;
    target = (uint64_t)side;
    room = SLOTS;
    PREPARE(leafmesh_build, build);
    keep_head();
}

/* Splits a root down to the last level, always the same quadrant. */
static void split_down(size_t root, size_t quadrant)
{
    id = root;
    for (uint64_t level = 0; level < max_level; level++) {
        PREPARE(leafmesh_refine, refine);
        id = count + quadrant;
        keep_head();
    }
}

/* Two roots, before any split, change their slots. */
static void exchange_roots(uint64_t i, uint64_t j)
{
    for (size_t k = 0; k < LEAFMESH_SLOT; k++) {
        int64_t number = table[LEAFMESH_SLOT * i + k];
        table[LEAFMESH_SLOT * i + k] = table[LEAFMESH_SLOT * j + k];
        table[LEAFMESH_SLOT * j + k] = number;
    }
}

/* The sorts of places go deeper where roots come backwards, or some of them out of turn. */
static void disturb_roots(int backwards)
{
    for (uint64_t i = 0; backwards && i < count / 2; i++) {
        exchange_roots(i, count - 1 - i);
    }
    for (int i = 0; !backwards && i < 20; i++) {
        exchange_roots(drawn(count), drawn(count));
    }
}

/* Splits leaves anywhere on the board, each as deep as the drawn ids lead. */
static void split_anywhere(size_t splits)
{
    while (splits > 0) {
        id = drawn(count);
        if (table[LEAFMESH_SLOT * id + LEAFMESH_FIRST_CHILD] != LEAFMESH_NO_CELL ||
            table[LEAFMESH_SLOT * id + LEAFMESH_LEVEL] == (int64_t)max_level) {
            continue;
        }
        PREPARE(leafmesh_refine, refine);
        keep_head();
        splits--;
    }
}

/* A square board with a root split down in its middle: unbalanced. */
static size_t split_root;

static void split_board(int64_t cells, uint64_t levels)
{
    square_board(cells, levels);
    split_root = (size_t)(cells * cells / 2);
    split_down(split_root, 3);
    keep_table();
}

/* The board balanced, with its net: has nodes at the middle of a leaf's edge. */
static void make_net(void)
{
    PREPARE(leafmesh_balance, balance);
    keep_head();
    work_length = WORK;
    callee = (void (*)(void))leafmesh_network;
    network();
    accepted("leafmesh_network", net.number);
    edge_count = net.edges;
}

static void board_with_net(int64_t cells, uint64_t levels)
{
    split_board(cells, levels);
    make_net();
}

static void measure_contact(void)
{
    points[0].x = 16;
    MEASURE(leafmesh_contact, contact);
    points[0].x = LEAFMESH_COORDINATE + 1;
    MEASURE(leafmesh_contact, contact);
    print_row("contact");
}

static void measure_strips(size_t n, const char *name)
{
    tangle(n - n % 2, 1, n, 64);
    MEASURE(leafmesh_strips, strips);
    skyline(n, 1, 64);
    MEASURE(leafmesh_strips, strips);
    rect_room = 0;
    MEASURE(leafmesh_strips, strips);
    rect_room = RECTS;
    points[n - 1].x += 1;
    MEASURE(leafmesh_strips, strips);
    points[n - 1].x = LEAFMESH_COORDINATE + 1;
    MEASURE(leafmesh_strips, strips);
    print_row(name);
}

/* A build with room, with too little, and of another ring. */
static void measure_boards(void)
{
    room = SLOTS;
    MEASURE(leafmesh_build, build);
    room = 1;
    MEASURE(leafmesh_build, build);
    points[0].x -= 1;
    points[point_count - 1].x -= 1;
    room = SLOTS;
    MEASURE(leafmesh_build, build);
}

static void measure_build(void)
{
    max_level = 2;
    target = 7 * 8;
    skyline(4, 8, 1);
    measure_boards();
    print_row("build, a ring of 4 points");
    /* 511 houses on a floor of 73 cells. */
    skyline(LEAFMESH_RING_POINTS, 8, 2);
    measure_boards();
    many_squares(16);
    measure_boards();
    /* Edges in no order take the sort deepest. */
    target = 8;
    for (int i = 0; i < DRAWINGS; i++) {
        tangle(LEAFMESH_RING_POINTS, 8, LEAFMESH_CAP, 4);
        measure_boards();
    }
    print_row("build, a ring of 1,024 points or 256 rings of 4");
}

/* A call on a table: with all the room, with none to grow, with less than the cells take, and on a bad table. */
static void measure_on_table(void (*called)(void), void (*caller)(void))
{
    room = SLOTS;
    measure_function(called, caller);
    take_back_table();
    room = count;
    measure_function(called, caller);
    take_back_table();
    room = 1;
    measure_function(called, caller);
    take_back_table();
    table[0] += 1;
    room = SLOTS;
    measure_function(called, caller);
    take_back_table();
}
#define MEASURE_ON_TABLE(function, caller) measure_on_table((void (*)(void))(function), caller)

static void measure_tables(void)
{
    split_board(100, 3);
    MEASURE_ON_TABLE(leafmesh_leaf_count, leaf_count);
    print_row("leaf_count");
    MEASURE_ON_TABLE(leafmesh_leaves, leaves);
    print_row("leaves");
    MEASURE_ON_TABLE(leafmesh_leaf_order, leaf_order);
    print_row("leaf_order");
    /* A leaf, a split cell, a leaf of the last level, no cell. */
    const size_t cells[] = {0, split_root, count - 1, count};
    for (size_t i = 0; i < 4; i++) {
        id = cells[i];
        MEASURE_ON_TABLE(leafmesh_refine, refine);
    }
    print_row("refine");
}

static void measure_even(void)
{
    split_board(100, 3);
    MEASURE_ON_TABLE(leafmesh_balance, balance);
    split_board(4, LEAFMESH_MAX_LEVEL);
    MEASURE_ON_TABLE(leafmesh_balance, balance);
    print_row("balance");
    MEASURE_ON_TABLE(leafmesh_conform, conform);
    split_board(8, 3);
    MEASURE_ON_TABLE(leafmesh_conform, conform);
    print_row("conform");
}

/* With a net that is sound, with one that has no edges, so that nodes hang, and with a bad table. */
static void measure_checks(void (*called)(void), void (*caller)(void))
{
    edge_count = net.edges;
    measure_function(called, caller);
    edge_count = 0;
    measure_function(called, caller);
    table[0] += 1;
    measure_function(called, caller);
    table[0] -= 1;
}

static void measure_both_checks(void)
{
    work_length = WORK;
    measure_checks((void (*)(void))leafmesh_check_network_conforming, check_network_conforming);
    print_row("check_network_conforming, with work room");
    measure_checks((void (*)(void))leafmesh_check_by_layer, check_by_layer);
    print_row("check_by_layer, with work room");
    work_length = 0;
    measure_checks((void (*)(void))leafmesh_check_network_conforming, check_network_conforming);
    print_row("check_network_conforming, without work room");
    measure_checks((void (*)(void))leafmesh_check_by_layer, check_by_layer);
    print_row("check_by_layer, without work room");
}

/* A link of each kind that joins, and one that doesn't; the board is of one layer. Footprints hold nodes and none. */
static void with_links(void)
{
    const uint16_t layer = layers[0];
    const int64_t far = table[LEAFMESH_SLOT * (count - 1) + LEAFMESH_X1];
    for (int n = 0; n < 2; n++) {
        contacts[n].to = (uint64_t)n;
        vias[n].bottom = vias[n].top = layer;
        vias[n].component = components[0];
        vias[n].footprint.x = far / 2;
        vias[n].footprint.y = far / 2;
        vias[n].footprint.half_width = vias[n].footprint.half_height = n == 0 ? far / 8 : 1;
        vias[n].resistance = 1;
        channels[n].drain.component = channels[n].source.component = components[0] + (uint32_t)n;
        channels[n].drain.x = far;
        channels[n].resistance = 1;
    }
    link_count = 2;
}

/* A board on which nodes stand in no order, so that they take the sorts deepest. */
static void board_of_drawn_splits(void)
{
    square_board(20, 3);
    split_anywhere(400);
    make_net();
}

static void board_in_no_order(int drawing)
{
    square_board(20 + (int64_t)drawn(40), 3);
    disturb_roots(drawing % 2);
    split_anywhere(drawn(300));
    make_net();
}

static void measure_links(void)
{
    for (int i = 0; i < DRAWINGS; i++) {
        board_of_drawn_splits();
        with_links();
        MEASURE(leafmesh_edge_rows, edge_rows);
        MEASURE(leafmesh_network, network);
        link_count = 0;
        board_in_no_order(i);
        with_links();
        MEASURE(leafmesh_edge_rows, edge_rows);
        MEASURE(leafmesh_network, network);
        link_count = 0;
    }
    board_with_net(60, 3);
    with_links();
    MEASURE(leafmesh_edge_rows, edge_rows);
    MEASURE(leafmesh_network, network);
    accepted("leafmesh_network with links", net.number);
    callee = (void (*)(void))leafmesh_edge_rows;
    edge_rows();
    accepted("leafmesh_edge_rows", outcome.number);
    /* Exactly the rows that it needs, then one less. */
    edge_room = outcome.value;
    MEASURE(leafmesh_network, network);
    edge_room--;
    MEASURE(leafmesh_network, network);
    vias[1].resistance = 0;
    MEASURE(leafmesh_edge_rows, edge_rows);
    MEASURE(leafmesh_network, network);
    print_row("network with links, edge_rows");
    edge_room = LEAFMESH_EDGES_LENGTH(SLOTS);
    link_count = 0;
}

static void measure_net(void)
{
    board_with_net(1, 3);
    MEASURE(leafmesh_network, network);
    for (int i = 0; i < DRAWINGS; i++) {
        board_of_drawn_splits();
        MEASURE(leafmesh_network, network);
        board_in_no_order(i);
        MEASURE(leafmesh_network, network);
    }
    board_with_net(60, 3);
    MEASURE(leafmesh_network, network);
    work_length = 1;
    MEASURE(leafmesh_network, network);
    sheets[0] = 0;
    MEASURE(leafmesh_network, network);
    print_row("network");
    measure_links();
    board_with_net(60, 3);
    MEASURE(leafmesh_power, power);
    room = 0;
    MEASURE(leafmesh_power, power);
    print_row("power");
    measure_both_checks();
}

static void measure_records(void)
{
    skyline(LEAFMESH_RING_POINTS, 8, 64);
    max_level = 2;
    target = 64;
    byte_count = sizeof bytes;
    MEASURE(leafmesh_write, write_record);
    accepted("leafmesh_write", outcome.number);
    byte_count = 1;
    MEASURE(leafmesh_write, write_record);
    print_row("write");
    byte_count = sizeof bytes;
    PREPARE(leafmesh_write, write_record);
    byte_count = outcome.value;
    MEASURE(leafmesh_read, read_record);
    accepted("leafmesh_read", record.number);
    byte_count -= 1;
    MEASURE(leafmesh_read, read_record);
    print_row("read");
}

int main(void)
{
    measure_contact();
    measure_strips(4, "strips, a ring of 4 points");
    measure_strips(16, "strips, a ring of 16 points");
    measure_strips(17, "strips, a ring of 17 points");
    measure_strips(LEAFMESH_RING_POINTS, "strips, a ring of 1,024 points");
    measure_build();
    measure_tables();
    measure_even();
    measure_net();
    measure_records();
    return 0;
}
