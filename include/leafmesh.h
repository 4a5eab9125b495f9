/* leafmesh: a quadtree mesh of copper outlines, and its net of conductances, across layers too.
 *
 * Link with the static library that `bindings/library.sh` makes (crates/leafmesh/out/libleafmesh.a); `install.sh
 * PREFIX` puts header, static and shared library, and files for pkg-config and CMake where compilers look. C99, C11
 * and C++17; the library is for x86-64 Linux.
 *
 * Calls. Every call takes any input and ends with an answer or a refusal; a refused call changes nothing that it
 * was lent. No call allocates, prints, or keeps anything between calls: there are no globals, so any number of
 * threads may call at once, as long as none writes a row that another has lent. A call needs at most some 64 KiB
 * of stack.
 *
 * Units. Coordinates are whole ticks; one tick is 2^-38 m, so a coordinate lies within a quarter of a metre. Sheet
 * resistance is in ohms a square, potential in volts, power in watts, conductance in siemens.
 *
 * Fractions. The calls expect the floating-point state that a thread begins with: rounding to nearest, no flush to
 * zero. With another rounding the last bit of an answer can differ, with flush to zero a subnormal power is lost.
 *
 * Tables. A table is a row of cells and a head: how many cells, how many of these are leaves, and the deepest level.
 * What makes or changes a table answers its new head, and every other call judges a head against the row: where the
 * leaves aren't as many as it says, the table is bad. leafmesh_table keeps row and head together, and the calls that
 * begin with leafmesh_table_ hand the new head back into it, so that none can be mixed up.
 *
 * Rows. A row is a pointer and, behind it, its length: the number of entries of the pointer's own type. So the
 * length of points counts points and that of nodes counts nodes; only a table's counts numbers, eight a slot. Where
 * the length is 0 the pointer may be null. Rows of one call must not overlap where one of them is written.
 *
 * Conductances. They are the original's, bit for bit, and not the copper's at a change of level, beside other
 * copper of the same layer's rows and columns, and where two polygons of one component meet: see
 * docs/CONDUCTANCES.md before you rely on them. Nodes, cells and the table are exact; a solver can be assembled from
 * those.
 *
 * Bands. Where bands of a ring get cells of unequal width, corners of one band's cells stand inside the sides of
 * the other's and no side is cut: the net is wrong there, and leafmesh_check_by_layer names a node that isn't joined.
 * It is proved that it names none, however the board is split, once it is balanced, where all coordinates of a polygon
 * are congruent modulo its base cell, no strip is longer than cap base cells (a longer one gets larger cells than its
 * neighbours), and no two polygons of one layer and component touch.
 */
#ifndef LEAFMESH_H
#define LEAFMESH_H

#include <stddef.h>
#include <stdint.h>

#ifdef __cplusplus
extern "C" {
#endif

/* The version of this header and its library; CHANGELOG.md says what changed. */
#define LEAFMESH_VERSION "0.11.0"
#define LEAFMESH_VERSION_MAJOR 0
#define LEAFMESH_VERSION_MINOR 11
#define LEAFMESH_VERSION_PATCH 0

/* Ranges. */
#define LEAFMESH_COORDINATE 68719476736LL /* coordinates lie from minus this to this: 2^36 ticks */
#define LEAFMESH_MAX_LEVEL 12
#define LEAFMESH_MEANS_DEFAULT 255 /* for the level of a board record: the default */
#define LEAFMESH_DEFAULT_LEVEL 4   /* which is this; build knows no default */
#define LEAFMESH_CAP 256             /* the most base cells that a strip has each way */
#define LEAFMESH_CELL 68719476736ULL /* largest target cell, and largest cell of a layer: 2^36 ticks */
#define LEAFMESH_LAYER_ENTRIES 64
#define LEAFMESH_POLYGONS 256
#define LEAFMESH_RING_POINTS 1024
#define LEAFMESH_SPLITS 65535 /* of a record */
#define LEAFMESH_SLOTS 16384
#define LEAFMESH_SHEET_LOW 0x1p-40 /* ohms a square */
#define LEAFMESH_SHEET_HIGH 0x1p40 /* ohms a square */
#define LEAFMESH_POTENTIAL 0x1p20  /* volts */
#define LEAFMESH_RESISTANCE_LOW 0x1p-40 /* ohms, of a via or a channel */
#define LEAFMESH_RESISTANCE_HIGH 0x1p40 /* ohms */
#define LEAFMESH_HALF 68719476736LL     /* half sizes of a footprint lie from 0 to this: 2^36 ticks */
#define LEAFMESH_TICK 0x1p-38      /* metres */

/* A table has eight numbers a slot. */
#define LEAFMESH_SLOT 8
enum {
    LEAFMESH_X0,
    LEAFMESH_Y0,
    LEAFMESH_X1,
    LEAFMESH_Y1,
    LEAFMESH_LEVEL,
    LEAFMESH_PARENT,
    LEAFMESH_FIRST_CHILD,
    LEAFMESH_POLYGON
};
#define LEAFMESH_NO_CELL 4294967295LL /* no parent, no child */

/* The corners of a cell of a net, in their order. */
enum { LEAFMESH_SW, LEAFMESH_SE, LEAFMESH_NE, LEAFMESH_NW };
#define LEAFMESH_CORNERS 4

/* The sides of a rectangle, anticlockwise from the south. */
enum { LEAFMESH_SOUTH, LEAFMESH_EAST, LEAFMESH_NORTH, LEAFMESH_WEST };

/* Room that leafmesh_network needs for each leaf: nodes, edges, cells, and work numbers of 64 bits; and one edge more
 * for each link that it makes, which leafmesh_edge_rows counts. */
#define LEAFMESH_NODES_A_LEAF 4
#define LEAFMESH_EDGES_A_LEAF 8
#define LEAFMESH_CELLS_A_LEAF 1
#define LEAFMESH_WORK_A_LEAF 64

/* Work room with which a check takes n log n steps: so many numbers of 64 bits for each node and for each edge of its
 * net. It takes none where there are more nodes than LEAFMESH_CHECK_NODES, 2^26. */
#define LEAFMESH_CHECK_WORK_A_NODE 9
#define LEAFMESH_CHECK_WORK_AN_EDGE 3
#define LEAFMESH_CHECK_NODES 67108864

/* Lengths of rows that are always enough, in entries of the row's type; they can size static rows. */
#define LEAFMESH_TABLE_LENGTH(slots) (LEAFMESH_SLOT * (size_t)(slots))
#define LEAFMESH_NODES_LENGTH(leaves) (LEAFMESH_NODES_A_LEAF * (size_t)(leaves))
#define LEAFMESH_EDGES_LENGTH(leaves) (LEAFMESH_EDGES_A_LEAF * (size_t)(leaves)) /* without links */
#define LEAFMESH_CELLS_LENGTH(leaves) (LEAFMESH_CELLS_A_LEAF * (size_t)(leaves))
#define LEAFMESH_WORK_LENGTH(leaves) (LEAFMESH_WORK_A_LEAF * (size_t)(leaves))
/* For a check that takes n log n steps; with less it takes the plain walk. */
#define LEAFMESH_CHECK_WORK_LENGTH(nodes, edges)                                                                    \
    (LEAFMESH_CHECK_WORK_A_NODE * (size_t)(nodes) + LEAFMESH_CHECK_WORK_AN_EDGE * (size_t)(edges))
/* Strips of a ring of so many points. */
#define LEAFMESH_STRIPS_LENGTH(points) ((size_t)(points) / 2 * (size_t)(points))
/* Bytes of a record; exact. */
#define LEAFMESH_RECORD_LENGTH(layers, polygons, points, splits)                                                   \
    (22 + 10 * (size_t)(layers) + 16 * (size_t)(polygons) + 16 * (size_t)(points) + 4 * (size_t)(splits))

/* Refusals: the number of an outcome. The place is 0 where nothing else is said. Later versions may have more. */
enum {
    LEAFMESH_ACCEPTED = 0,
    LEAFMESH_WRONG_VERSION = 1, /* the record's first byte is not 1 */
    LEAFMESH_WRONG_LENGTH = 2,  /* a field cut short, a wrong length, bytes left over: place is the offset */
    LEAFMESH_OUT_OF_RANGE =
        3,                /* a value out of range: place is the offset in a record, the polygon for its values */
    LEAFMESH_SLANTED = 4, /* neighbouring ring points differ in x and y: place is the polygon */
    LEAFMESH_UNEVEN_CELL = 5,   /* a base cell's side is no multiple of 2^(max_level+1): place is the polygon */
    LEAFMESH_NO_ROOM = 6,       /* a lent row is too short */
    LEAFMESH_BAD_TABLE = 7,     /* a bad table or net, or polygons' rows that don't fit together */
    LEAFMESH_NO_SUCH_CELL = 8,  /* place is the id */
    LEAFMESH_ALREADY_SPLIT = 9, /* place is the id */
    LEAFMESH_FINEST_LEVEL = 10  /* place is the id */
};

/* A refusal in words. */
static inline const char *leafmesh_words(uint64_t number)
{
    switch (number) {
    case LEAFMESH_ACCEPTED:
        return "accepted";
    case LEAFMESH_WRONG_VERSION:
        return "the record is not of version 1";
    case LEAFMESH_WRONG_LENGTH:
        return "the record is cut short, too long, or gives a wrong length";
    case LEAFMESH_OUT_OF_RANGE:
        return "a value is out of range";
    case LEAFMESH_SLANTED:
        return "two neighbouring points of a ring differ in both x and y";
    case LEAFMESH_UNEVEN_CELL:
        return "a base cell's side is no multiple of 2^(max_level+1) ticks";
    case LEAFMESH_NO_ROOM:
        return "a lent row is too short";
    case LEAFMESH_BAD_TABLE:
        return "the table or net is not well formed, or rows of polygons do not fit together";
    case LEAFMESH_NO_SUCH_CELL:
        return "there is no cell with this id";
    case LEAFMESH_ALREADY_SPLIT:
        return "the cell is split already";
    case LEAFMESH_FINEST_LEVEL:
        return "the cell is at the finest level";
    default:
        return "a refusal of a later version";
    }
}

/* x and y in ticks. */
typedef struct {
    int64_t x, y;
} leafmesh_point;

/* A rectangle in ticks. */
typedef struct {
    int64_t x0, y0, x1, y1;
} leafmesh_rect;

/* A layer with a cell size of its own, in ticks (0: the target). */
typedef struct {
    uint64_t layer, cell;
} leafmesh_layer;

/* Layer and component of a polygon, and how many points it has. */
typedef struct {
    uint64_t layer, component, points;
} leafmesh_polygon;

/* A node of a net: layer, component, and where it stands, in ticks. */
typedef struct {
    uint16_t layer;
    uint32_t component;
    int64_t x, y;
} leafmesh_node;

/* An edge of a net: its two nodes, and its conductance in siemens. */
typedef struct {
    uint64_t from, to;
    double conductance;
} leafmesh_edge;

/* A cell of a net: its nodes SW, SE, NE, NW, and its sheet resistance in ohms a square. */
typedef struct {
    uint64_t corners[LEAFMESH_CORNERS];
    double sheet;
} leafmesh_cell;

/* Two polygons that touch, by number. Where one isn't there, or has no leaf, nothing is joined. */
typedef struct {
    uint64_t from, to;
} leafmesh_contact_pair;

/* A rectangle by its centre and its half sizes, in ticks; a point where one of these is 0. */
typedef struct {
    int64_t x, y, half_width, half_height;
} leafmesh_footprint;

/* A via: the layers that it joins, its component, where it stands, and its resistance in ohms. */
typedef struct {
    uint16_t bottom, top;
    uint32_t component;
    leafmesh_footprint footprint;
    double resistance;
} leafmesh_via;

/* An end of a channel: a component, and a place in ticks. */
typedef struct {
    uint32_t component;
    int64_t x, y;
} leafmesh_channel_end;

/* A channel between two components of one layer, and its resistance in ohms. */
typedef struct {
    leafmesh_channel_end drain, source;
    double resistance;
} leafmesh_channel;

/* What the library takes them for. */
#if defined(__cplusplus)
#define LEAFMESH_ASSERT static_assert
#elif defined(__STDC_VERSION__) && __STDC_VERSION__ >= 201112L
#define LEAFMESH_ASSERT _Static_assert
#else
#define LEAFMESH_ASSERT(condition, words) extern const char leafmesh_asserted[(condition) ? 1 : -1]
#endif
LEAFMESH_ASSERT(sizeof(leafmesh_node) == 24 && offsetof(leafmesh_node, component) == 4 &&
                    offsetof(leafmesh_node, x) == 8 && offsetof(leafmesh_node, y) == 16,
                "a node has 24 bytes");
LEAFMESH_ASSERT(sizeof(leafmesh_edge) == 24, "an edge has 24 bytes");
LEAFMESH_ASSERT(sizeof(leafmesh_cell) == 40, "a cell has 40 bytes");
LEAFMESH_ASSERT(sizeof(leafmesh_contact_pair) == 16, "a contact has 16 bytes");
LEAFMESH_ASSERT(sizeof(leafmesh_via) == 48 && offsetof(leafmesh_via, component) == 4 &&
                    offsetof(leafmesh_via, footprint) == 8 && offsetof(leafmesh_via, resistance) == 40,
                "a via has 48 bytes");
LEAFMESH_ASSERT(sizeof(leafmesh_channel) == 56 && offsetof(leafmesh_channel, source) == 24 &&
                    offsetof(leafmesh_channel, resistance) == 48,
                "a channel has 56 bytes");

/* number 0: accepted, with the call's value. Otherwise the refusal and its place. In every outcome a field that
 * does not apply is 0. */
typedef struct {
    uint64_t number;
    uint64_t place;
    uint64_t value;
} leafmesh_outcome;

/* The border that two rectangles share: the side of the first that it lies on, LEAFMESH_SOUTH to LEAFMESH_WEST, and its
 * length in ticks. A length of 0 means that they share none: ask for it first, since the side is then 0, too, which is
 * LEAFMESH_SOUTH. */
typedef struct {
    uint64_t number;
    uint64_t place;
    uint64_t side;
    uint64_t length;
} leafmesh_border_outcome;

/* What a call that makes or changes a table answers: how many splits balance or conform made, and the table's new
 * head. */
typedef struct {
    uint64_t number;
    uint64_t place;
    uint64_t splits;
    uint64_t count;
    uint64_t leaves;
    uint64_t max_level;
} leafmesh_table_outcome;

/* Settings and row counts of a record. */
typedef struct {
    uint64_t number;
    uint64_t place;
    uint64_t level;
    uint64_t cap;
    uint64_t target;
    uint64_t layers;
    uint64_t polygons;
    uint64_t points;
    uint64_t splits;
} leafmesh_read_outcome;

/* How many nodes, edges and cells a net has; the last `links` of the edges are its links. */
typedef struct {
    uint64_t number;
    uint64_t place;
    uint64_t nodes;
    uint64_t edges;
    uint64_t cells;
    uint64_t links;
} leafmesh_net_outcome;

/* A check: broken is 1 where `node` stands inside the leaf edge from `from` to `to` and lacks an edge that joins it
 * along the way: a half, of leafmesh_check_network_conforming. */
typedef struct {
    uint64_t number;
    uint64_t place;
    uint64_t broken;
    uint64_t node;
    uint64_t from;
    uint64_t to;
} leafmesh_check_outcome;

/* On which side of a the rectangles a and b share an edge, and how long it is; none where they don't, as at a corner.
 * Exchanged, they have it on the opposite side, and as long. Refuses 3. */
leafmesh_border_outcome leafmesh_contact(int64_t ax0, int64_t ay0, int64_t ax1, int64_t ay1, int64_t bx0, int64_t by0,
                                         int64_t bx1, int64_t by1);

/* The strips of one ring, from the bottom, then left to right: how many. points_length counts points, out_length
 * rectangles. Refuses 3, 4, 6. */
leafmesh_outcome leafmesh_strips(const leafmesh_point *points, size_t points_length, leafmesh_rect *out,
                                 size_t out_length);

/* The base cells of a board into the table: its head; all of them are leaves. list: layers with a cell size of their
 * own, rising. Layer, component, ohms a square and number of points of each polygon stand in four rows, the points of
 * all polygons in one. list_length counts layers, the next four polygons, points_length points, table_length numbers
 * (8 a slot). Refuses 7, 3, 4, 5, 6. */
leafmesh_table_outcome leafmesh_build(uint64_t max_level, uint64_t cap, uint64_t target, const leafmesh_layer *list,
                                size_t list_length, const uint16_t *layers, size_t layers_length,
                                const uint32_t *components, size_t components_length, const double *sheets,
                                size_t sheets_length, const uint64_t *counts, size_t counts_length,
                                const leafmesh_point *points, size_t points_length, int64_t *table,
                                size_t table_length);

/* How many leaves a head has: `leaves` itself. It looks at no table and refuses nothing, so that a number which isn't
 * the table's is handed back too; every other call that takes a table refuses such a one by 7. */
size_t leafmesh_leaf_count(size_t count, size_t leaves, uint64_t max_level);

/* The ids of the leaves, rising: how many. Wherever a table is lent table_length counts numbers (8 a slot), count cells
 * and leaves those without a child. out_length counts ids. Refuses 7, 6. */
leafmesh_outcome leafmesh_leaves(const int64_t *table, size_t table_length, size_t count, size_t leaves,
                                 uint64_t max_level, uint64_t *out, size_t out_length);

/* The ids of the leaves by polygon, then id: how many. out_length counts ids. Cell i of the net is the i-th of
 * these leaves. Refuses 7, 6. */
leafmesh_outcome leafmesh_leaf_order(const int64_t *table, size_t table_length, size_t count, size_t leaves,
                                     uint64_t max_level, uint64_t *out, size_t out_length);

/* Splits one leaf: the new head, which has four cells and three leaves more. Refuses 7, 8, 9, 10, 6. */
leafmesh_table_outcome leafmesh_refine(int64_t *table, size_t table_length, size_t count, size_t leaves,
                                       uint64_t max_level, size_t id);

/* Splits until no two leaves that share an edge differ by more than one level: the number of splits, and the new head.
 * Layers play no part: what is split on one splits what lies on its sides on the others. Refuses 7, 6. */
leafmesh_table_outcome leafmesh_balance(int64_t *table, size_t table_length, size_t count, size_t leaves,
                                        uint64_t max_level);

/* Splits until no two leaves that share an edge differ in level: the number of splits, and the new head.
 * Refuses 7, 6. */
leafmesh_table_outcome leafmesh_conform(int64_t *table, size_t table_length, size_t count, size_t leaves,
                                        uint64_t max_level);

/* The net of a table's leaves: how many nodes, edges, cells and links. Cell i is the i-th leaf of leafmesh_leaf_order.
 * Behind the leaves' edges stand the links that contacts, vias and channels make, in this order:
 *
 * - a contact: one edge of 1 S from the first node of polygon `from` to the node of `to` that is nearest to it;
 * - a via: on each of its layers the nodes of its component inside its footprint, or the one nearest to its centre
 *   where none is inside; every pair is an edge, and they share 1/resistance equally;
 * - a channel: one edge of 1/resistance between the nodes of `channel_layer` that are nearest to drain and source, each
 *   of its own component.
 *
 * What finds no node on one side makes no link and is no refusal; with no rows of links, which may be null, the net is
 * the leaves' alone, whatever channel_layer is.
 *
 * The work room is zero afterwards. layers, components and sheets (ohms a square) have one entry a polygon,
 * contacts_length counts contacts, vias_length vias, channels_length channels, nodes_length nodes, edges_length edges,
 * cells_length cells, work_length numbers; LEAFMESH_.._LENGTH says how many are enough, and of edges
 * leafmesh_edge_rows, where there are links. Refuses 7 (a bad table, a cell of a polygon that isn't there, polygons'
 * rows of unequal length), 3 (more than 256 polygons; a sheet resistance, place: its polygon; then a resistance, a half
 * size or a place of a link, also of one that would join nothing), 6. */
leafmesh_net_outcome leafmesh_network(const int64_t *table, size_t table_length, size_t count, size_t leaves,
                                      uint64_t max_level, const uint16_t *layers, size_t layers_length,
                                      const uint32_t *components, size_t components_length,
                                      const double *sheets, size_t sheets_length,
                                      const leafmesh_contact_pair *contacts, size_t contacts_length,
                                      const leafmesh_via *vias, size_t vias_length, uint16_t channel_layer,
                                      const leafmesh_channel *channels, size_t channels_length,
                                      leafmesh_node *nodes, size_t nodes_length, leafmesh_edge *edges,
                                      size_t edges_length, leafmesh_cell *cells, size_t cells_length,
                                      uint64_t *work, size_t work_length);

/* How many edges leafmesh_network asks for: LEAFMESH_EDGES_A_LEAF for each leaf, and one for each link. SIZE_MAX also
 * stands for more than that. Lengths as there. Refuses 7, 3. */
leafmesh_outcome leafmesh_edge_rows(const int64_t *table, size_t table_length, size_t count, size_t leaves,
                                    uint64_t max_level, const uint16_t *layers, size_t layers_length,
                                    const uint32_t *components, size_t components_length,
                                    const double *sheets, size_t sheets_length,
                                    const leafmesh_contact_pair *contacts, size_t contacts_length,
                                    const leafmesh_via *vias, size_t vias_length, uint16_t channel_layer,
                                    const leafmesh_channel *channels, size_t channels_length);

/* A net, here and in the two checks, is bad if a node's coordinates are out of range, an edge or a cell names a node
 * that isn't there, or a cell's nodes aren't SW, SE, NE, NW of a rectangle with positive sides: 7. */

/* The power of each cell in watts, from the potential of each node in volts. Cell i is the i-th leaf of
 * leafmesh_leaf_order. With its area A in square metres (ticks times LEAFMESH_TICK, each way) a cell of power P
 * carries, on average, a sheet current of J = sqrt(P / (A * r_sheet)) amperes a metre. Lengths count nodes, edges,
 * cells, potentials (one a node) and answers (at least one a cell). Refuses 7 (a bad net), 3 (potentials that aren't
 * as many as the nodes, or past 2^20 V; a sheet resistance), 6. */
leafmesh_outcome leafmesh_power(const leafmesh_node *nodes, size_t nodes_length, const leafmesh_edge *edges,
                                size_t edges_length, const leafmesh_cell *cells, size_t cells_length,
                                const double *potentials, size_t potentials_length, double *answers,
                                size_t answers_length);

/* The first leaf edge with a node at its middle that lacks a half; nodes by place alone. It looks at middles only, and
 * names sides of sound nets as soon as layers lie over each other. With enough work room (LEAFMESH_CHECK_WORK_LENGTH;
 * zero afterwards) it takes n log n steps; the room may be empty. Lengths count nodes, edges, cells and numbers of work
 * room. Refuses 7 (a bad table or net). */
leafmesh_check_outcome leafmesh_check_network_conforming(const int64_t *table, size_t table_length, size_t count,
                                                         size_t leaves, uint64_t max_level,
                                                         const leafmesh_node *nodes, size_t nodes_length,
                                                         const leafmesh_edge *edges, size_t edges_length,
                                                         const leafmesh_cell *cells, size_t cells_length,
                                                         uint64_t *work, size_t work_length);

/* The first node between the ends of a leaf edge that lacks an edge of the net to the point before or after it, and
 * the leaf edge's ends. The points are the ends and every node between them, of nodes of the leaf's own layer and
 * component; a leaf edge without a node at both ends is passed over. layers and components have one entry a polygon;
 * work room as above, with which it takes n log n steps, and log n for each node inside each leaf edge. Refuses 7 (as
 * before; a cell of a polygon that isn't there, polygons' rows of unequal length). */
leafmesh_check_outcome leafmesh_check_by_layer(const int64_t *table, size_t table_length, size_t count,
                                               size_t leaves, uint64_t max_level,
                                               const leafmesh_node *nodes, size_t nodes_length,
                                               const leafmesh_edge *edges, size_t edges_length,
                                               const leafmesh_cell *cells, size_t cells_length,
                                               const uint16_t *layers, size_t layers_length,
                                               const uint32_t *components, size_t components_length, uint64_t *work,
                                               size_t work_length);

/* A board record into rows. bytes_length counts bytes, layers_length layers, polygons_length and sheets_length
 * polygons, points_length points, splits_length cell ids. docs/FORMATS.md has the record's fields. A level of
 * LEAFMESH_MEANS_DEFAULT is answered as LEAFMESH_DEFAULT_LEVEL. Refuses 1, 2, 3, 6. */
leafmesh_read_outcome leafmesh_read(const uint8_t *bytes, size_t bytes_length, leafmesh_layer *layers,
                                    size_t layers_length, leafmesh_polygon *polygons, size_t polygons_length,
                                    double *sheets, size_t sheets_length, leafmesh_point *points,
                                    size_t points_length, uint64_t *splits, size_t splits_length);

/* Rows as a board record: its length in bytes. Lengths as in leafmesh_read; out_length counts bytes. It judges
 * numbers of rows and not values: a value out of its range is written by its low bytes, so read the record back
 * and compare. Refuses 7, 3, 6. */
leafmesh_outcome leafmesh_write(uint64_t level, uint64_t cap, uint64_t target, const leafmesh_layer *layers,
                                size_t layers_length, const leafmesh_polygon *polygons, size_t polygons_length,
                                const double *sheets, size_t sheets_length, const leafmesh_point *points,
                                size_t points_length, const uint64_t *splits, size_t splits_length, uint8_t *out,
                                size_t out_length);

/* The polygons that leafmesh_read handed out as the rows that leafmesh_build and leafmesh_network take; each row
 * has polygons_length entries. The numbers of a record that was read fit. */
static inline void leafmesh_outlines(const leafmesh_polygon *polygons, size_t polygons_length, uint16_t *layers,
                                     uint32_t *components, uint64_t *counts)
{
    for (size_t i = 0; i < polygons_length; i++) {
        layers[i] = (uint16_t)polygons[i].layer;
        components[i] = (uint32_t)polygons[i].component;
        counts[i] = polygons[i].points;
    }
}

/* A table: a lent row and its head. Only the calls below set the head. */
typedef struct {
    int64_t *row;
    size_t length; /* of the row, in numbers: 8 a slot */
    size_t count, leaves;
    uint64_t max_level;
} leafmesh_table;

/* A row that no table is in yet: leafmesh_table_build comes next. */
static inline leafmesh_table leafmesh_table_on(int64_t *row, size_t length)
{
    leafmesh_table table;
    table.row = row;
    table.length = length;
    table.count = 0;
    table.leaves = 0;
    table.max_level = 0;
    return table;
}

/* The new head goes into the table where the call was accepted; otherwise all stays as it was. */
static inline leafmesh_table_outcome leafmesh_table_keep(leafmesh_table *table, leafmesh_table_outcome outcome)
{
    if (outcome.number == LEAFMESH_ACCEPTED) {
        table->count = (size_t)outcome.count;
        table->leaves = (size_t)outcome.leaves;
        table->max_level = outcome.max_level;
    }
    return outcome;
}

/* leafmesh_build into this table's row. */
static inline leafmesh_table_outcome
leafmesh_table_build(leafmesh_table *table, uint64_t max_level, uint64_t cap, uint64_t target,
                     const leafmesh_layer *list, size_t list_length, const uint16_t *layers, size_t layers_length,
                     const uint32_t *components, size_t components_length, const double *sheets, size_t sheets_length,
                     const uint64_t *counts, size_t counts_length, const leafmesh_point *points, size_t points_length)
{
    return leafmesh_table_keep(table, leafmesh_build(max_level, cap, target, list, list_length, layers, layers_length,
                                                     components, components_length, sheets, sheets_length, counts,
                                                     counts_length, points, points_length, table->row,
                                                     table->length));
}

/* leafmesh_leaf_count of this table. */
static inline size_t leafmesh_table_leaf_count(const leafmesh_table *table)
{
    return leafmesh_leaf_count(table->count, table->leaves, table->max_level);
}

/* leafmesh_leaves of this table. */
static inline leafmesh_outcome leafmesh_table_leaves(const leafmesh_table *table, uint64_t *out, size_t out_length)
{
    return leafmesh_leaves(table->row, table->length, table->count, table->leaves, table->max_level, out, out_length);
}

/* leafmesh_leaf_order of this table. */
static inline leafmesh_outcome leafmesh_table_leaf_order(const leafmesh_table *table, uint64_t *out,
                                                         size_t out_length)
{
    return leafmesh_leaf_order(table->row, table->length, table->count, table->leaves, table->max_level, out,
                               out_length);
}

/* leafmesh_refine of this table. */
static inline leafmesh_table_outcome leafmesh_table_refine(leafmesh_table *table, size_t id)
{
    return leafmesh_table_keep(table, leafmesh_refine(table->row, table->length, table->count, table->leaves,
                                                      table->max_level, id));
}

/* leafmesh_balance of this table. */
static inline leafmesh_table_outcome leafmesh_table_balance(leafmesh_table *table)
{
    return leafmesh_table_keep(
        table, leafmesh_balance(table->row, table->length, table->count, table->leaves, table->max_level));
}

/* leafmesh_conform of this table. */
static inline leafmesh_table_outcome leafmesh_table_conform(leafmesh_table *table)
{
    return leafmesh_table_keep(
        table, leafmesh_conform(table->row, table->length, table->count, table->leaves, table->max_level));
}

/* leafmesh_network of this table. */
static inline leafmesh_net_outcome
leafmesh_table_network(const leafmesh_table *table, const uint16_t *layers, size_t layers_length,
                       const uint32_t *components, size_t components_length, const double *sheets,
                       size_t sheets_length, const leafmesh_contact_pair *contacts, size_t contacts_length,
                       const leafmesh_via *vias, size_t vias_length, uint16_t channel_layer,
                       const leafmesh_channel *channels, size_t channels_length, leafmesh_node *nodes,
                       size_t nodes_length, leafmesh_edge *edges, size_t edges_length, leafmesh_cell *cells,
                       size_t cells_length, uint64_t *work, size_t work_length)
{
    return leafmesh_network(table->row, table->length, table->count, table->leaves, table->max_level, layers,
                            layers_length, components, components_length, sheets, sheets_length, contacts,
                            contacts_length, vias, vias_length, channel_layer, channels, channels_length, nodes,
                            nodes_length, edges, edges_length, cells, cells_length, work, work_length);
}

/* leafmesh_edge_rows of this table. */
static inline leafmesh_outcome
leafmesh_table_edge_rows(const leafmesh_table *table, const uint16_t *layers, size_t layers_length,
                         const uint32_t *components, size_t components_length, const double *sheets,
                         size_t sheets_length, const leafmesh_contact_pair *contacts, size_t contacts_length,
                         const leafmesh_via *vias, size_t vias_length, uint16_t channel_layer,
                         const leafmesh_channel *channels, size_t channels_length)
{
    return leafmesh_edge_rows(table->row, table->length, table->count, table->leaves, table->max_level, layers,
                              layers_length, components, components_length, sheets, sheets_length, contacts,
                              contacts_length, vias, vias_length, channel_layer, channels, channels_length);
}

/* leafmesh_check_network_conforming with this table. */
static inline leafmesh_check_outcome
leafmesh_table_check_network_conforming(const leafmesh_table *table, const leafmesh_node *nodes, size_t nodes_length,
                                        const leafmesh_edge *edges, size_t edges_length, const leafmesh_cell *cells,
                                        size_t cells_length, uint64_t *work, size_t work_length)
{
    return leafmesh_check_network_conforming(table->row, table->length, table->count, table->leaves,
                                             table->max_level, nodes, nodes_length, edges, edges_length, cells,
                                             cells_length, work, work_length);
}

/* leafmesh_check_by_layer with this table. */
static inline leafmesh_check_outcome
leafmesh_table_check_by_layer(const leafmesh_table *table, const leafmesh_node *nodes, size_t nodes_length,
                              const leafmesh_edge *edges, size_t edges_length, const leafmesh_cell *cells,
                              size_t cells_length, const uint16_t *layers, size_t layers_length,
                              const uint32_t *components, size_t components_length, uint64_t *work,
                              size_t work_length)
{
    return leafmesh_check_by_layer(table->row, table->length, table->count, table->leaves, table->max_level, nodes,
                                   nodes_length, edges, edges_length, cells, cells_length, layers, layers_length,
                                   components, components_length, work, work_length);
}

#ifdef __cplusplus
}
#endif

#endif
