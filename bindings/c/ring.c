/* A ring that is filled while the program runs, as a reader of layouts would: a comb of as many teeth as the first
 * word says, through strips, their borders, record and build. It is C99, C11 and C++17 alike. */
#include "leafmesh.h"

#include <stdio.h>
#include <stdlib.h>

#define LENGTH(row) (sizeof(row) / sizeof((row)[0]))
enum { TEETH = 100, POINTS = 4 * TEETH, SLOTS = 1024 };

static leafmesh_point ring[POINTS];
static leafmesh_rect strips[LEAFMESH_STRIPS_LENGTH(POINTS)];
static uint8_t record[LEAFMESH_RECORD_LENGTH(1, 1, POINTS, 0)];
static int64_t row[LEAFMESH_TABLE_LENGTH(SLOTS)];

/* A back 8 high under teeth 8 wide and 8 high, 8 apart: so many points. */
static size_t fill(int64_t teeth)
{
    size_t n = 0;
    int64_t x = 16 * teeth - 8;
    ring[n].x = 0;
    ring[n++].y = 0;
    ring[n].x = x;
    ring[n++].y = 0;
    for (int64_t tooth = teeth; tooth-- > 0;) {
        const int64_t west = 16 * tooth;
        ring[n].x = west + 8;
        ring[n++].y = 16;
        ring[n].x = west;
        ring[n++].y = 16;
        if (tooth > 0) {
            ring[n].x = west;
            ring[n++].y = 8;
            ring[n].x = west - 8;
            ring[n++].y = 8;
        }
    }
    return n;
}

static int is_accepted(const char *call, uint64_t number, uint64_t place)
{
    if (number != LEAFMESH_ACCEPTED) {
        fprintf(stderr, "%s: refused %u %u: %s\n", call, (unsigned)number, (unsigned)place, leafmesh_words(number));
    }
    return number == LEAFMESH_ACCEPTED;
}

/* How many ticks of border the back, which is the first strip, has with the teeth above it. */
static uint64_t on_the_back(size_t count)
{
    const leafmesh_rect a = strips[0];
    uint64_t ticks = 0;
    for (size_t tooth = 1; tooth < count; tooth++) {
        const leafmesh_rect b = strips[tooth];
        const leafmesh_border_outcome border = leafmesh_contact(a.x0, a.y0, a.x1, a.y1, b.x0, b.y0, b.x1, b.y1);
        if (border.side == LEAFMESH_NORTH) {
            ticks += border.length;
        }
    }
    return ticks;
}

int main(int argc, char **argv)
{
    const int64_t teeth = argc > 1 ? strtol(argv[1], NULL, 10) : 3;
    if (teeth < 1 || teeth > TEETH) {
        fprintf(stderr, "usage: ring [TEETH], from 1 to %d\n", TEETH);
        return 2;
    }
    const size_t points = fill(teeth);
    const leafmesh_outcome cut = leafmesh_strips(ring, points, strips, LENGTH(strips));
    leafmesh_layer cells[1];
    cells[0].layer = 1;
    cells[0].cell = 4;
    leafmesh_polygon polygon[1];
    polygon[0].layer = 1;
    polygon[0].component = 0;
    polygon[0].points = points;
    double sheet[1] = {0.0005};
    const leafmesh_outcome written = leafmesh_write(0, LEAFMESH_CAP, 8, cells, 1, polygon, 1, sheet, 1, ring,
                                                    points, NULL, 0, record, LENGTH(record));
    if (!is_accepted("strips", cut.number, cut.place) || !is_accepted("write", written.number, written.place)) {
        return 1;
    }
    const leafmesh_read_outcome back =
        leafmesh_read(record, written.value, cells, 1, polygon, 1, sheet, 1, ring, POINTS, NULL, 0);
    if (!is_accepted("read", back.number, back.place)) {
        return 1;
    }
    /* Of the default level header and library say the same. */
    record[5] = LEAFMESH_MEANS_DEFAULT;
    const leafmesh_read_outcome meant =
        leafmesh_read(record, written.value, cells, 1, polygon, 1, sheet, 1, ring, POINTS, NULL, 0);
    if (!is_accepted("read", meant.number, meant.place)) {
        return 1;
    }
    if (meant.level != LEAFMESH_DEFAULT_LEVEL) {
        fprintf(stderr, "the library's default level is %u\n", (unsigned)meant.level);
        return 1;
    }
    uint16_t layers[1];
    uint32_t components[1];
    uint64_t counts[1];
    leafmesh_outlines(polygon, 1, layers, components, counts);
    leafmesh_table table = leafmesh_table_on(row, LENGTH(row));
    const leafmesh_table_outcome built =
        leafmesh_table_build(&table, back.level, back.cap, back.target, cells, 1, layers, 1, components, 1, sheet, 1,
                             counts, 1, ring, back.points);
    if (!is_accepted("build", built.number, built.place)) {
        return 1;
    }
    printf("leafmesh %s: %u points, %u strips, %u ticks on the back, %u bytes, %u cells\n", LEAFMESH_VERSION,
           (unsigned)points, (unsigned)cut.value, (unsigned)on_the_back(cut.value), (unsigned)written.value,
           (unsigned)table.count);
    return fflush(stdout) == 0 ? 0 : 1;
}
