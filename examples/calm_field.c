/*
 * Which group size? A calm field is packed in groups of 32 and of 128 values, and so is the same field with rough spots: a program to copy from.
 *
 *     cc -std=c99 -I include examples/calm_field.c target/lib/libgwizdorad.a -o calm_field
 *
 * Each group has a byte for the width of its codes, and all its codes are as wide as the widest. In calm water the codes within a tolerance have
 * few bits or none, and these bytes are a visible share of the file: groups of 128 have a quarter as many. But one rough value widens 128 codes in place
 * of 32. And a reader of level 12 or below refuses groups of 128. So: pack in both sizes (gwz_length tells the bytes alone), and ask gwz_check, at the level
 * of the oldest reader, whether it takes the smaller stream.
 */
#include "gwizdorad.h"

#include <stdio.h>
#include <stdlib.h>
#include <string.h>

enum { ROWS = 64, COLUMNS = 256, CELLS = ROWS * COLUMNS, RAW_BYTES = 4 * CELLS };
enum { LONGEST = GWZ_LONGEST_STREAM(32, GWZ_GROUPS_OF_32, CELLS) }; /* enough for both sizes */
enum { K = -8 };                                                     /* the tolerance 2^-8, in metres a second */

static void stop(const char *what, const char *why)
{
    fprintf(stderr, "calm_field: %s: %s\n", what, why);
    exit(1);
}

static uint32_t not_refused(const char *call, uint64_t result)
{
    if (gwz_refusal(result) != GWZ_DONE)
        stop(call, gwz_refusal_text(gwz_refusal(result)));
    return gwz_answer(result);
}

/* ---- The field: currents at slack water, in metres a second */

/* A weak current along a channel, strongest in its middle; and where it is rough, a cell in each second row that a gate stirs. */
static uint32_t cell_at(int row, int column, int rough)
{
    double across = (row + 0.5) / ROWS, ripple = 0.0003 * ((row * 7 + column * 13) % 17 - 8);
    double current = 0.05 * across * (1 - across) + ripple;
    float value = (float)(rough && row % 2 == 0 && column == 100 ? 2.5 : current);
    uint32_t pattern;
    memcpy(&pattern, &value, sizeof pattern);
    return pattern;
}

/* ---- The choice */

/* The smaller of the streams in groups of 32 and of 128 that the oldest reader takes, by its group size. */
static uint32_t group_for(uint32_t oldest, uint8_t streams[2][LONGEST], const uint32_t *bytes)
{
    int taken = gwz_refusal(gwz_check(oldest, streams[1], bytes[1])) == GWZ_DONE;
    return taken && bytes[1] < bytes[0] ? GWZ_GROUPS_OF_128 : GWZ_GROUPS_OF_32;
}

/* ---- Both sizes, beside each other */

/* Packs the field and reads it back. Returns the bytes. */
static uint32_t packed_in(uint32_t group, const uint32_t *cells, uint8_t *stream, uint32_t *back)
{
    uint64_t result = gwz_pack32(GWZ_HIGHEST_LEVEL, GWZ_WITHIN_TOLERANCE, K, group, cells, CELLS, stream, LONGEST);
    uint32_t length = not_refused("pack", result);
    not_refused("unpack", gwz_unpack32(GWZ_HIGHEST_LEVEL, stream, length, back, CELLS));
    return length;
}

static void compare_sizes(const char *what, int rough)
{
    static const uint32_t sizes[2] = {GWZ_GROUPS_OF_32, GWZ_GROUPS_OF_128};
    static uint32_t cells[CELLS], back[2][CELLS];
    static uint8_t streams[2][LONGEST];
    uint32_t bytes[2];
    for (int i = 0; i < CELLS; i++)
        cells[i] = cell_at(i / COLUMNS, i % COLUMNS, rough);
    printf("%s: %d values, %d bytes raw, within 2^%d m/s\n", what, (int)CELLS, (int)RAW_BYTES, (int)K);
    for (int i = 0; i < 2; i++) {
        uint32_t width_bytes = (CELLS + sizes[i] - 1) / sizes[i]; /* one for each group */
        bytes[i] = packed_in(sizes[i], cells, streams[i], back[i]);
        unsigned need = streams[i][8]; /* the place of the level that a reader needs */
        printf("  groups of %3lu: %5lu bytes, of which %3lu are width bytes, %4.1f %%; for readers from level %u on\n", (unsigned long)sizes[i],
               (unsigned long)bytes[i], (unsigned long)width_bytes, 100.0 * width_bytes / bytes[i], need);
    }
    printf("  groups of 128 take %.1f %% of the bytes of groups of 32\n", 100.0 * bytes[1] / bytes[0]);
    if (memcmp(back[0], back[1], sizeof back[0]) != 0)
        stop("comparing", "a value depends on the group size");
    printf("  to be chosen: groups of %lu if every reader is of level 13 or later, and of %lu if one is of level 12\n",
           (unsigned long)group_for(GWZ_LEVEL_13, streams, bytes), (unsigned long)group_for(GWZ_LEVEL_12, streams, bytes));
}

int main(void)
{
    compare_sizes("Calm water", 0);
    compare_sizes("The same with a gate", 1);
    return 0;
}
