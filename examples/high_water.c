/*
 * A viewer that colours a map by the highest level of each chunk, and then takes the values of only the chunks with high water: a program to copy from.
 *
 *     cc -std=c99 -I include examples/high_water.c target/lib/libgwizdorad.a -lm -o high_water
 *
 * The writer packs the field within a tolerance and adds a summary. The viewer tests the summary once, when the file has come: that reads every
 * chunk. Then the bytes of the summary can be relied on, as long as the stream is not altered, and no chunk is read for a colour.
 */
#include "gwizdorad.h"

#include <math.h>
#include <stdio.h>
#include <stdlib.h>
#include <string.h>

/* A chunk has 1,024 values: here 16 rows of 64. */
enum { CHUNK = 1024, COLUMNS = 64, CHUNK_ROWS = CHUNK / COLUMNS, CHUNKS = 8, CELLS = CHUNK * CHUNKS };
enum { LONGEST = GWZ_LONGEST_STREAM(32, GWZ_GROUPS_OF_32, CELLS), ROOM = LONGEST + GWZ_SUMMARY_BYTES(32, CELLS) };

static void stop(const char *what, const char *why)
{
    fprintf(stderr, "high_water: %s: %s\n", what, why);
    exit(1);
}

static uint32_t not_refused(const char *call, uint64_t result)
{
    if (gwz_refusal(result) != GWZ_DONE)
        stop(call, gwz_refusal_text(gwz_refusal(result)));
    return gwz_answer(result);
}

static uint32_t pattern_of(float value)
{
    uint32_t pattern;
    memcpy(&pattern, &value, sizeof pattern);
    return pattern;
}

static float value_of(uint32_t pattern)
{
    float value;
    memcpy(&value, &pattern, sizeof value);
    return value;
}

/* ---- The writer */

/* Water levels in metres: a surge in the south, and land in the north, where a whole chunk is dry (not-a-numbers). */
static float level_at(int row, int column)
{
    double surge = 0.6 * exp(-0.002 * ((row - 100) * (row - 100) + (column - 40) * (column - 40)));
    return row < CHUNK_ROWS + 5 ? NAN : (float)(1.5 + surge);
}

/* Packs the field and adds a summary. Returns the bytes written to `copy`, which has ROOM. */
static size_t written(uint8_t *copy)
{
    static uint32_t cells[CELLS];
    static uint8_t stream[LONGEST];
    for (int i = 0; i < CELLS; i++)
        cells[i] = pattern_of(level_at(i / COLUMNS, i % COLUMNS));
    uint64_t result = gwz_pack32(GWZ_LEVEL_9, GWZ_WITHIN_TOLERANCE, -8, GWZ_GROUPS_OF_32, cells, CELLS, stream, LONGEST);
    size_t length = not_refused("pack", result);
    return not_refused("add_summary", gwz_add_summary(GWZ_LEVEL_9, stream, length, copy, ROOM));
}

/* ---- The viewer */

static uint32_t number_at(const uint8_t *bytes)
{
    return (uint32_t)bytes[0] | (uint32_t)bytes[1] << 8 | (uint32_t)bytes[2] << 16 | (uint32_t)bytes[3] << 24;
}

/* The summary of a stream that was tested to have one. The place 44 of the header has that of the side table; an entry is id, place, length. */
static const uint8_t *summary_of(const uint8_t *stream)
{
    const uint8_t *entry = stream + number_at(stream + 44);
    while (number_at(entry) != GWZ_SUMMARY_ID)
        entry += 12;
    return stream + number_at(entry + 4);
}

/* How many values a chunk has: the last one has what is left. */
static uint32_t values_in(size_t chunk)
{
    size_t left = CELLS - CHUNK * chunk;
    return left < CHUNK ? (uint32_t)left : CHUNK;
}

/* The highest level of a chunk; not-a-number for a dry one. The summary has a count, the smallest and the largest value: docs/FORMAT.md. */
static float highest_of(const uint8_t *summary, size_t chunk)
{
    const uint8_t *entry = summary + 12 * chunk;
    return number_at(entry) == values_in(chunk) ? NAN : value_of(number_at(entry + 8));
}

static void print_colours(const uint8_t *summary)
{
    for (size_t chunk = 0; chunk < CHUNKS; chunk++) {
        float highest = highest_of(summary, chunk);
        printf("rows %3lu to %3lu: ", (unsigned long)(CHUNK_ROWS * chunk), (unsigned long)(CHUNK_ROWS * chunk + CHUNK_ROWS - 1));
        if (isnan(highest))
            printf("dry\n");
        else
            printf("highest %.4f m\n", (double)highest);
    }
}

/*
 * The cells of a chunk that reach a level. A probe reads the header, the tables and the value's own chunk: no other chunk's data. It does so for each
 * value; where most chunks are wanted, one unpack costs less.
 */
static unsigned cells_from(const uint8_t *stream, size_t length, uint32_t chunk, float level)
{
    unsigned count = 0;
    for (uint64_t i = 0; i < values_in(chunk); i++) {
        uint32_t pattern = 0;
        not_refused("probe", gwz_probe32(GWZ_HIGHEST_LEVEL, stream, length, (uint64_t)CHUNK * chunk + i, &pattern));
        count += value_of(pattern) >= level; /* false for a not-a-number */
    }
    return count;
}

int main(void)
{
    static uint8_t stream[ROOM];
    const float level = 2.0f;
    uint32_t chunks[CHUNKS];
    size_t length = written(stream);

    uint64_t tested = gwz_test_summary(GWZ_HIGHEST_LEVEL, stream, length);
    if (gwz_refusal(tested) == GWZ_NO_TRUE_SUMMARY)
        stop("viewing", "without a true summary every chunk has to be read: unpack the stream");
    if (not_refused("test_summary", tested) != CELLS)
        stop("viewing", "the stream is of another field");
    print_colours(summary_of(stream));

    /* The list makes the same test again, so it may also be the first call. Dry chunks are in no list. */
    uint32_t count = not_refused("chunks_from", gwz_chunks_from32(GWZ_HIGHEST_LEVEL, pattern_of(level), stream, length, chunks, CHUNKS));
    printf("%lu of %d chunks reach %.1f m\n", (unsigned long)count, (int)CHUNKS, (double)level);
    for (uint32_t i = 0; i < count; i++)
        printf("chunk %lu: %u cells from %.1f m up\n", (unsigned long)chunks[i], cells_from(stream, length, chunks[i], level), (double)level);
    return 0;
}
