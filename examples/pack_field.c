/*
 * Packs a small field within a tolerance and reads it back, with a checksum beside the stream: a program to copy from.
 *
 *     cc -std=c99 -I include examples/pack_field.c target/lib/libgwizdorad.a -lm -o pack_field
 */
#include "gwizdorad.h"

#include <math.h>
#include <stdio.h>
#include <stdlib.h>
#include <string.h>

enum { ROWS = 3, COLUMNS = 4, CELLS = ROWS * COLUMNS };

static void stop(const char *what, const char *why)
{
    fprintf(stderr, "pack_field: %s: %s\n", what, why);
    exit(1);
}

static void *allocated(size_t bytes)
{
    void *memory = malloc(bytes);
    if (memory == NULL)
        stop("allocating", "there is no memory");
    return memory;
}

/* A refused call leaves all as it was, so there is nothing to undo: say what was refused, and stop. */
static uint64_t not_refused(const char *call, uint64_t result)
{
    if (gwz_refusal(result) != GWZ_DONE) {
        fprintf(stderr, "pack_field: refusal %lu, detail %lu\n", (unsigned long)gwz_refusal(result),
                (unsigned long)gwz_detail(result));
        stop(call, gwz_refusal_text(gwz_refusal(result)));
    }
    return result;
}

/* The largest k with 2^k not above the tolerance. A tolerance is passed as its pattern, in 64 bits for either width. */
static int32_t exponent_of(double tolerance)
{
    uint64_t pattern;
    memcpy(&pattern, &tolerance, sizeof pattern);
    return gwz_exponent(not_refused("bound", gwz_bound(32, pattern)));
}

/*
 * The CRC-32 of bytes, as zlib and PNG have it. Why it is needed: the library refuses every file that was cut, and all
 * bytes that break a rule of the format. But the format has no checksum of its own: a bit of a code that was altered on
 * the way, and breaks no rule, is read as another value. Most bits of a stream are such.
 */
static uint32_t checksum_of(const uint8_t *bytes, size_t length)
{
    uint32_t crc = 0xFFFFFFFFu;
    for (size_t i = 0; i < length; i++) {
        crc ^= bytes[i];
        for (int bit = 0; bit < 8; bit++)
            crc = (crc & 1u) != 0 ? (crc >> 1) ^ 0xEDB88320u : crc >> 1;
    }
    return crc ^ 0xFFFFFFFFu;
}

/* The stream of n values, for the caller to free. */
static uint8_t *packed(const float *values, size_t n, int32_t k, size_t *length)
{
    /* The library takes patterns. memcpy is the way from floats that no compiler may misread. */
    uint32_t *patterns = (uint32_t *)allocated(n * sizeof *patterns);
    memcpy(patterns, values, n * sizeof *patterns);

    /* How much room? Ask for the exact length, or lend GWZ_LONGEST_STREAM(32, group, n) bytes without asking. Groups of 32 ask
       for no later reader than mode and width do; examples/calm_field.c says when groups of 128 are the better ones. */
    const uint32_t level = GWZ_HIGHEST_LEVEL, mode = GWZ_WITHIN_TOLERANCE, group = GWZ_GROUPS_OF_32;
    size_t room = gwz_answer(not_refused("length", gwz_length32(level, mode, k, group, patterns, n)));
    uint8_t *stream = (uint8_t *)allocated(room);
    *length = gwz_answer(not_refused("pack", gwz_pack32(level, mode, k, group, patterns, n, stream, room)));

    free(patterns);
    return stream;
}

/*
 * The values of a stream, for the caller to free. The bytes may come from anywhere, so they are first compared with the
 * checksum that was kept of them. Without that, what breaks a rule of the format would still be refused, but a value
 * could be wrong.
 */
static float *unpacked(const uint8_t *stream, size_t length, uint32_t checksum, size_t *n)
{
    if (checksum_of(stream, length) != checksum)
        stop("reading", "these are not the bytes that were packed: fetch the file again");
    *n = gwz_answer(not_refused("check", gwz_check(GWZ_HIGHEST_LEVEL, stream, length)));
    uint32_t *patterns = (uint32_t *)allocated(*n * sizeof *patterns + 1); /* + 1: a stream may hold no values */
    not_refused("unpack", gwz_unpack32(GWZ_HIGHEST_LEVEL, stream, length, patterns, *n));

    float *values = (float *)allocated(*n * sizeof *values + 1);
    memcpy(values, patterns, *n * sizeof *values);
    free(patterns);
    return values;
}

static void print_cells(const char *title, const float *cells)
{
    printf("%s\n", title);
    for (size_t i = 0; i < CELLS; i++) {
        if (isnan(cells[i]))
            printf("     dry");
        else
            printf("%8.4f", (double)cells[i]);
        if (i % COLUMNS == COLUMNS - 1)
            printf("\n");
    }
}

int main(void)
{
    /* Water levels in metres. A dry cell is a not-a-number, and comes back bit for bit as the one it was. */
    const float levels[CELLS] = {1.8125f, 1.8203f, 1.8310f, NAN, 1.8097f, 1.8188f, 1.8295f, NAN,
                                 1.8061f, 1.8150f, 1.8270f, 1.8352f};
    size_t length = 0, n = 0;
    int32_t k = exponent_of(0.005);
    uint8_t *stream = packed(levels, CELLS, k, &length);

    /* Take the checksum where the stream is packed, and keep it beside the stream: in a second file, or in the list
       that names the file. Here both stay in memory. */
    uint32_t checksum = checksum_of(stream, length);
    float *back = unpacked(stream, length, checksum, &n);

    if (n != CELLS)
        stop("unpack", "the stream holds another count of values");
    print_cells("packed, in metres:", levels);
    print_cells("read back:", back);
    printf("tolerance: 2^%ld m = %g m\n", (long)k, ldexp(1, (int)k));
    printf("stream: %lu bytes, checksum %08lx\n", (unsigned long)length, (unsigned long)checksum);

    /* What only the checksum sees: the lowest bit of the last byte belongs to a code, and altered it breaks no rule. */
    stream[length - 1] ^= 1;
    printf("with one bit altered, gwz_check %s it, and the checksum %s\n",
           gwz_refusal(gwz_check(GWZ_HIGHEST_LEVEL, stream, length)) == GWZ_DONE ? "accepts" : "refuses",
           checksum_of(stream, length) == checksum ? "is the same" : "differs");
    free(back);
    free(stream);
    return 0;
}
