/*
 * A field of more values than one stream takes: 2,000 rows of 3,000, in blocks of 300 rows, each a stream of its own, in one file behind an index.
 * Then one block is read back, from the index and that block's bytes alone.
 *
 *     cc -std=c99 -I include examples/large_field.c target/lib/libgwizdorad.a -lm -o large_field
 *     ./large_field FILE
 *
 * The file: four numbers (rows, columns, rows of a block, blocks), two numbers for each block (where its stream starts in the file, and its
 * bytes), and the streams. A number has 8 bytes, the lowest first. This layout is the example's own; each stream in it is whole, and is
 * checked as such.
 */
#include "gwizdorad.h"

#include <math.h>
#include <stdio.h>
#include <stdlib.h>
#include <string.h>

enum { ROWS = 2000, COLUMNS = 3000, BLOCK_ROWS = 300, BLOCK_CELLS = BLOCK_ROWS * COLUMNS };
enum { BLOCKS = (ROWS + BLOCK_ROWS - 1) / BLOCK_ROWS, INDEX_NUMBERS = 4 + 2 * BLOCKS };
enum { LONGEST = GWZ_LONGEST_STREAM(32, GWZ_GROUPS_OF_32, BLOCK_CELLS) };

/* A block must not have more values than a stream takes: this array would have a negative length. */
typedef char block_fits[BLOCK_CELLS <= (int)GWZ_MOST_VALUES ? 1 : -1];

static uint32_t cells[BLOCK_CELLS], back[BLOCK_CELLS];
static uint8_t stream[LONGEST];

static void stop(const char *what, const char *why)
{
    fprintf(stderr, "large_field: %s: %s\n", what, why);
    exit(1);
}

static uint32_t not_refused(const char *call, uint64_t result)
{
    if (gwz_refusal(result) != GWZ_DONE)
        stop(call, gwz_refusal_text(gwz_refusal(result)));
    return gwz_answer(result);
}

static FILE *opened(const char *path, const char *mode)
{
    FILE *file = fopen(path, mode);
    if (file == NULL)
        stop(path, "cannot be opened");
    return file;
}

/* ---- The field: water levels in metres, and land (not-a-numbers). */

static uint32_t cell_at(int row, int column)
{
    double level = 1.8 + 0.3 * sin(row * 0.004) * cos(column * 0.003) + 0.001 * ((row * 7 + column * 13) % 17);
    float value = (row / 100 + column / 150) % 5 == 0 ? NAN : (float)level;
    uint32_t pattern;
    memcpy(&pattern, &value, sizeof pattern);
    return pattern;
}

static int is_dry(uint32_t pattern)
{
    return (pattern & 0x7FFFFFFF) > 0x7F800000;
}

static double metres_of(uint32_t pattern)
{
    float value;
    memcpy(&value, &pattern, sizeof value);
    return (double)value;
}

/* The last block has what is left of the rows. */
static int rows_of(int block)
{
    int left = ROWS - block * BLOCK_ROWS;
    return left < BLOCK_ROWS ? left : BLOCK_ROWS;
}

static size_t make_block(int block)
{
    size_t n = 0;
    for (int row = 0; row < rows_of(block); row++)
        for (int column = 0; column < COLUMNS; column++)
            cells[n++] = cell_at(block * BLOCK_ROWS + row, column);
    return n;
}

/* ---- The index */

static void write_numbers(FILE *file, const uint64_t *numbers, size_t count)
{
    for (size_t i = 0; i < 8 * count; i++)
        fputc((int)(numbers[i / 8] >> 8 * (i % 8) & 0xFF), file);
}

static void read_numbers(FILE *file, uint64_t *numbers, size_t count)
{
    memset(numbers, 0, count * sizeof *numbers);
    for (size_t i = 0; i < 8 * count; i++) {
        int byte = fgetc(file);
        if (byte == EOF)
            stop("the index", "the file ends in it");
        numbers[i / 8] |= (uint64_t)byte << 8 * (i % 8);
    }
}

/* ---- Packing: a block at a time, so that no more than a block is held */

static void pack_field(const char *path, int32_t k)
{
    uint64_t index[INDEX_NUMBERS] = {ROWS, COLUMNS, BLOCK_ROWS, BLOCKS}, at = sizeof index;
    FILE *file = opened(path, "wb");
    write_numbers(file, index, INDEX_NUMBERS); /* its room: it is written once more when the places are known */
    for (int block = 0; block < BLOCKS; block++) {
        size_t n = make_block(block);
        uint64_t result = gwz_pack32(GWZ_LEVEL_9, GWZ_WITHIN_TOLERANCE, k, GWZ_GROUPS_OF_32, cells, n, stream, LONGEST);
        uint32_t length = not_refused("pack", result);
        fwrite(stream, 1, length, file);
        index[4 + 2 * block] = at;
        index[5 + 2 * block] = length;
        at += length;
    }
    rewind(file);
    write_numbers(file, index, INDEX_NUMBERS);
    if (ferror(file) || fclose(file) != 0)
        stop(path, "cannot be written");
    printf("Packed %d x %d cells as %d streams, within 2^%ld m: %.1f MB in place of %.1f MB\n", (int)ROWS, (int)COLUMNS, (int)BLOCKS, (long)k,
           (double)at / 1e6, 4.0 * ROWS * COLUMNS / 1e6);
}

/* ---- Reading one block */

/* The values of a block. The file may be any: its numbers are compared before they are used, and the stream is checked by unpack. */
static void read_block(const char *path, int block)
{
    uint64_t index[INDEX_NUMBERS], length;
    FILE *file = opened(path, "rb");
    read_numbers(file, index, INDEX_NUMBERS);
    if (index[0] != ROWS || index[1] != COLUMNS || index[2] != BLOCK_ROWS || index[3] != BLOCKS)
        stop(path, "is of another field");
    length = index[5 + 2 * block];
    if (length > LONGEST || index[4 + 2 * block] > 0x7FFFFFFF || fseek(file, (long)index[4 + 2 * block], SEEK_SET) != 0
        || fread(stream, 1, (size_t)length, file) != length)
        stop(path, "the block does not lie where the index says");
    fclose(file);
    size_t n = not_refused("unpack", gwz_unpack32(GWZ_HIGHEST_LEVEL, stream, (size_t)length, back, BLOCK_CELLS));
    if (n != (size_t)rows_of(block) * COLUMNS)
        stop(path, "the block has another count of values than its rows");
    printf("Read block %d of %d, rows %d to %d: %lu values from %lu bytes of the file\n", block + 1, (int)BLOCKS, block * BLOCK_ROWS,
           block * BLOCK_ROWS + rows_of(block) - 1, (unsigned long)n, (unsigned long)(length + sizeof index));
}

/* A dry cell must be the same bits, and a wet one that came back as no number is infinitely far off. */
static double distance_of(uint32_t was, uint32_t is)
{
    double distance = fabs(metres_of(was) - metres_of(is));
    if (is_dry(was))
        return is == was ? 0 : HUGE_VAL;
    return distance >= 0 ? distance : HUGE_VAL;
}

static void compare_block(int block, int32_t k)
{
    size_t n = make_block(block), dry = 0;
    double largest = 0, tolerance = ldexp(1, (int)k);
    for (size_t i = 0; i < n; i++) {
        double distance = distance_of(cells[i], back[i]);
        largest = distance > largest ? distance : largest;
        dry += is_dry(cells[i]) ? 1 : 0;
    }
    if (largest > tolerance)
        stop("comparing", "a cell is not as promised");
    printf("%lu dry cells are the same bit for bit, and wet ones at most %.3f mm off; the tolerance is %.3f mm\n", (unsigned long)dry,
           1000 * largest, 1000 * tolerance);
}

int main(int count, char **words)
{
    const double tolerance = 0.005;
    uint64_t pattern;
    if (count != 2)
        stop("usage", "large_field FILE");
    memcpy(&pattern, &tolerance, sizeof pattern);
    int32_t k = gwz_exponent(gwz_bound(32, pattern));
    pack_field(words[1], k);
    read_block(words[1], BLOCKS / 2);
    compare_block(BLOCKS / 2, k);
    return 0;
}
