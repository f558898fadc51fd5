/*
 * What the library answers to streams at each reader level: the lines of tests/ages/answers, or with --summaries those of
 * tests/ages/summaries. Their headings say what stands in them.
 *
 *     ages [--summaries] [LEVEL]... STREAM...       numbers in front are levels; without one, every level that the header has
 *
 * Each output is lent between marked margins. A refused call must leave all of it as it was, any other the margins and
 * what it says it has not written; where a byte was altered that must not be, the answer has ALTERED behind it.
 */
#include "gwizdorad.h"

#include <stdio.h>
#include <stdlib.h>
#include <string.h>

enum { MARK = 0xA5, MARGIN = 64, CELL = 64 };

/* A list of chunks has at most so many, each a number below it and a comma in the cell. */
enum { MOST_CHUNKS = GWZ_MOST_VALUES / 1024, LIST_CELL = CELL + 5 * MOST_CHUNKS };

struct stream {
    uint8_t *bytes;
    size_t length;
    uint32_t count; /* of values, as the header has it, however wrong; 0 where the bytes end before it */
    uint32_t width; /* 64 where the header has that, else 32 */
};

static void stop(const char *what, const char *why)
{
    fprintf(stderr, "ages: %s: %s\n", what, why);
    exit(2);
}

static void *allocated(size_t bytes)
{
    void *memory = malloc(bytes == 0 ? 1 : bytes);
    if (memory == NULL)
        stop("allocating", "there is no memory");
    return memory;
}

static struct stream stream_of(const char *path)
{
    struct stream stream = {NULL, 0, 0, 32};
    FILE *file = fopen(path, "rb");
    if (file == NULL || fseek(file, 0, SEEK_END) != 0 || ftell(file) < 0)
        stop(path, "it cannot be read");
    stream.length = (size_t)ftell(file);
    stream.bytes = (uint8_t *)allocated(stream.length);
    rewind(file);
    if (fread(stream.bytes, 1, stream.length, file) != stream.length)
        stop(path, "it cannot be read");
    fclose(file);
    if (stream.length >= 28) /* x86-64 has the lowest byte first, as the format has it */
        memcpy(&stream.count, stream.bytes + 24, sizeof stream.count);
    if (stream.length > 12 && stream.bytes[12] == 64)
        stream.width = 64;
    return stream;
}

/* ---- Lent parts between marked margins */

struct lent {
    uint8_t *block;
    void *room;
    size_t bytes;
};

static struct lent lend(size_t bytes)
{
    struct lent lent;
    lent.block = (uint8_t *)allocated(MARGIN + bytes + MARGIN);
    lent.room = lent.block + MARGIN;
    lent.bytes = bytes;
    memset(lent.block, MARK, MARGIN + bytes + MARGIN);
    return lent;
}

/* Whether all bytes are as they were, but for so many at the front of the room. */
static int is_unaltered(const struct lent *lent, size_t written)
{
    for (size_t i = 0; i < MARGIN + lent->bytes + MARGIN; i++)
        if (lent->block[i] != MARK && (i < MARGIN || i >= MARGIN + written || written > lent->bytes))
            return 0;
    return 1;
}

/* ---- The answers, each as the text of a cell */

static int is_done(uint64_t result)
{
    return gwz_refusal(result) == GWZ_DONE;
}

static void tell(char *cell, uint64_t result)
{
    sprintf(cell, "%lu:%lu", (unsigned long)gwz_refusal(result), (unsigned long)gwz_detail(result));
}

/* What was written, by a call that was not refused: a number of so many hexadecimal digits. */
static void tell_written(char *cell, uint64_t written, int digits)
{
    sprintf(cell + strlen(cell), ":%0*llX", digits, (unsigned long long)written);
}

/* Ends the cell of a call that had an output, and writes so many bytes of it where it is not refused. */
static void take_back(char *cell, uint64_t result, struct lent *lent, size_t written)
{
    if (!is_unaltered(lent, is_done(result) ? written : 0))
        strcat(cell, ":ALTERED");
    free(lent->block);
}

/* The CRC-32 of bytes, as zlib and PNG have it. */
static uint32_t checksum_of(const uint8_t *bytes, size_t length)
{
    uint32_t crc = 0xFFFFFFFFu;
    for (size_t i = 0; i < length; i++) {
        crc ^= bytes[i];
        for (int bit = 0; bit < 8; bit++)
            crc = (crc & 1u) != 0 ? (crc >> 1) ^ 0xEDB88320u : crc >> 1;
    }
    return crc ^ 0xFFFFFFFFu;
}

/* With room for the header's count of values. A count above the limit is refused before the room is looked at. */
static void unpack_cell(char *cell, uint32_t width, uint32_t level, const struct stream *stream)
{
    size_t n = stream->count <= GWZ_MOST_VALUES ? stream->count : 0;
    struct lent lent = lend(n * (width / 8));
    uint64_t result = width == 64 ? gwz_unpack64(level, stream->bytes, stream->length, (uint64_t *)lent.room, n)
                                  : gwz_unpack32(level, stream->bytes, stream->length, (uint32_t *)lent.room, n);
    tell(cell, result);
    if (is_done(result))
        tell_written(cell, checksum_of((uint8_t *)lent.room, lent.bytes), 8);
    take_back(cell, result, &lent, lent.bytes);
}

static void probe_cell(char *cell, uint32_t level, const struct stream *stream, uint64_t index)
{
    struct lent lent = lend(stream->width / 8);
    uint64_t pattern = 0;
    uint64_t result = stream->width == 64
                          ? gwz_probe64(level, stream->bytes, stream->length, index, (uint64_t *)lent.room)
                          : gwz_probe32(level, stream->bytes, stream->length, index, (uint32_t *)lent.room);
    tell(cell, result);
    memcpy(&pattern, lent.room, lent.bytes);
    if (is_done(result))
        tell_written(cell, pattern, (int)stream->width / 4);
    take_back(cell, result, &lent, lent.bytes);
}

/* With the very room that the header's width and count of values ask for. A count above the limit is refused before. */
static void add_cell(char *cell, uint32_t level, const struct stream *stream)
{
    size_t n = stream->count <= GWZ_MOST_VALUES ? stream->count : 0;
    struct lent lent = lend(stream->length + GWZ_SUMMARY_BYTES(stream->width, n));
    uint64_t result = gwz_add_summary(level, stream->bytes, stream->length, (uint8_t *)lent.room, lent.bytes);
    size_t written = is_done(result) && gwz_answer(result) <= lent.bytes ? gwz_answer(result) : 0;
    tell(cell, result);
    if (is_done(result))
        tell_written(cell, checksum_of((uint8_t *)lent.room, written), 8);
    take_back(cell, result, &lent, written);
}

/* The chunk numbers of a list that was not refused, with commas between them. */
static void list_cell(char *cell, uint32_t width, uint32_t level, const struct stream *stream, uint64_t x, size_t room)
{
    struct lent lent = lend(4 * room);
    uint32_t *numbers = (uint32_t *)lent.room;
    uint64_t result = width == 64 ? gwz_chunks_from64(level, x, stream->bytes, stream->length, numbers, room)
                                  : gwz_chunks_from32(level, (uint32_t)x, stream->bytes, stream->length, numbers, room);
    size_t count = is_done(result) && gwz_answer(result) <= room ? gwz_answer(result) : 0;
    tell(cell, result);
    for (size_t i = 0; i < count; i++)
        sprintf(cell + strlen(cell), "%c%lu", i == 0 ? ':' : ',', (unsigned long)numbers[i] % 10000);
    take_back(cell, result, &lent, 4 * count);
}

/* ---- The lines */

static void print_name(const char *path, uint32_t level, int columns)
{
    const char *slash = strrchr(path, '/'), *name = slash == NULL ? path : slash + 1;
    printf("%-*.*s  %5lu", columns, (int)strcspn(name, "."), name, (unsigned long)level);
}

static void print_answers(uint32_t level, const struct stream *stream)
{
    const uint64_t n = stream->count, indices[4] = {0, n / 2, n - 1, n}; /* n - 1 of no values is 2^64 - 1 */
    char cells[7][CELL];

    tell(cells[0], gwz_check(level, stream->bytes, stream->length));
    unpack_cell(cells[1], 32, level, stream);
    unpack_cell(cells[2], 64, level, stream);
    for (size_t i = 0; i < 4; i++)
        probe_cell(cells[3 + i], level, stream, indices[i]);
    printf("  %-12s  %-18s  %-18s  %-20s  %-20s  %-20s  %s\n", cells[0], cells[1], cells[2], cells[3], cells[4], cells[5],
           cells[6]);
}

static void print_summaries(uint32_t level, const struct stream *stream)
{
    int wide = stream->width == 64;
    const uint64_t below_all = wide ? 0xFFF0000000000000 : 0xFF800000, above_all = wide ? 0x7FF0000000000000 : 0x7F800000;
    const uint64_t water = wide ? 0x3FFA000000000000 : 0x3FD00000;
    char test[CELL], add[CELL], no_room[CELL];
    static char lists[5][LIST_CELL];

    tell(test, gwz_test_summary(level, stream->bytes, stream->length));
    add_cell(add, level, stream);
    list_cell(no_room, stream->width, level, stream, below_all, 0);
    list_cell(lists[0], 32, level, stream, 0, MOST_CHUNKS);
    list_cell(lists[1], 64, level, stream, 0, MOST_CHUNKS);
    list_cell(lists[2], stream->width, level, stream, below_all, MOST_CHUNKS);
    list_cell(lists[3], stream->width, level, stream, water, MOST_CHUNKS);
    list_cell(lists[4], stream->width, level, stream, above_all, MOST_CHUNKS);
    printf("  %-12s  %-18s  %-12s  %-13s  %-13s  %-13s  %-13s  %s\n", test, add, no_room, lists[0], lists[1], lists[2], lists[3],
           lists[4]);
}

static void print_line(const char *path, uint32_t level, const struct stream *stream, int summaries)
{
    print_name(path, level, summaries ? 52 : 40);
    (summaries ? print_summaries : print_answers)(level, stream);
}

int main(int argc, char **argv)
{
    int summaries = argc > 1 && strcmp(argv[1], "--summaries") == 0, from = summaries ? 2 : 1, first = from;
    while (first < argc && argv[first][strspn(argv[first], "0123456789")] == 0)
        first++;
    for (int word = first; word < argc; word++) {
        struct stream stream = stream_of(argv[word]);
        for (int i = from; i < first; i++)
            print_line(argv[word], (uint32_t)strtoul(argv[i], NULL, 10), &stream, summaries);
        for (uint32_t level = GWZ_LEVEL_8; first == from && level <= GWZ_HIGHEST_LEVEL; level++)
            print_line(argv[word], level, &stream, summaries);
        free(stream.bytes);
    }
    return 0;
}
