/*
 * Every exported function, called from C (and, compiled as C++, from C++), compared with what document 01 states
 * or with what is worked out here by other means: streams written by hand, the exponent map in words.
 *
 * Each call lends its parts in the middle of marked bytes. A case passes if the result is the wanted one, if
 * what was only read is as it was, if the output has the wanted elements at its front, and if every byte behind
 * them and on either side of every part still has its mark.
 *
 * Prints a line for each group of cases and last `N passed, M failed`; the exit status is 1 if any failed.
 */
#include "gwizdorad.h"

#include <math.h>
#include <stdio.h>
#include <stdlib.h>
#include <string.h>

#define COUNT(array) (sizeof(array) / sizeof((array)[0]))

enum { LAST_REFUSAL = GWZ_NO_TRUE_SUMMARY };

/* ---- Counting */

struct tally {
    unsigned passed, failed;
    uint32_t refusals_given; /* bit r: some call was refused with r */
};

static void record(struct tally *tally, const char *what, const char *fault)
{
    if (fault == NULL) {
        tally->passed++;
    } else {
        tally->failed++;
        printf("FAILED: %s: %s\n", what, fault);
    }
}

/* A case of numbers alone: mostly the result of a call, with its refusal number in the upper half. */
struct number_case {
    const char *what;
    uint64_t got, wanted;
};

static void expect_numbers(struct tally *tally, const struct number_case *cases, size_t count)
{
    char fault[80];
    for (size_t i = 0; i < count; i++) {
        uint64_t got = cases[i].got, wanted = cases[i].wanted;
        snprintf(fault, sizeof fault, "%lu and %lu in its halves, in place of %lu and %lu",
                 (unsigned long)gwz_refusal(got), (unsigned long)gwz_detail(got),
                 (unsigned long)gwz_refusal(wanted), (unsigned long)gwz_detail(wanted));
        record(tally, cases[i].what, got == wanted ? NULL : fault);
        if (gwz_refusal(got) >= 1 && gwz_refusal(got) <= LAST_REFUSAL)
            tally->refusals_given |= 1u << gwz_refusal(got);
    }
}

static uint64_t done(uint64_t answer)
{
    return answer;
}

static uint64_t refused(uint32_t number, uint32_t detail)
{
    return (uint64_t)number << 32 | detail;
}

/* ---- Lent parts between marked bytes */

enum { MARK = 0xA5, MARGIN = 64 };

/* A margin, the lent bytes and a margin: all MARK, but for what is put at the front of the lent bytes. */
struct part {
    uint8_t *block;
    uint8_t *lent;
    size_t bytes;
};

static void *allocated(size_t bytes)
{
    void *memory = malloc(bytes == 0 ? 1 : bytes);
    if (memory == NULL) {
        fprintf(stderr, "every_function: no memory for %lu bytes\n", (unsigned long)bytes);
        exit(2);
    }
    return memory;
}

/* Elements lie at their own alignment and no larger one: bytes at odd places. */
static struct part part_of(size_t element_size, size_t count, const void *front, size_t front_count)
{
    struct part part;
    part.bytes = element_size * count;
    part.block = (uint8_t *)allocated(MARGIN + element_size + part.bytes + MARGIN);
    part.lent = part.block + MARGIN + element_size;
    memset(part.block, MARK, MARGIN + element_size + part.bytes + MARGIN);
    if (front_count > 0)
        memcpy(part.lent, front, element_size * front_count);
    return part;
}

static int is_marked(const uint8_t *from, const uint8_t *to)
{
    while (from < to && *from == MARK)
        from++;
    return from == to;
}

static int part_holds(const struct part *part, const void *front, size_t front_bytes)
{
    const uint8_t *end = part->lent + part->bytes + MARGIN;
    return front_bytes <= part->bytes && (front_bytes == 0 || memcmp(part->lent, front, front_bytes) == 0)
        && is_marked(part->block, part->lent) && is_marked(part->lent + front_bytes, end);
}

/* ---- A call with lent parts */

enum operation {
    PACK32, PACK64, LENGTH32, LENGTH64, CHECK, UNPACK32, UNPACK64, PROBE32, PROBE64,
    ADD_SUMMARY, TEST_SUMMARY, CHUNKS_FROM32, CHUNKS_FROM64,
    TOLERANCE_CODE32, TOLERANCE_CODE64, TOLERANCE_RESTORED32, TOLERANCE_RESTORED64
};

/* The bytes of an element that each operation reads and writes; 1 where it has no such part. */
static const struct { size_t in, out; } element_sizes[] = {
    {4, 1}, {8, 1}, {4, 1}, {8, 1}, {1, 1}, {1, 4}, {1, 8}, {1, 4}, {1, 8}, {1, 1}, {1, 1}, {1, 4}, {1, 4},
    {4, 4}, {8, 8}, {4, 4}, {8, 8}
};

struct call {
    enum operation operation;
    uint32_t level, mode;
    int32_t k;
    uint32_t group; /* the size of groups */
    const void *in; /* values, the bytes of a stream, or the one pattern or code of a number rule */
    size_t count;
    uint64_t index; /* of a list of chunks: x */
    size_t room;
    uint32_t halves; /* the rule for them, of a code alone */
};

/* `in` and `out` stand at the alignment of their elements. */
static uint64_t answer_of(const struct call *c, const void *in, void *out)
{
    const uint8_t *bytes = (const uint8_t *)in;
    const uint32_t *words = (const uint32_t *)in;
    const uint64_t *longs = (const uint64_t *)in;
    switch (c->operation) {
    case PACK32: return gwz_pack32(c->level, c->mode, c->k, c->group, words, c->count, (uint8_t *)out, c->room);
    case PACK64: return gwz_pack64(c->level, c->mode, c->k, c->group, longs, c->count, (uint8_t *)out, c->room);
    case LENGTH32: return gwz_length32(c->level, c->mode, c->k, c->group, words, c->count);
    case LENGTH64: return gwz_length64(c->level, c->mode, c->k, c->group, longs, c->count);
    case CHECK: return gwz_check(c->level, bytes, c->count);
    case UNPACK32: return gwz_unpack32(c->level, bytes, c->count, (uint32_t *)out, c->room);
    case UNPACK64: return gwz_unpack64(c->level, bytes, c->count, (uint64_t *)out, c->room);
    case PROBE32: return gwz_probe32(c->level, bytes, c->count, c->index, (uint32_t *)out);
    case PROBE64: return gwz_probe64(c->level, bytes, c->count, c->index, (uint64_t *)out);
    case ADD_SUMMARY: return gwz_add_summary(c->level, bytes, c->count, (uint8_t *)out, c->room);
    case TEST_SUMMARY: return gwz_test_summary(c->level, bytes, c->count);
    case CHUNKS_FROM32:
        return gwz_chunks_from32(c->level, (uint32_t)c->index, bytes, c->count, (uint32_t *)out, c->room);
    case CHUNKS_FROM64: return gwz_chunks_from64(c->level, c->index, bytes, c->count, (uint32_t *)out, c->room);
    case TOLERANCE_CODE32: return gwz_tolerance_code32(c->halves, c->k, words[0], (uint32_t *)out);
    case TOLERANCE_CODE64: return gwz_tolerance_code64(c->halves, c->k, longs[0], (uint64_t *)out);
    case TOLERANCE_RESTORED32: return gwz_tolerance_restored32(c->k, words[0], (uint32_t *)out);
    case TOLERANCE_RESTORED64: return gwz_tolerance_restored64(c->k, longs[0], (uint64_t *)out);
    }
    return UINT64_MAX;
}

/* The one checker: `out_count` elements of `out` are wanted at the front of the output, none after a refusal. */
static void expect_call(struct tally *tally, const char *what, struct call call, uint64_t wanted, const void *out,
                        size_t out_count)
{
    size_t in_size = element_sizes[call.operation].in, out_size = element_sizes[call.operation].out;
    struct part in_part = part_of(in_size, call.count, call.in, call.count);
    struct part out_part = part_of(out_size, call.room, NULL, 0);
    struct number_case number = {what, answer_of(&call, in_part.lent, out_part.lent), wanted};

    if (!part_holds(&in_part, call.in, in_size * call.count))
        record(tally, what, "what was lent to be read, or a byte beside it, was altered");
    else if (number.got == wanted && !part_holds(&out_part, out, out_size * out_count))
        record(tally, what, "the output, or a byte beside it, is not as wanted");
    else
        expect_numbers(tally, &number, 1);
    free(in_part.block);
    free(out_part.block);
}

/* In groups of 32. */
static struct call packing(enum operation operation, uint32_t level, uint32_t mode, int32_t k, const void *values,
                           size_t n, size_t room)
{
    struct call call = {operation, level, mode, k, GWZ_GROUPS_OF_32, values, n, 0, room, 0};
    return call;
}

/* The same call in groups of another size. */
static struct call in_groups_of(uint32_t group, struct call call)
{
    call.group = group;
    return call;
}

static struct call reading(enum operation operation, uint32_t level, const uint8_t *bytes, size_t len, size_t room)
{
    struct call call = {operation, level, 0, 0, 0, bytes, len, 0, room, 0};
    return call;
}

static struct call probing(enum operation operation, uint32_t level, const uint8_t *bytes, size_t len, uint64_t index)
{
    struct call call = {operation, level, 0, 0, 0, bytes, len, index, 1, 0};
    return call;
}

static struct call listing(enum operation operation, uint32_t level, uint64_t x, const uint8_t *bytes, size_t len,
                           size_t room)
{
    struct call call = {operation, level, 0, 0, 0, bytes, len, x, room, 0};
    return call;
}

/* A code alone, by a rule for halves. */
static struct call coding(enum operation operation, uint32_t halves, int32_t k, const void *pattern)
{
    struct call call = {operation, 0, 0, k, 0, pattern, 1, 0, 1, halves};
    return call;
}

static struct call restoring(enum operation operation, int32_t k, const void *code)
{
    return coding(operation, 0, k, code);
}

/* ---- Streams written by hand */

/* As the header has it: k in two's complement, and the mode number 256 more in groups of 128. */
struct setting {
    uint32_t level, width, mode, k;
};

/* Both sizes of groups, and a level that writes and reads every mode and width in each. */
static const uint32_t group_sizes[2] = {GWZ_GROUPS_OF_32, GWZ_GROUPS_OF_128};

static uint32_t level_of_groups(uint32_t group)
{
    return group == GWZ_GROUPS_OF_128 ? GWZ_LEVEL_13 : GWZ_LEVEL_11;
}

/* The mode number of a mode in groups of 32 or 128. */
static uint32_t mode_number(uint32_t mode, uint32_t group)
{
    return group == GWZ_GROUPS_OF_128 ? 256 + mode : mode;
}

static void put_number(uint8_t *at, uint32_t number)
{
    for (unsigned i = 0; i < 4; i++)
        at[i] = (uint8_t)(number >> 8 * i & 0xFF);
}

/* The header, for data of so many bytes behind the chunk table, and no side parts. */
static void put_header(uint8_t *stream, struct setting s, uint32_t n, size_t data_bytes)
{
    uint32_t need = s.mode >= 256 ? 13 : s.mode == 2 ? 11 : s.width == 64 ? 10 : s.mode == 1 ? 9 : 8;
    uint32_t chunks = (n + 1023) / 1024, data = 48 + 4 * chunks;
    const uint32_t numbers[] = {1, s.level, need, s.width, s.mode, s.k, n, chunks, 48, data, 0,
                                data + (uint32_t)data_bytes};
    for (size_t i = 0; i < COUNT(numbers); i++)
        put_number(stream + 4 * i, numbers[i]);
}

/* A stream of at most 1,024 values, hence of one chunk that starts at 0; returns its length. */
static size_t put_stream(uint8_t *stream, struct setting s, uint32_t n, const uint8_t *data, size_t data_bytes)
{
    put_header(stream, s, n, data_bytes);
    put_number(stream + 48, 0);
    memcpy(stream + 52, data, data_bytes);
    return 52 + data_bytes;
}

/* The codes of at most 1,024 values in groups of a size: each with its smallest width. Returns the bytes. */
static size_t put_codes(uint8_t *data, uint32_t group, const uint64_t *codes, size_t n)
{
    size_t bytes = 0;
    for (size_t first = 0; first < n; first += group) {
        size_t count = n - first < group ? n - first : group, w = 0;
        for (size_t i = 0; i < count; i++)
            while (w < 64 && codes[first + i] >> w != 0)
                w++;
        data[bytes] = (uint8_t)w;
        memset(data + bytes + 1, 0, (w * count + 7) / 8);
        for (size_t bit = 0; bit < w * count; bit++)
            if ((codes[first + bit / w] >> bit % w & 1) != 0)
                data[bytes + 1 + bit / 8] |= (uint8_t)(1u << bit % 8);
        bytes += 1 + (w * count + 7) / 8;
    }
    return bytes;
}

/* The list 0, -0, 2^-149, packed at level 8, mode 0, as document 01 prints it. */
static const uint32_t example_values[] = {0x00000000, 0x80000000, 0x00000001};
static const uint8_t example[55] = {
    1, 0, 0, 0, 8, 0, 0, 0, 8, 0, 0, 0, 32, 0, 0, 0, 0, 0, 0, 0, 0, 0, 0, 0, 3, 0, 0, 0, 1, 0, 0, 0,
    48, 0, 0, 0, 52, 0, 0, 0, 0, 0, 0, 0, 55, 0, 0, 0, 0, 0, 0, 0, 0x03, 0x10, 0x01
};

/*
 * Three chunks of zeros: 2,049 values, with so many bytes in each chunk. They are right with a width byte of 0 for each group,
 * which is 32 + 32 + 1 in groups of 32 and 8 + 8 + 1 in groups of 128. Returns the length.
 */
enum { THREE_CHUNKS_BYTES = 48 + 12 + 65 };

static size_t put_three_chunks(uint8_t *stream, uint32_t group, uint32_t first, uint32_t second, uint32_t third)
{
    const struct setting lossless = {13, 32, mode_number(GWZ_LOSSLESS, group), 0};
    memset(stream, 0, 60 + first + second + third);
    put_header(stream, lossless, 2049, first + second + third);
    put_number(stream + 52, first);
    put_number(stream + 56, first + second);
    return 60 + first + second + third;
}

/* ---- The groups of cases */

static void test_helpers(struct tally *tally)
{
    const struct number_case cases[] = {
        {"refusal of a refusal", gwz_refusal(refused(7, 11)), 7},
        {"detail of a refusal", gwz_detail(refused(7, 11)), 11},
        {"refusal of an answer", gwz_refusal(done(0xFFFFFFFF)), GWZ_DONE},
        {"answer", gwz_answer(done(0xFFFFFFFF)), 0xFFFFFFFF},
        {"exponent 103", (uint64_t)gwz_exponent(done(103)), 103},
        {"exponent -1", (uint64_t)(gwz_exponent(done(0xFFFFFFFF)) + 1), 0},
        {"exponent -1075", (uint64_t)(gwz_exponent(done(0xFFFFFBCD)) + 1075), 0},
        {"smallest exponent", gwz_exponent(done(0x80000000)) == INT32_MIN, 1},
        {"the last chunk and group that a stream can have", gwz_bad_chunk(32767), 1023},
        {"the last chunk and group that a stream can have", gwz_bad_group(32767), 31},
        {"chunk 3, group 7", gwz_bad_chunk(103), 3},
        {"chunk 3, group 7", gwz_bad_group(103), 7},
        {"the last group of 128 that a stream can have", gwz_bad_chunk(1023 * 32 + 7), 1023},
        {"the last group of 128 that a stream can have", gwz_bad_group(1023 * 32 + 7), 7},
        {"longest stream of no values", GWZ_LONGEST_STREAM(32, GWZ_GROUPS_OF_32, 0), 48},
        {"longest stream of 1025 values of 32 bits", GWZ_LONGEST_STREAM(32, 32, 1025), 48 + 8 + 33 + 4100},
        {"longest stream of 1 value of 64 bits", GWZ_LONGEST_STREAM(64, 32, 1), 48 + 4 + 1 + 8},
        {"longest stream of all", GWZ_LONGEST_STREAM(64, GWZ_GROUPS_OF_32, GWZ_MOST_VALUES), 8425520},
        {"longest stream of no values, groups of 128", GWZ_LONGEST_STREAM(64, GWZ_GROUPS_OF_128, 0), 48},
        {"longest stream of 1025 values of 32 bits, groups of 128", GWZ_LONGEST_STREAM(32, 128, 1025), 48 + 8 + 9 + 4100},
        {"longest stream of 1 value of 64 bits, groups of 128", gwz_longest_stream(64, 128, 1), 48 + 4 + 1 + 8},
        {"longest stream of 129 values of 64 bits, groups of 128", gwz_longest_stream(64, 128, 129), 48 + 4 + 2 + 1032},
        {"longest stream of 129 values of 64 bits, groups of 32", gwz_longest_stream(64, 32, 129), 48 + 4 + 5 + 1032},
        {"longest stream of all, groups of 128", gwz_longest_stream(64, 128, GWZ_MOST_VALUES), 8400944},
        {"another size counts as 32", gwz_longest_stream(64, 0, 129), 48 + 4 + 5 + 1032},
        {"summary of no values", GWZ_SUMMARY_BYTES(32, 0), 12},
        {"summary of 1024 values of 32 bits", GWZ_SUMMARY_BYTES(32, 1024), 12 + 12},
        {"summary of 1025 values of 64 bits", gwz_summary_bytes(64, 1025), 12 + 2 * 20},
        {"summary of all", GWZ_SUMMARY_BYTES(64, GWZ_MOST_VALUES), 12 + 1024 * 20},
        {"the last level", GWZ_LEVEL_14, 14},
        {"the highest level of the header", GWZ_HIGHEST_LEVEL, 14},
        {"the highest level of the library", gwz_highest_level(), 14},
        {"the major number of the header", GWZ_FORMAT_MAJOR, 1},
        {"the major number of the library", gwz_format_major(), 1},
        {"the rule away from zero", GWZ_HALVES_AWAY, 0},
        {"the rule to even", GWZ_HALVES_TO_EVEN, 1},
    };
    expect_numbers(tally, cases, COUNT(cases));
    record(tally, "header and library have one version", strcmp(GWZ_VERSION, gwz_version()) == 0 ? NULL : gwz_version());
    for (uint32_t number = 0; number <= LAST_REFUSAL; number++) {
        const char *unknown = gwz_refusal_text(LAST_REFUSAL + 1), *next = gwz_refusal_text(number + 1);
        int own = strcmp(gwz_refusal_text(number), unknown) != 0 && strcmp(gwz_refusal_text(number), next) != 0;
        record(tally, "a text of its own for each refusal", own ? NULL : gwz_refusal_text(number));
    }
    const char *level = gwz_refusal_text(GWZ_UNKNOWN_LEVEL), *setting = gwz_refusal_text(GWZ_NOT_ALLOWED);
    record(tally, "the text of 1 has the levels", strstr(level, "8, 9, 10, 11, 12, 13 or 14") != NULL ? NULL : level);
    record(tally, "the text of 2 has the rule", strstr(setting, "rule for halves, which is 0 or 1") != NULL ? NULL : setting);
}

static void test_bound(struct tally *tally)
{
    const struct number_case cases[] = {
        {"0.3", gwz_bound(32, 0x3FD3333333333333), done(0xFFFFFFFE)},
        {"0.25", gwz_bound(32, 0x3FD0000000000000), done(0xFFFFFFFE)},
        {"just below 0.25", gwz_bound(32, 0x3FCFFFFFFFFFFFFF), done(0xFFFFFFFD)},
        {"1", gwz_bound(32, 0x3FF0000000000000), done(0)},
        {"2^200", gwz_bound(32, 0x4C70000000000000), done(103)},
        {"2^-150", gwz_bound(32, 0x3690000000000000), done((uint32_t)-150)},
        {"2^-151", gwz_bound(32, 0x3680000000000000), refused(13, 0)},
        {"just below 2^-150", gwz_bound(32, 0x368FFFFFFFFFFFFF), refused(13, 0)},
        {"0", gwz_bound(32, 0), refused(12, 0)},
        {"-0", gwz_bound(32, 0x8000000000000000), refused(12, 0)},
        {"infinity", gwz_bound(32, 0x7FF0000000000000), refused(12, 0)},
        {"-1", gwz_bound(64, 0xBFF0000000000000), refused(12, 0)},
        {"not-a-number", gwz_bound(64, 0x7FF8000000000000), refused(12, 0)},
        {"width 64: 2^-151", gwz_bound(64, 0x3680000000000000), done((uint32_t)-151)},
        {"width 64: the smallest, 2^-1074", gwz_bound(64, 1), done((uint32_t)-1074)},
        {"width 64: 3 times 2^-1074", gwz_bound(64, 3), done((uint32_t)-1073)},
        {"width 64: the largest finite", gwz_bound(64, 0x7FEFFFFFFFFFFFFF), done(970)},
        {"width 16", gwz_bound(16, 0x3FD0000000000000), refused(2, 0)},
        {"width 0 before tolerance 0", gwz_bound(0, 0), refused(2, 0)},
    };
    expect_numbers(tally, cases, COUNT(cases));
}

/* Document 01's "In effect": the exponent map in words, with no subtraction modulo 2^W. */
static uint64_t lossless_by_map(uint64_t pattern, unsigned width, unsigned fraction_bits)
{
    int64_t middle = (int64_t)1 << (width - fraction_bits - 2); /* 128 or 1024 */
    uint64_t sign = pattern >> (width - 1);
    uint64_t fraction = pattern & (((uint64_t)1 << fraction_bits) - 1);
    int64_t exponent = (int64_t)(pattern >> fraction_bits) & (2 * middle - 1);
    int64_t moved = exponent == 0 ? 0 : exponent <= middle ? exponent - middle - 1 : exponent - middle;
    int64_t x = moved * ((int64_t)2 << fraction_bits) + (int64_t)(2 * fraction + sign);
    return x >= 0 ? 2 * (uint64_t)x : 2 * (uint64_t)(-(x + 1)) + 1;
}

static void test_lossless_known(struct tally *tally)
{
    static const uint32_t known[][2] = {
        {0x00000000, 0}, {0x80000000, 2}, {0x00000001, 4}, {0x3F800000, 0x03FFFFFF}, {0xBF800000, 0x03FFFFFD},
        {0x40000000, 0x01FFFFFF}, {0x40800000, 0x02000000}, {0x00800000, 0xFFFFFFFF}, {0x7F800000, 0xFE000000},
        {0x7FC00000, 0xFF000000}
    };
    for (size_t i = 0; i < COUNT(known); i++) {
        const struct number_case cases[] = {
            {"a known code", gwz_lossless_code32(known[i][0]), known[i][1]},
            {"the pattern of a known code", gwz_lossless_restored32(known[i][1]), known[i][0]},
        };
        expect_numbers(tally, cases, COUNT(cases));
    }
    const struct number_case wide[] = {
        {"1.0 in 64 bits", gwz_lossless_code64(0x3FF0000000000000) + 1, (uint64_t)1 << 55},
        {"the pattern of 2^55 - 1", gwz_lossless_restored64(((uint64_t)1 << 55) - 1), 0x3FF0000000000000},
    };
    for (size_t i = 0; i < COUNT(wide); i++)
        record(tally, wide[i].what, wide[i].got == wide[i].wanted ? NULL : "another number");
}

static int maps_there_and_back32(uint32_t pattern)
{
    uint32_t code = (uint32_t)lossless_by_map(pattern, 32, 23);
    return gwz_lossless_code32(pattern) == code && gwz_lossless_restored32(code) == pattern;
}

static int maps_there_and_back64(uint64_t pattern)
{
    uint64_t code = lossless_by_map(pattern, 64, 52);
    return gwz_lossless_code64(pattern) == code && gwz_lossless_restored64(code) == pattern;
}

/* Each sign and exponent is a case, with the fractions 0, 1 and all bits set. */
static void test_lossless_map(struct tally *tally)
{
    for (uint32_t head = 0; head < 512; head++) {
        uint32_t first = head << 23;
        int good = maps_there_and_back32(first) && maps_there_and_back32(first | 1)
            && maps_there_and_back32(first | 0x7FFFFF);
        record(tally, "32 bits by the exponent map", good ? NULL : "another code or pattern");
    }
    for (uint64_t head = 0; head < 4096; head++) {
        uint64_t first = head << 52;
        int good = maps_there_and_back64(first) && maps_there_and_back64(first | 1)
            && maps_there_and_back64(first | 0xFFFFFFFFFFFFF);
        record(tally, "64 bits by the exponent map", good ? NULL : "another code or pattern");
    }
}

/* Rules for halves that there are not; and of each width, k that are not allowed. */
static const uint32_t other_rules[] = {2, 3, 32, 255, 256, 0x10000, 0x80000000, 0x80000001, 0xFFFFFFFE, 0xFFFFFFFF};
static const int32_t other_k32[] = {-151, 104, INT32_MIN, INT32_MAX}, other_k64[] = {-1076, 971, INT32_MIN, INT32_MAX};

/* Another rule, a k that is not allowed, and both at once: 2, and nothing is written. */
static void expect_no_code(struct tally *tally, enum operation code, enum operation restored, const int32_t *other_k)
{
    const uint64_t zero = 0;
    for (size_t i = 0; i < COUNT(other_rules); i++) {
        expect_call(tally, "another rule", coding(code, other_rules[i], -2, &zero), refused(2, 0), NULL, 0);
        for (size_t at = 0; at < 4; at++)
            expect_call(tally, "another rule, k not allowed", coding(code, other_rules[i], other_k[at], &zero), refused(2, 0), NULL,
                        0);
    }
    for (size_t at = 0; at < 4; at++) {
        for (uint32_t halves = 0; halves <= 1; halves++)
            expect_call(tally, "k not allowed", coding(code, halves, other_k[at], &zero), refused(2, 0), NULL, 0);
        expect_call(tally, "k not allowed", restoring(restored, other_k[at], &zero), refused(2, 0), NULL, 0);
    }
}

/* Codes and what they restore by each rule: away from zero, then to even. */
static void test_tolerance32(struct tally *tally)
{
    static const struct { const char *what; int32_t k; uint32_t pattern, codes[2], restored[2]; } known[] = {
        {"0.25", -2, 0x3E800000, {2, 0}, {0x3F000000, 0}},
        {"-0.25 comes back as -0 by the rule to even", -2, 0xBE800000, {3, 1}, {0xBF000000, 0x80000000}},
        {"0.21875", -2, 0x3E600000, {0, 0}, {0, 0}},
        {"just below 0.25", -2, 0x3E7FFFFF, {0, 0}, {0, 0}},
        {"just above 0.25", -2, 0x3E800001, {2, 2}, {0x3F000000, 0x3F000000}},
        {"0.75", -2, 0x3F400000, {4, 4}, {0x3F800000, 0x3F800000}},
        {"-0.75", -2, 0xBF400000, {5, 5}, {0xBF800000, 0xBF800000}},
        {"1.25", -2, 0x3FA00000, {6, 4}, {0x3FC00000, 0x3F800000}},
        {"-1.25", -2, 0xBFA00000, {7, 5}, {0xBFC00000, 0xBF800000}},
        {"-0.125 comes back as -0", -2, 0xBE000000, {1, 1}, {0x80000000, 0x80000000}},
        {"4194303.25", -2, 0x4A7FFFFD, {16777214, 16777212}, {0x4A7FFFFE, 0x4A7FFFFC}},
        {"4194303.75", -2, 0x4A7FFFFF, {16777216, 16777216}, {0x4A800000, 0x4A800000}},
        {"4194304", -2, 0x4A800000, {16777216, 16777216}, {0x4A800000, 0x4A800000}},
        {"infinity", -2, 0x7F800000, {1795162112, 1795162112}, {0x7F800000, 0x7F800000}},
        {"-infinity", -2, 0xFF800000, {1795162113, 1795162113}, {0xFF800000, 0xFF800000}},
        {"a not-a-number", -2, 0x7FC00123, {1795162112 + 2 * 0x400123, 1795162112 + 2 * 0x400123}, {0x7FC00123, 0x7FC00123}},
        {"2^-149 under the smallest k, which has no halves", -150, 1, {2, 2}, {1, 1}},
        {"2^-149 under the next k", -149, 1, {2, 0}, {2, 0}},
        {"3 times 2^-149 under it", -149, 3, {4, 4}, {4, 4}},
        {"2^103 under the largest k", 103, 0x73000000, {2, 0}, {0x73800000, 0}},
        {"the largest finite under the largest k", 103, 0x7F7FFFFF, {2 * 0xFFFFFF, 2 * 0xFFFFFF}, {0x7F7FFFFF, 0x7F7FFFFF}},
    };
    for (size_t i = 0; i < 2 * COUNT(known); i++) {
        size_t at = i / 2, rule = i % 2;
        uint32_t halves = rule == 0 ? GWZ_HALVES_AWAY : GWZ_HALVES_TO_EVEN;
        expect_call(tally, known[at].what, coding(TOLERANCE_CODE32, halves, known[at].k, &known[at].pattern), done(0),
                    &known[at].codes[rule], 1);
        expect_call(tally, known[at].what, restoring(TOLERANCE_RESTORED32, known[at].k, &known[at].codes[rule]), done(0),
                    &known[at].restored[rule], 1);
    }
    expect_no_code(tally, TOLERANCE_CODE32, TOLERANCE_RESTORED32, other_k32);
}

static void test_tolerance64(struct tally *tally)
{
    static const struct { const char *what; int32_t k; uint64_t pattern, codes[2], restored[2]; } known[] = {
        {"0.25", -2, 0x3FD0000000000000, {2, 0}, {0x3FE0000000000000, 0}},
        {"just above 0.25", -2, 0x3FD0000000000001, {2, 2}, {0x3FE0000000000000, 0x3FE0000000000000}},
        {"-0.75", -2, 0xBFE8000000000000, {5, 5}, {0xBFF0000000000000, 0xBFF0000000000000}},
        {"-1.25", -2, 0xBFF4000000000000, {7, 5}, {0xBFF8000000000000, 0xBFF0000000000000}},
        {"4194303.75", -2, 0x414FFFFFE0000000, {16777216, 16777216}, {0x4150000000000000, 0x4150000000000000}},
        {"2^51 - 0.25, half a bin below the threshold", -2, 0x431FFFFFFFFFFFFF, {(uint64_t)1 << 53, (uint64_t)1 << 53},
         {0x4320000000000000, 0x4320000000000000}},
        {"2^51 - 0.75, a bin below that", -2, 0x431FFFFFFFFFFFFD, {((uint64_t)1 << 53) - 2, ((uint64_t)1 << 53) - 4},
         {0x431FFFFFFFFFFFFE, 0x431FFFFFFFFFFFFC}},
        {"2^51 is the threshold", -2, 0x4320000000000000, {(uint64_t)1 << 53, (uint64_t)1 << 53},
         {0x4320000000000000, 0x4320000000000000}},
        {"2^-1074 under the smallest k, which has no halves", -1075, 1, {2, 2}, {1, 1}},
        {"2^-1074 under the next k", -1074, 1, {2, 0}, {2, 0}},
        {"2^970 under the largest k", 970, 0x7C90000000000000, {2, 0}, {0x7CA0000000000000, 0}},
        {"a not-a-number", -2, 0x7FF8000000000000, {(uint64_t)1949 << 52, (uint64_t)1949 << 52},
         {0x7FF8000000000000, 0x7FF8000000000000}},
        {"the largest u", -2, 0xFFFFFFFFFFFFFFFF, {((uint64_t)1950 << 52) - 1, ((uint64_t)1950 << 52) - 1},
         {0xFFFFFFFFFFFFFFFF, 0xFFFFFFFFFFFFFFFF}},
    };
    const uint64_t too_large = (uint64_t)1950 << 52; /* 2u, where u is 2^63 - 1073 * 2^52 */
    for (size_t i = 0; i < 2 * COUNT(known); i++) {
        size_t at = i / 2, rule = i % 2;
        uint32_t halves = rule == 0 ? GWZ_HALVES_AWAY : GWZ_HALVES_TO_EVEN;
        expect_call(tally, known[at].what, coding(TOLERANCE_CODE64, halves, known[at].k, &known[at].pattern), done(0),
                    &known[at].codes[rule], 1);
        expect_call(tally, known[at].what, restoring(TOLERANCE_RESTORED64, known[at].k, &known[at].codes[rule]), done(0),
                    &known[at].restored[rule], 1);
    }
    expect_call(tally, "u too large", restoring(TOLERANCE_RESTORED64, -2, &too_large), refused(10, 0), NULL, 0);
    expect_no_code(tally, TOLERANCE_CODE64, TOLERANCE_RESTORED64, other_k64);
}

/* u = 905969663 at k = -2 is read, alone and in a stream; one more is not. The code is 2u + sign, in 31 bits. */
static void test_largest_u(struct tally *tally)
{
    const struct setting within = {9, 32, 1, 0xFFFFFFFE};
    const uint32_t largest = 2u * 905969663u, too_large = 2u * 905969664u, pattern = 0x7FFFFFFF;
    uint8_t data[5] = {31, 0, 0, 0, 0}, stream[57];

    put_number(data + 1, largest);
    put_stream(stream, within, 1, data, sizeof data);
    expect_call(tally, "largest u restored", restoring(TOLERANCE_RESTORED32, -2, &largest), done(0), &pattern, 1);
    expect_call(tally, "largest u checked", reading(CHECK, 9, stream, 57, 0), done(1), NULL, 0);
    expect_call(tally, "largest u unpacked", reading(UNPACK32, 9, stream, 57, 1), done(1), &pattern, 1);
    expect_call(tally, "largest u probed", probing(PROBE32, 9, stream, 57, 0), done(GWZ_NOT_A_NUMBER), &pattern, 1);
    expect_call(tally, "largest u packed", packing(PACK32, 9, 1, -2, &pattern, 1, 57), done(57), stream, 57);

    put_number(stream + 53, too_large);
    expect_call(tally, "u too large", restoring(TOLERANCE_RESTORED32, -2, &too_large), refused(10, 0), NULL, 0);
    expect_call(tally, "u too large checked", reading(CHECK, 9, stream, 57, 0), refused(10, 0), NULL, 0);
    expect_call(tally, "u too large unpacked", reading(UNPACK32, 9, stream, 57, 1), refused(10, 0), NULL, 0);
    expect_call(tally, "u too large probed", probing(PROBE32, 9, stream, 57, 0), refused(10, 0), NULL, 0);
}

static void test_example(struct tally *tally)
{
    expect_call(tally, "length", packing(LENGTH32, 8, 0, 0, example_values, 3, 0), done(55), NULL, 0);
    expect_call(tally, "packed", packing(PACK32, 8, 0, 0, example_values, 3, 55), done(55), example, 55);
    expect_call(tally, "packed, longest room",
                packing(PACK32, 8, 0, 0, example_values, 3, GWZ_LONGEST_STREAM(32, 32, 3)), done(55), example, 55);
    expect_call(tally, "room to spare", packing(PACK32, 8, 0, 0, example_values, 3, 999), done(55), example, 55);
    for (size_t room = 0; room < 55; room++)
        expect_call(tally, "too short", packing(PACK32, 8, 0, 0, example_values, 3, room), refused(4, 55), NULL, 0);
    for (uint32_t level = GWZ_LEVEL_8; level <= GWZ_HIGHEST_LEVEL; level++) {
        expect_call(tally, "checked", reading(CHECK, level, example, 55, 0), done(3), NULL, 0);
        expect_call(tally, "unpacked", reading(UNPACK32, level, example, 55, 3), done(3), example_values, 3);
        expect_call(tally, "room to spare", reading(UNPACK32, level, example, 55, 50), done(3), example_values, 3);
        for (size_t room = 0; room < 3; room++)
            expect_call(tally, "room too short", reading(UNPACK32, level, example, 55, room), refused(4, 3), NULL, 0);
        for (uint64_t i = 0; i < 3; i++)
            expect_call(tally, "probed", probing(PROBE32, level, example, 55, i), done(GWZ_FINITE),
                        &example_values[i], 1);
    }
    for (size_t len = 0; len < 55; len++)
        expect_call(tally, "cut", reading(CHECK, 8, example, len, 0), refused(len < 48 ? 5 : 8, 0), NULL, 0);
}

/* The smallest k gives every value back as it was, so all modes have the same patterns. */
static void test_probe32(struct tally *tally)
{
    static const uint32_t patterns[] = {0x00000000, 0x80000000, 0x00000001, 0xFF7FFFFF, 0x7F800000, 0xFF800000,
                                        0x7F800001, 0x7FC00000, 0xFFFFFFFF};
    static const uint32_t kinds[] = {GWZ_FINITE, GWZ_FINITE, GWZ_FINITE, GWZ_FINITE, GWZ_INFINITY, GWZ_INFINITY,
                                     GWZ_NOT_A_NUMBER, GWZ_NOT_A_NUMBER, GWZ_NOT_A_NUMBER};
    const size_t n = COUNT(patterns);
    uint8_t stream[GWZ_LONGEST_STREAM(32, 32, COUNT(patterns))];
    for (uint32_t i = 0; i < 6; i++) {
        uint32_t mode = i % 3, group = group_sizes[i / 3], level = level_of_groups(group);
        int32_t k = mode == 1 ? GWZ_SMALLEST_K32 : 0;
        size_t length = gwz_answer(gwz_pack32(level, mode, k, group, patterns, n, stream, sizeof stream));
        for (size_t at = 0; at < n; at++)
            expect_call(tally, "a value", probing(PROBE32, level, stream, length, at), done(kinds[at]), &patterns[at], 1);
        expect_call(tally, "index n", probing(PROBE32, level, stream, length, n), refused(11, 0), NULL, 0);
        expect_call(tally, "index 2^64 - 1", probing(PROBE32, level, stream, length, UINT64_MAX), refused(11, 0), NULL, 0);
    }
}

static void test_probe64(struct tally *tally)
{
    static const uint64_t patterns[] = {0x3FF0000000000000, 0x8000000000000000, 0x000FFFFFFFFFFFFF, 0xFFEFFFFFFFFFFFFF,
                                        0x7FF0000000000000, 0xFFF0000000000000, 0x7FF0000000000001, 0x7FF8000000000000,
                                        0xFFFFFFFFFFFFFFFF};
    static const uint32_t kinds[] = {GWZ_FINITE, GWZ_FINITE, GWZ_FINITE, GWZ_FINITE, GWZ_INFINITY, GWZ_INFINITY,
                                     GWZ_NOT_A_NUMBER, GWZ_NOT_A_NUMBER, GWZ_NOT_A_NUMBER};
    const size_t n = COUNT(patterns);
    uint8_t stream[GWZ_LONGEST_STREAM(64, 32, COUNT(patterns))];
    for (uint32_t i = 0; i < 6; i++) {
        uint32_t mode = i % 3, group = group_sizes[i / 3], level = level_of_groups(group);
        int32_t k = mode == 1 ? GWZ_SMALLEST_K64 : 0;
        size_t length = gwz_answer(gwz_pack64(level, mode, k, group, patterns, n, stream, sizeof stream));
        for (size_t at = 0; at < n; at++)
            expect_call(tally, "a value", probing(PROBE64, level, stream, length, at), done(kinds[at]), &patterns[at], 1);
        expect_call(tally, "index n", probing(PROBE64, level, stream, length, n), refused(11, 0), NULL, 0);
        expect_call(tally, "index 2^64 - 1", probing(PROBE64, level, stream, length, UINT64_MAX), refused(11, 0), NULL, 0);
    }
}

/* What each setting needs, by what each level writes and reads. */
static void test_levels(struct tally *tally)
{
    static const struct { enum operation pack, length, unpack; uint32_t width, mode, group, need; } settings[] = {
        {PACK32, LENGTH32, UNPACK32, 32, 0, 32, 8}, {PACK32, LENGTH32, UNPACK32, 32, 1, 32, 9},
        {PACK32, LENGTH32, UNPACK32, 32, 2, 32, 11}, {PACK64, LENGTH64, UNPACK64, 64, 0, 32, 10},
        {PACK64, LENGTH64, UNPACK64, 64, 1, 32, 10}, {PACK64, LENGTH64, UNPACK64, 64, 2, 32, 11},
        {PACK32, LENGTH32, UNPACK32, 32, 0, 128, 13}, {PACK32, LENGTH32, UNPACK32, 32, 1, 128, 13},
        {PACK32, LENGTH32, UNPACK32, 32, 2, 128, 13}, {PACK64, LENGTH64, UNPACK64, 64, 0, 128, 13},
        {PACK64, LENGTH64, UNPACK64, 64, 1, 128, 13}, {PACK64, LENGTH64, UNPACK64, 64, 2, 128, 13}
    };
    const uint64_t zero = 0;
    const uint8_t no_bits[] = {0};
    for (size_t i = 0; i < COUNT(settings); i++)
        for (uint32_t level = 0; level <= 15; level++) {
            uint32_t need = settings[i].need, mode = settings[i].mode, group = settings[i].group;
            int known = level >= 8 && level <= 14;
            const struct setting written = {level, settings[i].width, mode_number(mode, group), 0};
            const struct setting later = {77, settings[i].width, mode_number(mode, group), 0};
            uint8_t stream[53], later_stream[53];
            put_stream(stream, written, 1, no_bits, 1);
            put_stream(later_stream, later, 1, no_bits, 1);

            uint64_t packed = !known ? refused(1, 0) : need > level ? refused(2, 0) : done(53);
            uint64_t read = !known ? refused(1, 0) : need > level ? refused(7, need) : done(1);
            size_t bytes = gwz_refusal(packed) == GWZ_DONE ? 53 : 0, values = gwz_refusal(read) == GWZ_DONE ? 1 : 0;
            struct call pack = packing(settings[i].pack, level, mode, 0, &zero, 1, 53);
            struct call length = packing(settings[i].length, level, mode, 0, &zero, 1, 0);
            expect_call(tally, "pack", in_groups_of(group, pack), packed, stream, bytes);
            expect_call(tally, "length", in_groups_of(group, length), packed, NULL, 0);
            expect_call(tally, "check", reading(CHECK, level, later_stream, 53, 0), read, NULL, 0);
            expect_call(tally, "unpack", reading(settings[i].unpack, level, later_stream, 53, 1), read, &zero, values);
        }
}

/* Every operation that takes a level, at levels that there are not, with nothing else wrong. */
static void test_unknown_levels(struct tally *tally)
{
    static const uint32_t unknown[] = {0, 1, 7, 15, 16, 64, 264, 0x8000000E, UINT32_MAX};
    static const enum operation packs[] = {PACK32, PACK64, LENGTH32, LENGTH64};
    static const enum operation reads[] = {CHECK, UNPACK32, UNPACK64, PROBE32, PROBE64, ADD_SUMMARY, TEST_SUMMARY, CHUNKS_FROM32,
                                           CHUNKS_FROM64};
    const struct setting settings[2] = {{14, 32, 0, 0}, {14, 64, 0, 0}};
    const uint64_t zero = 0;
    const uint8_t no_bits[] = {0};
    uint8_t streams[2][53];
    for (size_t i = 0; i < 2; i++)
        put_stream(streams[i], settings[i], 1, no_bits, 1);
    for (size_t i = 0; i < COUNT(unknown); i++) {
        for (size_t at = 0; at < 2 * COUNT(packs); at++)
            for (uint32_t mode = 0; mode <= 2; mode++)
                expect_call(tally, "packing",
                            in_groups_of(group_sizes[at % 2], packing(packs[at / 2], unknown[i], mode, 0, &zero, 1, 53)),
                            refused(1, 0), NULL, 0);
        for (size_t at = 0; at < 2 * COUNT(reads); at++)
            expect_call(tally, "reading", reading(reads[at / 2], unknown[i], streams[at % 2], 53, 99), refused(1, 0), NULL, 0);
    }
}

/* Refusals of pack and length; where several apply, the first of 1 2 3 4. What level 13 refuses or takes, 14 does. */
static void test_packing_refused(struct tally *tally)
{
    static const struct { const char *what; uint32_t level, mode; int32_t k; uint32_t refusal32, refusal64; } rows[] = {
        {"level 7 before mode 3", 7, 3, 0, 1, 1},
        {"level 15", 15, 0, 0, 1, 1},
        {"level 2^32 - 1", UINT32_MAX, 0, 0, 1, 1},
        {"mode 3", 13, 3, 0, 2, 2},
        {"k 1 in mode 2", 13, 2, 1, 2, 2},
        {"k -1 in mode 2", 13, 2, -1, 2, 2},
        {"mode 2 with k 0", 13, 2, 0, 4, 4},
        {"k 1 in mode 0", 13, 0, 1, 2, 2},
        {"k -1 in mode 0", 13, 0, -1, 2, 2},
        {"k 104", 13, 1, 104, 2, 4},
        {"k -151", 13, 1, -151, 2, 4},
        {"k 971", 13, 1, 971, 2, 2},
        {"k -1076", 13, 1, -1076, 2, 2},
        {"smallest k of int32_t", 13, 1, INT32_MIN, 2, 2},
        {"tolerance at level 8, width 64 at level 9", 8, 1, 0, 2, 2},
        {"the limits of k are allowed", 13, 1, 103, 4, 4},
        {"the limits of k are allowed", 13, 1, -150, 4, 4},
        {"mode 256, as the header has it", 13, 256, 0, 2, 2},
        {"mode 257, as the header has it", 13, 257, -8, 2, 2},
        {"mode 258, as the header has it", 13, 258, 0, 2, 2},
        {"mode 2^32 - 1", 13, UINT32_MAX, 0, 2, 2},
    };
    const uint64_t zero = 0;
    for (size_t i = 0; i < 4 * COUNT(rows); i++) {
        size_t row = i / 4;
        uint32_t level = rows[row].level == 13 && i / 2 % 2 == 1 ? 14 : rows[row].level;
        uint32_t mode = rows[row].mode, group = group_sizes[i % 2];
        int32_t k = rows[row].k;
        uint64_t wanted32 = refused(rows[row].refusal32, rows[row].refusal32 == 4 ? 53 : 0);
        uint64_t wanted64 = refused(rows[row].refusal64, rows[row].refusal64 == 4 ? 53 : 0);
        const char *what = rows[row].what;
        expect_call(tally, what, in_groups_of(group, packing(PACK32, level, mode, k, &zero, 1, 52)), wanted32, NULL, 0);
        expect_call(tally, what, in_groups_of(group, packing(PACK64, level, mode, k, &zero, 1, 52)), wanted64, NULL, 0);
        expect_call(tally, what, in_groups_of(group, packing(LENGTH32, level, mode, k, &zero, 1, 0)),
                    rows[row].refusal32 == 4 ? done(53) : wanted32, NULL, 0);
        expect_call(tally, what, in_groups_of(group, packing(LENGTH64, level, mode, k, &zero, 1, 0)),
                    rows[row].refusal64 == 4 ? done(53) : wanted64, NULL, 0);
    }
}

/* Pack and length of both widths, of one value 0 or of too many: the room is none, so that 4 comes last. */
static void expect_not_packed(struct tally *tally, const char *what, uint32_t level, uint32_t mode, uint32_t group,
                              const uint64_t *zeros, size_t n, uint64_t wanted)
{
    static const enum operation operations[] = {PACK32, PACK64, LENGTH32, LENGTH64};
    for (size_t i = 0; i < COUNT(operations); i++)
        expect_call(tally, what, in_groups_of(group, packing(operations[i], level, mode, 0, zeros, n, 0)), wanted, NULL, 0);
}

/* Sizes of groups other than 32 and 128, and 128 at a level below 13, are 2: after 1, before 3 and 4. */
static void test_other_sizes(struct tally *tally)
{
    static const uint32_t others[] = {0, 1, 16, 31, 33, 64, 127, 129, 160, 256, 288, 384, 1024, 0x80000080, UINT32_MAX};
    const size_t too_many = GWZ_MOST_VALUES + 1;
    uint64_t *zeros = (uint64_t *)allocated(8 * too_many);
    memset(zeros, 0, 8 * too_many);
    for (uint32_t level = 7; level <= 15; level++)
        for (uint32_t mode = 0; mode <= 3; mode++) {
            uint64_t wanted = refused(level < 8 || level > 14 ? 1 : 2, 0);
            for (size_t i = 0; i < COUNT(others); i++)
                expect_not_packed(tally, "another size", level, mode, others[i], zeros, 1, wanted);
            if (level < 13 || level > 14 || mode == 3)
                expect_not_packed(tally, "128 below level 13", level, mode, GWZ_GROUPS_OF_128, zeros, 1, wanted);
        }
    expect_not_packed(tally, "2 before 3: size 64", 13, 0, 64, zeros, too_many, refused(2, 0));
    expect_not_packed(tally, "2 before 3: 128 at level 12", 12, 0, 128, zeros, too_many, refused(2, 0));
    expect_not_packed(tally, "2 before 3: size 64 at level 14", 14, 1, 64, zeros, too_many, refused(2, 0));
    expect_not_packed(tally, "1 before 2 and 3", 15, 256, 64, zeros, too_many, refused(1, 0));
    expect_not_packed(tally, "3 at level 14", 14, 1, 32, zeros, too_many, refused(3, 0));
    expect_not_packed(tally, "3 in groups of 128", 13, 0, 128, zeros, too_many, refused(3, 0));
    free(zeros);
}

/* One byte or one number of a stream replaced. */
struct damage {
    const char *what;
    size_t place, bytes; /* 1: a byte; 4: a number */
    uint32_t number, refusal, detail;
};

/* Check, unpack and probe refuse the damaged stream alike, at the highest level. */
static void expect_damage(struct tally *tally, const uint8_t *stream, size_t len, struct damage damage)
{
    uint8_t *damaged = (uint8_t *)allocated(len);
    uint64_t wanted = refused(damage.refusal, damage.detail);
    memcpy(damaged, stream, len);
    if (damage.bytes == 4)
        put_number(damaged + damage.place, damage.number);
    else
        damaged[damage.place] = (uint8_t)damage.number;
    expect_call(tally, damage.what, reading(CHECK, GWZ_HIGHEST_LEVEL, damaged, len, 0), wanted, NULL, 0);
    expect_call(tally, damage.what, reading(UNPACK32, GWZ_HIGHEST_LEVEL, damaged, len, 4096), wanted, NULL, 0);
    expect_call(tally, damage.what, probing(PROBE32, GWZ_HIGHEST_LEVEL, damaged, len, 0), wanted, NULL, 0);
    free(damaged);
}

/* Mode 2 byte by byte, as docs/FORMAT.md prints it, and its own rules of the header. */
static void test_differences(struct tally *tally)
{
    static const struct damage damages[] = {
        {"k 1 in mode 2", 20, 4, 1, 8, 0}, {"k -1 in mode 2", 20, 4, UINT32_MAX, 8, 0},
        {"mode 2 and a need of 10", 8, 4, 10, 8, 0}, {"mode 0 and the need of mode 2", 16, 4, 0, 8, 0},
        {"written 10 below needed 11", 4, 4, 10, 8, 0}, {"a width that is not smallest", 52, 1, 5, 10, 0},
    };
    static const uint32_t values[] = {5, 7, 7, 4};
    const struct setting setting = {11, 32, 2, 0};
    const uint8_t data[] = {0x04, 0x4A, 0x50};
    uint8_t stream[55];
    size_t len = put_stream(stream, setting, 4, data, sizeof data);
    expect_call(tally, "packed", packing(PACK32, 11, GWZ_DIFFERENCES, 0, values, 4, 55), done(55), stream, 55);
    expect_call(tally, "unpacked", reading(UNPACK32, 11, stream, len, 4), done(4), values, 4);
    for (uint64_t i = 0; i < 4; i++)
        expect_call(tally, "probed", probing(PROBE32, 11, stream, len, i), done(GWZ_FINITE), &values[i], 1);
    expect_call(tally, "at level 10", reading(UNPACK32, 10, stream, len, 4), refused(7, 11), NULL, 0);
    for (size_t i = 0; i < COUNT(damages); i++)
        expect_damage(tally, stream, len, damages[i]);
}

/*
 * Differences across groups and chunks: 1,100 values that rest for 300 at a time, so that groups of no bits repeat the
 * value before them at both sizes of groups, and that go on past the chunk's end, where the difference begins again from 0.
 */
static void test_differences_of_a_walk(struct tally *tally)
{
    static uint32_t narrow[1100];
    static uint64_t wide[1100];
    static uint8_t stream[GWZ_LONGEST_STREAM(64, 32, 1100)];
    for (size_t i = 0; i < COUNT(narrow); i++) {
        narrow[i] = 0x3F800000u + (uint32_t)(i / 300 % 2 == 1 ? 77 : i * i % 89);
        wide[i] = 0x4000000000000000u - (i / 300 % 2 == 1 ? 77 : i * i % 89);
    }
    for (size_t g = 0; g < 2; g++) {
        uint32_t group = group_sizes[g], level = level_of_groups(group), mode = GWZ_DIFFERENCES;
        size_t len = gwz_answer(gwz_pack32(level, mode, 0, group, narrow, 1100, stream, sizeof stream));
        expect_call(tally, "unpacked", reading(UNPACK32, level, stream, len, 1100), done(1100), narrow, 1100);
        expect_call(tally, "length", in_groups_of(group, packing(LENGTH32, level, mode, 0, narrow, 1100, 0)),
                    done((uint32_t)len), NULL, 0);
        for (size_t i = 0; i < COUNT(narrow); i++)
            expect_call(tally, "probed", probing(PROBE32, level, stream, len, i), done(GWZ_FINITE), &narrow[i], 1);
        len = gwz_answer(gwz_pack64(level, mode, 0, group, wide, 1100, stream, sizeof stream));
        expect_call(tally, "unpacked", reading(UNPACK64, level, stream, len, 1100), done(1100), wide, 1100);
        expect_call(tally, "length", in_groups_of(group, packing(LENGTH64, level, mode, 0, wide, 1100, 0)),
                    done((uint32_t)len), NULL, 0);
        for (size_t i = 0; i < COUNT(wide); i++)
            expect_call(tally, "probed", probing(PROBE64, level, stream, len, i), done(GWZ_FINITE), &wide[i], 1);
    }
}

static void test_damaged_example(struct tally *tally)
{
    static const struct damage damages[] = {
        {"major 0", 0, 4, 0, 6, 0}, {"major 2", 0, 4, 2, 6, 0}, {"major 257", 0, 4, 257, 6, 0},
        {"need 15", 8, 4, 15, 7, 15}, {"need 2^32 - 1", 8, 4, UINT32_MAX, 7, UINT32_MAX},
        {"need 14, which nothing has", 8, 4, 14, 8, 0},
        {"need 7", 8, 4, 7, 8, 0}, {"need 9, not the setting's", 8, 4, 9, 8, 0},
        {"need 11, not the setting's", 8, 4, 11, 8, 0}, {"need 13, not the setting's", 8, 4, 13, 8, 0},
        {"written 7 below needed 8", 4, 4, 7, 8, 0}, {"width 16", 12, 4, 16, 8, 0},
        {"width 64 and the need of 32", 12, 4, 64, 8, 0}, {"mode 1 and the need of mode 0", 16, 4, 1, 8, 0},
        {"mode 2 and the need of mode 0", 16, 4, 2, 8, 0}, {"mode 3", 16, 4, 3, 8, 0},
        {"groups of 128 and the need of 32", 16, 4, 256, 8, 0}, {"mode 255", 16, 4, 255, 8, 0},
        {"k 1 in mode 0", 20, 4, 1, 8, 0}, {"n 1025 in 1 chunk", 24, 4, 1025, 8, 0},
        {"n 0 in 1 chunk", 24, 4, 0, 8, 0}, {"n above the limit", 24, 4, 1048577, 8, 0},
        {"2 chunks", 28, 4, 2, 8, 0}, {"no chunks", 28, 4, 0, 8, 0}, {"chunk table at 52", 32, 4, 52, 8, 0},
        {"data at 48", 36, 4, 48, 8, 0}, {"65 side parts", 40, 4, 65, 8, 0},
        {"data ends before its start", 44, 4, 51, 8, 0}, {"data ends past the bytes", 44, 4, 56, 8, 0},
        {"data ends at 2^32 - 1", 44, 4, UINT32_MAX, 8, 0},
        {"first chunk at 1", 48, 4, 1, 9, 0}, {"no data for a chunk", 44, 4, 52, 9, 0},
        {"a byte behind the data", 44, 4, 54, 9, 0}, {"a side part and no table", 40, 4, 1, 9, 0},
        {"w 33", 52, 1, 33, 10, 0}, {"w 255", 52, 1, 255, 10, 0}, {"w 4 is not smallest", 52, 1, 4, 10, 0},
        {"w 2: a byte left over", 52, 1, 2, 10, 0}, {"w 8: a byte missing", 52, 1, 8, 10, 0},
        {"a padding bit set", 54, 1, 0x81, 10, 0}, {"the lowest padding bit set", 54, 1, 0x03, 10, 0},
    };
    for (size_t i = 0; i < COUNT(damages); i++)
        expect_damage(tally, example, sizeof example, damages[i]);
}

static void test_damaged_setting(struct tally *tally)
{
    static const struct damage damages[] = {
        {"k 104", 20, 4, 104, 8, 0}, {"k -151", 20, 4, (uint32_t)-151, 8, 0},
        {"k 2^31", 20, 4, 0x80000000, 8, 0}, {"mode 0 and the need of mode 1", 16, 4, 0, 8, 0},
        {"written 8 below needed 9", 4, 4, 8, 8, 0},
    };
    const struct setting within = {9, 32, 1, 0xFFFFFFFE};
    const uint8_t no_bits[] = {0};
    uint8_t stream[53];
    size_t len = put_stream(stream, within, 1, no_bits, 1);
    for (size_t i = 0; i < COUNT(damages); i++)
        expect_damage(tally, stream, len, damages[i]);
}

/* Check and unpack name the first bad place, probe that of its own chunk. `bad`: each chunk's first bad group, or -1. */
static void expect_places(struct tally *tally, const char *what, const uint8_t *stream, size_t len, const int bad[3])
{
    const uint32_t zero = 0, level = GWZ_LEVEL_13;
    uint32_t chunk = bad[0] >= 0 ? 0 : bad[1] >= 0 ? 1 : 2;
    uint64_t wanted = refused(10, 32 * chunk + (uint32_t)bad[chunk]);
    expect_call(tally, what, reading(CHECK, level, stream, len, 0), wanted, NULL, 0);
    expect_call(tally, what, reading(UNPACK32, level, stream, len, 2049), wanted, NULL, 0);
    for (uint32_t own = 0; own < 3; own++) {
        int good = bad[own] < 0;
        expect_call(tally, what, probing(PROBE32, level, stream, len, 1024 * own),
                    good ? done(GWZ_FINITE) : refused(10, 32 * own + (uint32_t)bad[own]), &zero, good ? 1 : 0);
    }
}

/* The detail of refusal 10, chunk and group, and a probe that reads its own chunk only. */
static void test_damaged_chunks(struct tally *tally)
{
    static const struct damage tables[] = {
        {"second chunk at 0", 52, 4, 0, 9, 0}, {"third chunk before the second", 56, 4, 7, 9, 0},
        {"third chunk at 2^32 - 1", 56, 4, UINT32_MAX, 9, 0},
        {"w 1 in chunk 0, and no code of 1 bit", 60, 1, 1, 10, 0},
    };
    uint8_t stream[THREE_CHUNKS_BYTES];
    for (size_t g = 0; g < 2; g++) {
        uint32_t size = group_sizes[g], groups = 1024 / size; /* 32 or 8 in a full chunk */
        const struct damage at_end = {"third chunk at the data's end", 56, 4, 2 * groups + 1, 9, 0};
        size_t len = put_three_chunks(stream, size, groups, groups, 1);
        expect_call(tally, "three chunks", reading(CHECK, 13, stream, len, 0), done(2049), NULL, 0);
        expect_damage(tally, stream, len, at_end);
        for (size_t i = 0; i < COUNT(tables); i++)
            expect_damage(tally, stream, len, tables[i]);
        for (uint32_t i = 0; i < 2 * groups; i++) {
            int bad[3] = {-1, -1, -1};
            bad[i / groups] = (int)(i % groups);
            put_three_chunks(stream, size, groups, groups, 1);
            stream[60 + i] = 33;
            expect_places(tally, "a bad group", stream, len, bad);
            bad[2] = 0; /* the last chunk is bad too: the first bad one is named */
            stream[60 + 2 * groups] = 33;
            expect_places(tally, "two bad chunks", stream, len, bad);
        }
    }
}

/* Bytes left over count for the last group, after every other fault; missing ones for the group that lacks them. */
static void test_chunk_ends(struct tally *tally)
{
    uint8_t stream[THREE_CHUNKS_BYTES + 9];
    for (size_t g = 0; g < 2; g++) {
        uint32_t size = group_sizes[g], groups = 1024 / size;
        int end = (int)groups - 1;
        const int full[3] = {end, -1, -1}, second[3] = {-1, end, -1}, last[3] = {-1, -1, 0}, earlier[3] = {4, -1, -1};
        const int both[3] = {end - 1, end, -1}, without_codes[3] = {end - 2, -1, -1};
        size_t len = put_three_chunks(stream, size, groups + 1, groups, 1);
        expect_places(tally, "a byte behind a full chunk", stream, len, full);
        stream[60 + 4] = 33;
        expect_places(tally, "a bad group before it", stream, len, earlier);
        len = put_three_chunks(stream, size, groups, groups + 9, 1);
        expect_places(tally, "nine bytes behind the second chunk", stream, len, second);
        len = put_three_chunks(stream, size, groups, groups, 2);
        expect_places(tally, "a byte behind the last chunk", stream, len, last);
        len = put_three_chunks(stream, size, groups - 2, groups + 2, 1);
        expect_places(tally, "no width byte for a group, and bytes behind the next chunk", stream, len, both);
        len = put_three_chunks(stream, size, groups, groups, 1);
        stream[60 + end - 2] = 1;
        expect_places(tally, "no codes for a group", stream, len, without_codes);
    }
}

/* ---- Groups of 128 */

/*
 * A list of 130 values as docs/FORMAT.md prints it: 0, but the pattern 00000001 at the places 1, 127 and 129. The codes of these
 * are 4 in mode 0, and 2 in mode 1 with the smallest k, where the bin is the smallest number above 0. In mode 2 the differences 1
 * and -1 have the codes 2 and 1.
 */
static uint32_t listed_in_128(size_t i)
{
    return i == 1 || i == 127 || i == 129 ? 1 : 0;
}

/* The codes of the list, w bits each, in two groups: 128 codes, and 2. Returns the bytes. */
static size_t put_two_groups(uint8_t *data, uint32_t mode)
{
    size_t w = mode == GWZ_LOSSLESS ? 3 : 2, bytes[2] = {1 + 128 * w / 8, 2};
    memset(data, 0, bytes[0] + bytes[1]);
    data[0] = data[bytes[0]] = (uint8_t)w;
    uint32_t before = 0;
    for (size_t i = 0; i < 130; i++) {
        uint32_t value = listed_in_128(i);
        uint32_t code = mode == GWZ_LOSSLESS ? 4 * value : mode == GWZ_WITHIN_TOLERANCE ? 2 * value
            : value == before ? 0 : value > before ? 2 : 1;
        size_t bit = i % 128 * w, at = i < 128 ? 1 : bytes[0] + 1;
        for (size_t b = 0; b < w; b++)
            if ((code >> b & 1) != 0)
                data[at + (bit + b) / 8] |= (uint8_t)(1u << (bit + b) % 8);
        before = value;
    }
    return bytes[0] + bytes[1];
}

/* The list in each mode and width, written by the levels 13 and 14, which have no half in it, and read at every level. */
static void test_groups_of_128(struct tally *tally)
{
    uint32_t narrow[130];
    uint64_t wide[130];
    for (size_t i = 0; i < 130; i++)
        wide[i] = narrow[i] = listed_in_128(i);
    for (uint32_t i = 0; i < 12; i++) {
        uint32_t mode = i % 3, width = i / 3 % 2 == 0 ? 32 : 64, writer = i / 6 == 0 ? 13 : 14;
        int32_t k = mode != 1 ? 0 : width == 32 ? GWZ_SMALLEST_K32 : GWZ_SMALLEST_K64;
        const struct setting setting = {writer, width, 256 + mode, (uint32_t)k};
        enum operation pack = width == 32 ? PACK32 : PACK64, length = width == 32 ? LENGTH32 : LENGTH64;
        enum operation unpack = width == 32 ? UNPACK32 : UNPACK64, probe = width == 32 ? PROBE32 : PROBE64;
        const void *values = width == 32 ? (const void *)narrow : (const void *)wide;
        uint8_t data[64], stream[128];
        size_t len = put_stream(stream, setting, 130, data, put_two_groups(data, mode));
        expect_call(tally, "length", in_groups_of(128, packing(length, writer, mode, k, values, 130, 0)), done(len), NULL, 0);
        expect_call(tally, "packed", in_groups_of(128, packing(pack, writer, mode, k, values, 130, len)), done(len), stream, len);
        for (uint32_t level = 8; level <= GWZ_HIGHEST_LEVEL; level++) {
            int read = level >= 13;
            expect_call(tally, "checked", reading(CHECK, level, stream, len, 0), read ? done(130) : refused(7, 13), NULL, 0);
            expect_call(tally, "unpacked", reading(unpack, level, stream, len, 130), read ? done(130) : refused(7, 13), values,
                        read ? 130 : 0);
            for (size_t at = 0; at < 130; at++)
                expect_call(tally, "probed", probing(probe, level, stream, len, at), read ? done(GWZ_FINITE) : refused(7, 13),
                            width == 32 ? (const void *)&narrow[at] : (const void *)&wide[at], read ? 1 : 0);
        }
    }
}

/* The list in mode 0 with a number of the header or a byte altered. Group 0 is at 52 to 100, group 1 at 101 and 102. */
static void test_damaged_groups_of_128(struct tally *tally)
{
    static const struct damage damages[] = {
        {"mode 3", 16, 4, 3, 8, 0}, {"mode 255", 16, 4, 255, 8, 0}, {"mode 259", 16, 4, 259, 8, 0},
        {"mode 384", 16, 4, 384, 8, 0}, {"mode 512", 16, 4, 512, 8, 0}, {"mode 514", 16, 4, 514, 8, 0},
        {"mode 2^16 + 256", 16, 4, 0x10100, 8, 0}, {"mode 2^31 + 256", 16, 4, 0x80000100, 8, 0},
        {"mode 2^32 - 1", 16, 4, UINT32_MAX, 8, 0},
        {"groups of 32 and the need of 128", 16, 4, 0, 8, 0}, {"mode 2 and the need of 128", 16, 4, 2, 8, 0},
        {"k 1 in mode 0", 20, 4, 1, 8, 0}, {"k 104 in mode 1", 20, 4, 104, 8, 0},
        {"need 8", 8, 4, 8, 8, 0}, {"need 12", 8, 4, 12, 8, 0}, {"need 14", 8, 4, 14, 8, 0}, {"need 15", 8, 4, 15, 7, 15},
        {"written 12", 4, 4, 12, 8, 0},
        {"n 1025 in 1 chunk", 24, 4, 1025, 8, 0},
        {"w 33 of group 0", 52, 1, 33, 10, 0}, {"w 255 of group 0", 52, 1, 255, 10, 0},
        {"w 2 of group 0: bytes left over", 52, 1, 2, 10, 1},
        {"w 4 of group 0: bytes missing", 52, 1, 4, 10, 0}, {"w 0 of group 0: bytes left over", 52, 1, 0, 10, 1},
        {"w 33 of group 1", 101, 1, 33, 10, 1}, {"w 4 of group 1 is not smallest", 101, 1, 4, 10, 1},
        {"w 5 of group 1: a byte missing", 101, 1, 5, 10, 1}, {"w 0 of group 1: a byte left over", 101, 1, 0, 10, 1},
        {"the lowest padding bit", 102, 1, 0x60, 10, 1}, {"the highest padding bit", 102, 1, 0xA0, 10, 1},
        {"129 values: bits behind them", 24, 4, 129, 10, 1}, {"one chunk of 128: a group left over", 24, 4, 128, 10, 0},
    };
    const struct setting within = {13, 32, 257, 0xFFFFFFFE}, plain = {13, 32, 256, 0};
    uint8_t data[2 + 16 * 31 + 4], stream[sizeof data + 52], damaged[sizeof data + 52];
    size_t bytes = put_two_groups(data, GWZ_LOSSLESS), len = put_stream(stream, plain, 130, data, bytes);
    for (size_t i = 0; i < COUNT(damages); i++)
        expect_damage(tally, stream, len, damages[i]);

    /* The same bytes as groups of 32, with the need of that: group 0 is good, the next have no bits, and bytes are left over. */
    memcpy(damaged, stream, len);
    put_number(damaged + 16, 0);
    put_number(damaged + 8, 8);
    expect_call(tally, "read in groups of 32", reading(CHECK, 13, damaged, len, 0), refused(10, 4), NULL, 0);

    /* Mode 1 at k = -2, 129 codes of 31 bits: the largest u is 905969663. Its groups begin at 52 and 549. */
    memset(data, 0, sizeof data);
    data[0] = data[1 + 16 * 31] = 31;
    put_number(data + 1, 2u * 905969663u);
    put_number(data + 2 + 16 * 31, 2u * 905969663u);
    len = put_stream(stream, within, 129, data, 2 + 16 * 31 + 4);
    expect_call(tally, "largest u in both groups", reading(CHECK, 13, stream, len, 0), done(129), NULL, 0);
    for (uint32_t group = 0; group < 2; group++) {
        memcpy(damaged, stream, len);
        put_number(damaged + 53 + 497 * group, 2u * 905969664u);
        expect_call(tally, "u too large", reading(CHECK, 13, damaged, len, 0), refused(10, group), NULL, 0);
        expect_call(tally, "u too large", reading(UNPACK32, 13, damaged, len, 129), refused(10, group), NULL, 0);
        expect_call(tally, "u too large", probing(PROBE32, 13, damaged, len, 0), refused(10, group), NULL, 0);
    }
}

/* Two side parts behind the example: ids 1 and 9, of 2 bytes and none. A reader skips them: their ids are low. */
static void test_side_parts(struct tally *tally)
{
    static const uint32_t entries[] = {1, 79, 2, 9, 81, 0};
    static const struct damage damages[] = {
        {"ids equal", 67, 4, 1, 9, 0}, {"ids fall", 67, 4, 0, 9, 0}, {"a gap behind the table", 59, 4, 80, 9, 0},
        {"a gap between parts", 71, 4, 82, 9, 0}, {"a part ends past the stream", 75, 4, 1, 9, 0},
        {"a length of 2^32 - 1", 63, 4, UINT32_MAX, 9, 0}, {"one entry fewer", 40, 4, 1, 9, 0},
    };
    uint8_t stream[81];
    memcpy(stream, example, sizeof example);
    put_number(stream + 40, 2);
    for (size_t i = 0; i < COUNT(entries); i++)
        put_number(stream + 55 + 4 * i, entries[i]);
    stream[79] = stream[80] = 0xEE;
    expect_call(tally, "checked", reading(CHECK, 8, stream, 81, 0), done(3), NULL, 0);
    expect_call(tally, "unpacked", reading(UNPACK32, 8, stream, 81, 3), done(3), example_values, 3);
    expect_call(tally, "probed", probing(PROBE32, 8, stream, 81, 1), done(GWZ_FINITE), &example_values[1], 1);
    expect_call(tally, "cut", reading(CHECK, 8, stream, 80, 0), refused(9, 0), NULL, 0);
    for (size_t i = 0; i < COUNT(damages); i++)
        expect_damage(tally, stream, sizeof stream, damages[i]);
}

/* The example with three side parts, of 2 bytes, of none and of 1, as a writer of level 12 may leave it. */
enum { WITH_IDS = 55 + 36 + 3 };

static void put_ids(uint8_t *stream, uint32_t need, uint32_t first, uint32_t second, uint32_t third)
{
    const uint32_t entries[] = {first, 91, 2, second, 93, 0, third, 93, 1};
    memcpy(stream, example, sizeof example);
    put_number(stream + 4, need > 12 ? need : 12);
    put_number(stream + 8, need);
    put_number(stream + 40, 3);
    for (size_t i = 0; i < COUNT(entries); i++)
        put_number(stream + 55 + 4 * i, entries[i]);
    stream[91] = stream[92] = stream[93] = 0xEE;
}

/* All three readers at a level; `wanted` is the refusal, or done(3) where the values are handed out. */
static void expect_ids(struct tally *tally, const char *what, uint32_t level, const uint8_t *stream, uint64_t wanted)
{
    int read = gwz_refusal(wanted) == GWZ_DONE;
    expect_call(tally, what, reading(CHECK, level, stream, WITH_IDS, 0), wanted, NULL, 0);
    expect_call(tally, what, reading(UNPACK32, level, stream, WITH_IDS, 3), wanted, example_values, read ? 3 : 0);
    expect_call(tally, what, probing(PROBE32, level, stream, WITH_IDS, 2), read ? done(GWZ_FINITE) : wanted,
                &example_values[2], read ? 1 : 0);
}

/* Ids on both sides of 2^31, with the right need and with others, at both sizes of groups. */
static void test_must_be_understood(struct tally *tally)
{
    const uint32_t high = GWZ_FIRST_HIGH_ID;
    uint8_t stream[WITH_IDS];
    for (uint32_t level = GWZ_LEVEL_8; level <= GWZ_HIGHEST_LEVEL; level++) {
        int knows = level >= GWZ_LEVEL_12;
        put_ids(stream, 12, 7, high, UINT32_MAX);
        expect_ids(tally, "a low id and two high ones", level, stream, knows ? refused(GWZ_MUST_BE_UNDERSTOOD, high) : refused(7, 12));
        put_ids(stream, 12, 0, 1, high + 5);
        expect_ids(tally, "the last id alone is high", level, stream, knows ? refused(GWZ_MUST_BE_UNDERSTOOD, high + 5) : refused(7, 12));
        put_ids(stream, 8, 7, 8, high - 1);
        expect_ids(tally, "the highest id that is skipped", level, stream, done(3));
        put_ids(stream, 12, 7, 8, high - 1);
        expect_ids(tally, "the need of a high id, and none", level, stream, knows ? refused(8, 0) : refused(7, 12));
        put_ids(stream, 8, 7, 8, high);
        expect_ids(tally, "a high id, and a need that is too small", level, stream, refused(8, 0));
        put_ids(stream, 13, 7, 8, high);
        expect_ids(tally, "a high id, and the need of groups of 128", level, stream, level < 13 ? refused(7, 13) : refused(8, 0));
        put_ids(stream, 14, 7, 8, high);
        expect_ids(tally, "a high id, and a need that is too large", level, stream, level < 14 ? refused(7, 14) : refused(8, 0));
        put_ids(stream, 14, 7, 8, high - 1);
        expect_ids(tally, "low ids, and a need that nothing has", level, stream, level < 14 ? refused(7, 14) : refused(8, 0));
        put_ids(stream, 15, 7, 8, high);
        expect_ids(tally, "a need above every level", level, stream, refused(7, 15));
        /* In groups of 128 the three values are the same bytes: the need is 13 with a high id and without. */
        put_ids(stream, 13, 7, high, UINT32_MAX);
        put_number(stream + 16, 256);
        expect_ids(tally, "high ids in groups of 128", level, stream,
                   level < 13 ? refused(7, 13) : refused(GWZ_MUST_BE_UNDERSTOOD, high));
        put_ids(stream, 13, 7, 8, high - 1);
        put_number(stream + 16, 256);
        expect_ids(tally, "low ids in groups of 128", level, stream, level < 13 ? refused(7, 13) : done(3));
        put_number(stream + 4, 14);
        put_number(stream + 8, 14);
        expect_ids(tally, "groups of 128, and a need that nothing has", level, stream,
                   level < 14 ? refused(7, 14) : refused(8, 0));
        put_ids(stream, 12, 7, 8, high);
        put_number(stream + 16, 256);
        expect_ids(tally, "groups of 128, and the need of a high id", level, stream, level < 12 ? refused(7, 12) : refused(8, 0));
    }
}

/*
 * The late 8 and 15 come behind 14, 4, 11 and 9 and before 10: with the need of the ids, with one that is too small, and with a
 * need of 14 at level 14.
 */
static void test_order_of_ids(struct tally *tally)
{
    const uint32_t high = GWZ_FIRST_HIGH_ID;
    const struct { uint32_t level, need; uint64_t wanted; } rows[] = {
        {12, 12, refused(15, high)}, {12, 9, refused(8, 0)}, {14, 12, refused(15, high)}, {14, 14, refused(8, 0)}
    };
    uint8_t stream[WITH_IDS];
    for (size_t i = 0; i < COUNT(rows); i++) {
        uint32_t level = rows[i].level, need = rows[i].need;
        put_ids(stream, need, 7, high, UINT32_MAX);
        expect_call(tally, "14 before the ids", reading(UNPACK64, level, stream, WITH_IDS, 3), refused(14, 0), NULL, 0);
        expect_call(tally, "14 before the ids", probing(PROBE64, level, stream, WITH_IDS, 0), refused(14, 0), NULL, 0);
        expect_call(tally, "4 before the ids", reading(UNPACK32, level, stream, WITH_IDS, 2), refused(4, 3), NULL, 0);
        expect_call(tally, "11 before the ids", probing(PROBE32, level, stream, WITH_IDS, 3), refused(11, 0), NULL, 0);
        stream[52] = 33;
        expect_ids(tally, "the ids before 10", level, stream, rows[i].wanted);
        put_number(stream + 48, 1);
        expect_ids(tally, "9 before the ids: the chunk table", level, stream, refused(9, 0));
        put_ids(stream, need, high, 7, UINT32_MAX);
        expect_ids(tally, "9 before the ids: the side table", level, stream, refused(9, 0));
    }
}

/* Where several refusals apply, the first of 1 5 6 7 8 14 4 9 8 15 10 (unpack) or 1 5 6 7 8 14 11 9 8 15 10 (probe). */
static void test_reading_order(struct tally *tally)
{
    uint8_t bad[55];
    memcpy(bad, example, sizeof bad);
    bad[52] = 33;
    expect_call(tally, "unpack: 4 before 10", reading(UNPACK32, 8, bad, 55, 2), refused(4, 3), NULL, 0);
    expect_call(tally, "probe: 11 before 10", probing(PROBE32, 8, bad, 55, 3), refused(11, 0), NULL, 0);
    bad[48] = 1;
    expect_call(tally, "check: 9 before 10", reading(CHECK, 8, bad, 55, 0), refused(9, 0), NULL, 0);
    expect_call(tally, "unpack: 4 before 9", reading(UNPACK32, 8, bad, 55, 2), refused(4, 3), NULL, 0);
    expect_call(tally, "probe: 11 before 9", probing(PROBE32, 8, bad, 55, 3), refused(11, 0), NULL, 0);
    expect_call(tally, "unpack: 14 before 4", reading(UNPACK64, 8, bad, 55, 0), refused(14, 0), NULL, 0);
    expect_call(tally, "probe: 14 before 11", probing(PROBE64, 8, bad, 55, 3), refused(14, 0), NULL, 0);
    bad[32] = 0;
    expect_call(tally, "unpack: 8 before 14", reading(UNPACK64, 8, bad, 55, 0), refused(8, 0), NULL, 0);
    expect_call(tally, "probe: 8 before 14", probing(PROBE64, 8, bad, 55, 3), refused(8, 0), NULL, 0);
    bad[8] = 10;
    expect_call(tally, "need 10 stops level 9", reading(CHECK, 9, bad, 55, 0), refused(7, 10), NULL, 0);
    expect_call(tally, "need 10 at level 10 is wrong", reading(CHECK, 10, bad, 55, 0), refused(8, 0), NULL, 0);
    bad[0] = 2;
    expect_call(tally, "6 before 7", reading(CHECK, 9, bad, 55, 0), refused(6, 0), NULL, 0);
    expect_call(tally, "5 before 6", reading(UNPACK64, 9, bad, 47, 0), refused(5, 0), NULL, 0);
    expect_call(tally, "1 before 5", probing(PROBE64, 7, bad, 47, 0), refused(1, 0), NULL, 0);
}

/* ---- Summaries */

/* What a summary says of one chunk. */
struct entry {
    uint32_t nans;
    uint64_t smallest, largest;
};

static size_t put_entries(uint8_t *at, uint32_t width, const struct entry *entries, size_t count)
{
    size_t value = width / 8, size = 4 + 2 * value;
    for (size_t i = 0; i < count; i++) {
        put_number(at + i * size, entries[i].nans);
        for (size_t byte = 0; byte < value; byte++) {
            at[i * size + 4 + byte] = (uint8_t)(entries[i].smallest >> 8 * byte & 0xFF);
            at[i * size + 4 + value + byte] = (uint8_t)(entries[i].largest >> 8 * byte & 0xFF);
        }
    }
    return count * size;
}

/* The stream with a summary beside its data, for the caller to free. */
static uint8_t *copy_with(const uint8_t *stream, size_t len, uint32_t width, const struct entry *entries, size_t count,
                          size_t *copy_len)
{
    uint8_t *copy = (uint8_t *)allocated(len + 12 + count * (4 + width / 4));
    memcpy(copy, stream, len);
    put_number(copy + 40, 1);
    put_number(copy + len, GWZ_SUMMARY_ID);
    put_number(copy + len + 4, (uint32_t)len + 12);
    size_t bytes = put_entries(copy + len + 12, width, entries, count);
    put_number(copy + len + 8, (uint32_t)bytes);
    *copy_len = len + 12 + bytes;
    return copy;
}

/* Added, tested, and read as the stream without it by every reader at every level, known or not. */
static void expect_summary(struct tally *tally, const char *what, const uint8_t *stream, size_t len, const uint8_t *copy,
                           size_t copy_len)
{
    uint32_t n = gwz_answer(gwz_check(GWZ_HIGHEST_LEVEL, stream, len)), room = (uint32_t)copy_len;
    uint64_t *values = (uint64_t *)allocated(8 * (size_t)n), pattern;
    for (uint32_t level = 7; level <= GWZ_HIGHEST_LEVEL + 1; level++) {
        uint64_t checked = gwz_check(level, stream, len);
        int accepted = gwz_refusal(checked) == GWZ_DONE;
        expect_call(tally, what, reading(ADD_SUMMARY, level, stream, len, copy_len), accepted ? done(room) : checked, copy,
                    accepted ? copy_len : 0);
        expect_call(tally, what, reading(TEST_SUMMARY, level, copy, copy_len, 0), checked, NULL, 0);
        expect_call(tally, what, reading(CHECK, level, copy, copy_len, 0), checked, NULL, 0);
        for (int wide = 0; wide <= 1; wide++) {
            enum operation unpack = wide ? UNPACK64 : UNPACK32, probe = wide ? PROBE64 : PROBE32;
            uint64_t got = wide ? gwz_unpack64(level, stream, len, values, n)
                                : gwz_unpack32(level, stream, len, (uint32_t *)values, n);
            expect_call(tally, what, reading(unpack, level, copy, copy_len, n), got, values,
                        gwz_refusal(got) == GWZ_DONE ? n : 0);
            got = wide ? gwz_probe64(level, stream, len, n / 2, &pattern)
                       : gwz_probe32(level, stream, len, n / 2, (uint32_t *)&pattern);
            expect_call(tally, what, probing(probe, level, copy, copy_len, n / 2), got, &pattern,
                        gwz_refusal(got) == GWZ_DONE ? 1 : 0);
        }
    }
    expect_call(tally, what, reading(ADD_SUMMARY, GWZ_HIGHEST_LEVEL, stream, len, copy_len + 99), done(room), copy, copy_len);
    expect_call(tally, what, reading(ADD_SUMMARY, GWZ_HIGHEST_LEVEL, stream, len, copy_len - 1), refused(4, room), NULL, 0);
    expect_call(tally, what, reading(ADD_SUMMARY, GWZ_HIGHEST_LEVEL, stream, len, 0), refused(4, room), NULL, 0);
    expect_call(tally, what, reading(ADD_SUMMARY, GWZ_HIGHEST_LEVEL, copy, copy_len, 2 * copy_len), refused(16, 0), NULL, 0);
    expect_call(tally, what, reading(TEST_SUMMARY, GWZ_HIGHEST_LEVEL, stream, len, 0), refused(17, 0), NULL, 0);
    free(values);
}

/* The chunks from x on; a room that is one too short is refused. */
static void expect_list(struct tally *tally, const char *what, enum operation list, uint64_t x, const uint8_t *copy,
                        size_t copy_len, const uint32_t *chunks, uint32_t count)
{
    expect_call(tally, what, listing(list, GWZ_HIGHEST_LEVEL, x, copy, copy_len, count), done(count), chunks, count);
    expect_call(tally, what, listing(list, GWZ_HIGHEST_LEVEL, x, copy, copy_len, count + 9), done(count), chunks, count);
    if (count > 0)
        expect_call(tally, what, listing(list, GWZ_HIGHEST_LEVEL, x, copy, copy_len, count - 1), refused(4, count), NULL, 0);
}

/* The example with its summary: no not-a-number, -0, which stands below 0, and 2^-149. Its last 24 bytes by hand. */
static const uint8_t example_summary[79] = {
    1, 0, 0, 0, 8, 0, 0, 0, 8, 0, 0, 0, 32, 0, 0, 0, 0, 0, 0, 0, 0, 0, 0, 0, 3, 0, 0, 0, 1, 0, 0, 0,
    48, 0, 0, 0, 52, 0, 0, 0, 1, 0, 0, 0, 55, 0, 0, 0, 0, 0, 0, 0, 0x03, 0x10, 0x01,
    1, 0, 0, 0, 67, 0, 0, 0, 12, 0, 0, 0, 0, 0, 0, 0, 0, 0, 0, 0x80, 1, 0, 0, 0
};

static void test_example_summary(struct tally *tally)
{
    static const struct { const char *what; uint32_t x, count; } from[] = {
        {"-infinity", 0xFF800000, 1}, {"-2^-149", 0x80000001, 1}, {"-0", 0x80000000, 1}, {"0", 0, 1}, {"2^-149", 1, 1},
        {"2^-148", 2, 0}, {"infinity", 0x7F800000, 0},
    };
    static const uint32_t nans[] = {0x7F800001, 0x7FC00000, 0xFF800001, 0xFFFFFFFF};
    const uint32_t first = 0;
    uint8_t altered[79];
    expect_summary(tally, "the example", example, sizeof example, example_summary, sizeof example_summary);
    for (size_t i = 0; i < COUNT(from); i++)
        expect_list(tally, from[i].what, CHUNKS_FROM32, from[i].x, example_summary, sizeof altered, &first, from[i].count);
    for (size_t i = 0; i < COUNT(nans); i++)
        expect_call(tally, "a not-a-number", listing(CHUNKS_FROM32, 8, nans[i], example_summary, 79, 1), refused(2, 0), NULL,
                    0);
    for (size_t room = 0; room < 79; room++)
        expect_call(tally, "too short", reading(ADD_SUMMARY, 8, example, 55, room), refused(4, 79), NULL, 0);
    for (size_t len = 0; len < 79; len++) {
        uint64_t cut = refused(len < 48 ? 5 : len < 55 ? 8 : 9, 0);
        expect_call(tally, "cut", reading(TEST_SUMMARY, 8, example_summary, len, 0), cut, NULL, 0);
        expect_call(tally, "cut", listing(CHUNKS_FROM32, 8, 0, example_summary, len, 1), cut, NULL, 0);
        expect_call(tally, "cut", reading(ADD_SUMMARY, 8, example_summary, len, 99), cut, NULL, 0);
    }
    for (size_t bit = 0; bit < 8 * 12; bit++) {
        memcpy(altered, example_summary, sizeof altered);
        altered[67 + bit / 8] ^= (uint8_t)(1u << bit % 8);
        expect_call(tally, "a bit off", reading(CHECK, 8, altered, 79, 0), done(3), NULL, 0);
        expect_call(tally, "a bit off", reading(UNPACK32, 8, altered, 79, 3), done(3), example_values, 3);
        expect_call(tally, "a bit off", reading(TEST_SUMMARY, 8, altered, 79, 0), refused(17, 0), NULL, 0);
        expect_call(tally, "a bit off", listing(CHUNKS_FROM32, 8, 0, altered, 79, 1), refused(17, 0), NULL, 0);
    }
}

/* The other summaries that docs/FORMAT.md prints: of what comes back within a tolerance, of width 64, of one value; of none. */
static void test_printed_summaries(struct tally *tally)
{
    static const struct entry within = {0, 0xBF800000, 0x3F800000}, wide = {1, 0x3FF0000000000000, 0x3FF0000000000000};
    static const uint32_t values32[] = {0x3E800000, 0xBF400000, 0xBDCCCCCD, 0x3F800000};
    static const uint64_t values64[] = {0x3FF0000000000000, 0x7FF8000000000000};
    static const uint32_t narrow[] = {0x80000000, 0x7FC00000};
    static const struct entry alone[] = {{0, 0x80000000, 0x80000000}, {1, 0, 0}};
    const uint32_t first = 0;
    uint8_t stream[GWZ_LONGEST_STREAM(64, 32, 4)];
    size_t copy_len, len = gwz_answer(gwz_pack32(10, 1, -2, GWZ_GROUPS_OF_32, values32, 4, stream, sizeof stream));
    uint8_t *copy = copy_with(stream, len, 32, &within, 1, &copy_len);
    expect_summary(tally, "within a tolerance", stream, len, copy, copy_len);
    expect_list(tally, "within a tolerance, from 1", CHUNKS_FROM32, 0x3F800000, copy, copy_len, &first, 1);
    free(copy);

    len = gwz_answer(gwz_pack64(10, 1, -2, GWZ_GROUPS_OF_32, values64, 2, stream, sizeof stream));
    copy = copy_with(stream, len, 64, &wide, 1, &copy_len);
    expect_summary(tally, "width 64", stream, len, copy, copy_len);
    expect_list(tally, "width 64, from 1", CHUNKS_FROM64, 0x3FF0000000000000, copy, copy_len, &first, 1);
    expect_list(tally, "width 64, from above 1", CHUNKS_FROM64, 0x3FF0000000000001, copy, copy_len, &first, 0);
    expect_call(tally, "width 64, from a not-a-number", listing(CHUNKS_FROM64, 10, 0x7FF0000000000001, copy, copy_len, 1),
                refused(2, 0), NULL, 0);
    free(copy);

    for (uint32_t i = 0; i < 2; i++) {
        len = gwz_answer(gwz_pack32(8, GWZ_LOSSLESS, 0, GWZ_GROUPS_OF_32, &narrow[i], 1, stream, sizeof stream));
        copy = copy_with(stream, len, 32, &alone[i], 1, &copy_len);
        expect_summary(tally, "one value", stream, len, copy, copy_len);
        expect_list(tally, "-0 is at least 0, a not-a-number is not", CHUNKS_FROM32, 0, copy, copy_len, &first, 1 - i);
        free(copy);
    }
    for (uint32_t width = 32; width <= 64; width += 32) {
        const struct setting empty = {10, width, 0, 0};
        put_header(stream, empty, 0, 0);
        copy = copy_with(stream, 48, width, NULL, 0, &copy_len);
        expect_summary(tally, "no values", stream, 48, copy, copy_len);
        expect_list(tally, "no values", width == 32 ? CHUNKS_FROM32 : CHUNKS_FROM64, 0, copy, copy_len, NULL, 0);
        free(copy);
    }
}

/*
 * Six chunks: 0 and one -0; -0; not-a-numbers; -1, one -infinity and a not-a-number; 1, one -1 and an infinity; and five
 * values, of which one is -0 and the others are not-a-numbers. Every mode gives them back as they are, in groups of 32 and 128.
 */
enum { SUMMED = 5 * 1024 + 5 };

static uint64_t summed_value(size_t i)
{
    const uint64_t sign = 0x8000000000000000, one = 0x3FF0000000000000, infinity = 0x7FF0000000000000;
    const uint64_t nan = infinity + ((uint64_t)1 << 40) + (i % 2 == 0 ? sign : 0);
    switch (i / 1024) {
    case 0: return i == 500 ? sign : 0;
    case 1: return sign;
    case 2: return nan;
    case 3: return i % 1024 == 3 ? sign + infinity : i % 1024 == 4 ? nan : sign + one;
    case 4: return i % 1024 == 1023 ? infinity : i % 1024 == 0 ? sign + one : one;
    default: return i % 1024 == 1 ? sign : nan;
    }
}

/* A pattern of 64 bits whose fraction has zeros at its end, in 32 bits. */
static uint32_t narrowed(uint64_t pattern)
{
    uint32_t sign = (uint32_t)(pattern >> 63) << 31, fraction = (uint32_t)(pattern >> 29) & 0x7FFFFF;
    uint32_t exponent = (uint32_t)(pattern >> 52) & 0x7FF;
    return sign + (exponent == 0x7FF ? 0x7F800000u : exponent == 0 ? 0 : (exponent - 896) << 23) + fraction;
}

/* Each number of each entry, one off: the summary is false, and the stream as good as it was. */
static void expect_false(struct tally *tally, enum operation list, size_t value, uint8_t *copy, size_t copy_len, size_t chunks)
{
    size_t size = 4 + 2 * value, first = copy_len - chunks * size;
    for (size_t i = 0; i < 3 * chunks; i++) {
        uint8_t *number = copy + first + i / 3 * size + (i % 3 == 0 ? 0 : i % 3 == 1 ? 4 : 4 + value);
        *number ^= 1;
        expect_call(tally, "one off", reading(CHECK, 13, copy, copy_len, 0), done(SUMMED), NULL, 0);
        expect_call(tally, "one off", reading(TEST_SUMMARY, 13, copy, copy_len, 0), refused(17, 0), NULL, 0);
        expect_call(tally, "one off", listing(list, 13, 0, copy, copy_len, chunks), refused(17, 0), NULL, 0);
        *number ^= 1;
    }
}

static void test_six_chunks(struct tally *tally)
{
    static const struct entry wide_entries[] = {
        {0, 0x8000000000000000, 0}, {0, 0x8000000000000000, 0x8000000000000000}, {1024, 0, 0},
        {1, 0xFFF0000000000000, 0xBFF0000000000000}, {0, 0xBFF0000000000000, 0x7FF0000000000000},
        {4, 0x8000000000000000, 0x8000000000000000}
    };
    static const struct { const char *what; uint32_t narrow; uint64_t wide; uint32_t count, chunks[6]; } from[] = {
        {"-infinity", 0xFF800000, 0xFFF0000000000000, 5, {0, 1, 3, 4, 5}},
        {"-1", 0xBF800000, 0xBFF0000000000000, 5, {0, 1, 3, 4, 5}},
        {"above -1", 0xBF7FFFFF, 0xBFEFFFFFFFFFFFFF, 4, {0, 1, 4, 5}},
        {"-0", 0x80000000, 0x8000000000000000, 4, {0, 1, 4, 5}},
        {"0", 0, 0, 4, {0, 1, 4, 5}},
        {"the smallest above 0", 1, 1, 1, {4}},
        {"infinity", 0x7F800000, 0x7FF0000000000000, 1, {4}},
    };
    static uint32_t narrow[SUMMED];
    static uint64_t wide[SUMMED];
    static uint8_t stream[GWZ_LONGEST_STREAM(64, 32, SUMMED)];
    struct entry entries[6];
    for (size_t i = 0; i < SUMMED; i++) {
        wide[i] = summed_value(i);
        narrow[i] = narrowed(wide[i]);
    }
    for (size_t i = 0; i < 6; i++) {
        entries[i].nans = wide_entries[i].nans;
        entries[i].smallest = narrowed(wide_entries[i].smallest);
        entries[i].largest = narrowed(wide_entries[i].largest);
    }
    for (uint32_t setting = 0; setting < 6; setting++) {
        uint32_t mode = setting % 3, group = group_sizes[setting / 3], level = level_of_groups(group);
        int32_t k = mode == 1 ? -8 : 0;
        size_t copy_len, len = gwz_answer(gwz_pack32(level, mode, k, group, narrow, SUMMED, stream, sizeof stream));
        uint8_t *copy = copy_with(stream, len, 32, entries, 6, &copy_len);
        expect_summary(tally, "six chunks of 32 bits", stream, len, copy, copy_len);
        for (size_t i = 0; i < COUNT(from); i++)
            expect_list(tally, from[i].what, CHUNKS_FROM32, from[i].narrow, copy, copy_len, from[i].chunks, from[i].count);
        expect_false(tally, CHUNKS_FROM32, 4, copy, copy_len, 6);
        free(copy);
        len = gwz_answer(gwz_pack64(level, mode, k, group, wide, SUMMED, stream, sizeof stream));
        copy = copy_with(stream, len, 64, wide_entries, 6, &copy_len);
        expect_summary(tally, "six chunks of 64 bits", stream, len, copy, copy_len);
        for (size_t i = 0; i < COUNT(from); i++)
            expect_list(tally, from[i].what, CHUNKS_FROM64, from[i].wide, copy, copy_len, from[i].chunks, from[i].count);
        expect_false(tally, CHUNKS_FROM64, 8, copy, copy_len, 6);
        free(copy);
    }
}

/* The example with up to three side parts; the summary is the one with the id 1, and its bytes are given. */
static size_t put_parts(uint8_t *stream, const uint32_t *ids, size_t count, const uint8_t *part, size_t part_bytes)
{
    size_t place = 55 + 12 * count;
    memcpy(stream, example, sizeof example);
    put_number(stream + 40, (uint32_t)count);
    for (size_t i = 0; i < count; i++) {
        size_t bytes = ids[i] == GWZ_SUMMARY_ID ? part_bytes : i;
        put_number(stream + 55 + 12 * i, ids[i]);
        put_number(stream + 59 + 12 * i, (uint32_t)place);
        put_number(stream + 63 + 12 * i, (uint32_t)bytes);
        memset(stream + place, 0xEE, bytes);
        if (ids[i] == GWZ_SUMMARY_ID)
            memcpy(stream + place, part, bytes);
        place += bytes;
    }
    return place;
}

/* True beside other side parts; false with another length, with the zeros exchanged, and where it has another id. */
static void test_beside_others(struct tally *tally)
{
    static const struct { uint32_t ids[3]; size_t count; int there; } parts[] = {
        {{1}, 1, 1}, {{0, 1}, 2, 1}, {{1, 9}, 2, 1}, {{0, 1, 0x7FFFFFFF}, 3, 1}, {{0}, 1, 0}, {{2}, 1, 0},
        {{0, 2, 0x7FFFFFFF}, 3, 0}
    };
    static const uint8_t exchanged[12] = {0, 0, 0, 0, 1, 0, 0, 0, 0, 0, 0, 0x80};
    static const uint8_t longer[24] = {0, 0, 0, 0, 0, 0, 0, 0x80, 1, 0, 0, 0};
    const uint32_t first = 0;
    uint8_t stream[55 + 36 + 24 + 6];
    for (size_t i = 0; i < COUNT(parts); i++)
        for (size_t bytes = 0; bytes <= 24; bytes++) {
            int is_true = parts[i].there && bytes == 12;
            size_t len = put_parts(stream, parts[i].ids, parts[i].count, longer, bytes);
            expect_call(tally, "beside others", reading(CHECK, 8, stream, len, 0), done(3), NULL, 0);
            expect_call(tally, "beside others", reading(ADD_SUMMARY, 8, stream, len, 999), refused(16, 0), NULL, 0);
            expect_call(tally, "beside others", reading(TEST_SUMMARY, 8, stream, len, 0), is_true ? done(3) : refused(17, 0),
                        NULL, 0);
            expect_call(tally, "beside others", listing(CHUNKS_FROM32, 8, 0, stream, len, 1),
                        is_true ? done(1) : refused(17, 0), &first, is_true ? 1 : 0);
        }
    size_t len = put_parts(stream, &parts[0].ids[0], 1, exchanged, 12);
    expect_call(tally, "smallest and largest exchanged", reading(TEST_SUMMARY, 8, stream, len, 0), refused(17, 0), NULL, 0);
}

/* All four at once, into no room. */
static void expect_refused(struct tally *tally, const char *what, struct call c, uint64_t added, uint64_t tested,
                           uint64_t listed32, uint64_t listed64)
{
    const uint8_t *bytes = (const uint8_t *)c.in;
    expect_call(tally, what, reading(ADD_SUMMARY, c.level, bytes, c.count, 0), added, NULL, 0);
    expect_call(tally, what, reading(TEST_SUMMARY, c.level, bytes, c.count, 0), tested, NULL, 0);
    expect_call(tally, what, listing(CHUNKS_FROM32, c.level, c.index >> 32, bytes, c.count, 0), listed32, NULL, 0);
    expect_call(tally, what, listing(CHUNKS_FROM64, c.level, c.index, bytes, c.count, 0), listed64, NULL, 0);
}

/*
 * Where several refusals apply, the first: of 1 5 6 7 8 9 8 15 10 16 4 (add), 1 5 6 7 8 9 8 15 10 17 (test) and
 * 1 2 5 6 7 8 14 9 8 15 10 17 4 (list). Each step adds one that comes before all that are there.
 */
static void test_order_of_summaries(struct tally *tally)
{
    const uint32_t high = GWZ_FIRST_HIGH_ID;
    const uint64_t other_width = refused(14, 0);
    uint8_t stream[WITH_IDS];
    struct call call = reading(CHECK, 12, example, 55, 0);
    expect_refused(tally, "no room", call, refused(4, 79), refused(17, 0), refused(17, 0), other_width);
    call = reading(CHECK, 12, example_summary, 79, 0);
    expect_refused(tally, "side parts", call, refused(16, 0), done(3), refused(4, 1), other_width);
    put_ids(stream, 8, 7, 8, 9);
    call = reading(CHECK, 12, stream, WITH_IDS, 0);
    expect_refused(tally, "16 before 4, 17 before 4", call, refused(16, 0), refused(17, 0), refused(17, 0), other_width);
    stream[52] = 33;
    expect_refused(tally, "10", call, refused(10, 0), refused(10, 0), refused(10, 0), other_width);
    put_ids(stream, 12, 7, high + 2, high + 3);
    stream[52] = 33;
    expect_refused(tally, "15 before 10", call, refused(15, high + 2), refused(15, high + 2), refused(15, high + 2),
                   other_width);
    put_number(stream + 8, 9);
    expect_refused(tally, "the late 8 before 15", call, refused(8, 0), refused(8, 0), refused(8, 0), other_width);
    put_number(stream + 48, 1);
    expect_refused(tally, "9 before the late 8, 14 before 9", call, refused(9, 0), refused(9, 0), refused(9, 0), other_width);
    put_number(stream + 32, 0);
    expect_refused(tally, "8 before 9 and 14", call, refused(8, 0), refused(8, 0), refused(8, 0), refused(8, 0));
    put_number(stream + 8, 13);
    expect_refused(tally, "7 before 8", call, refused(7, 13), refused(7, 13), refused(7, 13), refused(7, 13));
    put_number(stream, 2);
    expect_refused(tally, "6 before 7", call, refused(6, 0), refused(6, 0), refused(6, 0), refused(6, 0));
    call.count = 47;
    expect_refused(tally, "5 before 6", call, refused(5, 0), refused(5, 0), refused(5, 0), refused(5, 0));
    call.index = 0x7FF800017FF80001; /* a not-a-number at either width */
    expect_refused(tally, "2 before 5", call, refused(5, 0), refused(5, 0), refused(2, 0), refused(2, 0));
    call.level = 15;
    expect_refused(tally, "1 before all", call, refused(1, 0), refused(1, 0), refused(1, 0), refused(1, 0));
}

/* ---- Halves: to even at level 14, away from zero below it */

static uint32_t halves_at(uint32_t level)
{
    return level >= 14 ? GWZ_HALVES_TO_EVEN : GWZ_HALVES_AWAY;
}

/* The u of i bins and a half: the larger neighbour, or the even one. */
static uint64_t u_of_half(uint64_t i, uint32_t halves)
{
    return halves == GWZ_HALVES_AWAY || i % 2 == 1 ? i + 1 : i;
}

/* The pattern of a whole number of 2^k that is a number of this width: every step is exact. */
static uint64_t pattern_of(uint32_t width, uint64_t number, int32_t k)
{
    double value = ldexp((double)number, k);
    float narrow = width == 32 ? (float)value : 0;
    uint32_t pattern32;
    uint64_t pattern64;
    memcpy(&pattern32, &narrow, sizeof narrow);
    memcpy(&pattern64, &value, sizeof value);
    return width == 32 ? pattern32 : pattern64;
}

static int has_code(uint32_t width, uint32_t halves, int32_t k, uint64_t pattern, uint64_t code)
{
    uint32_t narrow = 0;
    uint64_t wide = 0;
    uint64_t answer = width == 32 ? gwz_tolerance_code32(halves, k, (uint32_t)pattern, &narrow)
                                  : gwz_tolerance_code64(halves, k, pattern, &wide);
    return answer == done(0) && (width == 32 ? narrow : wide) == code;
}

static int comes_back_as(uint32_t width, int32_t k, uint64_t code, uint64_t pattern)
{
    uint32_t narrow = 0;
    uint64_t wide = 0;
    uint64_t answer = width == 32 ? gwz_tolerance_restored32(k, (uint32_t)code, &narrow)
                                  : gwz_tolerance_restored64(k, code, &wide);
    return answer == done(0) && (width == 32 ? narrow : wide) == pattern;
}

/* i bins and a half with both signs by both rules, and the numbers next to it, which have the same code by both. */
static int is_half_of_bins(uint32_t width, int32_t k, uint64_t i)
{
    int good = 1;
    for (uint32_t halves = 0; halves <= 1; halves++)
        for (uint64_t sign = 0; sign <= 1; sign++) {
            uint64_t high = sign << (width - 1), half = high + pattern_of(width, 2 * i + 1, k), u = u_of_half(i, halves);
            good = good && has_code(width, halves, k, half, 2 * u + sign) && has_code(width, halves, k, half - 1, 2 * i + sign)
                && has_code(width, halves, k, half + 1, 2 * i + 2 + sign)
                && comes_back_as(width, k, 2 * u + sign, high + pattern_of(width, u, k + 1));
        }
    return good;
}

/* Of each k the halves around every power of two, from that of no bin to the one below the threshold. The smallest k has none. */
static void test_halves(struct tally *tally)
{
    static const int32_t k32[] = {-149, -148, -128, -127, -126, -125, -104, -24, -9, -2, -1, 0, 1, 50, 102, 103};
    static const int32_t k64[] = {-1074, -1073, -1024, -1023, -1022, -1021, -971, -53, -9, -2, -1, 0, 1, 500, 969, 970};
    for (uint32_t width = 32; width <= 64; width += 32)
        for (size_t at = 0; at < COUNT(k32); at++)
            for (uint64_t limit = (uint64_t)1 << (width == 32 ? 23 : 52), power = 1; power <= limit; power *= 2)
                for (uint64_t i = power < 4 ? power - 1 : power - 3; i < power + 3 && i < limit; i++)
                    record(tally, width == 32 ? "a half of 32 bits" : "a half of 64 bits",
                           is_half_of_bins(width, width == 32 ? k32[at] : k64[at], i) ? NULL : "another code or pattern");
}

/* Patterns of 64 bits whose numbers have patterns of 32 bits too, with their codes and what they come back as. */
enum { MOST_HALVES = 1000 };

struct coded {
    uint64_t values[MOST_HALVES], codes[MOST_HALVES], back[MOST_HALVES];
    size_t n;
};

/* The same values at each level from the need on; below it 7, and 1 at a level that there is not. */
static void expect_read(struct tally *tally, uint32_t width, const uint8_t *stream, size_t len, uint32_t need, const void *back,
                        uint32_t n)
{
    enum operation unpack = width == 32 ? UNPACK32 : UNPACK64, probe = width == 32 ? PROBE32 : PROBE64;
    for (uint32_t level = 7; level <= GWZ_HIGHEST_LEVEL + 1; level++) {
        int known = level >= 8 && level <= 14, read = known && level >= need;
        uint64_t wanted = !known ? refused(1, 0) : refused(7, need);
        expect_call(tally, "checked", reading(CHECK, level, stream, len, 0), read ? done(n) : wanted, NULL, 0);
        expect_call(tally, "unpacked", reading(unpack, level, stream, len, n), read ? done(n) : wanted, back, read ? n : 0);
        for (uint32_t i = 0; i < n; i += i < 8 ? 1 : 61)
            expect_call(tally, "probed", probing(probe, level, stream, len, i), read ? done(GWZ_FINITE) : wanted,
                        (const uint8_t *)back + i * (width / 8), read ? 1 : 0);
    }
}

/* A list within 2^-2 as one level writes it, and as every level reads it. Returns the length of the stream. */
static size_t expect_coded(struct tally *tally, uint32_t width, uint32_t group, uint32_t level, const struct coded *list,
                           uint8_t *stream)
{
    enum operation pack = width == 32 ? PACK32 : PACK64, length = width == 32 ? LENGTH32 : LENGTH64;
    const struct setting setting = {level, width, mode_number(GWZ_WITHIN_TOLERANCE, group), (uint32_t)-2};
    static uint8_t data[MOST_HALVES * 9];
    static uint32_t narrow[MOST_HALVES], narrow_back[MOST_HALVES];
    size_t n = list->n, len = put_stream(stream, setting, (uint32_t)n, data, put_codes(data, group, list->codes, n));
    for (size_t i = 0; i < n; i++) {
        narrow[i] = narrowed(list->values[i]);
        narrow_back[i] = narrowed(list->back[i]);
    }
    const void *values = width == 32 ? (const void *)narrow : (const void *)list->values;
    const void *back = width == 32 ? (const void *)narrow_back : (const void *)list->back;
    struct call packs = in_groups_of(group, packing(pack, level, GWZ_WITHIN_TOLERANCE, -2, values, n, len));
    struct call measures = in_groups_of(group, packing(length, level, GWZ_WITHIN_TOLERANCE, -2, values, n, 0));
    expect_call(tally, "length", measures, done(len), NULL, 0);
    expect_call(tally, "packed", packs, done(len), stream, len);
    packs.room = len - 1;
    expect_call(tally, "a byte short", packs, refused(4, (uint32_t)len), NULL, 0);
    expect_read(tally, width, stream, len, stream[8], back, (uint32_t)n);
    return len;
}

/* 0.25, -0.75, 4194303.75 and -1.25, with the summary of what they come back as. */
static void expect_known_halves(struct tally *tally, uint32_t width, uint32_t group, uint32_t level)
{
    static const uint64_t values[4] = {0x3FD0000000000000, 0xBFE8000000000000, 0x414FFFFFE0000000, 0xBFF4000000000000};
    static const uint64_t codes[2][4] = {{2, 5, 16777216, 7}, {0, 5, 16777216, 5}};
    static const uint64_t back[2][4] = {{0x3FE0000000000000, 0xBFF0000000000000, 0x4150000000000000, 0xBFF8000000000000},
                                        {0, 0xBFF0000000000000, 0x4150000000000000, 0xBFF0000000000000}};
    static struct coded list;
    uint32_t rule = level == 14 ? 1 : 0;
    uint8_t stream[GWZ_LONGEST_STREAM(64, 32, 4)];
    struct entry entry = {0, back[rule][3], back[rule][2]}; /* the smallest is the last, the largest the third */
    list.n = 4;
    memcpy(list.values, values, sizeof values);
    memcpy(list.codes, codes[rule], sizeof codes[rule]);
    memcpy(list.back, back[rule], sizeof back[rule]);
    size_t len = expect_coded(tally, width, group, level, &list, stream), copy_len;
    if (width == 32) {
        entry.smallest = narrowed(entry.smallest);
        entry.largest = narrowed(entry.largest);
    }
    uint8_t *copy = copy_with(stream, len, width, &entry, 1, &copy_len);
    expect_summary(tally, "the summary of halves", stream, len, copy, copy_len);
    free(copy);
}

/* A list of halves with both signs: 128 of up to 3 bins and 128 of up to a million, in turn. */
static void expect_many_halves(struct tally *tally, uint32_t width, uint32_t group, uint32_t level)
{
    static struct coded list;
    static uint8_t stream[GWZ_LONGEST_STREAM(64, 32, MOST_HALVES)];
    list.n = MOST_HALVES;
    for (size_t i = 0; i < MOST_HALVES; i++) {
        uint64_t bins = i / 128 % 2 == 0 ? i % 4 : i * i, sign = i / 3 % 2, u = u_of_half(bins, halves_at(level));
        list.values[i] = (sign << 63) + pattern_of(64, 2 * bins + 1, -2);
        list.codes[i] = 2 * u + sign;
        list.back[i] = (sign << 63) + pattern_of(64, u, -1);
    }
    expect_coded(tally, width, group, level, &list, stream);
}

/* Each level that writes the setting, at both widths and both sizes of groups. */
static void test_written_halves(struct tally *tally)
{
    for (uint32_t width = 32; width <= 64; width += 32)
        for (size_t g = 0; g < 2; g++)
            for (uint32_t level = group_sizes[g] == 128 ? 13 : width == 64 ? 10 : 9; level <= 14; level++) {
                expect_known_halves(tally, width, group_sizes[g], level);
                expect_many_halves(tally, width, group_sizes[g], level);
            }
}

/* 0.25, -0.75 and -1.25 as docs/FORMAT.md prints them; and the second stream with a need of 14, which no stream has. */
static void test_printed_halves(struct tally *tally)
{
    static const uint32_t values[] = {0x3E800000, 0xBF400000, 0xBFA00000};
    static const uint8_t data[2][3] = {{0x03, 0xEA, 0x01}, {0x03, 0x68, 0x01}};
    static const uint32_t back[2][3] = {{0x3F000000, 0xBF800000, 0xBFC00000}, {0x00000000, 0xBF800000, 0xBF800000}};
    uint8_t stream[55];
    for (uint32_t i = 0; i < 2; i++) {
        const struct setting setting = {13 + i, 32, GWZ_WITHIN_TOLERANCE, 0xFFFFFFFE};
        put_stream(stream, setting, 3, data[i], 3);
        expect_call(tally, "packed", packing(PACK32, 13 + i, GWZ_WITHIN_TOLERANCE, -2, values, 3, 55), done(55), stream, 55);
        expect_read(tally, 32, stream, 55, 9, back[i], 3);
    }
    put_number(stream + 8, 14);
    for (uint32_t level = 8; level <= GWZ_HIGHEST_LEVEL; level++) {
        uint64_t wanted = level < 14 ? refused(7, 14) : refused(8, 0);
        expect_call(tally, "a need of 14", reading(CHECK, level, stream, 55, 0), wanted, NULL, 0);
        expect_call(tally, "a need of 14", reading(UNPACK32, level, stream, 55, 3), wanted, NULL, 0);
        expect_call(tally, "a need of 14", probing(PROBE32, level, stream, 55, 0), wanted, NULL, 0);
        expect_call(tally, "a need of 14", reading(ADD_SUMMARY, level, stream, 55, 99), wanted, NULL, 0);
        expect_call(tally, "a need of 14", reading(TEST_SUMMARY, level, stream, 55, 0), wanted, NULL, 0);
        expect_call(tally, "a need of 14", listing(CHUNKS_FROM32, level, 0, stream, 55, 1), wanted, NULL, 0);
    }
}

/* 1,024 times 0.25, half a bin: the code is 2 away from zero, and to even 0, which takes no bits. */
static void test_halves_of_no_bits(struct tally *tally)
{
    static uint32_t narrow[1024];
    static uint64_t wide[1024];
    for (size_t i = 0; i < 1024; i++) {
        narrow[i] = 0x3E800000;
        wide[i] = 0x3FD0000000000000;
    }
    const uint32_t mode = GWZ_WITHIN_TOLERANCE;
    const struct number_case cases[] = {
        {"at level 13", gwz_length32(13, mode, -2, GWZ_GROUPS_OF_32, narrow, 1024), done(52 + 32 * 9)},
        {"at level 14", gwz_length32(14, mode, -2, GWZ_GROUPS_OF_32, narrow, 1024), done(52 + 32)},
        {"at level 13, width 64", gwz_length64(13, mode, -2, GWZ_GROUPS_OF_32, wide, 1024), done(52 + 32 * 9)},
        {"at level 14, width 64", gwz_length64(14, mode, -2, GWZ_GROUPS_OF_32, wide, 1024), done(52 + 32)},
        {"at level 13, groups of 128", gwz_length32(13, mode, -2, GWZ_GROUPS_OF_128, narrow, 1024), done(52 + 8 * 33)},
        {"at level 14, groups of 128", gwz_length32(14, mode, -2, GWZ_GROUPS_OF_128, narrow, 1024), done(52 + 8)},
        {"at level 13, width 64, groups of 128", gwz_length64(13, mode, -2, GWZ_GROUPS_OF_128, wide, 1024), done(52 + 8 * 33)},
        {"at level 14, width 64, groups of 128", gwz_length64(14, mode, -2, GWZ_GROUPS_OF_128, wide, 1024), done(52 + 8)},
    };
    expect_numbers(tally, cases, COUNT(cases));
}

/* ---- Lengths up to the limit: all values 0, or all with the largest code */

struct uniform {
    void *values;
    uint8_t *stream;
    size_t length;
};

/* n values with the code 0 or 2^W - 1, and the stream written by hand, at the level that level_of_groups has. */
static struct uniform uniform_of(uint32_t width, uint32_t group, uint32_t n, int full)
{
    const struct setting lossless = {level_of_groups(group), width, mode_number(GWZ_LOSSLESS, group), 0};
    const uint32_t largest32 = 0x00800000; /* the pattern of the code FFFFFFFF */
    const uint64_t largest64 = 0x0010000000000000;
    size_t w = full ? width : 0, chunks = (n + 1023) / 1024, groups = (n + group - 1) / group, of_group = 1 + group / 8 * w;
    size_t data_bytes = groups + n * w / 8, data = 48 + 4 * chunks;
    struct uniform u = {allocated(n * width / 8), NULL, data + data_bytes};

    u.stream = (uint8_t *)allocated(u.length);
    memset(u.stream, 0xFF, u.length);
    put_header(u.stream, lossless, n, data_bytes);
    for (size_t i = 0; i < chunks; i++)
        put_number(u.stream + 48 + 4 * i, (uint32_t)(i * (1024 / group) * of_group));
    for (size_t i = 0; i < groups; i++)
        u.stream[data + i * of_group] = (uint8_t)w;
    memset(u.values, 0, n * width / 8);
    for (size_t i = 0; full && i < n; i++)
        if (width == 32)
            ((uint32_t *)u.values)[i] = largest32;
        else
            ((uint64_t *)u.values)[i] = largest64;
    return u;
}

/* A summary in which each chunk has the one value as its smallest and largest. */
static void expect_uniform_summary(struct tally *tally, uint32_t level, uint32_t width, uint32_t n, int full,
                                   const struct uniform *u)
{
    enum operation list = width == 32 ? CHUNKS_FROM32 : CHUNKS_FROM64;
    uint64_t value = !full ? 0 : width == 32 ? 0x00800000 : 0x0010000000000000;
    uint32_t count = (n + 1023) / 1024, *chunks = (uint32_t *)allocated(4 * (size_t)count);
    struct entry *entries = (struct entry *)allocated(count * sizeof *entries);
    size_t copy_len, added = GWZ_SUMMARY_BYTES(width, n);
    for (uint32_t i = 0; i < count; i++) {
        entries[i].nans = 0;
        entries[i].smallest = entries[i].largest = value;
        chunks[i] = i;
    }
    uint8_t *copy = copy_with(u->stream, u->length, width, entries, count, &copy_len);
    record(tally, "the bytes that a summary adds", copy_len == u->length + added ? NULL : "another number");
    expect_call(tally, "summed up", reading(ADD_SUMMARY, level, u->stream, u->length, copy_len), done(copy_len), copy,
                copy_len);
    expect_call(tally, "a byte short", reading(ADD_SUMMARY, level, u->stream, u->length, copy_len - 1),
                refused(4, (uint32_t)copy_len), NULL, 0);
    expect_call(tally, "tested", reading(TEST_SUMMARY, level, copy, copy_len, 0), done(n), NULL, 0);
    expect_list(tally, "all chunks", list, value, copy, copy_len, chunks, count);
    expect_list(tally, "no chunks", list, value + 1, copy, copy_len, chunks, 0);
    free(copy);
    free(entries);
    free(chunks);
}

static void expect_uniform(struct tally *tally, uint32_t width, uint32_t group, uint32_t n, int full)
{
    enum operation pack = width == 32 ? PACK32 : PACK64, length = width == 32 ? LENGTH32 : LENGTH64;
    enum operation unpack = width == 32 ? UNPACK32 : UNPACK64, probe = width == 32 ? PROBE32 : PROBE64;
    struct uniform u = uniform_of(width, group, n, full);
    uint64_t packed = done(u.length);
    uint32_t needed = (uint32_t)u.length, level = level_of_groups(group);
    struct call packs = in_groups_of(group, packing(pack, level, 0, 0, u.values, n, u.length));

    expect_call(tally, "length", in_groups_of(group, packing(length, level, 0, 0, u.values, n, 0)), packed, NULL, 0);
    expect_call(tally, "packed", packs, packed, u.stream, u.length);
    packs.room = GWZ_LONGEST_STREAM(width, group, n);
    expect_call(tally, "packed, longest room", packs, packed, u.stream, u.length);
    if (full)
        record(tally, "the longest there is", packs.room == u.length ? NULL : "another length");
    packs.room = u.length - 1;
    expect_call(tally, "a byte short", packs, refused(4, needed), NULL, 0);
    expect_call(tally, "checked", reading(CHECK, level, u.stream, u.length, 0), done(n), NULL, 0);
    expect_call(tally, "unpacked", reading(unpack, level, u.stream, u.length, n), done(n), u.values, n);
    if (n > 0) {
        expect_call(tally, "a value short", reading(unpack, level, u.stream, u.length, n - 1), refused(4, n), NULL, 0);
        expect_call(tally, "the last probed", probing(probe, level, u.stream, u.length, n - 1), done(GWZ_FINITE),
                    u.values, 1);
    }
    expect_call(tally, "none behind the last", probing(probe, level, u.stream, u.length, n), refused(11, 0), NULL, 0);
    expect_uniform_summary(tally, level, width, n, full, &u);
    free(u.values);
    free(u.stream);
}

static void test_lengths(struct tally *tally)
{
    static const uint32_t counts[] = {0, 1, 31, 32, 33, 127, 128, 129, 896, 897, 1023, 1024, 1025, 1152, 1153, 2048, 2049};
    static const uint32_t zeros[1025] = {0};
    const struct number_case stated[] = {
        {"no values are 48 bytes", gwz_length32(8, 0, 0, GWZ_GROUPS_OF_32, zeros, 0), done(48)},
        {"1,024 zeros are 84 bytes", gwz_length32(8, 0, 0, GWZ_GROUPS_OF_32, zeros, 1024), done(84)},
        {"1,025 values have two chunks", gwz_length32(8, 0, 0, GWZ_GROUPS_OF_32, zeros, 1025), done(48 + 8 + 33)},
        {"no values in groups of 128", gwz_length32(13, 0, 0, GWZ_GROUPS_OF_128, zeros, 0), done(48)},
        {"1,024 zeros in groups of 128 are 60 bytes", gwz_length32(13, 0, 0, GWZ_GROUPS_OF_128, zeros, 1024), done(60)},
        {"1,025 values in groups of 128", gwz_length32(13, 0, 0, GWZ_GROUPS_OF_128, zeros, 1025), done(48 + 8 + 9)},
    };
    expect_numbers(tally, stated, COUNT(stated));
    for (size_t i = 0; i < 2 * COUNT(counts); i++)
        for (int full = 0; full <= 1; full++) {
            expect_uniform(tally, 32, group_sizes[i % 2], counts[i / 2], full);
            expect_uniform(tally, 64, group_sizes[i % 2], counts[i / 2], full);
        }
}

/* 1,048,576 values pass, one more is refused. */
static void test_limit(struct tally *tally)
{
    const uint32_t limit = 1048576;
    uint64_t *values = (uint64_t *)allocated(8 * (size_t)(limit + 1));
    size_t room = GWZ_LONGEST_STREAM(64, GWZ_GROUPS_OF_32, limit + 1);
    for (size_t i = 0; i < 4; i++) {
        expect_uniform(tally, 32, group_sizes[i / 2], limit, (int)(i % 2));
        expect_uniform(tally, 64, group_sizes[i / 2], limit, (int)(i % 2));
    }
    memset(values, 0, 8 * (size_t)(limit + 1));
    expect_call(tally, "32 bits", packing(PACK32, 8, 0, 0, values, limit + 1, room), refused(3, 0), NULL, 0);
    expect_call(tally, "64 bits", packing(PACK64, 10, 0, 0, values, limit + 1, room), refused(3, 0), NULL, 0);
    expect_call(tally, "3 before 4", packing(PACK32, 9, 1, 0, values, limit + 1, 0), refused(3, 0), NULL, 0);
    expect_call(tally, "2 before 3", packing(PACK32, 8, 1, 0, values, limit + 1, room), refused(2, 0), NULL, 0);
    expect_call(tally, "32 bits", packing(LENGTH32, 8, 0, 0, values, limit + 1, 0), refused(3, 0), NULL, 0);
    expect_call(tally, "64 bits", packing(LENGTH64, 10, 1, 0, values, limit + 1, 0), refused(3, 0), NULL, 0);
    free(values);
}

/* ---- Lists of unlike patterns */

/* Within a tolerance a third of them are halves, of as many bits as a number has. */
enum { MIXED = 3000 };

/* What a magnitude comes back as under 2^k by a rule for halves. Every step is exact: the bin is a power of two. */
static double magnitude_back(double magnitude, int k, int fraction_bits, uint32_t halves)
{
    double bins = ldexp(magnitude, -k - 1), whole = floor(bins), rest = bins - whole;
    int odd = fmod(whole, 2) != 0;
    if (!(magnitude < ldexp(1, k + 1 + fraction_bits)))
        return magnitude;
    return ldexp(rest > 0.5 || (rest == 0.5 && (halves == GWZ_HALVES_AWAY || odd)) ? whole + 1 : whole, k + 1);
}

static uint32_t pattern_back32(uint32_t pattern, int k, uint32_t halves)
{
    uint32_t magnitude = pattern & 0x7FFFFFFF, sign = pattern & 0x80000000;
    float value;
    memcpy(&value, &magnitude, sizeof value);
    if (magnitude >= 0x7F800000)
        return pattern;
    value = (float)magnitude_back(value, k, 23, halves);
    memcpy(&magnitude, &value, sizeof value);
    return sign | magnitude;
}

static uint64_t pattern_back64(uint64_t pattern, int k, uint32_t halves)
{
    uint64_t magnitude = pattern & 0x7FFFFFFFFFFFFFFF, sign = pattern & 0x8000000000000000;
    double value;
    memcpy(&value, &magnitude, sizeof value);
    if (magnitude >= 0x7FF0000000000000)
        return pattern;
    value = magnitude_back(value, k, 52, halves);
    memcpy(&magnitude, &value, sizeof value);
    return sign | magnitude;
}

static void test_mixed32(struct tally *tally)
{
    static uint32_t values[MIXED], back[MIXED];
    static uint8_t stream[GWZ_LONGEST_STREAM(32, GWZ_GROUPS_OF_32, MIXED)];
    uint32_t state = 1;
    for (uint32_t setting = 0; setting < 12; setting++) {
        uint32_t mode = setting % 3, group = group_sizes[setting / 3 % 2], level = setting < 6 ? level_of_groups(group) : 14;
        int32_t k = mode == 1 ? -9 : 0;
        for (size_t i = 0; i < MIXED; i++) {
            state = state * 1664525u + 1013904223u;
            values[i] = mode == 1 && i % 3 == 0 ? (state & 0x80000000) + (uint32_t)pattern_of(32, (state >> 8) | 1, k) : state;
            back[i] = mode == 1 ? pattern_back32(values[i], k, halves_at(level)) : state;
        }
        uint64_t packed = gwz_pack32(level, mode, k, group, values, MIXED, stream, sizeof stream);
        size_t length = gwz_answer(packed);
        struct call measure = packing(LENGTH32, level, mode, k, values, MIXED, 0);
        struct call pack = packing(PACK32, level, mode, k, values, MIXED, length);
        expect_call(tally, "length", in_groups_of(group, measure), packed, NULL, 0);
        expect_call(tally, "packed", in_groups_of(group, pack), packed, stream, length);
        expect_call(tally, "unpacked", reading(UNPACK32, level, stream, length, MIXED + 9), done(MIXED), back, MIXED);
    }
}

static void test_mixed64(struct tally *tally)
{
    static uint64_t values[MIXED], back[MIXED];
    static uint8_t stream[GWZ_LONGEST_STREAM(64, GWZ_GROUPS_OF_32, MIXED)];
    uint64_t state = 1;
    for (uint32_t setting = 0; setting < 12; setting++) {
        uint32_t mode = setting % 3, group = group_sizes[setting / 3 % 2], level = setting < 6 ? level_of_groups(group) : 14;
        int32_t k = mode == 1 ? -30 : 0;
        for (size_t i = 0; i < MIXED; i++) {
            state = state * 6364136223846793005u + 1442695040888963407u;
            values[i] = mode == 1 && i % 3 == 0 ? (state & 0x8000000000000000) + pattern_of(64, (state >> 11) | 1, k) : state;
            back[i] = mode == 1 ? pattern_back64(values[i], k, halves_at(level)) : state;
        }
        uint64_t packed = gwz_pack64(level, mode, k, group, values, MIXED, stream, sizeof stream);
        size_t length = gwz_answer(packed);
        struct call measure = packing(LENGTH64, level, mode, k, values, MIXED, 0);
        struct call pack = packing(PACK64, level, mode, k, values, MIXED, length);
        expect_call(tally, "length", in_groups_of(group, measure), packed, NULL, 0);
        expect_call(tally, "packed", in_groups_of(group, pack), packed, stream, length);
        expect_call(tally, "unpacked", reading(UNPACK64, level, stream, length, MIXED + 9), done(MIXED), back, MIXED);
    }
}

/* A part of no elements may have any pointer, NULL too. */
static void test_no_elements(struct tally *tally)
{
    const struct setting narrow = {10, 32, 0, 0}, wide = {10, 64, 0, 0};
    uint8_t empty32[48], empty64[48], packed32[48], packed64[48];
    uint32_t word = 7;
    uint64_t number = 7;
    put_header(empty32, narrow, 0, 0);
    put_header(empty64, wide, 0, 0);
    const struct number_case cases[] = {
        {"pack32 of no values", gwz_pack32(10, 0, 0, GWZ_GROUPS_OF_32, NULL, 0, packed32, 48), done(48)},
        {"pack32 into no room", gwz_pack32(10, 0, 0, GWZ_GROUPS_OF_32, NULL, 0, NULL, 0), refused(4, 48)},
        {"pack64 of no values", gwz_pack64(10, 0, 0, GWZ_GROUPS_OF_32, NULL, 0, packed64, 48), done(48)},
        {"pack64 into no room", gwz_pack64(10, 0, 0, GWZ_GROUPS_OF_32, NULL, 0, NULL, 0), refused(4, 48)},
        {"length32", gwz_length32(10, 0, 0, GWZ_GROUPS_OF_32, NULL, 0), done(48)},
        {"length64", gwz_length64(10, 0, 0, GWZ_GROUPS_OF_32, NULL, 0), done(48)},
        {"pack32 into no room, groups of 128", gwz_pack32(13, 0, 0, GWZ_GROUPS_OF_128, NULL, 0, NULL, 0), refused(4, 48)},
        {"length32, groups of 128", gwz_length32(13, 0, 0, GWZ_GROUPS_OF_128, NULL, 0), done(48)},
        {"length64, groups of 128", gwz_length64(13, 0, 0, GWZ_GROUPS_OF_128, NULL, 0), done(48)},
        {"check of no bytes", gwz_check(10, NULL, 0), refused(5, 0)},
        {"unpack32 of no bytes", gwz_unpack32(10, NULL, 0, NULL, 0), refused(5, 0)},
        {"unpack64 of no bytes", gwz_unpack64(10, NULL, 0, NULL, 0), refused(5, 0)},
        {"unpack32 of no values", gwz_unpack32(10, empty32, 48, NULL, 0), done(0)},
        {"unpack64 of no values", gwz_unpack64(10, empty64, 48, NULL, 0), done(0)},
        {"unpack32 into no room", gwz_unpack32(10, example, 55, NULL, 0), refused(4, 3)},
        {"probe32 of no bytes", gwz_probe32(10, NULL, 0, 0, &word), refused(5, 0)},
        {"probe64 of no bytes", gwz_probe64(10, NULL, 0, 0, &number), refused(5, 0)},
        {"a summary of no bytes", gwz_add_summary(10, NULL, 0, NULL, 0), refused(5, 0)},
        {"a summary into no room", gwz_add_summary(10, empty32, 48, NULL, 0), refused(4, 60)},
        {"no bytes tested", gwz_test_summary(10, NULL, 0), refused(5, 0)},
        {"no bytes listed, width 32", gwz_chunks_from32(10, 0, NULL, 0, NULL, 0), refused(5, 0)},
        {"no bytes listed, width 64", gwz_chunks_from64(10, 0, NULL, 0, NULL, 0), refused(5, 0)},
        {"no chunks into no room", gwz_chunks_from32(10, 2, example_summary, 79, NULL, 0), done(0)},
        {"a chunk into no room", gwz_chunks_from32(10, 1, example_summary, 79, NULL, 0), refused(4, 1)},
    };
    expect_numbers(tally, cases, COUNT(cases));
    record(tally, "pack32's stream of no values", memcmp(packed32, empty32, 48) == 0 ? NULL : "other bytes");
    record(tally, "pack64's stream of no values", memcmp(packed64, empty64, 48) == 0 ? NULL : "other bytes");
    record(tally, "the patterns after a refusal", word == 7 && number == 7 ? NULL : "altered");
}

static void test_each_refusal(struct tally *tally)
{
    for (uint32_t number = 1; number <= LAST_REFUSAL; number++)
        record(tally, "each refusal 1 to 17 was given by some call above",
               tally->refusals_given >> number & 1 ? NULL : gwz_refusal_text(number));
}

int main(void)
{
    static const struct { const char *name; void (*run)(struct tally *); } groups[] = {
        {"results taken apart", test_helpers},
        {"bound", test_bound},
        {"lossless codes, known", test_lossless_known},
        {"lossless codes, every exponent", test_lossless_map},
        {"tolerance codes of 32 bits", test_tolerance32},
        {"tolerance codes of 64 bits", test_tolerance64},
        {"largest u", test_largest_u},
        {"the 55-byte example", test_example},
        {"probe of 32 bits", test_probe32},
        {"probe of 64 bits", test_probe64},
        {"levels", test_levels},
        {"levels that there are not", test_unknown_levels},
        {"differences", test_differences},
        {"differences of a walk", test_differences_of_a_walk},
        {"packing refused", test_packing_refused},
        {"sizes of groups refused", test_other_sizes},
        {"damaged example", test_damaged_example},
        {"damaged setting", test_damaged_setting},
        {"damaged chunks", test_damaged_chunks},
        {"chunks too long and too short", test_chunk_ends},
        {"groups of 128, byte by byte", test_groups_of_128},
        {"groups of 128, damaged", test_damaged_groups_of_128},
        {"side parts", test_side_parts},
        {"side parts that must be understood", test_must_be_understood},
        {"order of the late 8 and of 15", test_order_of_ids},
        {"order of refusals when reading", test_reading_order},
        {"the summary of the example", test_example_summary},
        {"summaries as they are printed", test_printed_summaries},
        {"a summary of six chunks", test_six_chunks},
        {"summaries beside other parts", test_beside_others},
        {"order of refusals of summaries", test_order_of_summaries},
        {"halves", test_halves},
        {"halves as each level writes them", test_written_halves},
        {"halves as they are printed", test_printed_halves},
        {"halves of no bits", test_halves_of_no_bits},
        {"lengths", test_lengths},
        {"the limit of 1,048,576 values", test_limit},
        {"mixed patterns of 32 bits", test_mixed32},
        {"mixed patterns of 64 bits", test_mixed64},
        {"parts of no elements", test_no_elements},
        {"each refusal", test_each_refusal},
    };
    struct tally tally = {0, 0, 0};
    for (size_t i = 0; i < COUNT(groups); i++) {
        unsigned passed = tally.passed, failed = tally.failed;
        groups[i].run(&tally);
        printf("%s: %u passed, %u failed\n", groups[i].name, tally.passed - passed, tally.failed - failed);
    }
    printf("%u passed, %u failed\n", tally.passed, tally.failed);
    return tally.failed == 0 ? 0 : 1;
}
