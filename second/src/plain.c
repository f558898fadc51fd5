/*
 * The same format in C, written for speed: a baseline of the benchmark, beside the tuned version in plain.rs.
 *
 * The functions answer as those of the library do: a refusal number above 32 bits of detail, or 0 above 32 bits of
 * answer. A refused call writes nothing. Nothing is allocated, and nothing outside what is lent is read or written.
 * The part for one width stands once, in the second half of this file, which includes itself for each width. Codes are
 * put and taken in blocks of 32, which fill whole bytes: a group is one of them, or four under one width byte.
 * Written for gcc and clang on x86-64.
 */
#ifndef WIDTH

#include <stddef.h>
#include <stdint.h>
#include <string.h>

/* Numbers are copied between words and the stream, which is little-endian. */
#if __BYTE_ORDER__ != __ORDER_LITTLE_ENDIAN__
#error "plain.c is written for little-endian machines"
#endif

enum {
    MOST_VALUES = 1048576,
    CHUNK = 1024,
    BLOCK = 32,
    LARGEST_GROUP = 128,
    ADDED_FOR_128 = 256, /* to the mode number of the header */
    HEADER = 48,
    /* The bytes of the largest block, and 8 more so that 9 bytes can be read from any place where a code begins. */
    WINDOW = 8 * BLOCK + 8
};

/* What the widths differ in, and its names where WIDTH is one of them. */
typedef uint32_t word32;
typedef uint64_t word64;
typedef float float32;
typedef double float64;
enum { M32 = 23, LEAST_K32 = -150, GREATEST_K32 = 103 };
enum { M64 = 52, LEAST_K64 = -1075, GREATEST_K64 = 970 };
#define JOIN_NOW(a, b) a##b
#define JOIN(a, b) JOIN_NOW(a, b)
#define NAME(name) JOIN(name, WIDTH)
#define WORD NAME(word)
#define FLOAT NAME(float)
#define BIN struct NAME(bin)
#define M NAME(M)
#define LEAST_K NAME(LEAST_K)
#define HIGHEST ((WORD)1 << (WIDTH - 1)) /* the highest bit of a word */
#define UNIT ((WORD)1 << (M + 1))        /* one unit of the exponent field of a rotated pattern */

/* Put into its caller, where a mode or a width byte is a constant. */
#define INLINED static inline __attribute__((always_inline))

/* A step for each code of a block, from 0 to 31, and an arm for each width byte of a width. */
#define FOR_8(STEP, i) STEP(i) STEP(i + 1) STEP(i + 2) STEP(i + 3) STEP(i + 4) STEP(i + 5) STEP(i + 6) STEP(i + 7)
#define FOR_32(STEP) FOR_8(STEP, 0) FOR_8(STEP, 8) FOR_8(STEP, 16) FOR_8(STEP, 24)
#define FOR_EACH_BYTE32(ARM) FOR_32(ARM) ARM(32)
#define FOR_EACH_BYTE64(ARM) FOR_EACH_BYTE32(ARM) FOR_8(ARM, 33) FOR_8(ARM, 41) FOR_8(ARM, 49) FOR_8(ARM, 57)

/* Hands on a refusal, if it is one: 0 is none. */
#define TRY(call)                 \
    do {                          \
        uint64_t refusal = call;  \
        if (refusal != 0)         \
            return refusal;       \
    } while (0)

INLINED uint64_t refused(uint64_t number, uint64_t detail) { return (number << 32) | detail; }
INLINED uint64_t refused_if(int broken, uint64_t number) { return broken ? refused(number, 0) : 0; }
/* Refusal 10 for a group: at either size, a chunk has 32 details. */
INLINED uint64_t refused_group(size_t chunk, size_t group) { return refused(10, chunk * 32 + group); }
INLINED size_t least(size_t a, size_t b) { return a < b ? a : b; }
INLINED size_t chunks_of(size_t n) { return (n + CHUNK - 1) / CHUNK; }
INLINED size_t bytes_of(size_t count, unsigned w) { return (count * w + 7) / 8; }
INLINED unsigned bit_length(uint64_t word) { return word == 0 ? 0 : 64 - (unsigned)__builtin_clzll(word); }

INLINED uint32_t number_at(const uint8_t *bytes)
{
    uint32_t number;
    memcpy(&number, bytes, sizeof number);
    return number;
}

/* ---- Codes in bytes: where w is a constant, so are every place and shift */

/* Puts a code at a bit and answers the word that is being filled; a full one is written. */
INLINED uint64_t put_code(uint8_t *bytes, uint64_t filling, uint64_t code, unsigned bit, unsigned w)
{
    unsigned filled = bit % 64;
    filling |= code << filled;
    if (filled + w < 64)
        return filling;
    memcpy(bytes + bit / 64 * 8, &filling, 8);
    return filled + w == 64 ? 0 : code >> (64 - filled);
}

/* The code at a bit, from the eight or nine bytes that hold it. */
INLINED uint64_t take_code(const uint8_t *window, unsigned bit, unsigned w)
{
    uint64_t code;
    unsigned shift = bit % 8;
    memcpy(&code, window + bit / 8, 8);
    code >>= shift;
    if (shift + w > 64)
        code |= (uint64_t)window[bit / 8 + 8] << (64 - shift);
    return w == 0 ? 0 : code & (~(uint64_t)0 >> (64 - w));
}

/* w is smallest when some code has its highest bit set; in most groups one of the first few has. */
INLINED int width_is_smallest(const uint8_t *packed, size_t count, unsigned w)
{
    for (size_t highest = w - 1; highest < count * w; highest += w)
        if (packed[highest / 8] >> highest % 8 & 1)
            return 1;
    return 0;
}

static int padding_is_zero(const uint8_t *packed, size_t bits)
{
    return bits % 8 == 0 || packed[bits / 8] >> bits % 8 == 0;
}

/* ---- Floats that count bins */

#define SAME_BITS(name, from, to)          \
    INLINED to name(from value)            \
    {                                      \
        to same;                           \
        memcpy(&same, &value, sizeof same); \
        return same;                       \
    }
SAME_BITS(float_of32, uint32_t, float)
SAME_BITS(float_of64, uint64_t, double)
SAME_BITS(pattern_of32, float, uint32_t)
SAME_BITS(pattern_of64, double, uint64_t)

/* From 2^52 to 2^53 a binary64 counts ones: adding 2^52 rounds to a whole number, which the lower bits then show. */
#define TWO_TO_52 4503599627370496.0
#define PATTERN_OF_TWO_TO_52 ((uint64_t)(1023 + 52) << 52)

/* 2^exponent, for exponents of normal numbers. */
static double power_of_two(int32_t exponent) { return float_of64((uint64_t)(exponent + 1023) << 52); }

/*
 * Below 2^23 and with at most 24 significant bits, rounded to the nearest whole number, halves up: 2^-26 lifts a half
 * above the half, and nothing else past one.
 */
INLINED uint32_t half_up32(double bins) { return (uint32_t)pattern_of64(bins + 1.0 / (1 << 26) + TWO_TO_52); }

/*
 * Below 2^52, rounded likewise: halves that went down to an even number are found by what is left, which is then no
 * longer below a half. (Its sign says so rather than a comparison, of which gcc makes no steps of several lanes.)
 */
INLINED uint64_t half_up64(double bins)
{
    double rounded = bins + TWO_TO_52, left = bins - (rounded - TWO_TO_52);
    uint64_t below_half = pattern_of64(left - 0.5) >> 63;
    return pattern_of64(rounded) - PATTERN_OF_TWO_TO_52 + 1 - below_half;
}

/* u as a float; exact below 2^m (others are not used). */
INLINED float whole_as_float32(uint32_t u) { return (float)(int32_t)u; }
INLINED double whole_as_float64(uint64_t u) { return float_of64(u | PATTERN_OF_TWO_TO_52) - TWO_TO_52; }

/* ---- Settings, header and tables */

/* The header's numbers, each at its place. */
struct header {
    uint32_t major, written, needed, width, mode;
    int32_t k;
    uint32_t n, c, table, data, sides, end;
};

struct stream {
    const uint8_t *bytes;
    size_t length;
    struct header header;
};

/* What pack and length are told besides the level and the values, and what a header tells. */
struct setting {
    uint32_t width, mode, group;
    int32_t k;
};

/*
 * The coding of a writer: the number of its mode or, for mode 1 from level 14 on, where halves go to even, one of its own.
 * Nothing needs that level to be read.
 */
enum { FIRST_LEVEL_TO_EVEN = 14, TO_EVEN = 3 };

static uint32_t coding_of(struct setting s, uint32_t level)
{
    return s.mode == 1 && level >= FIRST_LEVEL_TO_EVEN ? TO_EVEN : s.mode;
}

static int level_known(uint32_t level) { return 8 <= level && level <= 14; }

/* In a header, 256 is added to the mode for groups of 128. A number that is no mode stays none. */
static struct setting setting_of(const struct header *h)
{
    int large = h->mode >= ADDED_FOR_128;
    struct setting s = {h->width, large ? h->mode - ADDED_FOR_128 : h->mode, large ? 128 : 32, h->k};
    return s;
}

static uint32_t mode_number(struct setting s) { return s.group == 128 ? s.mode + ADDED_FOR_128 : s.mode; }

/* The need of a setting, which a side part that must be understood may raise. */
static uint32_t need(struct setting s)
{
    return s.group == 128 ? 13 : s.mode == 2 ? 11 : s.width == 64 ? 10 : s.mode == 1 ? 9 : 8;
}

static int setting_allowed(struct setting s)
{
    int32_t least_k = s.width == 32 ? LEAST_K32 : LEAST_K64;
    int32_t greatest_k = s.width == 32 ? GREATEST_K32 : GREATEST_K64;
    int of_mode = s.mode == 1 ? least_k <= s.k && s.k <= greatest_k : (s.mode == 0 || s.mode == 2) && s.k == 0;
    return of_mode && (s.group == 32 || s.group == 128);
}

/* Refusals 1 2 3 of pack and length, or 0. */
static uint64_t admit(uint32_t level, struct setting s, size_t n)
{
    TRY(refused_if(!level_known(level), 1));
    TRY(refused_if(!setting_allowed(s) || need(s) > level, 2));
    return refused_if(n > MOST_VALUES, 3);
}

static int header_holds(const struct header *h, size_t length)
{
    struct setting s = setting_of(h);
    return (h->width == 32 || h->width == 64) && setting_allowed(s) && h->needed >= need(s) && h->written >= h->needed && h->n <= MOST_VALUES
        && h->c == chunks_of(h->n) && h->table == HEADER && h->data == HEADER + 4 * h->c && h->sides <= 64
        && h->data <= h->end && h->end <= length;
}

/* Refusals 1 5 6 7 8, or 0 and the stream. */
static uint64_t open_stream(uint32_t level, const uint8_t *bytes, size_t length, struct stream *stream)
{
    struct header *header = &stream->header;
    TRY(refused_if(!level_known(level), 1));
    TRY(refused_if(length < HEADER, 5));
    memcpy(header, bytes, HEADER);
    TRY(refused_if(header->major != 1, 6));
    TRY(header->needed > level ? refused(7, header->needed) : 0);
    stream->bytes = bytes;
    stream->length = length;
    return refused_if(!header_holds(header, length), 8);
}

/* Where a chunk begins, or where the data ends for the number after the last. */
static size_t chunk_place(const struct stream *stream, size_t chunk)
{
    const struct header *h = &stream->header;
    return chunk < h->c ? (size_t)h->data + number_at(stream->bytes + HEADER + 4 * chunk) : h->end;
}

/* The first place is that of the data, and each is below the next: with no chunks, the data is empty. */
static int chunk_table_holds(const struct stream *stream)
{
    if (chunk_place(stream, 0) != stream->header.data)
        return 0;
    for (size_t chunk = 0; chunk < stream->header.c; chunk++)
        if (chunk_place(stream, chunk) >= chunk_place(stream, chunk + 1))
            return 0;
    return 1;
}

static int side_table_holds(const struct stream *stream)
{
    /* In 64 bits, 64 lengths add up without overflow. */
    const uint8_t *entry = stream->bytes + stream->header.end;
    uint64_t part = (uint64_t)stream->header.end + 12 * stream->header.sides, least_id = 0;
    if (part > stream->length)
        return 0;
    for (uint32_t side = 0; side < stream->header.sides; side++, entry += 12) {
        uint64_t id = number_at(entry);
        if (id < least_id || number_at(entry + 4) != part)
            return 0;
        least_id = id + 1;
        part += number_at(entry + 8);
    }
    return part == stream->length;
}

/* The first id that must be understood, none of which is known yet, or 0: ids from 2^31 up are such. */
static uint32_t first_high_id(const struct stream *stream)
{
    const uint8_t *entry = stream->bytes + stream->header.end;
    for (uint32_t side = 0; side < stream->header.sides; side++, entry += 12)
        if (number_at(entry) >> 31)
            return number_at(entry);
    return 0;
}

/* Refusals 9 8 15, or 0: both tables, the exact need, and ids that must be understood, which need 12 or more. */
static uint64_t check_tables(const struct stream *stream)
{
    const struct header *h = &stream->header;
    TRY(refused_if(!chunk_table_holds(stream) || !side_table_holds(stream), 9));
    uint32_t high_id = first_high_id(stream), of_setting = need(setting_of(h));
    TRY(refused_if(h->needed != (high_id != 0 && of_setting < 12 ? 12 : of_setting), 8));
    return high_id != 0 ? refused(15, high_id) : 0;
}

/* Where 32 codes at a place of a stream are read: where they lie or, of the last blocks, in a copy with zeros after. */
INLINED const uint8_t *window_at(const struct stream *stream, size_t place, uint8_t *copy)
{
    const uint8_t *from = stream->bytes + place;
    size_t length = stream->length - place;
    if (length >= WINDOW)
        return from;
    memcpy(copy, from, length);
    memset(copy + length, 0, WINDOW - length);
    return copy;
}

/* Where a block of a checked chunk begins; the groups before its own are full, and are stepped over. */
static size_t block_place(const struct stream *stream, size_t chunk, size_t block, size_t blocks, unsigned *w)
{
    size_t at = chunk_place(stream, chunk);
    for (; block >= blocks; block -= blocks)
        at += 1 + 4 * blocks * stream->bytes[at];
    *w = stream->bytes[at];
    return at + 1 + 4 * block * *w;
}

/* ---- Both widths */

#define WIDTH 32
#include "plain.c"
#undef WIDTH
#define WIDTH 64
#include "plain.c"
#undef WIDTH

/* Refusals 1 5 6 7 8 9 8 15 10, or n: a stream of either width. */
uint64_t plain_check(uint32_t level, const uint8_t *bytes, size_t length)
{
    struct stream stream;
    TRY(open_stream(level, bytes, length, &stream));
    TRY(check_tables(&stream));
    TRY(stream.header.width == 32 ? check_chunks32(&stream) : check_chunks64(&stream));
    return stream.header.n;
}

#else /* ---- One width: included with WIDTH 32 and with WIDTH 64 */

/* One of two words, by a mask of all ones or none: steps of several lanes have no branches. */
INLINED WORD NAME(pick)(WORD mask, WORD first, WORD other) { return (first & mask) | (other & ~mask); }

/* The mask of a < b, for words without the highest bit. */
INLINED WORD NAME(below)(WORD a, WORD b) { return 0 - ((a - b) >> (WIDTH - 1)); }

/* ---- The codes */

/*
 * For fields from 1 to the middle, x is less - 2^(W-1): it is negative, and its code is the complement of 2·less. For
 * all others x is rotated, perhaps without its highest bit, and its code is 2·rotated. The highest bit of less, which
 * wraps for field 0, tells the two apart.
 */
INLINED WORD NAME(lossless_code)(WORD pattern)
{
    WORD rotated = (pattern << 1) | (pattern >> (WIDTH - 1)), less = rotated - UNIT;
    WORD negative = (less >> (WIDTH - 1)) - 1;
    return ((rotated - (negative & UNIT)) << 1) ^ negative;
}

INLINED WORD NAME(lossless_pattern)(WORD code)
{
    WORD negative = 0 - (code & 1);
    WORD x = (code ^ negative) >> 1;
    /* Where x is not negative and has a field, its highest bit was taken off; where it was negative, a unit was. */
    WORD rotated = NAME(pick)(negative, x + UNIT, x | (~(x - UNIT) & HIGHEST));
    return (rotated >> 1) | (rotated << (WIDTH - 1));
}

/*
 * What one k gives: the ordinal of T; what lies between an ordinal from T on and its magnitude code; E; and 1/E as two
 * powers of two, since 1/E alone may be too large.
 */
BIN {
    WORD threshold, lift;
    FLOAT e;
    double per_e[2];
};

/* Only for an allowed k: then d, with E = 2^d units of the smallest subnormal, is not negative. */
static BIN NAME(bin_of)(int32_t k)
{
    WORD d = (WORD)(k - LEAST_K), threshold = (d + 1) << M;
    /* 2^d units: a subnormal below bit m, else field d-m+1. */
    WORD e = d < M ? (WORD)1 << d : (d - M + 1) << M;
    int32_t half = (k + 1) / 2;
    BIN bin = {threshold, threshold - ((WORD)1 << M), NAME(float_of)(e),
               {power_of_two(-half), power_of_two(half - k - 1)}};
    return bin;
}

/* The code of a pattern, told the magnitude code that it has if it is below T. */
INLINED WORD NAME(code_of_near)(WORD pattern, WORD near, BIN bin)
{
    WORD ordinal = pattern & ~HIGHEST;
    WORD u = NAME(pick)(NAME(below)(ordinal, bin.threshold), near, ordinal - bin.lift);
    return (u << 1) | (pattern >> (WIDTH - 1));
}

/* Halves go away from zero. */
INLINED WORD NAME(tolerance_code)(WORD pattern, BIN bin)
{
    /* Exact, but for magnitudes so far below E/2 that no rounding lifts them there. From T on it is not used. */
    double bins = (double)NAME(float_of)(pattern & ~HIGHEST) * bin.per_e[0] * bin.per_e[1];
    return NAME(code_of_near)(pattern, NAME(half_up)(bins), bin);
}

/*
 * Halves go to even: from 2^m to 2^(m+1) a float counts ones, and adding 2^m rounds to a whole number as IEEE 754 does.
 * Singles hold the powers too, and their products are as exact.
 */
INLINED WORD NAME(tolerance_code_to_even)(WORD pattern, BIN bin)
{
    const FLOAT two_to_m = (FLOAT)((WORD)1 << M);
    FLOAT bins = NAME(float_of)(pattern & ~HIGHEST) * (FLOAT)bin.per_e[0] * (FLOAT)bin.per_e[1];
    return NAME(code_of_near)(pattern, NAME(pattern_of)(bins + two_to_m) - NAME(pattern_of)(two_to_m), bin);
}

INLINED WORD NAME(tolerance_pattern)(WORD code, BIN bin)
{
    WORD u = code >> 1;
    /* Exact: u has at most m bits and u·E is below T, a normal number, and a whole number of the smallest unit. */
    WORD near = NAME(pattern_of)(NAME(whole_as_float)(u) * bin.e);
    return NAME(pick)(NAME(below)(u, (WORD)1 << M), near, u + bin.lift) | (code << (WIDTH - 1));
}

/* A difference, read as signed: 2x when x is not negative, else -2x-1, which is the complement of 2x; and back. */
INLINED WORD NAME(difference_code)(WORD x) { return (x << 1) ^ (0 - (x >> (WIDTH - 1))); }
INLINED WORD NAME(difference)(WORD code) { return (code >> 1) ^ (0 - (code & 1)); }

/* The code of a value; in mode 2 the one before it is looked at too. */
INLINED WORD NAME(code_of)(const WORD *value, uint32_t coding, BIN bin)
{
    switch (coding) {
    case 0: return NAME(lossless_code)(*value);
    case 1: return NAME(tolerance_code)(*value, bin);
    case 2: return NAME(difference_code)(value[0] - value[-1]);
    default: return NAME(tolerance_code_to_even)(*value, bin);
    }
}

/* The pattern of a code in modes 0 and 1. */
INLINED WORD NAME(restored)(WORD code, uint32_t mode, BIN bin)
{
    return mode == 0 ? NAME(lossless_pattern)(code) : NAME(tolerance_pattern)(code, bin);
}

/* ---- Blocks: an arm for each width byte */

/* 32 codes of w bits to the 4w bytes they fill. */
INLINED void NAME(put_codes)(const WORD *codes, uint8_t *bytes, unsigned w)
{
    uint64_t filling = 0;
#define STEP(i) filling = put_code(bytes, filling, codes[i], (i) * w, w);
    FOR_32(STEP)
#undef STEP
    /* Of an odd w, half a word is left. */
    if (w % 2 == 1)
        memcpy(bytes + 4 * w - 4, &filling, 4);
}

static void NAME(put)(const WORD *codes, uint8_t *bytes, unsigned w)
{
#define ARM(byte) case byte: NAME(put_codes)(codes, bytes, byte); break;
    switch (w) { NAME(FOR_EACH_BYTE)(ARM) }
#undef ARM
}

INLINED void NAME(take_codes)(const uint8_t *window, WORD *codes, unsigned w)
{
#define STEP(i) codes[i] = (WORD)take_code(window, (i) * w, w);
    FOR_32(STEP)
#undef STEP
}

/*
 * The 32 codes at a place of a stream. Past a short block's count they are made of whatever follows, and nobody looks
 * at them.
 */
static void NAME(take)(const struct stream *stream, size_t place, WORD *codes, unsigned w)
{
    uint8_t copy[WINDOW];
    const uint8_t *window = window_at(stream, place, copy);
#define ARM(byte) case byte: NAME(take_codes)(window, codes, byte); break;
    switch (w) { NAME(FOR_EACH_BYTE)(ARM) }
#undef ARM
}

/* A code goes from its bytes to its pattern without a stop: that is faster than several lanes with a stop between. */
INLINED WORD NAME(sum_codes)(const uint8_t *window, WORD sum, WORD *patterns, unsigned w)
{
#define STEP(i) patterns[i] = sum += NAME(difference)((WORD)take_code(window, (i) * w, w));
    FOR_32(STEP)
#undef STEP
    return sum;
}

/* Likewise 32 differences, summed up to the patterns after one; the last is answered. */
static WORD NAME(take_sums)(const struct stream *stream, size_t place, WORD before, WORD *patterns, unsigned w)
{
    uint8_t copy[WINDOW];
    const uint8_t *window = window_at(stream, place, copy);
#define ARM(byte) case byte: return NAME(sum_codes)(window, before, patterns, byte);
    switch (w) { NAME(FOR_EACH_BYTE)(ARM) }
#undef ARM
    return before;
}

/*
 * The codes of up to 32 values, and all of them or-ed together. Most blocks are read where they lie. A chunk's first one
 * follows pattern 0. A short one is filled up with what has code 0, which changes neither width nor bytes: pattern 0 or,
 * in mode 2, the last one again.
 */
INLINED WORD NAME(code_block)(const WORD *values, size_t count, int first, uint32_t coding, BIN bin, WORD *codes)
{
    WORD laid[1 + BLOCK], all = 0;
    if (count < BLOCK || (first && coding == 2)) {
        laid[0] = first ? 0 : values[-1];
        for (size_t i = 0; i < BLOCK; i++)
            laid[1 + i] = i < count ? values[i] : coding == 2 ? values[count - 1] : 0;
        values = laid + 1;
    }
    for (size_t i = 0; i < BLOCK; i++) {
        codes[i] = NAME(code_of)(values + i, coding, bin);
        all |= codes[i];
    }
    return all;
}

/*
 * The codes of a group, block by block, and its width byte: the bit length of the largest is that of all or-ed together.
 * Its first value is the chunk's, or not.
 */
INLINED unsigned NAME(code_group)(const WORD *values, size_t count, int first, uint32_t coding, BIN bin, WORD *codes)
{
    WORD all = NAME(code_block)(values, least(BLOCK, count), first, coding, bin, codes);
    for (size_t at = BLOCK; at < count; at += BLOCK)
        all |= NAME(code_block)(values + at, least(BLOCK, count - at), 0, coding, bin, codes + at);
    return bit_length(all);
}

/* ---- Pack and length */

/* A short block's codes fill 32 places first, and then as many bytes as are its own. */
static void NAME(put_short)(const WORD *codes, size_t count, uint8_t *bytes, unsigned w)
{
    uint8_t whole[8 * BLOCK];
    NAME(put)(codes, whole, w);
    memcpy(bytes, whole, bytes_of(count, w));
}

/* A group's codes, block by block: a whole one fills 4w bytes. */
INLINED void NAME(put_group)(const WORD *codes, size_t count, uint8_t *bytes, unsigned w)
{
    for (; count >= BLOCK; count -= BLOCK, codes += BLOCK, bytes += 4 * w)
        NAME(put)(codes, bytes, w);
    if (count > 0)
        NAME(put_short)(codes, count, bytes, w);
}

/* Writes chunk table and data, where there is an output, and answers where the data ends. */
INLINED size_t NAME(pack_data)(const WORD *values, size_t n, uint32_t coding, size_t group, BIN bin, uint8_t *out)
{
    size_t data = HEADER + 4 * chunks_of(n), at = data;
    for (size_t first = 0; first < n; first += group) {
        WORD codes[LARGEST_GROUP];
        size_t count = least(group, n - first);
        unsigned w = NAME(code_group)(values + first, count, first % CHUNK == 0, coding, bin, codes);
        if (out != NULL) {
            uint32_t start = (uint32_t)(at - data);
            if (first % CHUNK == 0)
                memcpy(out + HEADER + first / CHUNK * 4, &start, sizeof start);
            out[at] = (uint8_t)w;
            NAME(put_group)(codes, count, out + at + 1, w);
        }
        at += 1 + bytes_of(count, w);
    }
    return at;
}

/* The same, by a coding and with a group size that are constants from here on. */
INLINED size_t NAME(pack_by_coding)(struct setting s, uint32_t level, const WORD *values, size_t n, uint8_t *out)
{
    BIN bin = NAME(bin_of)(s.k);
    switch (coding_of(s, level) + (s.group == 128 ? ADDED_FOR_128 : 0)) {
    case 0: return NAME(pack_data)(values, n, 0, 32, bin, out);
    case 1: return NAME(pack_data)(values, n, 1, 32, bin, out);
    case 2: return NAME(pack_data)(values, n, 2, 32, bin, out);
    case TO_EVEN: return NAME(pack_data)(values, n, TO_EVEN, 32, bin, out);
    case ADDED_FOR_128: return NAME(pack_data)(values, n, 0, 128, bin, out);
    case ADDED_FOR_128 + 1: return NAME(pack_data)(values, n, 1, 128, bin, out);
    case ADDED_FOR_128 + 2: return NAME(pack_data)(values, n, 2, 128, bin, out);
    default: return NAME(pack_data)(values, n, TO_EVEN, 128, bin, out);
    }
}

static size_t NAME(measured)(struct setting s, uint32_t level, const WORD *values, size_t n)
{
    return NAME(pack_by_coding)(s, level, values, n, NULL);
}

/* Refusals 1 2 3, or the bytes pack would use. */
uint64_t NAME(plain_length)(uint32_t level, uint32_t mode, int32_t k, uint32_t group, const WORD *values, size_t n)
{
    struct setting s = {WIDTH, mode, group, k};
    TRY(admit(level, s, n));
    return NAME(measured)(s, level, values, n);
}

/* Refusals 1 2 3 4, or the bytes written. */
uint64_t NAME(plain_pack)(uint32_t level, uint32_t mode, int32_t k, uint32_t group, const WORD *values, size_t n,
                          uint8_t *out, size_t room)
{
    struct setting s = {WIDTH, mode, group, k};
    TRY(admit(level, s, n));
    /* Room for anything needs no measuring. */
    uint32_t c = (uint32_t)chunks_of(n);
    if (room < HEADER + 4 * c + (n + group - 1) / group + n * sizeof *values) {
        size_t length = NAME(measured)(s, level, values, n);
        if (room < length)
            return refused(4, length);
    }
    size_t end = NAME(pack_by_coding)(s, level, values, n, out);
    struct header header = {1, level, need(s), WIDTH, mode_number(s), k, (uint32_t)n, c, HEADER, HEADER + 4 * c, 0,
                            (uint32_t)end};
    memcpy(out, &header, HEADER);
    return end;
}

/* ---- Check, unpack and probe */

/* The largest code a stream may hold: in mode 1 twice the largest u, plus the sign. */
static WORD NAME(largest_code)(struct setting s)
{
    return s.mode == 1 ? ~(WORD)0 - ((WORD)(s.k - LEAST_K) << (M + 1)) : ~(WORD)0;
}

/* Whether the codes of a group at a place of a stream are no larger than the largest. */
static int NAME(all_fit)(const struct stream *stream, size_t place, size_t count, unsigned w, WORD most)
{
    int all_fit = 1;
    for (size_t at = 0; at < count; at += BLOCK, place += 4 * w) {
        WORD codes[BLOCK];
        NAME(take)(stream, place, codes, w);
        for (size_t i = 0; i < least(BLOCK, count - at); i++)
            all_fit &= codes[i] <= most;
    }
    return all_fit;
}

/* The smallest width, zero padding and the largest code of a group whose bytes are there. */
INLINED int NAME(group_holds)(const struct stream *stream, size_t place, size_t count, unsigned w, WORD most)
{
    const uint8_t *packed = stream->bytes + place;
    if (w == 0)
        return 1;
    if (!width_is_smallest(packed, count, w) || !padding_is_zero(packed, count * w))
        return 0;
    /* Only at the bit length of the largest code do the codes decide: shorter ones all fit, of longer ones none. */
    unsigned longest = bit_length(most);
    if (w != longest || most == ~(WORD)0)
        return w <= longest;
    return NAME(all_fit)(stream, place, count, w, most);
}

/* Refusal 10 of one chunk with its first bad group, or 0. Bytes left over count for the last group. */
INLINED uint64_t NAME(check_groups)(const struct stream *stream, size_t chunk, size_t group)
{
    WORD most = NAME(largest_code)(setting_of(&stream->header));
    size_t at = chunk_place(stream, chunk), end = chunk_place(stream, chunk + 1);
    size_t values = least(CHUNK, stream->header.n - chunk * CHUNK), left = values;
    while (left > 0 && at < end) {
        size_t count = least(group, left);
        unsigned w = stream->bytes[at++];
        if (w > WIDTH || bytes_of(count, w) > end - at || !NAME(group_holds)(stream, at, count, w, most))
            return refused_group(chunk, (values - left) / group);
        at += bytes_of(count, w);
        left -= count;
    }
    if (left > 0)
        return refused_group(chunk, (values - left) / group);
    return at == end ? 0 : refused_group(chunk, (values - 1) / group);
}

/* The same, with a group size that is a constant from here on. */
static uint64_t NAME(check_chunk)(const struct stream *stream, size_t chunk)
{
    if (setting_of(&stream->header).group == 32)
        return NAME(check_groups)(stream, chunk, 32);
    return NAME(check_groups)(stream, chunk, 128);
}

static uint64_t NAME(check_chunks)(const struct stream *stream)
{
    for (size_t chunk = 0; chunk < stream->header.c; chunk++)
        TRY(NAME(check_chunk)(stream, chunk));
    return 0;
}

/*
 * Restores 32 codes of w bits at a place of a stream. What code 0 restores is told, and answered for the next block:
 * pattern 0 or, in mode 2, the last one.
 */
INLINED WORD NAME(restore_block)(const struct stream *stream, size_t place, unsigned w, WORD still, uint32_t mode,
                                 BIN bin, WORD *values)
{
    if (mode == 2)
        return NAME(take_sums)(stream, place, still, values, w);
    WORD codes[BLOCK];
    NAME(take)(stream, place, codes, w);
    for (size_t i = 0; i < BLOCK; i++)
        values[i] = NAME(restored)(codes[i], mode, bin);
    return 0;
}

/* Restores all groups of checked data, by blocks. Chunks hold whole groups and follow each other without a gap. */
INLINED void NAME(restore_data)(const struct stream *stream, uint32_t mode, size_t group, BIN bin, WORD *restrict out)
{
    size_t n = stream->header.n, at = stream->header.data;
    WORD still = 0; /* what code 0 restores */
    unsigned w = 0;
    for (size_t first = 0; first < n; first += BLOCK) {
        size_t count = least(BLOCK, n - first);
        if (first % group == 0)
            w = stream->bytes[at++];
        if (first % CHUNK == 0)
            still = 0;
        if (w == 0 && count == BLOCK) {
            for (size_t i = 0; i < BLOCK; i++)
                out[first + i] = still;
            continue;
        }
        WORD values[BLOCK], *to = count == BLOCK ? out + first : values;
        still = NAME(restore_block)(stream, at, w, still, mode, bin, to);
        if (count < BLOCK)
            memcpy(out + first, values, count * sizeof *values);
        at += bytes_of(count, w);
    }
}

/* Refusals 1 5 6 7 8 14 4 9 8 15 10, or n. */
uint64_t NAME(plain_unpack)(uint32_t level, const uint8_t *bytes, size_t length, WORD *out, size_t room)
{
    struct stream stream;
    const struct header *header = &stream.header;
    TRY(open_stream(level, bytes, length, &stream));
    TRY(refused_if(header->width != WIDTH, 14));
    TRY(room < header->n ? refused(4, header->n) : 0);
    TRY(check_tables(&stream));
    TRY(NAME(check_chunks)(&stream));
    BIN bin = NAME(bin_of)(header->k);
    switch (header->mode) {
    case 0: NAME(restore_data)(&stream, 0, 32, bin, out); break;
    case 1: NAME(restore_data)(&stream, 1, 32, bin, out); break;
    case 2: NAME(restore_data)(&stream, 2, 32, bin, out); break;
    case ADDED_FOR_128: NAME(restore_data)(&stream, 0, 128, bin, out); break;
    case ADDED_FOR_128 + 1: NAME(restore_data)(&stream, 1, 128, bin, out); break;
    default: NAME(restore_data)(&stream, 2, 128, bin, out);
    }
    return header->n;
}

/* The code at an index of a checked chunk, whose groups have so many blocks. */
static WORD NAME(code_at)(const struct stream *stream, size_t chunk, size_t index, size_t blocks)
{
    unsigned w;
    WORD codes[BLOCK];
    size_t place = block_place(stream, chunk, index / BLOCK, blocks, &w);
    NAME(take)(stream, place, codes, w);
    return codes[index % BLOCK];
}

/* The pattern at an index of a checked chunk in mode 2: the sums run from the chunk's start. */
static WORD NAME(sum_at)(const struct stream *stream, size_t chunk, size_t index, size_t blocks)
{
    size_t at = chunk_place(stream, chunk);
    WORD patterns[BLOCK], before = 0;
    unsigned w = 0;
    for (size_t block = 0; block <= index / BLOCK; block++) {
        if (block % blocks == 0)
            w = stream->bytes[at++];
        before = NAME(take_sums)(stream, at, before, patterns, w);
        at += 4 * w;
    }
    return patterns[index % BLOCK];
}

/* The pattern at an index of a checked chunk. */
static WORD NAME(pattern_at)(const struct stream *stream, size_t chunk, size_t index)
{
    struct setting s = setting_of(&stream->header);
    size_t blocks = s.group / BLOCK;
    if (s.mode == 2)
        return NAME(sum_at)(stream, chunk, index, blocks);
    return NAME(restored)(NAME(code_at)(stream, chunk, index, blocks), s.mode, NAME(bin_of)(s.k));
}

/* Refusals 1 5 6 7 8 14 11 9 8 15 10, or the kind: 0 finite, 1 infinite, 2 not-a-number. No other chunk is read. */
uint64_t NAME(plain_probe)(uint32_t level, const uint8_t *bytes, size_t length, uint64_t index, WORD *pattern)
{
    struct stream stream;
    const struct header *header = &stream.header;
    TRY(open_stream(level, bytes, length, &stream));
    TRY(refused_if(header->width != WIDTH, 14));
    TRY(refused_if(index >= header->n, 11));
    TRY(check_tables(&stream));
    TRY(NAME(check_chunk)(&stream, index / CHUNK));
    *pattern = NAME(pattern_at)(&stream, index / CHUNK, index % CHUNK);
    WORD ordinal = *pattern & ~HIGHEST, infinity = HIGHEST - ((WORD)1 << M);
    return ordinal < infinity ? 0 : ordinal == infinity ? 1 : 2;
}

#endif
