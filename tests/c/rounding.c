/*
 * The codes do not depend on how the caller's processor rounds. The library computes the tolerance code with floats; that its answers
 * are those of the whole-number rules is proved for round to nearest. That they stay the same where the caller has set another
 * direction, or has subnormal numbers flushed to zero or taken for zero, no proof says: it is tested here, by both rules for halves,
 * stream by stream and code by code.
 */
#include <fenv.h>
#include <stdio.h>
#include <string.h>
#include <xmmintrin.h>

#include "gwizdorad.h"

enum { VALUES = 1500, STREAM = 48 + 8 + (VALUES + 31) / 32 + 8 * VALUES, FLUSH = 0x8000, ZEROS = 0x0040 };
enum { ALONE = 500 }; /* of the values so many are coded one by one too, which takes longer */

/* A fixed sequence of numbers that look random (xorshift). */
static uint64_t state = 88172645463325252u;

static uint64_t draw(void)
{
    state ^= state << 13;
    state ^= state >> 7;
    state ^= state << 17;
    return state;
}

static uint32_t values32[VALUES], back32[VALUES];
static uint64_t values64[VALUES], back64[VALUES];

/* The pattern of a number of 2^k, by whole numbers alone; of 2^(k+1) at the smallest k, whose half bin is below every number. */
static uint64_t pattern_of(uint64_t number, int32_t k, unsigned fraction, int32_t smallest)
{
    unsigned bits = 0, places = k < smallest ? 0u : (unsigned)(k - smallest);
    while (number >> bits != 0)
        bits++;
    return bits + places <= fraction + 1 ? number << places
                                         : ((uint64_t)(bits + places - fraction - 1) << fraction) + (number << (fraction + 1 - bits));
}

/* An odd number of 2^k, which is half a bin: up to the threshold, and of any number of bits. */
static void draw_half(size_t i, int32_t k)
{
    uint64_t r = draw(), fewer = draw();
    values32[i] = (uint32_t)(r >> 63 << 31 | pattern_of(((r & 0xFFFFFFu) >> fewer % 24u) | 1, k, 23, -149));
    values64[i] = r >> 63 << 63 | pattern_of(((r & 0x1FFFFFFFFFFFFFu) >> fewer % 53u) | 1, k, 52, -1074);
}

/* Of eight values one is any pattern, one is subnormal, three are halves of a bin, and three lie within some bins of the tolerance. */
static void draw_values(int32_t k)
{
    for (size_t i = 0; i < VALUES; i++) {
        uint64_t r = draw();
        uint64_t sign = r >> 63, few = draw() % 4096u;
        int32_t up32 = k + 127 + (int32_t)(few % 26u) - 1, up64 = k + 1023 + (int32_t)(few % 55u) - 1;
        uint32_t e32 = up32 < 0 ? 0u : up32 > 255 ? 255u : (uint32_t)up32;
        uint64_t e64 = up64 < 0 ? 0u : up64 > 2047 ? 2047u : (uint64_t)up64;
        uint64_t fraction = few % 3u == 0 ? few << 40 : r >> 12;
        values32[i] = (uint32_t)(sign << 31) | e32 << 23 | (uint32_t)(fraction >> 29 & 0x7FFFFFu);
        values64[i] = sign << 63 | e64 << 52 | (fraction & 0xFFFFFFFFFFFFFu);
        if (i % 8u == 0) {
            values32[i] = (uint32_t)r;
            values64[i] = r;
        } else if (i % 8u == 1) {
            values32[i] = (uint32_t)(r & 0x807FFFFFu);
            values64[i] = r & 0x800FFFFFFFFFFFFFu;
        } else if (i % 8u < 5) {
            draw_half(i, k);
        }
    }
}

/* The codes of the first of the drawn values, one by one. Whether none was refused. */
static int find_codes(unsigned width, uint32_t halves, int32_t k, uint64_t *codes)
{
    uint64_t refused = 0;
    for (size_t i = 0; i < ALONE; i++) {
        uint32_t code32 = 0;
        refused |= width == 32 ? gwz_tolerance_code32(halves, k, values32[i], &code32)
                               : gwz_tolerance_code64(halves, k, values64[i], &codes[i]);
        if (width == 32)
            codes[i] = code32;
    }
    return refused == 0;
}

static uint64_t codes[ALONE], other_codes[ALONE];

/*
 * The stream of the drawn values, then its values unpacked behind it, then codes alone: all that a setting of the processor could
 * change. 0 where a call is refused, or the length is another.
 */
static size_t result_of(unsigned width, uint32_t halves, int32_t k, uint8_t *result)
{
    const uint32_t level = halves == GWZ_HALVES_AWAY ? 13 : 14, mode = GWZ_WITHIN_TOLERANCE;
    uint32_t group = k % 2 == 0 ? GWZ_GROUPS_OF_32 : GWZ_GROUPS_OF_128; /* both, in turn */
    uint64_t packed = width == 32 ? gwz_pack32(level, mode, k, group, values32, VALUES, result, STREAM)
                                  : gwz_pack64(level, mode, k, group, values64, VALUES, result, STREAM);
    uint64_t measured = width == 32 ? gwz_length32(level, mode, k, group, values32, VALUES)
                                    : gwz_length64(level, mode, k, group, values64, VALUES);
    size_t length = (size_t)gwz_answer(packed), back_bytes = width == 32 ? sizeof back32 : sizeof back64;
    if (gwz_refusal(packed) != GWZ_DONE || measured != packed || !find_codes(width, halves, k, codes))
        return 0;
    if (width == 32)
        gwz_unpack32(level, result, length, back32, VALUES);
    else
        gwz_unpack64(level, result, length, back64, VALUES);
    memcpy(result + length, width == 32 ? (const void *)back32 : (const void *)back64, back_bytes);
    memcpy(result + length + back_bytes, codes, sizeof codes);
    return length + back_bytes + sizeof codes;
}

static uint8_t wanted[STREAM + sizeof back64 + sizeof codes], found[STREAM + sizeof back64 + sizeof codes];

/* Whether every direction, with and without subnormal numbers, gives what the usual setting gives. */
static void compare(unsigned width, uint32_t halves, int32_t k, unsigned *passed, unsigned *failed)
{
    static const int directions[] = {FE_TONEAREST, FE_UPWARD, FE_DOWNWARD, FE_TOWARDZERO};
    static const unsigned subnormals[] = {0, FLUSH, ZEROS, FLUSH | ZEROS};
    size_t length = result_of(width, halves, k, wanted);
    for (size_t i = 0; i < 16; i++) {
        unsigned usual = _mm_getcsr();
        fesetround(directions[i % 4]);
        _mm_setcsr((_mm_getcsr() & ~(unsigned)(FLUSH | ZEROS)) | subnormals[i / 4]);
        size_t again = result_of(width, halves, k, found);
        fesetround(FE_TONEAREST);
        _mm_setcsr(usual);
        if (length > 0 && again == length && memcmp(wanted, found, length) == 0) {
            ++*passed;
        } else {
            ++*failed;
            printf("width %u, k = %ld, rule %u: another answer with direction %u, subnormals %u\n", width, (long)k, (unsigned)halves,
                   (unsigned)(i % 4), (unsigned)(i / 4));
        }
    }
}

/* That there are halves among the values: at each k but the smallest, more than a tenth of the codes are others by the other rule. */
static void look_for_halves(unsigned width, int32_t k, unsigned *passed, unsigned *failed)
{
    size_t differing = 0;
    int done = find_codes(width, GWZ_HALVES_AWAY, k, codes) && find_codes(width, GWZ_HALVES_TO_EVEN, k, other_codes);
    for (size_t i = 0; i < ALONE; i++)
        differing += codes[i] != other_codes[i];
    if (done && (k == (width == 32 ? -150 : -1075) ? differing == 0 : differing > ALONE / 10)) {
        ++*passed;
    } else {
        ++*failed;
        printf("width %u, k = %ld: %lu codes are others by the other rule\n", width, (long)k, (unsigned long)differing);
    }
}

static void try_values(unsigned width, int32_t k, unsigned *passed, unsigned *failed)
{
    draw_values(k);
    look_for_halves(width, k, passed, failed);
    compare(width, GWZ_HALVES_AWAY, k, passed, failed);
    compare(width, GWZ_HALVES_TO_EVEN, k, passed, failed);
}

int main(void)
{
    unsigned passed = 0, failed = 0;
    for (int32_t k = -150; k <= 103; k++)
        try_values(32, k, &passed, &failed);
    for (int32_t k = -1075; k <= 970; k += 5)
        try_values(64, k, &passed, &failed);
    printf("%u passed, %u failed\n", passed, failed);
    return failed == 0 ? 0 : 1;
}
