/*
 * Gwizdorad's number rules for C and C++, alone: the codes of a binary32 or binary64 number, lossless or within
 * a tolerance 2^k that is kept exactly, value by value, for a solver that has no stream. gwizdorad.h includes
 * this, and adds the streams.
 *
 *     cc -std=c99 $(pkg-config --cflags gwizdorad_numbers) yours.c $(pkg-config --libs gwizdorad_numbers)
 *
 * The archive libgwizdorad_numbers.a has no code of the streams. libgwizdorad.a has the very same objects in it,
 * so a program may link both, in either order.
 *
 * Values go in and out as bit patterns (memcpy takes a float or a double to its pattern and back). A function that
 * can refuse answers one 64-bit result: a refusal number above 32 bits of detail, or 0 above 32 bits of answer.
 * gwz_refusal, gwz_detail, gwz_answer and gwz_exponent take it apart. A refused call leaves what it was lent as it
 * was.
 *
 *
 * WHAT IS PROVED
 *
 * Every function of the archives is proved but a few in plain C: the helpers, which are marked GWZ_HELPER here and
 * in gwizdorad.h, and gwz_version, gwz_format_major and gwz_highest_level. None of them is lent anything.
 *
 *
 * HELPERS FOR OTHER LANGUAGES
 *
 * A function marked GWZ_HELPER is inline in C and C++, and nothing has to be linked for it. The archives and
 * libgwizdorad.so have it as a symbol of the same name too, for languages that read no header, as Fortran (bind(c))
 * and Python (ctypes). A program of C sees its own inline one, and the two do not clash.
 */
#ifndef GWIZDORAD_NUMBERS_H
#define GWIZDORAD_NUMBERS_H

#include <stddef.h>
#include <stdint.h>

/*
 * Of the header; gwz_version has that of the library that is linked. Until 1.0.0 a signature, or what an answer
 * means, may change where the second number does.
 */
#define GWZ_VERSION_MAJOR 0
#define GWZ_VERSION_MINOR 13
#define GWZ_VERSION_PATCH 0
#define GWZ_VERSION "0.13.0"

#ifndef GWZ_HELPER
#define GWZ_HELPER static inline
#endif

#ifdef __cplusplus
extern "C" {
#endif

/* The version of the library, as GWZ_VERSION is that of the header. */
const char *gwz_version(void);

/* The refusal numbers. The detail is 0 but for the four that say another. */
enum gwz_refusal_number {
    GWZ_DONE = 0,                 /* not refused: the low 32 bits are the answer */
    GWZ_UNKNOWN_LEVEL = 1,        /* level not 8 to 14 */
    GWZ_NOT_ALLOWED = 2,          /* mode, k or group size not allowed, or the need exceeds the level; bound: width not 32 or
                                     64; a code alone: rule for halves not 0 or 1; list of chunks: x is a not-a-number */
    GWZ_TOO_MANY_VALUES = 3,      /* more than GWZ_MOST_VALUES */
    GWZ_TOO_SHORT = 4,            /* lent output too short; detail: the length needed, in that output's elements */
    GWZ_NO_HEADER = 5,            /* fewer than GWZ_HEADER_BYTES bytes */
    GWZ_OTHER_MAJOR = 6,          /* major not 1: another format */
    GWZ_TOO_NEW = 7,              /* needed minor above the level; detail: the needed minor */
    GWZ_BROKEN_HEADER = 8,        /* another header rule broken, as when the bytes end before the data, the mode number is
                                     not 0, 1, 2, 256, 257 or 258, or the need is not that of the stream */
    GWZ_BROKEN_TABLE = 9,         /* chunk table or side table rule broken */
    GWZ_BROKEN_CHUNK = 10,        /* a chunk breaks a rule; detail: chunk * 32 + group (of a code alone: 0) */
    GWZ_NO_SUCH_INDEX = 11,       /* index not below the count of values */
    GWZ_NO_TOLERANCE = 12,        /* tolerance not a finite number above 0 */
    GWZ_TOLERANCE_TOO_SMALL = 13, /* no allowed k is small enough */
    GWZ_OTHER_WIDTH = 14,         /* the stream has the other width */
    GWZ_MUST_BE_UNDERSTOOD = 15,  /* a side part has an id from GWZ_FIRST_HIGH_ID up; detail: the first such id */
    GWZ_HAS_SIDE_PARTS = 16,      /* a summary is to be added, and the stream already has side parts */
    GWZ_NO_TRUE_SUMMARY = 17      /* no summary or a false one */
};

/* The exponent k of a tolerance 2^k, for values of each width. */
enum gwz_exponent_limit {
    GWZ_SMALLEST_K32 = -150,
    GWZ_LARGEST_K32 = 103,
    GWZ_SMALLEST_K64 = -1075,
    GWZ_LARGEST_K64 = 970
};

/*
 * Where, within a tolerance, a value goes that lies halfway between two multiples of 2^(k+1): an odd multiple of 2^k. The
 * tolerance is kept by both rules. Away from zero, such halves raise the mean of positive values by 2^k times their share
 * among them, and lower that of negative ones; of the readings of a gauge that counts in steps of 2^k those of an odd
 * count are halves. To even, as IEEE 754 rounds, halves that are spread evenly go up as often as down; a value that is always
 * the same half still goes one way.
 */
enum gwz_halves {
    GWZ_HALVES_AWAY = 0,   /* away from zero: what gwz_pack does at the levels 8 to 13 */
    GWZ_HALVES_TO_EVEN = 1 /* to the even multiple: what it does from level 14 on */
};

/* ---- Taking a result apart */

/* The refusal number, or GWZ_DONE. */
GWZ_HELPER uint32_t gwz_refusal(uint64_t result)
{
    return (uint32_t)(result >> 32);
}

/* The answer of a call that was not refused. */
GWZ_HELPER uint32_t gwz_answer(uint64_t result)
{
    return (uint32_t)(result & 0xFFFFFFFFu);
}

/* The detail of a refusal. */
GWZ_HELPER uint32_t gwz_detail(uint64_t result)
{
    return (uint32_t)(result & 0xFFFFFFFFu);
}

/* The exponent k that gwz_bound answered, which may be negative. */
GWZ_HELPER int32_t gwz_exponent(uint64_t result)
{
    uint32_t bits = gwz_answer(result);
    return bits <= 0x7FFFFFFFu ? (int32_t)bits : -1 - (int32_t)(0xFFFFFFFFu - bits);
}

/* A sentence for the person who meets the refusal: what is wrong, and what to do. */
GWZ_HELPER const char *gwz_refusal_text(uint32_t number)
{
    switch (number) {
    case GWZ_DONE:
        return "Done: nothing was refused.";
    case GWZ_UNKNOWN_LEVEL:
        return "The level is not known: pass 8, 9, 10, 11, 12, 13 or 14.";
    case GWZ_NOT_ALLOWED:
        return "The setting is not allowed: check mode, k, group size and width, or pass the higher level that the setting needs. "
               "(Of a code alone: check k and the rule for halves, which is 0 or 1. Of a list of chunks: x is a not-a-number, and no value is at least that; pass the pattern of a number.)";
    case GWZ_TOO_MANY_VALUES:
        return "There are more than 1048576 values: cut the list and pack each part as its own stream.";
    case GWZ_TOO_SHORT:
        return "The lent output is too short: lend as many elements as the detail says.";
    case GWZ_NO_HEADER:
        return "There are fewer than 48 bytes, so this is no whole stream: fetch the file again.";
    case GWZ_OTHER_MAJOR:
        return "The major number is not 1: this is another kind of file, or another format.";
    case GWZ_TOO_NEW:
        return "The stream is too new: read it at the level that the detail names, or update this program.";
    case GWZ_BROKEN_HEADER:
        return "The header is broken or the bytes end too early: the file was cut or damaged, fetch it again. (If it comes the same "
               "again, ask who wrote it: it may be broken there, or state another need than its width, mode, group size and side "
               "parts have.)";
    case GWZ_BROKEN_TABLE:
        return "The chunk table or the side table is broken: the file was cut, damaged or added to, fetch it again.";
    case GWZ_BROKEN_CHUNK:
        return "A chunk breaks a rule, first seen at chunk detail / 32, group detail % 32: fetch the file again. "
               "(Of a code alone: no value has it at this k.)";
    case GWZ_NO_SUCH_INDEX:
        return "There is no value at this index: indices run from 0 to the count of values less 1.";
    case GWZ_NO_TOLERANCE:
        return "The tolerance is not a finite number above 0: pass the pattern of a binary64 number that is.";
    case GWZ_TOLERANCE_TOO_SMALL:
        return "The tolerance is smaller than every allowed 2^k: pack lossless.";
    case GWZ_OTHER_WIDTH:
        return "The stream has the other width: call the function for 64 instead of 32, or for 32 instead of 64.";
    case GWZ_MUST_BE_UNDERSTOOD:
        return "A side part that must not be skipped, with the id that the detail names, is not understood here: the values "
               "would mislead without it. Update this program, or ask who wrote the file.";
    case GWZ_HAS_SIDE_PARTS:
        return "The stream already has side parts, and a summary is added only to one that has none: test whether it has one "
               "already, or add it to the stream as it was packed.";
    case GWZ_NO_TRUE_SUMMARY:
        return "The stream has no summary or a false one: add one to the stream as it was packed, or read the values without it. "
               "(If it had a true one, the file was altered since: fetch it again.)";
    default:
        return "The refusal number is not known to this header: use the header that came with the library.";
    }
}

/* ---- The number rules */

/*
 * Answers the largest allowed k with 2^k not above the tolerance: take it with gwz_exponent.
 *
 * width      32 or 64: the width of the values to be packed
 * tolerance  the pattern of a binary64 number, for either width
 *
 * Refusals, in order: 2 12 13.
 */
uint64_t gwz_bound(uint32_t width, uint64_t tolerance);

/*
 * The code of mode 0, GWZ_LOSSLESS, of a pattern, and the pattern of a code. Each is answered as it is; nothing is refused.
 * (The codes of mode 2, GWZ_DIFFERENCES, run through a chunk, and are not offered by themselves.)
 */
uint32_t gwz_lossless_code32(uint32_t pattern);
uint64_t gwz_lossless_code64(uint64_t pattern);
uint32_t gwz_lossless_restored32(uint32_t code);
uint64_t gwz_lossless_restored64(uint64_t code);

/*
 * Writes the code of a pattern under the tolerance 2^k, and answers 0. `halves` is GWZ_HALVES_AWAY or GWZ_HALVES_TO_EVEN.
 * Refused with 2 where it is another number or k is not allowed; *code is then as it was. Releases before 0.13.0 had no
 * `halves`: a caller that is not compiled with this header, as one in Python or Fortran, has to be amended.
 */
uint64_t gwz_tolerance_code32(uint32_t halves, int32_t k, uint32_t pattern, uint32_t *code);
uint64_t gwz_tolerance_code64(uint32_t halves, int32_t k, uint64_t pattern, uint64_t *code);

/*
 * Writes the pattern that a code restores under the tolerance 2^k, whichever rule made it, and answers 0. Refused with 2 where k is not
 * allowed, and with 10 (detail 0: there is no chunk) where no pattern has a code so large; *pattern is then as
 * it was.
 */
uint64_t gwz_tolerance_restored32(int32_t k, uint32_t code, uint32_t *pattern);
uint64_t gwz_tolerance_restored64(int32_t k, uint64_t code, uint64_t *pattern);

#ifdef __cplusplus
}
#endif

#endif
