/*
 * Gwizdorad for C and C++: packed fields of binary32 and binary64 numbers.
 *
 * A field is a list of bit patterns (IEEE 754). Packed, it is a stream of bytes: lossless, or within a
 * tolerance 2^k that is kept exactly. docs/FORMAT.md has every byte of the stream, examples/pack_field.c is
 * a program to copy from. The number rules, the results and the refusals stand in gwizdorad_numbers.h, which
 * this includes. Installed by `./install PREFIX` it is linked by
 *
 *     cc -std=c99 $(pkg-config --cflags gwizdorad) yours.c $(pkg-config --libs gwizdorad)
 *
 * and without that by
 *
 *     cc -std=c99 -I include yours.c target/lib/libgwizdorad.a      after tools/build-archives
 *
 *
 * WHAT IS LENT
 *
 * - A lent part is a pointer and a count of elements. The library reads or writes there and nowhere else,
 *   during the call and not after it. It allocates nothing, keeps nothing between calls and has no state, so
 *   any number of threads may call it at once, each with outputs of its own. (Of the stack it takes under 13 kB on
 *   x86-64: that is measured, and not proved.)
 * - An output must not overlap any other part lent to the same call.
 * - During the call nobody else writes to a lent part, or reads an output.
 * - A part of no elements (count 0) is never read or written, and its pointer may be NULL. No other pointer
 *   may be: behind `pattern` and `code`, one element is lent.
 * - Pointers to uint32_t and uint64_t are aligned as C has it. Bytes may lie anywhere.
 *
 * Any content is safe to lend. Bytes that break a rule of the format get a refusal, never a fault: from check, unpack
 * and the calls about summaries, and from probe where the rule is of the header, the tables or the value's own chunk. A
 * cut file (a proper beginning of a stream that some reader accepts) is accepted by none, at any level; check, unpack or
 * probe, where it accepts the whole, refuses it by 5, 8 or 9.
 *
 *
 * WHAT IS NOT SEEN
 *
 * The format has no checksum. An altered bit of a code that breaks no rule is read as another value, and in mode
 * GWZ_DIFFERENCES it also moves every value behind it in its chunk: of single bits flipped at random in streams (groups
 * of 32) of a harbour field, 94 % and more were accepted, nearly each with one wrong value, or with wrong values to the
 * end of a chunk (README.md has the figures). A file that travels needs a checksum around it; examples/pack_field.c keeps
 * a CRC-32. A summary is none: beside it too, a wrong value is not seen that leaves what the summary says of its chunk.
 *
 *
 * WHAT IS ANSWERED
 *
 * Every operation but the lossless codes answers one 64-bit result: a refusal number above 32 bits of detail, or 0
 * above 32 bits of answer. Take it apart with gwz_refusal, then gwz_detail or gwz_answer (gwz_exponent after gwz_bound):
 *
 *     uint64_t result = gwz_pack32(GWZ_HIGHEST_LEVEL, GWZ_LOSSLESS, 0, GWZ_GROUPS_OF_32, values, n, stream, room);
 *     if (gwz_refusal(result) != GWZ_DONE)
 *         fprintf(stderr, "%s\n", gwz_refusal_text(gwz_refusal(result)));
 *     else
 *         length = gwz_answer(result);
 *
 * A REFUSED CALL LEAVES ALL AS IT WAS: every lent element. Where several refusals apply, the one given
 * is the first in the order that stands with the operation.
 *
 *
 * SIDE PARTS
 *
 * A stream may have up to 64 side parts behind its data: bytes with an id. Pack writes none. gwz_add_summary adds the one with
 * the id GWZ_SUMMARY_ID, which is 1; others put the rest there, and this library hands none out. Ids below GWZ_FIRST_HIGH_ID,
 * which is 2^31, may be skipped: every reader does, that of the summary too. An id from there up says that the values must not
 * be used by who does not understand it, as where a part holds a datum shift. NONE IS DEFINED YET, so at every level such a
 * stream is refused. Who adds such a part also raises the needed minor to 12 if it is below that (in groups of 128 it is 13),
 * and the written one to the needed if it is below that, and no higher (docs/FORMAT.md has the bytes): then readers of this
 * library refuse the stream by 7 below the need and by 15, with the first such id, from it on; and older ones, which knew no
 * such ids, by 7 too. Where the need had to be raised and was not (in groups of 32), a reader that reaches it refuses the stream
 * by 8 in this library, and skips the part in releases before 0.10.0.
 *
 *
 * PATTERNS, NOT FLOATS
 *
 * Values go in and out as bit patterns, so that no conversion on the way can alter a not-a-number: uint32_t
 * for binary32 and uint64_t for binary64. memcpy takes a float or a double to its pattern and back.
 */
#ifndef GWIZDORAD_H
#define GWIZDORAD_H

#include "gwizdorad_numbers.h"

/* The format that this header is of: its major number, and the highest level that is known here. */
#define GWZ_FORMAT_MAJOR 1
#define GWZ_HIGHEST_LEVEL 14 /* reads every stream that this library can write */

#ifdef __cplusplus
extern "C" {
#endif

/*
 * A level is the minor number of the format that a call acts as. A writer's level is noted in the stream, with
 * the least level that a reader needs: 13 in groups of 128, else 11 in mode GWZ_DIFFERENCES, else 10 for width 64, else 9
 * within a tolerance, else 8. A reader of level 10 or below refuses GWZ_DIFFERENCES by 7: for such boats use GWZ_LOSSLESS, whose
 * need is 8, or 10 at width 64. One of level 12 or below refuses groups of 128 by 7: for such boats use GWZ_GROUPS_OF_32. A stream
 * to which somebody added a side part with an id from GWZ_FIRST_HIGH_ID up needs 12, or more if its setting does: see SIDE PARTS.
 *
 * Nothing needs level 14: what a writer does there is read by each level that reads the same setting written at an older one. Within
 * a tolerance it sends halves to even (GWZ_HALVES_TO_EVEN); at the levels 8 to 13 they go away from zero. It is the level told to
 * gwz_pack that decides, and the stream notes it at the place 4. Who compares files with older ones byte for byte writes at the
 * older level and names it, as GWZ_LEVEL_13: GWZ_HIGHEST_LEVEL, and what gwz_highest_level answers, move on with the release.
 * Who writes for an older reader asks gwz_check at that reader's level whether it takes the stream: 7 names the level it needs.
 */
enum gwz_level {
    GWZ_LEVEL_8 = 8,   /* width 32, GWZ_LOSSLESS */
    GWZ_LEVEL_9 = 9,   /* and width 32, GWZ_WITHIN_TOLERANCE */
    GWZ_LEVEL_10 = 10, /* and width 64, in both of these */
    GWZ_LEVEL_11 = 11, /* and GWZ_DIFFERENCES, both widths */
    GWZ_LEVEL_12 = 12, /* no other setting; refuses ids that must be understood by 15 */
    GWZ_LEVEL_13 = 13, /* and groups of 128, in every mode and width */
    GWZ_LEVEL_14 = 14  /* no other setting; within a tolerance a writer sends halves to even */
};

enum gwz_mode {
    GWZ_LOSSLESS = 0,         /* every pattern comes back bit for bit; k must be 0 */
    GWZ_WITHIN_TOLERANCE = 1, /* a magnitude below 2^(k+24) (width 64: 2^(k+53)) comes back at most 2^k off,
                                 every other value, infinities and not-a-numbers too, bit for bit */
    GWZ_DIFFERENCES = 2       /* as GWZ_LOSSLESS, by the difference of each pattern from the one before it in the list, within
                                 its chunk of 1,024; k must be 0. Mostly smaller where values have the sign of the one before
                                 and nearly its magnitude, and larger where the sign changes often: gwz_length tells */
};

/*
 * How many values a group has: each group has a byte for how wide its codes are, and the widest code of the group decides. What a
 * value comes back as does not depend on it, nor does the cut into chunks of 1,024.
 *
 * - GWZ_GROUPS_OF_32 where some reader is of level 12 or below; and for fields with rough spots, which then cost their width in a
 *   group of 32 and not in one of 128.
 * - GWZ_GROUPS_OF_128 for fields whose codes have few bits over long stretches, as calm ones within a tolerance have (lossless
 *   a calm field is often larger so), if every reader is of level 13 or later. There are a quarter as many width bytes.
 *
 * Which is the smaller for a field, gwz_length tells; examples/calm_field.c compares both. In the stream and the listing there
 * is no number for it: 256 is added to the mode number for 128. In a call the mode is 0, 1 or 2 for both.
 */
enum gwz_group {
    GWZ_GROUPS_OF_32 = 32,  /* what every release before 0.12.0 wrote */
    GWZ_GROUPS_OF_128 = 128 /* needs level 13 */
};

/* What gwz_probe32 and gwz_probe64 answer. */
enum gwz_kind {
    GWZ_FINITE = 0,
    GWZ_INFINITY = 1,
    GWZ_NOT_A_NUMBER = 2
};

/* The id of the side part that is a summary of the chunks: see below, "The summary beside the data". */
#define GWZ_SUMMARY_ID UINT32_C(1)

/* The first id of a side part that must be understood; those below may be skipped. */
#define GWZ_FIRST_HIGH_ID UINT32_C(0x80000000)

enum gwz_limit {
    GWZ_MOST_VALUES = 1048576, /* in one stream: examples/large_field.c has a way to pack more */
    GWZ_HEADER_BYTES = 48      /* what gwz_pack writes for no values */
};

/*
 * The most bytes that gwz_pack writes for n values (at most GWZ_MOST_VALUES) of a width, 32 or 64, in groups of 32 or 128:
 * header, chunk table, a width byte for each group, and the values. (A stream to which side parts were added may be longer.)
 * This number for groups of 32 is enough for groups of 128 too (what gwz_length answers is not); any other size, which gwz_pack
 * refuses, counts as 32 here. A constant where all three are, so it can be the length of an array. It mentions n more than once.
 */
#define GWZ_LONGEST_STREAM(width, group, n)                                                  \
    (48u + 4u * (((size_t)(n) + 1023u) / 1024u)                                              \
     + ((group) == 128 ? ((size_t)(n) + 127u) / 128u : ((size_t)(n) + 31u) / 32u)            \
     + (size_t)(n) * ((size_t)(width) / 8u))

/* The same for a language that has no macros. */
GWZ_HELPER size_t gwz_longest_stream(uint32_t width, uint32_t group, size_t n)
{
    return GWZ_LONGEST_STREAM(width, group, n);
}

/*
 * The bytes that gwz_add_summary adds to a stream of n values (at most GWZ_MOST_VALUES) of a width, 32 or 64: an entry of
 * the side table, and for each chunk a count and two patterns. A constant where n is one.
 */
#define GWZ_SUMMARY_BYTES(width, n) (12u + ((size_t)(n) + 1023u) / 1024u * (4u + 2u * ((size_t)(width) / 8u)))

/* The same for a language that has no macros. */
GWZ_HELPER size_t gwz_summary_bytes(uint32_t width, size_t n)
{
    return GWZ_SUMMARY_BYTES(width, n);
}

/* GWZ_FORMAT_MAJOR and GWZ_HIGHEST_LEVEL of the library that is linked. */
uint32_t gwz_format_major(void);
uint32_t gwz_highest_level(void);

/* ---- Packing */

/*
 * Packs n values into `out`, which has room for `room` bytes. Answers the bytes written, at the front of `out`;
 * behind them nothing is altered. Enough room is what gwz_length answers, or GWZ_LONGEST_STREAM, with which
 * there is no measuring pass over the values.
 *
 * level    8, 9, 10, 11, 12, 13 or 14; which allows which setting, and where halves go, stands with enum gwz_level
 * mode     GWZ_LOSSLESS, GWZ_WITHIN_TOLERANCE or GWZ_DIFFERENCES
 * k        within a tolerance its exponent, which gwz_bound finds: -150 to 103 for width 32, -1075 to 970 for
 *          width 64; else 0
 * group    GWZ_GROUPS_OF_32 or GWZ_GROUPS_OF_128
 *
 * Refusals, in order: 1 2 3 4.
 */
uint64_t gwz_pack32(uint32_t level, uint32_t mode, int32_t k, uint32_t group, const uint32_t *values, size_t n,
                    uint8_t *out, size_t room);
uint64_t gwz_pack64(uint32_t level, uint32_t mode, int32_t k, uint32_t group, const uint64_t *values, size_t n,
                    uint8_t *out, size_t room);

/* Answers the bytes that gwz_pack would write for the same level, setting and values. Refusals, in order: 1 2 3. */
uint64_t gwz_length32(uint32_t level, uint32_t mode, int32_t k, uint32_t group, const uint32_t *values, size_t n);
uint64_t gwz_length64(uint32_t level, uint32_t mode, int32_t k, uint32_t group, const uint64_t *values, size_t n);

/* ---- Reading */

/*
 * Checks a whole stream of either width, and hands out no values. Answers the count of values. What passes here,
 * gwz_unpack of its width reads, given room. That the values are those that were packed, it cannot know: see WHAT IS
 * NOT SEEN. Refusals, in order: 1 5 6 7 8 9 8 15 10; the second 8, here and below, is for a needed minor that is above what
 * the stream needs, or too low for an id from GWZ_FIRST_HIGH_ID up.
 */
uint64_t gwz_check(uint32_t level, const uint8_t *bytes, size_t len);

/*
 * Checks a whole stream and then writes its values to the front of `out`, which has room for `room` elements.
 * Answers the count of values; behind them nothing is altered. The room needed is what gwz_check answers, or the
 * detail of refusal 4: with room 0, that is a way to ask.
 *
 * Refusals, in order: 1 5 6 7 8 14 4 9 8 15 10.
 */
uint64_t gwz_unpack32(uint32_t level, const uint8_t *bytes, size_t len, uint32_t *out, size_t room);
uint64_t gwz_unpack64(uint32_t level, const uint8_t *bytes, size_t len, uint64_t *out, size_t room);

/*
 * Reads the one value at `index`, counted from 0, and writes its pattern. Answers GWZ_FINITE, GWZ_INFINITY or
 * GWZ_NOT_A_NUMBER. It reads the header, both tables and the whole of the value's own chunk: damage in another chunk's
 * data does not touch the answer.
 *
 * Refusals, in order: 1 5 6 7 8 14 11 9 8 15 10, the last for the value's own chunk only. *pattern is then as it was.
 */
uint64_t gwz_probe32(uint32_t level, const uint8_t *bytes, size_t len, uint64_t index, uint32_t *pattern);
uint64_t gwz_probe64(uint32_t level, const uint8_t *bytes, size_t len, uint64_t index, uint64_t *pattern);

/* ---- The summary beside the data */

/*
 * A summary is side part 1, GWZ_SUMMARY_ID. For each chunk of 1,024 values (the last: what is left) it holds a count of
 * not-a-numbers, and the smallest and the largest other value as patterns: 0 and 0 if there is none, and -0 stands below 0.
 * Infinities are values. All is said of the values as unpack gives them back, so within a tolerance not of those that were
 * packed. docs/FORMAT.md has the bytes. Adding a summary changes no value that any level shows, and a stream needs no other
 * level for it: a reader that knows no summaries skips the part.
 *
 * Each of these calls reads every chunk at most twice, to check it and for its values (of each group the first byte once
 * more), and has 8,192 bytes on the stack for the values of one chunk. No call hands out a summary: its bytes are in the stream.
 */

/*
 * Copies a stream of either width without side parts to the front of `out`, which has room for `room` bytes and must not
 * overlap `bytes`, and adds its summary. Answers the bytes written; behind them nothing is altered. Of the stream's own bytes
 * only the count of side parts is another in the copy, 1 in place of 0: the written minor stays. The room needed is len +
 * GWZ_SUMMARY_BYTES, or the detail of refusal 4: with room 0, that is a way to ask.
 *
 * Refusals, in order: 1 5 6 7 8 9 8 15 10 16 4. 16, GWZ_HAS_SIDE_PARTS: the stream already has side parts. Add the summary to
 * the stream as it was packed, and make the side table anew for the other parts; docs/FORMAT.md has the bytes.
 */
uint64_t gwz_add_summary(uint32_t level, const uint8_t *bytes, size_t len, uint8_t *out, size_t room);

/*
 * Tests the summary of a stream of either width against its values. Answers the count of values, where the summary is true in
 * every byte. Other side parts may stand beside it.
 *
 * Refusals, in order: 1 5 6 7 8 9 8 15 10 17. 17, GWZ_NO_TRUE_SUMMARY: there is no summary or a false one. The values are still
 * read by check, unpack and probe, which skip it. Where the stream had a true one, it was altered since: fetch it again.
 */
uint64_t gwz_test_summary(uint32_t level, const uint8_t *bytes, size_t len);

/*
 * Lists the chunks that hold some value at least x, as IEEE 754 compares: -0 equals 0, and a not-a-number is at least nothing.
 * Writes their numbers, counted from 0, in order, to the front of `out`, which has room for `room` elements. Answers how many
 * there are; behind them nothing is altered. Enough room is an element for each chunk, (n + 1023) / 1024 of them, or what the
 * detail of refusal 4 says. Chunk j has the values with the indices from 1024 * j on. A chunk of not-a-numbers only is never
 * listed. The summary is tested first, as by gwz_test_summary: what is listed is true of the values.
 *
 * x        the pattern of a number, which may be an infinity
 *
 * Refusals, in order: 1 2 5 6 7 8 14 9 8 15 10 17 4; 2 where x is a not-a-number, 17 as in gwz_test_summary.
 */
uint64_t gwz_chunks_from32(uint32_t level, uint32_t x, const uint8_t *bytes, size_t len, uint32_t *out, size_t room);
uint64_t gwz_chunks_from64(uint32_t level, uint64_t x, const uint8_t *bytes, size_t len, uint32_t *out, size_t room);

/* ---- Where a stream is bad */

/*
 * The detail of refusal 10, GWZ_BROKEN_CHUNK, taken apart: a chunk and a group of it, both counted from 0. From
 * gwz_probe it is the value's own chunk, from all others the first bad one; the group is the first bad one
 * in it. (Bytes left over behind a chunk's last group count for that group.) The detail is chunk * 32 + group at both
 * sizes of groups, so the two functions are the same for both. The chunk's values have the indices from 1024 * chunk on,
 * 1,024 of them; the last chunk has what is left.
 *
 * - The group's values depend on the size: they have the indices from 1024 * chunk + 32 * group on, 32 of them, in groups of
 *   32, where a group is 0 to 31; and those from 1024 * chunk + 128 * group on, 128 of them, in groups of 128, where it is 0
 *   to 7. The last group of the last chunk has what is left. The size stands in the header of the stream that was refused,
 *   which has passed where 10 is given: the mode number, 4 bytes at the place 16, is 256 or more for 128 and below that for 32.
 *   So bytes[17] is 1 for 128 and 0 for 32.
 * - It is where a rule is first seen broken. The altered byte may stand in that group, before it in the chunk, or in
 *   the header or the chunk table.
 * - gwz_probe, at the same level, refuses every value of that chunk with the same detail: those of the good groups in
 *   it too. It reads the values of every good chunk.
 * - From all others than gwz_probe: every chunk before it is good. Of the chunks behind it nothing is told; gwz_probe at
 *   the index 1024 * j asks about chunk j.
 * - From gwz_probe: nothing is told of any other chunk.
 */
GWZ_HELPER uint32_t gwz_bad_chunk(uint32_t detail)
{
    return detail / 32u;
}

GWZ_HELPER uint32_t gwz_bad_group(uint32_t detail)
{
    return detail % 32u;
}

#ifdef __cplusplus
}
#endif

#endif
