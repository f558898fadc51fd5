/*
 * A small field through the installed library, by C and by C++: packed at both sizes of groups, read back, cut, summed up, and the helpers; and half a bin by
 * both rules. Prints what it saw; status 0 is all well.
 */
#include <gwizdorad.h>

#include <stdio.h>
#include <string.h>

enum { CELLS = 6, LONGEST = GWZ_LONGEST_STREAM(32, GWZ_GROUPS_OF_32, CELLS), ADDED = GWZ_SUMMARY_BYTES(32, CELLS) };

static int failures = 0;

static void expect(const char *what, int holds)
{
    if (!holds) {
        printf("not so: %s\n", what);
        failures++;
    }
}

int main(void)
{
    /* 0, -0, 1.5, a not-a-number with a payload, an infinity, the smallest number */
    const uint32_t cells[CELLS] = {0x00000000u, 0x80000000u, 0x3FC00000u, 0x7FC00123u, 0x7F800000u, 0x00000001u};
    uint32_t back[CELLS] = {0}, chunk = 9;
    uint8_t stream[LONGEST], copy[LONGEST + ADDED];
    uint64_t pattern, result;
    const uint32_t quarter = 0x3E800000u; /* 0.25 */
    const double tolerance = 0.005;
    size_t length;

    result = gwz_pack32(GWZ_HIGHEST_LEVEL, GWZ_LOSSLESS, 0, GWZ_GROUPS_OF_32, cells, CELLS, stream, LONGEST);
    expect("packed", gwz_refusal(result) == GWZ_DONE);
    length = gwz_answer(result);
    expect("unpacked", gwz_unpack32(GWZ_HIGHEST_LEVEL, stream, length, back, CELLS) == CELLS);
    expect("the same bit for bit", memcmp(cells, back, sizeof cells) == 0);
    result = gwz_check(GWZ_HIGHEST_LEVEL, stream, length - 1);
    expect("a cut stream is refused", gwz_refusal(result) == GWZ_BROKEN_HEADER);
    expect("with a sentence", strstr(gwz_refusal_text(gwz_refusal(result)), "cut") != NULL);
    expect("a summary added", gwz_add_summary(GWZ_HIGHEST_LEVEL, stream, length, copy, sizeof copy) == length + ADDED);
    expect("and tested", gwz_test_summary(GWZ_HIGHEST_LEVEL, copy, length + ADDED) == CELLS);
    expect("a chunk from 1.5 on", gwz_chunks_from32(GWZ_HIGHEST_LEVEL, cells[2], copy, length + ADDED, &chunk, 1) == 1 && chunk == 0);
    memcpy(&pattern, &tolerance, sizeof pattern);
    expect("the exponent of 0.005 is -8", gwz_exponent(gwz_bound(32, pattern)) == -8);
    result = gwz_pack32(GWZ_HIGHEST_LEVEL, GWZ_LOSSLESS, 0, GWZ_GROUPS_OF_128, cells, CELLS, stream, LONGEST);
    expect("in groups of 128", gwz_refusal(result) == GWZ_DONE && stream[8] == GWZ_LEVEL_13 && stream[17] == 1);
    expect("and unpacked", gwz_unpack32(GWZ_HIGHEST_LEVEL, stream, gwz_answer(result), back, CELLS) == CELLS);
    expect("the same again", memcmp(cells, back, sizeof cells) == 0);
    result = gwz_pack32(GWZ_LEVEL_13, GWZ_WITHIN_TOLERANCE, -2, GWZ_GROUPS_OF_32, &quarter, 1, stream, LONGEST);
    expect("half a bin away from zero", gwz_unpack32(GWZ_LEVEL_9, stream, gwz_answer(result), back, 1) == 1 && back[0] == 0x3F000000u);
    result = gwz_pack32(GWZ_LEVEL_14, GWZ_WITHIN_TOLERANCE, -2, GWZ_GROUPS_OF_32, &quarter, 1, stream, LONGEST);
    expect("and to even", gwz_unpack32(GWZ_LEVEL_9, stream, gwz_answer(result), back, 1) == 1 && back[0] == 0);
    expect("the longest stream", gwz_longest_stream(32, GWZ_GROUPS_OF_32, CELLS) == LONGEST);
    expect("the bytes of a summary", gwz_summary_bytes(32, CELLS) == ADDED);
    expect("header and library have one version", strcmp(GWZ_VERSION, gwz_version()) == 0);
    expect("and one format", GWZ_FORMAT_MAJOR == gwz_format_major() && GWZ_HIGHEST_LEVEL == gwz_highest_level());
    printf("%d cells in %lu bytes and back, version %s\n", (int)CELLS, (unsigned long)length, gwz_version());
    return failures != 0;
}
