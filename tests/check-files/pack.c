/*
 * Packs runs of equal values at the highest level, so that it can be told by hand where each group of the stream stands:
 *
 *     pack FILE WIDTH MODE K GROUP [PATTERN COUNT]...      a PATTERN is in hexadecimal
 */
#include "gwizdorad.h"

#include <stdio.h>
#include <stdlib.h>

static uint32_t values32[GWZ_MOST_VALUES];
static uint64_t values64[GWZ_MOST_VALUES];
static uint8_t stream[GWZ_LONGEST_STREAM(64, GWZ_GROUPS_OF_32, GWZ_MOST_VALUES)];

static size_t filled(int words, char **word)
{
    size_t n = 0;
    for (int i = 0; i + 1 < words; i += 2) {
        uint64_t pattern = strtoull(word[i], NULL, 16);
        unsigned long count = strtoul(word[i + 1], NULL, 10);
        for (; count > 0 && n < GWZ_MOST_VALUES; count--, n++) {
            values32[n] = (uint32_t)pattern;
            values64[n] = pattern;
        }
    }
    return n;
}

int main(int argc, char **argv)
{
    if (argc < 6 || argc % 2 != 0) {
        fprintf(stderr, "usage: pack FILE WIDTH MODE K GROUP [PATTERN COUNT]...\n");
        return 2;
    }
    size_t n = filled(argc - 6, argv + 6), room = sizeof stream;
    uint32_t mode = (uint32_t)strtoul(argv[3], NULL, 10), group = (uint32_t)strtoul(argv[5], NULL, 10);
    int32_t k = (int32_t)strtol(argv[4], NULL, 10);
    uint64_t result = strtoul(argv[2], NULL, 10) == 64
        ? gwz_pack64(GWZ_HIGHEST_LEVEL, mode, k, group, values64, n, stream, room)
        : gwz_pack32(GWZ_HIGHEST_LEVEL, mode, k, group, values32, n, stream, room);
    if (gwz_refusal(result) != GWZ_DONE) {
        fprintf(stderr, "pack: %s\n", gwz_refusal_text(gwz_refusal(result)));
        return 1;
    }
    FILE *file = fopen(argv[1], "wb");
    if (file == NULL || fwrite(stream, 1, gwz_answer(result), file) != gwz_answer(result) || fclose(file) != 0) {
        fprintf(stderr, "pack: cannot write %s\n", argv[1]);
        return 1;
    }
    return 0;
}
