/*
 * gwizdorad-check: says of each file whether it is a sound stream, and where it is bad if it is not. It only reads.
 *
 *     cc -std=c99 -O2 -I include tools/gwizdorad-check.c target/lib/libgwizdorad.a -o gwizdorad-check
 *
 * It prints one line for each file, in the order named:
 *
 *     NAME: ok, N values
 *     NAME: refused NUMBER: what is wrong, and what to do
 *     NAME: cannot be read: the reason
 *
 * The exit status is 0 if every file is ok, 1 if one is refused or cannot be read, and 2 for wrong usage.
 */
#include "gwizdorad.h"

#include <errno.h>
#include <inttypes.h>
#include <stdio.h>
#include <stdlib.h>
#include <string.h>

enum { FIRST_PIECE = 65536, CHUNK_VALUES = 1024 };

/* Where the numbers of the header and the chunk table stand: docs/FORMAT.md, "The bytes". */
enum { WIDTH_AT = 12, MODE_AT = 16, VALUES_AT = 24, CHUNKS_AT = 28, START_AT = 36, END_AT = 44, TABLE_AT = 48 };

/* A mode number from here up says that a group has 128 values, which is then told; else it has 32. */
enum { LARGE_GROUPS = 256 };

static const char usage[] =
    "usage: gwizdorad-check FILE...\n"
    "Checks packed streams, and alters nothing. Prints one line for each file: ok, or what is wrong with it and which\n"
    "values are lost. -- ends the options, for a name that begins with -. The exit status is 0 if every file is ok,\n"
    "1 if one is refused or cannot be read, and 2 for wrong usage.\n"
    "Ok means that no rule of the format is broken. There is no checksum in it: an altered bit that breaks no rule is\n"
    "not seen.\n";

struct content {
    uint8_t *bytes;
    size_t length;
};

/* The number of 32 bits at a place, and 0 where the bytes end before that. */
static uint64_t number_at(const struct content *content, uint64_t at)
{
    if (content->length < 4 || at > content->length - 4)
        return 0;
    const uint8_t *bytes = content->bytes + at;
    return (uint32_t)bytes[0] | (uint32_t)bytes[1] << 8 | (uint32_t)bytes[2] << 16 | (uint32_t)bytes[3] << 24;
}

/* ---- Reading */

static uint32_t refusal_of(const struct content *content, size_t length)
{
    return gwz_refusal(gwz_check(GWZ_HIGHEST_LEVEL, content->bytes, length));
}

/*
 * Whether what has come of a file is refused whatever comes behind it, by a rule that does not ask where the bytes end.
 * So a disk that was named by mistake, or a file without an end, does not fill the memory. A need that the side parts do
 * not ask for is 8 too, but only where the last of them ends with the bytes: one byte fewer, and it is 9.
 */
static int is_hopeless(const struct content *content)
{
    uint32_t refusal = refusal_of(content, content->length);
    return refusal == GWZ_OTHER_MAJOR || refusal == GWZ_TOO_NEW
        || (refusal == GWZ_BROKEN_HEADER && number_at(content, END_AT) < content->length
            && refusal_of(content, content->length - 1) == GWZ_BROKEN_HEADER);
}

/* Returns NULL, or why it could not be read. Of a pipe nobody knows the length, so the room grows with what comes. */
static const char *read_all(FILE *file, struct content *content)
{
    size_t room = 0;
    do {
        size_t larger = room == 0 ? FIRST_PIECE : 2 * room;
        void *moved = room > SIZE_MAX / 2 ? NULL : realloc(content->bytes, larger);
        if (moved == NULL)
            return "there is not enough memory for it";
        content->bytes = (uint8_t *)moved;
        room = larger;
        content->length += fread(content->bytes + content->length, 1, room - content->length, file);
        /* fread gives less than was asked for only at the end, or where reading failed */
    } while (content->length == room && !is_hopeless(content));
    return ferror(file) ? strerror(errno) : NULL;
}

static const char *read_named(const char *name, struct content *content)
{
    FILE *file = fopen(name, "rb");
    if (file == NULL)
        return strerror(errno);
    const char *trouble = read_all(file, content);
    fclose(file);
    return trouble;
}

/* ---- Where a stream is bad. Where 10 is given, header and tables have passed, and their numbers can be relied on. */

/* The place of a chunk's first byte in the file. The one behind the last would begin where the data ends. */
static uint64_t chunk_at(const struct content *content, uint64_t chunk)
{
    if (chunk >= number_at(content, CHUNKS_AT))
        return number_at(content, END_AT);
    return number_at(content, START_AT) + number_at(content, TABLE_AT + 4 * chunk);
}

/* A probe tests the one chunk of its value, and that one whole: any value tells. */
static int chunk_is_good(const struct content *content, uint64_t chunk)
{
    uint32_t pattern32;
    uint64_t pattern64, index = CHUNK_VALUES * chunk;
    uint64_t result = number_at(content, WIDTH_AT) == 64
        ? gwz_probe64(GWZ_HIGHEST_LEVEL, content->bytes, content->length, index, &pattern64)
        : gwz_probe32(GWZ_HIGHEST_LEVEL, content->bytes, content->length, index, &pattern32);
    return gwz_refusal(result) == GWZ_DONE;
}

/* The chunks before the first bad one are good; of those behind it the check has said nothing. */
static void print_others(const struct content *content, uint64_t first_bad)
{
    uint64_t chunks = number_at(content, CHUNKS_AT), bad = 0;
    for (uint64_t chunk = first_bad + 1; chunk < chunks; chunk++)
        if (!chunk_is_good(content, chunk))
            bad++;
    if (chunks == 1)
        printf("there is no other chunk");
    else if (bad == 0)
        printf("every other chunk is good");
    else
        printf("%" PRIu64 " further chunk%s bad", bad, bad == 1 ? " is" : "s are");
}

/* The whole chunk is lost and not the group alone: unpack refuses the stream, and probe each value of the chunk. */
static void print_damage(const struct content *content, uint32_t detail)
{
    uint64_t chunk = gwz_bad_chunk(detail), first = CHUNK_VALUES * chunk, next = first + CHUNK_VALUES;
    uint64_t values = number_at(content, VALUES_AT);
    printf("chunk %" PRIu64 " breaks a rule, first seen in group %" PRIu32 "%s: ", chunk, gwz_bad_group(detail),
           number_at(content, MODE_AT) < LARGE_GROUPS ? "" : " (of 128 values each)");
    printf("values %" PRIu64 " to %" PRIu64 " are lost, ", first, (next < values ? next : values) - 1);
    printf("bytes %" PRIu64 " to %" PRIu64 " of the file; ", chunk_at(content, chunk),
           chunk_at(content, chunk + 1) - 1);
    print_others(content, chunk);
    printf(". Fetch the file again.\n");
}

/* ---- A line for each file */

/* Keeps one file on one line, and a terminal as it is: control characters are '?', those of two bytes in UTF-8 too. */
static void print_name(const char *name)
{
    for (const unsigned char *c = (const unsigned char *)name; *c != '\0'; c++) {
        int two_bytes = c[0] == 0xC2 && c[1] >= 0x80 && c[1] <= 0x9F;
        putchar(two_bytes || *c < 0x20 || *c == 0x7F ? '?' : *c);
        c += two_bytes;
    }
    printf(": ");
}

/* Returns whether it is a sound stream. */
static int print_checked(const struct content *content)
{
    uint64_t result = gwz_check(GWZ_HIGHEST_LEVEL, content->bytes, content->length);
    uint32_t refusal = gwz_refusal(result);
    if (refusal == GWZ_DONE) {
        printf("ok, %" PRIu32 " values\n", gwz_answer(result));
        return 1;
    }
    printf("refused %" PRIu32, refusal);
    if (refusal == GWZ_TOO_NEW)
        printf(" (detail: needed level %" PRIu32 ")", gwz_detail(result));
    if (refusal == GWZ_MUST_BE_UNDERSTOOD)
        printf(" (detail: id %" PRIu32 ")", gwz_detail(result));
    printf(": ");
    if (refusal == GWZ_BROKEN_CHUNK)
        print_damage(content, gwz_detail(result));
    else
        printf("%s\n", gwz_refusal_text(refusal));
    return 0;
}

static int is_sound(const char *name)
{
    struct content content = {NULL, 0};
    int sound = 0;
    const char *trouble = read_named(name, &content);
    print_name(name);
    if (trouble == NULL)
        sound = print_checked(&content);
    else
        printf("cannot be read: %s\n", trouble);
    free(content.bytes);
    fflush(stdout); /* a long list of large files shows how far it is */
    return sound;
}

/* ---- The command */

/* A line that could not be printed was seen by nobody: that is no success. */
static int ended(int status)
{
    if (fflush(stdout) == 0 && !ferror(stdout))
        return status;
    fprintf(stderr, "gwizdorad-check: not all could be printed\n");
    return 1;
}

static int wrong_usage(const char *what, const char *word)
{
    fprintf(stderr, "gwizdorad-check: %s%s\n%s", what, word, usage);
    return 2;
}

int main(int argc, char **argv)
{
    int files = 0, options = 1, status = 0;
    for (int i = 1; i < argc; i++) {
        if (!options || argv[i][0] != '-' || argv[i][1] == '\0') {
            argv[files++] = argv[i]; /* the names come to the front */
        } else if (strcmp(argv[i], "--") == 0) {
            options = 0;
        } else if (strcmp(argv[i], "--help") == 0) {
            printf("%s", usage);
            return ended(0);
        } else {
            return wrong_usage("there is no option ", argv[i]);
        }
    }
    if (files == 0)
        return wrong_usage("no file is named", "");
    for (int i = 0; i < files; i++)
        if (!is_sound(argv[i]))
            status = 1;
    return ended(status);
}
