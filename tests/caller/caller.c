/*
 * The library behind a pipe: a program for x86-64 that makes the calls it reads on standard input and writes what came of them to standard
 * output. So a test that is itself for another machine, and cannot be linked with the library, can call it: directly, or by an emulator.
 * second/src/compare/caller.rs and tests/caller/caller.py are the other ends.
 *
 *
 * A CALL has a head of 88 bytes, then the lent input, then the lent buffer as it is before the call. Every number is little-endian.
 *
 *     24 bytes   the function's name without gwz_, as `pack32`, and zeros behind it (at least one)
 *     4          level
 *     4          mode
 *     4          k, in two's complement
 *     4          group: the group size
 *     4          width, of `bound` alone: the others have it in their names
 *     4          halves: the rule for halves, of `tolerance_code` alone
 *     8          number: the index, the tolerance, the pattern (of `chunks_from` x) or the code
 *     8          count: elements of the input, values or bytes
 *     8          before: elements of the buffer that lie before the room
 *     8          room: elements of the buffer that are lent
 *     8          behind: elements of the buffer that lie behind the room
 *
 * What a function does not take is 0. `probe` and the tolerance rules have a room of 1. The functions, with the elements of their input and of
 * their buffer in bits, - for none:
 *
 *     pack32 32 8     length32 32 -    unpack32 8 32   probe32 8 32    check 8 -   bound - -
 *     pack64 64 8     length64 64 -    unpack64 8 64   probe64 8 64
 *     add_summary 8 8   test_summary 8 -   chunks_from32 8 32   chunks_from64 8 32
 *     lossless_code32 - -   lossless_restored32 - -   tolerance_code32 - 32   tolerance_restored32 - 32    and so with 64
 *
 * AN ANSWER has a head of 16 bytes, then the whole buffer as it is after the call, unless the call has left all of it as it was.
 *
 *     8          the result; of the lossless rules the code or the pattern
 *     8          the bytes that follow: those of the buffer, or 0 where nothing in it has changed
 *
 * It ends with status 0 where the input ends before a call. Anything else that is not as above ends it with status 1, a line on standard
 * error and no answer.
 */
#include <gwizdorad.h>
#include <stdio.h>
#include <stdlib.h>
#include <string.h>

/* As the bytes lie on the pipe: nothing is between the fields, and x86-64 has the lowest byte first. */
struct call {
    char name[24];
    uint32_t level, mode;
    int32_t k;
    uint32_t group, width, halves;
    uint64_t number, count, before, room, behind;
};

struct answer {
    uint64_t result, bytes;
};

typedef char head_of_a_call_is_88_bytes[sizeof(struct call) == 88 ? 1 : -1];
typedef char head_of_an_answer_is_16_bytes[sizeof(struct answer) == 16 ? 1 : -1];

/* ---- the functions */

static uint64_t call_pack32(const struct call *c, const void *in, void *out)
{
    return gwz_pack32(c->level, c->mode, c->k, c->group, in, c->count, out, c->room);
}

static uint64_t call_pack64(const struct call *c, const void *in, void *out)
{
    return gwz_pack64(c->level, c->mode, c->k, c->group, in, c->count, out, c->room);
}

static uint64_t call_length32(const struct call *c, const void *in, void *out)
{
    (void)out;
    return gwz_length32(c->level, c->mode, c->k, c->group, in, c->count);
}

static uint64_t call_length64(const struct call *c, const void *in, void *out)
{
    (void)out;
    return gwz_length64(c->level, c->mode, c->k, c->group, in, c->count);
}

static uint64_t call_check(const struct call *c, const void *in, void *out)
{
    (void)out;
    return gwz_check(c->level, in, c->count);
}

static uint64_t call_unpack32(const struct call *c, const void *in, void *out)
{
    return gwz_unpack32(c->level, in, c->count, out, c->room);
}

static uint64_t call_unpack64(const struct call *c, const void *in, void *out)
{
    return gwz_unpack64(c->level, in, c->count, out, c->room);
}

static uint64_t call_probe32(const struct call *c, const void *in, void *out)
{
    return gwz_probe32(c->level, in, c->count, c->number, out);
}

static uint64_t call_probe64(const struct call *c, const void *in, void *out)
{
    return gwz_probe64(c->level, in, c->count, c->number, out);
}

static uint64_t call_add_summary(const struct call *c, const void *in, void *out)
{
    return gwz_add_summary(c->level, in, c->count, out, c->room);
}

static uint64_t call_test_summary(const struct call *c, const void *in, void *out)
{
    (void)out;
    return gwz_test_summary(c->level, in, c->count);
}

static uint64_t call_chunks_from32(const struct call *c, const void *in, void *out)
{
    return gwz_chunks_from32(c->level, (uint32_t)c->number, in, c->count, out, c->room);
}

static uint64_t call_chunks_from64(const struct call *c, const void *in, void *out)
{
    return gwz_chunks_from64(c->level, c->number, in, c->count, out, c->room);
}

static uint64_t call_bound(const struct call *c, const void *in, void *out)
{
    (void)in, (void)out;
    return gwz_bound(c->width, c->number);
}

static uint64_t call_lossless_code32(const struct call *c, const void *in, void *out)
{
    (void)in, (void)out;
    return gwz_lossless_code32((uint32_t)c->number);
}

static uint64_t call_lossless_code64(const struct call *c, const void *in, void *out)
{
    (void)in, (void)out;
    return gwz_lossless_code64(c->number);
}

static uint64_t call_lossless_restored32(const struct call *c, const void *in, void *out)
{
    (void)in, (void)out;
    return gwz_lossless_restored32((uint32_t)c->number);
}

static uint64_t call_lossless_restored64(const struct call *c, const void *in, void *out)
{
    (void)in, (void)out;
    return gwz_lossless_restored64(c->number);
}

static uint64_t call_tolerance_code32(const struct call *c, const void *in, void *out)
{
    (void)in;
    return gwz_tolerance_code32(c->halves, c->k, (uint32_t)c->number, out);
}

static uint64_t call_tolerance_code64(const struct call *c, const void *in, void *out)
{
    (void)in;
    return gwz_tolerance_code64(c->halves, c->k, c->number, out);
}

static uint64_t call_tolerance_restored32(const struct call *c, const void *in, void *out)
{
    (void)in;
    return gwz_tolerance_restored32(c->k, (uint32_t)c->number, out);
}

static uint64_t call_tolerance_restored64(const struct call *c, const void *in, void *out)
{
    (void)in;
    return gwz_tolerance_restored64(c->k, c->number, out);
}

enum room { NONE, ONE, ANY };

struct operation {
    const char *name;
    size_t input;  /* bytes of an element of the input, 0 where there is none */
    size_t output; /* the same of the buffer */
    enum room room;
    uint64_t (*make)(const struct call *, const void *, void *);
};

static const struct operation operations[] = {
    {"pack32", 4, 1, ANY, call_pack32},
    {"pack64", 8, 1, ANY, call_pack64},
    {"length32", 4, 0, NONE, call_length32},
    {"length64", 8, 0, NONE, call_length64},
    {"check", 1, 0, NONE, call_check},
    {"unpack32", 1, 4, ANY, call_unpack32},
    {"unpack64", 1, 8, ANY, call_unpack64},
    {"probe32", 1, 4, ONE, call_probe32},
    {"probe64", 1, 8, ONE, call_probe64},
    {"add_summary", 1, 1, ANY, call_add_summary},
    {"test_summary", 1, 0, NONE, call_test_summary},
    {"chunks_from32", 1, 4, ANY, call_chunks_from32}, /* chunk numbers have 32 bits at both widths */
    {"chunks_from64", 1, 4, ANY, call_chunks_from64},
    {"bound", 0, 0, NONE, call_bound},
    {"lossless_code32", 0, 0, NONE, call_lossless_code32},
    {"lossless_code64", 0, 0, NONE, call_lossless_code64},
    {"lossless_restored32", 0, 0, NONE, call_lossless_restored32},
    {"lossless_restored64", 0, 0, NONE, call_lossless_restored64},
    {"tolerance_code32", 0, 4, ONE, call_tolerance_code32},
    {"tolerance_code64", 0, 8, ONE, call_tolerance_code64},
    {"tolerance_restored32", 0, 4, ONE, call_tolerance_restored32},
    {"tolerance_restored64", 0, 8, ONE, call_tolerance_restored64},
};

/* ---- the pipe */

static void stop(const char *why)
{
    fprintf(stderr, "caller: %s\n", why);
    exit(1);
}

static const struct operation *operation_of(const struct call *call)
{
    size_t i;
    if (call->name[sizeof call->name - 1] == 0)
        for (i = 0; i < sizeof operations / sizeof *operations; i++)
            if (strcmp(operations[i].name, call->name) == 0)
                return &operations[i];
    stop("a call of no function that there is");
    return NULL;
}

/* The bytes of so many elements. No test lends more than this, so a larger number is no count. */
static size_t bytes_of(uint64_t elements, size_t size)
{
    if (elements > UINT64_C(1) << 32 || (size == 0 && elements != 0))
        stop("a count that is too large");
    return (size_t)elements * size;
}

static void check_room(const struct call *call, enum room room)
{
    if ((room == ONE && call->room != 1) || (room == NONE && (call->before | call->room | call->behind) != 0))
        stop("a room that the function does not take");
}

/* Of its very size, so that what finds reads past the end of a block finds them here. */
static void *block(size_t bytes)
{
    void *made = malloc(bytes == 0 ? 1 : bytes);
    if (made == NULL)
        stop("there is no memory");
    return made;
}

static void *taken(size_t bytes)
{
    void *made = block(bytes);
    if (fread(made, 1, bytes, stdin) != bytes)
        stop("the input ends within a call");
    return made;
}

static int next_call(struct call *call)
{
    size_t got = fread(call, 1, sizeof *call, stdin);
    if (got != sizeof *call && (got != 0 || ferror(stdin)))
        stop("the input ends within a call");
    return got != 0;
}

static void put(const void *from, size_t bytes)
{
    if (fwrite(from, 1, bytes, stdout) != bytes)
        stop("the answer could not be written");
}

static void serve(const struct call *call)
{
    const struct operation *operation = operation_of(call);
    size_t before = bytes_of(call->before, operation->output);
    size_t size = before + bytes_of(call->room, operation->output) + bytes_of(call->behind, operation->output);
    struct answer answer = {0, 0};
    uint8_t *buffer, *was;
    void *input;

    check_room(call, operation->room);
    input = taken(bytes_of(call->count, operation->input));
    buffer = taken(size);
    was = block(size);
    memcpy(was, buffer, size);

    answer.result = operation->make(call, input, buffer + before);
    if (memcmp(was, buffer, size) != 0)
        answer.bytes = size;
    put(&answer, sizeof answer);
    put(buffer, answer.bytes);
    if (fflush(stdout) != 0)
        stop("the answer could not be written");
    free(was);
    free(buffer);
    free(input);
}

int main(void)
{
    /* Large enough that most calls and answers go through in one piece. */
    static char calls[1 << 16], answers[1 << 16];
    struct call call;

    setvbuf(stdin, calls, _IOFBF, sizeof calls);
    setvbuf(stdout, answers, _IOFBF, sizeof answers);
    while (next_call(&call))
        serve(&call);
    return 0;
}
