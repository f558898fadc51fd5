/*
 * The field of the first run: packed, summed up, and read back and measured.
 *
 *     harbour pack FIELD FOLDER METRES       packs FIELD into FOLDER: lossless in both ways, within a tolerance, the same in groups of
 *                                            128 values, the one in groups of 32 with a summary beside it, and a cut file
 *     harbour read FIELD FOLDER METRES       reads the six files back, compares them with FIELD, and lists the chunks with high water
 *     harbour verdict FIELD FOLDER METRES    the same in three lines, with the five streams cut at every length
 *
 * The exit status is 0 only where every file could be read or written, every call was answered as it must be,
 * and every cell came back as promised. examples/make_harbour.py says what the field is.
 */
#include "gwizdorad.h"

#include <math.h>
#include <stdarg.h>
#include <stdio.h>
#include <stdlib.h>
#include <string.h>

enum { ROWS = 64, COLUMNS = 96, CELLS = ROWS * COLUMNS, RAW_BYTES = 4 * CELLS };
enum { CHUNK = 1024, CHUNKS = (CELLS + CHUNK - 1) / CHUNK, ENTRY_BYTES = 12 }; /* a chunk's entry in a summary, at width 32 */
enum { LONGEST = GWZ_LONGEST_STREAM(32, GWZ_GROUPS_OF_32, CELLS) + GWZ_SUMMARY_BYTES(32, CELLS) };

/* Which chunks reach this level, in metres, is asked of the summary. */
static const float high_water = 1.9f;

/* The cells to probe: in the mouth of the harbour, and on the western breakwater. */
enum { MOUTH_ROW = 46, MOUTH_COLUMN = 47, WALL_ROW = 46, WALL_COLUMN = 10 };

static const char lossless_name[] = "lossless.gwz", differences_name[] = "differences.gwz";
static const char tolerance_name[] = "tolerance.gwz", large_groups_name[] = "groups_of_128.gwz";
static const char summary_name[] = "summary.gwz", cut_name[] = "cut.gwz";

static void stop(const char *format, ...)
{
    va_list values;
    va_start(values, format);
    fprintf(stderr, "harbour: ");
    vfprintf(stderr, format, values);
    fprintf(stderr, "\n");
    va_end(values);
    exit(1);
}

/* ---- Files */

struct path {
    char text[1024];
};

static struct path path_of(const char *folder, const char *name)
{
    struct path path;
    int length = snprintf(path.text, sizeof path.text, "%s/%s", folder, name);
    if (length < 0 || (size_t)length >= sizeof path.text)
        stop("the name of the folder is too long: %s", folder);
    return path;
}

/* Returns how many bytes the file has, which must not be more than there is room for. */
static size_t read_file(const char *path, uint8_t *bytes, size_t room)
{
    FILE *file = fopen(path, "rb");
    if (file == NULL)
        stop("cannot open %s", path);
    size_t length = fread(bytes, 1, room, file);
    if (ferror(file) || fgetc(file) != EOF)
        stop("cannot read %s, or it has more than %lu bytes", path, (unsigned long)room);
    fclose(file);
    return length;
}

static void write_file(const char *path, const uint8_t *bytes, size_t length)
{
    FILE *file = fopen(path, "wb");
    if (file == NULL || fwrite(bytes, 1, length, file) != length || fclose(file) != 0)
        stop("cannot write %s", path);
}

/* The shipped field is little-endian whatever the machine is, and so is a stream. */
static uint32_t pattern_at(const uint8_t *bytes)
{
    return (uint32_t)bytes[0] | (uint32_t)bytes[1] << 8 | (uint32_t)bytes[2] << 16 | (uint32_t)bytes[3] << 24;
}

static void read_field(const char *path, uint32_t *field)
{
    static uint8_t bytes[RAW_BYTES];
    if (read_file(path, bytes, sizeof bytes) != sizeof bytes)
        stop("%s must have %d rows of %d values of 4 bytes", path, (int)ROWS, (int)COLUMNS);
    for (size_t i = 0; i < CELLS; i++)
        field[i] = pattern_at(bytes + 4 * i);
}

/* ---- Values */

static int is_dry(uint32_t pattern)
{
    return (pattern & 0x7FFFFFFF) > 0x7F800000; /* a not-a-number */
}

static double metres_of(uint32_t pattern)
{
    float value;
    memcpy(&value, &pattern, sizeof value);
    return (double)value;
}

/*
 * The exact distance of a value and what came back for it. Within a tolerance that distance has at most 24 bits, so
 * a double holds it. One that a double cannot hold, or that is no number, is a fault and counts as infinite. That
 * nothing was rounded away is seen by Dekker's test: with the larger magnitude first, `a - difference` is exact.
 */
static double exact_distance(double x, double y)
{
    double a = fabs(x) >= fabs(y) ? x : y, b = fabs(x) >= fabs(y) ? y : x;
    double difference = a - b;
    return a - difference == b ? fabs(difference) : HUGE_VAL;
}

/* How often a number is doubled till it is whole: n for a/2^n, which n decimals show exactly. */
static int doublings_of(double number)
{
    int n = 0;
    while (n < 1074 && ldexp(number, n) != floor(ldexp(number, n)))
        n++;
    return n;
}

/* ---- Calls */

static uint64_t not_refused(const char *call, uint64_t result)
{
    if (gwz_refusal(result) != GWZ_DONE)
        stop("%s: refused %lu detail %lu: %s", call, (unsigned long)gwz_refusal(result),
             (unsigned long)gwz_detail(result), gwz_refusal_text(gwz_refusal(result)));
    return result;
}

static int32_t exponent_of(double metres)
{
    uint64_t pattern;
    memcpy(&pattern, &metres, sizeof pattern);
    return gwz_exponent(not_refused("bound", gwz_bound(32, pattern)));
}

/* Each stream is written at the lowest level that allows it, as a writer of that age would. */
static uint32_t level_for(uint32_t mode, uint32_t group)
{
    if (group == GWZ_GROUPS_OF_128)
        return GWZ_LEVEL_13;
    return mode == GWZ_LOSSLESS ? GWZ_LEVEL_8 : mode == GWZ_DIFFERENCES ? GWZ_LEVEL_11 : GWZ_LEVEL_9;
}

static size_t packed(uint32_t mode, int32_t k, uint32_t group, const uint32_t *field, uint8_t *stream)
{
    uint64_t result = gwz_pack32(level_for(mode, group), mode, k, group, field, CELLS, stream, LONGEST);
    return gwz_answer(not_refused("pack", result));
}

/* Reads a file and its values; returns the file's length. */
static size_t unpacked(const char *path, uint8_t *stream, uint32_t *field)
{
    size_t length = read_file(path, stream, LONGEST);
    uint64_t result = not_refused("unpack", gwz_unpack32(GWZ_HIGHEST_LEVEL, stream, length, field, CELLS));
    if (gwz_answer(result) != CELLS)
        stop("%s holds %lu values in place of %d", path, (unsigned long)gwz_answer(result), (int)CELLS);
    return length;
}

/* ---- High water */

/* The numbers of chunks, in order. */
struct chunks {
    uint32_t numbers[CHUNKS];
    size_t count;
};

/* The chunks that reach high water, by the summary of a stream, which is first tested against the values. */
static struct chunks listed(const uint8_t *stream, size_t length)
{
    struct chunks high = {{0}, 0};
    uint32_t pattern;
    memcpy(&pattern, &high_water, sizeof pattern);
    uint64_t result = gwz_chunks_from32(GWZ_HIGHEST_LEVEL, pattern, stream, length, high.numbers, CHUNKS);
    high.count = gwz_answer(not_refused("chunks_from", result));
    return high;
}

/* The same by the cells. A dry cell is at least nothing. */
static struct chunks looked_for(const uint32_t *cells)
{
    struct chunks high = {{0}, 0};
    for (size_t i = 0; i < CELLS; i++) {
        int known = high.count > 0 && high.numbers[high.count - 1] == i / CHUNK;
        if (!known && metres_of(cells[i]) >= (double)high_water)
            high.numbers[high.count++] = (uint32_t)(i / CHUNK);
    }
    return high;
}

static int same_chunks(const struct chunks *a, const struct chunks *b)
{
    return a->count == b->count && memcmp(a->numbers, b->numbers, a->count * sizeof a->numbers[0]) == 0;
}

/* The last number of a chunk's entry in the summary, which ends with the stream: the chunk's largest value. */
static double highest_in(const uint8_t *stream, size_t length, uint32_t chunk)
{
    return metres_of(pattern_at(stream + length - (CHUNKS - 1 - chunk) * ENTRY_BYTES - 4));
}

/* ---- harbour pack */

static void print_packed(const char *how, size_t length, const char *path)
{
    printf("Packed %s: %lu bytes, %.1f %% of the raw size, in %s\n", how, (unsigned long)length,
           100.0 * (double)length / RAW_BYTES, path);
}

static void pack(const char *field_path, const char *folder, double metres)
{
    static uint32_t field[CELLS];
    static uint8_t stream[LONGEST], copy[LONGEST];
    struct path lossless = path_of(folder, lossless_name), differences = path_of(folder, differences_name);
    struct path tolerance = path_of(folder, tolerance_name), large_groups = path_of(folder, large_groups_name);
    struct path summary = path_of(folder, summary_name), cut = path_of(folder, cut_name);
    int dry = 0;

    read_field(field_path, field);
    for (size_t i = 0; i < CELLS; i++)
        dry += is_dry(field[i]);
    printf("The field %s: %d rows of %d values, %d bytes raw; %d cells are wet and %d dry (not-a-number)\n", field_path,
           (int)ROWS, (int)COLUMNS, (int)RAW_BYTES, CELLS - dry, dry);

    size_t length = packed(GWZ_LOSSLESS, 0, GWZ_GROUPS_OF_32, field, stream);
    write_file(lossless.text, stream, length);
    print_packed("lossless", length, lossless.text);

    length = packed(GWZ_DIFFERENCES, 0, GWZ_GROUPS_OF_32, field, stream);
    write_file(differences.text, stream, length);
    print_packed("lossless by differences", length, differences.text);

    int32_t k = exponent_of(metres);
    length = packed(GWZ_WITHIN_TOLERANCE, k, GWZ_GROUPS_OF_32, field, stream);
    write_file(tolerance.text, stream, length);
    printf("Asked for a tolerance of %g m; kept is 2^%ld m, the largest allowed power of two not above it\n", metres,
           (long)k);
    print_packed("within it", length, tolerance.text);

    size_t in_128 = packed(GWZ_WITHIN_TOLERANCE, k, GWZ_GROUPS_OF_128, field, copy);
    write_file(large_groups.text, copy, in_128);
    print_packed("so in groups of 128, which suit calm fields and not this one", in_128, large_groups.text);

    size_t summed = gwz_answer(not_refused("add_summary", gwz_add_summary(GWZ_LEVEL_9, stream, length, copy, LONGEST)));
    write_file(summary.text, copy, summed);
    printf("Added a summary to that in groups of 32: %lu bytes more, for %d chunks, in %s\n", (unsigned long)(summed - length), (int)CHUNKS, summary.text);

    write_file(cut.text, stream, length / 2);
    printf("Cut on purpose: the first %lu bytes of %s, in %s\n", (unsigned long)(length / 2), tolerance.text, cut.text);
}

/* ---- harbour read */

/* How the cells of a field came back. */
struct measured {
    int same, within;  /* cells that are the same bit for bit; dry ones that are, and wet ones at most the tolerance off */
    int dry, same_dry; /* dry cells, and of these the same bit for bit */
    double largest;    /* the largest distance of a wet cell */
    size_t farthest;   /* the cell that has it */
};

static struct measured measured_of(const uint32_t *field, const uint32_t *back, double tolerance)
{
    struct measured all = {0, 0, 0, 0, 0, 0};
    for (size_t i = 0; i < CELLS; i++) {
        int same = back[i] == field[i], dry = is_dry(field[i]);
        double distance = dry ? 0 : exact_distance(metres_of(field[i]), metres_of(back[i]));
        all.same += same;
        all.within += dry ? same : distance <= tolerance;
        all.dry += dry;
        all.same_dry += dry && same;
        if (distance > all.largest) {
            all.largest = distance;
            all.farthest = i;
        }
    }
    return all;
}

static void compare_lossless(const char *how, const char *path, const uint32_t *field)
{
    static uint32_t back[CELLS];
    static uint8_t stream[LONGEST];
    unpacked(path, stream, back);
    struct measured all = measured_of(field, back, 0);
    printf("%s, read back: %d of %d cells are the same bit for bit\n", how, all.same, (int)CELLS);
    if (all.same != CELLS)
        stop("a cell of %s is not as it was", path);
}

/*
 * Exactly, in metres, as a fraction of the tolerance, and in the unit that the promise is stated in, the smallest
 * distance of two binary32 numbers: products with powers of two are not rounded.
 */
static void print_distance(double distance, double tolerance)
{
    double share = distance / tolerance;
    int n = doublings_of(share);
    printf("The largest distance of a wet cell: exactly %.*f m, %.0f/%.0f of the tolerance of %.*f m\n",
           doublings_of(distance), distance, ldexp(share, n), ldexp(1, n), doublings_of(tolerance), tolerance);
    printf("In whole units of 2^-149 m: %.0f of %.0f\n", ldexp(distance, 149), ldexp(tolerance, 149));
}

/* Dry cells must be the same bits, wet ones at most 2^k off. */
static void compare_within(const char *path, const uint32_t *field, const uint32_t *back, int32_t k)
{
    double tolerance = ldexp(1, (int)k);
    struct measured all = measured_of(field, back, tolerance);
    printf("Within the tolerance, read back: %d of %d dry cells are the same bit for bit\n", all.same_dry, all.dry);
    print_distance(all.largest, tolerance);
    printf("The cell with that distance: row %lu, column %lu\n", (unsigned long)(all.farthest / COLUMNS),
           (unsigned long)(all.farthest % COLUMNS));
    if (all.within != CELLS)
        stop("a cell of %s is not as promised", path);
}

/* One cell, read without unpacking the others. */
static void print_probe(const char *where, const uint8_t *stream, size_t length, size_t row, size_t column)
{
    uint32_t pattern = 0;
    uint64_t index = row * COLUMNS + column;
    uint64_t result = not_refused("probe", gwz_probe32(GWZ_HIGHEST_LEVEL, stream, length, index, &pattern));
    printf("Probed %s, row %lu, column %lu: ", where, (unsigned long)row, (unsigned long)column);
    if (gwz_answer(result) == GWZ_NOT_A_NUMBER)
        printf("not-a-number %08lX, so the cell is dry\n", (unsigned long)pattern);
    else
        printf("%.9g m\n", metres_of(pattern));
}

/* The group size has no part in what a cell comes back as. */
static void compare_large_groups(const char *path, const uint32_t *with_32)
{
    static uint32_t back[CELLS];
    static uint8_t stream[LONGEST];
    unpacked(path, stream, back);
    if (memcmp(back, with_32, sizeof back) != 0)
        stop("a cell of %s is not as it is in groups of 32", path);
    printf("In groups of 128, read back: %d of %d cells are as they are in groups of 32\n", (int)CELLS, (int)CELLS);
}

/* The stream with a summary holds the same cells, and the summary names the chunks that reach high water. */
static void print_high_water(const char *path, const uint32_t *without)
{
    static uint32_t back[CELLS];
    static uint8_t stream[LONGEST];
    size_t length = unpacked(path, stream, back);
    struct chunks high = listed(stream, length), found = looked_for(back);
    if (memcmp(back, without, sizeof back) != 0)
        stop("a cell of %s is not as it is without the summary", path);
    printf("With a summary, read back: %d of %d cells are as they are without it\n", (int)CELLS, (int)CELLS);
    printf("Chunks that reach %.4g m, by the summary: %lu of %d\n", (double)high_water, (unsigned long)high.count, (int)CHUNKS);
    for (size_t i = 0; i < high.count; i++) {
        uint32_t chunk = high.numbers[i], first = CHUNK * chunk, last = first + CHUNK < CELLS ? first + CHUNK - 1 : CELLS - 1;
        printf("  chunk %lu, from row %lu to row %lu: the highest level is %.9g m\n", (unsigned long)chunk,
               (unsigned long)(first / COLUMNS), (unsigned long)(last / COLUMNS), highest_in(stream, length, chunk));
    }
    if (!same_chunks(&high, &found))
        stop("the cells of %s reach %.4g m in other chunks", path, (double)high_water);
}

/* A cut file must be refused, and no value of it handed out. */
static void print_refusal(const char *path)
{
    static uint32_t back[CELLS], untouched[CELLS];
    static uint8_t stream[LONGEST];
    size_t length = read_file(path, stream, LONGEST);
    memset(back, 0xA5, sizeof back);
    memset(untouched, 0xA5, sizeof untouched);
    uint64_t result = gwz_unpack32(GWZ_HIGHEST_LEVEL, stream, length, back, CELLS);
    if (gwz_refusal(result) == GWZ_DONE)
        stop("%s is cut and was read all the same", path);
    printf("The cut file: refused %lu detail %lu: %s\n", (unsigned long)gwz_refusal(result),
           (unsigned long)gwz_detail(result), gwz_refusal_text(gwz_refusal(result)));
    if (memcmp(back, untouched, sizeof back) != 0)
        stop("the refused call altered the output");
    printf("The output lent to the refused call: as it was\n");
}

static void read_back(const char *field_path, const char *folder, double metres)
{
    static uint32_t field[CELLS], back[CELLS];
    static uint8_t stream[LONGEST];
    struct path lossless = path_of(folder, lossless_name), differences = path_of(folder, differences_name);
    struct path tolerance = path_of(folder, tolerance_name), large_groups = path_of(folder, large_groups_name);
    struct path summary = path_of(folder, summary_name), cut = path_of(folder, cut_name);

    read_field(field_path, field);
    compare_lossless("Lossless", lossless.text, field);
    compare_lossless("Lossless by differences", differences.text, field);
    size_t length = unpacked(tolerance.text, stream, back);
    compare_within(tolerance.text, field, back, exponent_of(metres));
    print_probe("the harbour mouth", stream, length, MOUTH_ROW, MOUTH_COLUMN);
    print_probe("the western breakwater", stream, length, WALL_ROW, WALL_COLUMN);
    compare_large_groups(large_groups.text, back);
    print_high_water(summary.text, back);
    print_refusal(cut.text);
}

/* ---- harbour verdict */

/* How many of the cuts of a stream, one at each length below its own, are refused by check and by unpack, with the output as it was. */
static size_t cuts_refused(const uint8_t *stream, size_t length)
{
    static uint32_t back[CELLS], untouched[CELLS];
    size_t refused = 0;
    memset(untouched, 0xA5, sizeof untouched);
    for (size_t cut = 0; cut < length; cut++) {
        memcpy(back, untouched, sizeof back);
        refused += gwz_refusal(gwz_check(GWZ_HIGHEST_LEVEL, stream, cut)) != GWZ_DONE
            && gwz_refusal(gwz_unpack32(GWZ_HIGHEST_LEVEL, stream, cut, back, CELLS)) != GWZ_DONE
            && memcmp(back, untouched, sizeof back) == 0;
    }
    return refused;
}

/* Three lines, whatever they say; returns whether all is as promised. */
static int verdict(const char *field_path, const char *folder, double metres)
{
    static uint32_t field[CELLS], back[CELLS];
    static uint8_t lossless[LONGEST], differences[LONGEST], tolerance[LONGEST], large_groups[LONGEST], summary[LONGEST];
    double allowed = ldexp(1, (int)exponent_of(metres));
    read_field(field_path, field);
    size_t lossless_length = unpacked(path_of(folder, lossless_name).text, lossless, back);
    struct measured exact = measured_of(field, back, 0);
    size_t differences_length = unpacked(path_of(folder, differences_name).text, differences, back);
    struct measured summed = measured_of(field, back, 0);
    size_t large_groups_length = unpacked(path_of(folder, large_groups_name).text, large_groups, back);
    struct measured in_128 = measured_of(field, back, allowed);
    size_t tolerance_length = unpacked(path_of(folder, tolerance_name).text, tolerance, back);
    struct measured near = measured_of(field, back, allowed);
    struct chunks found = looked_for(back);
    size_t summary_length = unpacked(path_of(folder, summary_name).text, summary, back);
    struct chunks high = listed(summary, summary_length);
    size_t cuts = lossless_length + differences_length + tolerance_length + large_groups_length + summary_length;
    size_t refused = cuts_refused(lossless, lossless_length) + cuts_refused(differences, differences_length)
        + cuts_refused(tolerance, tolerance_length) + cuts_refused(large_groups, large_groups_length) + cuts_refused(summary, summary_length);

    printf("Cells kept: %d and %d of %d lossless, bit for bit, and %d and %d (groups of 128) within the tolerance; ", exact.same, summed.same,
           (int)CELLS, near.within, in_128.within);
    printf("dry cells kept: %d, %d, %d and %d of %d\n", exact.same_dry, summed.same_dry, near.same_dry, in_128.same_dry, near.dry);
    printf("Worst error: %.6f mm, %.4f of the tolerance of %.6f mm; ", 1000 * near.largest, near.largest / allowed, 1000 * allowed);
    printf("chunks that reach %.4g m: %lu of %d by the summary, %lu by the cells%s\n", (double)high_water, (unsigned long)high.count,
           (int)CHUNKS, (unsigned long)found.count, same_chunks(&high, &found) ? "" : ", not the same");
    printf("Cut files refused: %lu of %lu, every length of the five files; accepted: %lu\n", (unsigned long)refused, (unsigned long)cuts,
           (unsigned long)(cuts - refused));
    return exact.same == CELLS && summed.same == CELLS && near.within == CELLS && in_128.within == CELLS && same_chunks(&high, &found)
        && refused == cuts;
}

int main(int count, char **words)
{
    if (count == 5 && strcmp(words[1], "pack") == 0)
        pack(words[2], words[3], strtod(words[4], NULL));
    else if (count == 5 && strcmp(words[1], "read") == 0)
        read_back(words[2], words[3], strtod(words[4], NULL));
    else if (count == 5 && strcmp(words[1], "verdict") == 0)
        return verdict(words[2], words[3], strtod(words[4], NULL)) ? 0 : 1;
    else
        stop("usage: harbour pack|read|verdict FIELD FOLDER METRES");
    return 0;
}
