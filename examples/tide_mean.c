/*
 * At which level? A year of tide readings is packed within a tolerance at level 13 and at level 14, and the mean of what comes back is compared with
 * that of the readings: a program to copy from.
 *
 *     cc -std=c99 -I include examples/tide_mean.c target/lib/libgwizdorad.a -lm -o tide_mean
 *
 * Within a tolerance 2^k a value becomes the nearest multiple of 2^(k+1). This gauge counts in steps of 2^k, so every odd reading lies halfway
 * between two of them. Written at the levels 8 to 13 such a half goes away from zero: up, where all readings are above chart datum (and down below
 * it), and the mean goes up with them, by 2^k times the share of halves. Written at level 14 it goes to the even multiple, and about half of them
 * go up and half down. No reader has to be newer for that. So: write at level 14, unless the file is compared byte for byte with one of an older
 * writer.
 */
#include "gwizdorad.h"

#include <math.h>
#include <stdio.h>
#include <stdlib.h>
#include <string.h>

enum { READINGS = 365 * 24 * 60, STEPS = 512, K = -9 }; /* one a minute; steps in a metre; the tolerance 2^-9 m, one step */
enum { LONGEST = GWZ_LONGEST_STREAM(32, GWZ_GROUPS_OF_32, READINGS) };

/* A year must not have more readings than a stream takes: this array would have a negative length. */
typedef char year_fits[READINGS <= (int)GWZ_MOST_VALUES ? 1 : -1];

static void stop(const char *what, const char *why)
{
    fprintf(stderr, "tide_mean: %s: %s\n", what, why);
    exit(1);
}

static uint32_t not_refused(const char *call, uint64_t result)
{
    if (gwz_refusal(result) != GWZ_DONE)
        stop(call, gwz_refusal_text(gwz_refusal(result)));
    return gwz_answer(result);
}

/* ---- The readings: water levels above chart datum, as the gauge counts them */

/* The tides of the moon and of the sun, which make springs and neaps, and a surge every eleven days. */
static uint32_t reading_at(int minute)
{
    const double turn = 6.283185307179586;
    double hours = minute / 60.0, tide = 1.2 * cos(turn * hours / 12.4206) + 0.4 * cos(turn * hours / 12.0);
    double storm = sin(turn * hours / 264.0), surge = storm > 0.9 ? 7 * (storm - 0.9) : 0;
    float value = (float)(floor(STEPS * (2.5 + tide + surge)) / STEPS);
    uint32_t pattern;
    memcpy(&pattern, &value, sizeof pattern);
    return pattern;
}

/* A level in steps: a whole number, so that all that follows is exact. */
static int64_t steps_of(uint32_t pattern)
{
    float value;
    memcpy(&value, &pattern, sizeof value);
    if (!(value > 0 && value < 10) || value * STEPS != floorf(value * STEPS))
        stop("measuring", "a level is not above chart datum, or not a whole number of steps");
    return (int64_t)(value * STEPS);
}

static int is_half(uint32_t reading)
{
    return steps_of(reading) % 2 != 0;
}

static int64_t sum_of(const uint32_t *levels)
{
    int64_t sum = 0;
    for (int i = 0; i < READINGS; i++)
        sum += steps_of(levels[i]);
    return sum;
}

static double mean_in_mm(int64_t steps)
{
    return 1000.0 / STEPS * (double)steps / READINGS;
}

/* ---- Both levels, beside each other */

/* Packs the readings at a level, and reads them back as the oldest reader of such a stream does, at level 9. Returns the bytes. */
static uint32_t packed_at(uint32_t level, const uint32_t *readings, uint32_t *back)
{
    static uint8_t stream[LONGEST];
    uint64_t result = gwz_pack32(level, GWZ_WITHIN_TOLERANCE, K, GWZ_GROUPS_OF_32, readings, READINGS, stream, LONGEST);
    uint32_t length = not_refused("pack", result);
    if (not_refused("unpack at level 9", gwz_unpack32(GWZ_LEVEL_9, stream, length, back, READINGS)) != READINGS)
        stop("unpack at level 9", "it is another count of readings");
    return length;
}

/* A half is one step off, which is the tolerance, and every other reading is as it was. */
static void compare_readings(const uint32_t *readings, const uint32_t *back)
{
    for (int i = 0; i < READINGS; i++)
        if (llabs(steps_of(back[i]) - steps_of(readings[i])) != is_half(readings[i]))
            stop("comparing", "a half is not one step off, or another reading not as it was");
}

int main(void)
{
    static uint32_t readings[READINGS], back[2][READINGS];
    static const uint32_t levels[2] = {GWZ_LEVEL_13, GWZ_LEVEL_14};
    int64_t bias[2];
    int halves = 0, differing = 0;
    for (int i = 0; i < READINGS; i++) {
        readings[i] = reading_at(i);
        halves += is_half(readings[i]);
    }
    printf("A year of tide: %d readings in steps of 2^-9 m, all above chart datum; within 2^%d m %d of them are halves\n", (int)READINGS,
           (int)K, halves);
    printf("  mean of the readings: %.4f mm\n", mean_in_mm(sum_of(readings)));
    for (int i = 0; i < 2; i++) {
        uint32_t length = packed_at(levels[i], readings, back[i]);
        compare_readings(readings, back[i]);
        bias[i] = sum_of(back[i]) - sum_of(readings);
        printf("  back from level %lu:   %.4f mm, a bias of %+.4f mm; %lu bytes\n", (unsigned long)levels[i], mean_in_mm(sum_of(back[i])),
               mean_in_mm(bias[i]), (unsigned long)length);
    }
    for (int i = 0; i < READINGS; i++)
        differing += back[0][i] != back[1][i];
    printf("  a reader of level 9 reads both, and in both no reading is further off than 2^%d m = %.6f mm\n", (int)K, 1000.0 / STEPS);
    printf("  only halves came back off: the two differ in %d of them, and in no other reading\n", differing);
    if (llabs(bias[1]) * 10 >= llabs(bias[0]))
        stop("comparing", "the bias from level 14 is not under a tenth of that from level 13");
    return 0;
}
