/*
 * A receiver in mode 1 takes (4096, 0), (100, 4000), a gap of 3 and (-4096, 0), and prints a line for each event: the place
 * before it, its kind, and bits (line, then data, - unsettled) or count; for a point also its distance from the sent point in
 * squared units, here 100 * 100 + 96 * 96 for the second one. A second receiver takes readings in single precision: points in
 * levels, the second with 100.5 units for re, which become the even 100; a squelched interval; a hole of 3; a point that is
 * refused with 18 for its NaN, though its other coordinate is out of range; and a block of points. Then the first receiver's
 * events, all points as sent, go into a track store, and its listing is printed, which has no distances, and its sums, which
 * the listing's last line has too.
 */
#include <inttypes.h>
#include <math.h>
#include <stdio.h>

#include "kerambiu.h"

static uint8_t state[KERAMBIU_STATE_BYTES];
static uint8_t answer[KERAMBIU_ANSWER_BYTES];
static uint8_t store[4 * KERAMBIU_RECORD_BYTES];
static uint8_t text[KERAMBIU_LISTING_BYTES];

static unsigned u32_at(const uint8_t *bytes)
{
    return bytes[0] | (unsigned)bytes[1] << 8 | (unsigned)bytes[2] << 16 | (unsigned)bytes[3] << 24;
}

static void print_bits(unsigned width, unsigned bits, unsigned unsettled)
{
    for (unsigned k = 0; k < width; k++)
        putchar(k < unsettled ? '-' : '0' + (bits >> (width - 1 - k) & 1));
}

static void print_distance(void)
{
    printf(" distance %u\n", u32_at(answer + 8));
}

static void print_refusal(unsigned refusal)
{
    printf("refused %u\n", refusal);
}

/* Prints an answer in mode 1, which has two bits in a point. */
static void print_answer(unsigned place, unsigned refusal)
{
    if (refusal != 0) {
        print_refusal(refusal);
    } else if (answer[0] == 0) {
        printf("%u ref", place);
        print_distance();
    } else if (answer[0] == 2) {
        printf("%u lost %u\n", place, u32_at(answer + 4));
    } else {
        printf("%u bits ", place);
        print_bits(2, answer[1], 0);
        putchar(' ');
        print_bits(2, answer[2], answer[3]);
        print_distance();
    }
}

static void point(int16_t re, int16_t im)
{
    unsigned place = u32_at(state + 12);
    print_answer(place, kerambiu_receive_point(state, sizeof state, re, im, answer, sizeof answer));
}

static void gap(uint32_t n)
{
    unsigned place = u32_at(state + 12);
    print_answer(place, kerambiu_receive_gap(state, sizeof state, n, answer, sizeof answer));
}

static void levels(float re, float im)
{
    unsigned place = u32_at(state + 12);
    print_answer(place, kerambiu_receive_levels(state, sizeof state, re, im, answer, sizeof answer));
}

static void squelch(float power)
{
    unsigned place = u32_at(state + 12);
    print_answer(place, kerambiu_receive_squelch(state, sizeof state, power, answer, sizeof answer));
}

static void hole(uint32_t n)
{
    unsigned place = u32_at(state + 12);
    print_answer(place, kerambiu_receive_hole(state, sizeof state, n, answer, sizeof answer));
}

/* A block of two points, each after a reference. */
static unsigned level_points(void)
{
    static const float points[] = {0, -4, 4.0009765625f, 0};
    uint8_t line[2], plain[2];
    uint32_t distance[2];
    unsigned place = u32_at(state + 12);
    unsigned refusal = kerambiu_receive_level_points(state, sizeof state, points, 4, line, 2, plain, 2, distance, 2);
    for (unsigned k = 0; k < 2 && refusal == 0; k++) {
        printf("%u bits ", place + k);
        print_bits(2, line[k], 0);
        putchar(' ');
        print_bits(2, plain[k] % 16, plain[k] / 16);
        printf(" distance %" PRIu32 "\n", distance[k]);
    }
    return refusal;
}

static unsigned take_points(void)
{
    unsigned refusal = kerambiu_fresh(state, sizeof state, 1, 0);
    if (refusal == 0) {
        point(4096, 0);
        point(100, 4000);
        gap(3);
        point(-4096, 0);
        printf("total %u\n", u32_at(state + 12));
    }
    return refusal;
}

static unsigned take_readings(void)
{
    unsigned refusal = kerambiu_fresh(state, sizeof state, 1, 0);
    levels(4, 0);
    levels(100.5f / 1024, 4000.0f / 1024);
    squelch(0.002f);
    hole(3);
    levels(NAN, 17);
    levels(-4, 0);
    if (refusal == 0)
        refusal = level_points();
    printf("total %u\n", u32_at(state + 12));
    return refusal;
}

/* Puts the events into a store; 0, or the number of the first call that is refused. */
static unsigned fill_store(void)
{
    static const int16_t points[] = {4096, 0, 0, 4096};
    unsigned refusal = kerambiu_make(store, sizeof store, 1, 0);
    if (refusal == 0)
        refusal = kerambiu_append_points(store, sizeof store, points, 4);
    if (refusal == 0)
        refusal = kerambiu_append_lost(store, sizeof store, 3);
    if (refusal == 0)
        refusal = kerambiu_append_point(store, sizeof store, -4096, 0);
    return refusal;
}

static unsigned print_listing(void)
{
    size_t count[1];
    unsigned refusal = kerambiu_list(store, sizeof store, text, sizeof text, count, 1);
    if (refusal == 0)
        fwrite(text, 1, count[0], stdout);
    return refusal;
}

static unsigned print_sums(void)
{
    uint64_t sums[3];
    unsigned refusal = kerambiu_sums(store, sizeof store, sums, 3);
    if (refusal == 0)
        printf("decided points %" PRIu64 ", lost intervals %" PRIu64 ", gaps %" PRIu64 "\n", sums[0], sums[1], sums[2]);
    return refusal;
}

int main(void)
{
    unsigned refusal = take_points();
    if (refusal == 0)
        refusal = take_readings();
    if (refusal == 0)
        refusal = fill_store();
    if (refusal == 0)
        refusal = print_listing();
    if (refusal == 0)
        refusal = print_sums();
    if (refusal != 0)
        print_refusal(refusal);
    return refusal != 0;
}
