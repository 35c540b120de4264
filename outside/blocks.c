/*
 * A track of V.41 blocks, with a stretch lost and one point damaged. Twelve blocks of 260 bits are made of service bits,
 * which are in turn those of blocks A, B and C, and 30 characters; they are sent in mode 3, 130 points to a block. A
 * training and 16 points of ones go before them: mode 3 training is not differentially coded, and a receiver has the
 * sender's data bits only once it holds 23 line bits from behind it.
 *
 * The points go into a track store. The last 50 points of block 4 and the first 40 of block 5 are left out, with a lost
 * count in their place; one point of block 8 is turned by 90 degrees. Then the store is read back, a receiver takes its
 * events, and the settled data bits of each run are put where the place of its first point says. A block with all its bits
 * is checked; for any other the line says how many it has. In block 5 the first point after the loss is the reference and
 * carries no bits, and the next 23 data bits are unsettled: those of 11 points and the first one of the next.
 */
#include <stdio.h>
#include <stdlib.h>

#include "kerambiu.h"

enum {
    MODE = 3,
    ROLE = 0,
    WIDTH = 2,               /* line bits in a point */
    THIRD = 1280,            /* intervals of the training's third segment */
    TRAINING = THIRD + 272,
    ONES = 16,               /* points of ones after it */
    FIRST = TRAINING + ONES, /* the place of the first block's first point */
    BLOCKS = 12,
    SIZE = 260,              /* bits in a block */
    MESSAGE = SIZE - KERAMBIU_V41_CHECK_BITS,
    SERVICE = 4,
    CHARACTERS = (MESSAGE - SERVICE) / 8,
    BITS = BLOCKS * SIZE,
    BLOCK_POINTS = SIZE / WIDTH,
    POINTS = FIRST + BLOCKS * BLOCK_POINTS,
    LOST_FROM = FIRST + 4 * BLOCK_POINTS + 80,
    LOST = 90,
    DAMAGED = FIRST + 8 * BLOCK_POINTS + 60,
    MISSING = 2              /* in place of a bit that is not known */
};

static uint8_t sent[BITS];
static int16_t points[2 * POINTS];
static uint8_t store[512 * KERAMBIU_RECORD_BYTES];
static int64_t events[3 * POINTS];

static uint8_t sender[KERAMBIU_STATE_BYTES], receiver[KERAMBIU_STATE_BYTES];
static int16_t taken[2 * POINTS];
static uint8_t line[POINTS], plain[POINTS];
static uint32_t distance[POINTS];
static uint8_t bits[WIDTH * POINTS];
static uint8_t received[BITS];

/* Ends the program where a call is refused. */
static void need(const char *call, unsigned refusal)
{
    if (refusal != 0) {
        printf("%s: refused %u: %s\n", call, refusal, kerambiu_refusal_text(refusal));
        exit(1);
    }
}

/* Makes block k: its service bits, then the characters, eight bits to each, the highest first. */
static void make_block(unsigned k)
{
    static const char service[3][SERVICE + 1] = {"0011", "1001", "1100"};
    char text[CHARACTERS + 1];
    uint8_t message[MESSAGE];
    snprintf(text, sizeof text, "record %2u of the line recorder", k);
    for (unsigned j = 0; j < SERVICE; j++)
        message[j] = service[k % 3][j] == '1';
    for (unsigned j = 0; j < MESSAGE - SERVICE; j++)
        message[SERVICE + j] = text[j / 8] >> (7 - j % 8) & 1;
    need("make block", kerambiu_v41_make(message, MESSAGE, sent + k * SIZE, SIZE));
}

static void send_blocks(void)
{
    uint8_t ones[WIDTH * ONES];
    for (unsigned k = 0; k < WIDTH * ONES; k++)
        ones[k] = 1;
    for (unsigned k = 0; k < BLOCKS; k++)
        make_block(k);
    need("open", kerambiu_open(sender, sizeof sender, MODE, ROLE, THIRD, points, 2 * POINTS, 0));
    need("send ones", kerambiu_send(sender, sizeof sender, ones, sizeof ones, points, 2 * POINTS, 2 * TRAINING));
    need("send blocks", kerambiu_send(sender, sizeof sender, sent, sizeof sent, points, 2 * POINTS, 2 * FIRST));
}

static void damage_point(void)
{
    int16_t re = points[2 * DAMAGED];
    points[2 * DAMAGED] = (int16_t)-points[2 * DAMAGED + 1];
    points[2 * DAMAGED + 1] = re;
}

static void append(unsigned from, unsigned to)
{
    need("append points", kerambiu_append_points(store, sizeof store, points + 2 * from, 2 * (to - from)));
}

static void fill_store(void)
{
    need("make store", kerambiu_make(store, sizeof store, MODE, ROLE));
    append(0, LOST_FROM);
    need("append lost", kerambiu_append_lost(store, sizeof store, LOST));
    append(LOST_FROM + LOST, POINTS);
}

/* The place in unit intervals of the event that the receiver takes next. */
static uint32_t place(void)
{
    const uint8_t *at = receiver + 12;
    return at[0] | (uint32_t)at[1] << 8 | (uint32_t)at[2] << 16 | (uint32_t)at[3] << 24;
}

/*
 * Puts a run's bits where they belong, behind the unsettled ones of its first point. Bits from before the first block are left
 * out.
 */
static void put_run(uint32_t first_place, const size_t run[3])
{
    long at = WIDTH * ((long)first_place - FIRST) + (long)(WIDTH * run[1] - run[2]);
    for (size_t k = 0; k < run[2]; k++, at++)
        if (at >= 0 && at < BITS)
            received[at] = bits[k];
}

/* A block of points: the settled bits of every run, each looked for from where the one before ended. */
static void take_points(size_t count)
{
    uint32_t begin = place();
    size_t from = 0, run[3];
    need("receive points",
         kerambiu_receive_points(receiver, sizeof receiver, taken, 2 * count, line, count, plain, count, distance, count));
    for (;;) {
        need("settled bits", kerambiu_settled_bits(MODE, line + from, count - from, plain + from, count - from, bits,
                                                   sizeof bits, run, 3));
        if (run[1] == 0)
            return;
        put_run(begin + (uint32_t)(from + run[0]), run);
        from += run[0] + run[1];
    }
}

static void take_gap(uint32_t n)
{
    uint8_t answer[KERAMBIU_ANSWER_BYTES];
    need("receive gap", kerambiu_receive_gap(receiver, sizeof receiver, n, answer, sizeof answer));
}

/* Reads the store and takes its events: points one after the other in a block, lost intervals by themselves. */
static void take_events(void)
{
    size_t count[1], gathered = 0;
    need("read", kerambiu_read(store, sizeof store, events, 3 * POINTS, 0, count, 1));
    need("fresh", kerambiu_fresh(receiver, sizeof receiver, MODE, ROLE));
    for (size_t k = 0; k < count[0]; k++) {
        const int64_t *event = events + 3 * k;
        if (event[0] == 1) {
            taken[2 * gathered] = (int16_t)event[1];
            taken[2 * gathered + 1] = (int16_t)event[2];
            gathered++;
        } else {
            take_points(gathered);
            take_gap((uint32_t)event[1]);
            gathered = 0;
        }
    }
    take_points(gathered);
}

static void print_block(unsigned k)
{
    const uint8_t *block = received + k * SIZE;
    unsigned known = 0, first = FIRST + k * BLOCK_POINTS;
    uint8_t whole[1];
    for (unsigned j = 0; j < SIZE; j++)
        known += block[j] != MISSING;
    printf("block %u places %u to %u ", k, first, first + BLOCK_POINTS - 1);
    if (known < SIZE) {
        printf("incomplete, %u of %u bits\n", known, SIZE);
    } else {
        need("check block", kerambiu_v41_check(block, SIZE, whole, 1));
        puts(whole[0] ? "whole" : "broken");
    }
}

int main(void)
{
    send_blocks();
    damage_point();
    fill_store();
    for (unsigned k = 0; k < BITS; k++)
        received[k] = MISSING;
    take_events();
    for (unsigned k = 0; k < BLOCKS; k++)
        print_block(k);
    return 0;
}
