/*
 * The line recorder's symbol codec: receiver, sender, track store and V.41 blocks, over bytes and numbers that the caller lends.
 *
 * MODES
 *
 *   mode  line                             symbols/s  w   R  roles  training length: points   assured after a hole
 *      1  V.27 ter 2400 bit/s                   1200  2   7  0      0: 80, 1: 1132            from point 6
 *      2  V.27 ter 4800 bit/s                   1600  3   7  0      0: 80, 1: 1132            from point 5
 *      3  V.32 4800 bit/s                       2400  2  23  0, 1   n, 1280 to 8192: n + 272  from point 14
 *      4  V.32 9600 bit/s, no trellis code      2400  4  23  0, 1   n, 1280 to 8192: n + 272  from point 8
 *      5  V.27 ter 2400 bit/s with the guard    1200  2  12  0      0: 80, 1: 1132            after a line bit that differs
 *      6  V.27 ter 4800 bit/s with the guard    1600  3  12  0      0: 80, 1: 1132            after a line bit that differs
 *
 * w is the line bits in a point, R the line bits in a register. A unit interval is the time of one point.
 *
 * Assured after a hole: the points are counted from 1 at the first one after it, which becomes the reference and carries no
 * bits. If they are consecutive data points of a sender, the data bits from the point of the table on are those that the
 * sender was given. In modes 5 and 6: pass over the first 12 line bits, counted from the second point on; the data bits after
 * the next line bit that differs from all three line bits 8, 9 and 12 back are the sender's. On a line that repeats itself
 * there may be none.
 *
 * Role 0 is the calling sender, 1 the answering one; a receiver has the role of the sender that it listens to. With the other
 * role nothing is refused, and about half of the data bits are wrong.
 *
 * A data bit is settled if R line bits came before it since the last gap, whatever they were: that they were data is not asked.
 * V.32 training is not differentially coded, so that after it settled bits can be wrong; they are the sender's from data point
 * 14 (mode 3) or 8 (mode 4) on, counted from 1.
 *
 * Modes 5 and 6 are modes 1 and 2 with V.27 ter's guard against repeated patterns, as most V.27 ter modems and fax machines have
 * it. Both sides count: when the count is 33 a bit is inverted and the count becomes 0; otherwise the count becomes 0 if the
 * line bit differs from all three line bits 8, 9 and 12 back, and else grows by one. A receiver counts once it holds 12 line
 * bits. After a gap, or on a track taken up in its middle, its count can be another than the sender's until a line bit differs
 * from all three: up to there a settled data bit can still be wrong. Whether a line has the guard is not seen from its points.
 *
 * LONG CAPTURES
 *
 * A receiver's place counts unit intervals from 0, and the last is 4294967295: 20.7 days at 2400 a second. A store holds 14,329
 * points at most, 6 s of V.32, so a long capture takes many stores and one receiver.
 *
 *   from store to store   A receiver's state knows of no store: keep its 16 bytes and go on with them.
 *   refusal 17            The store is full: make another and append there. The receiver's state does not change with it.
 *   refusal 16            The place would be too great: make a fresh receiver; keep yourself how many intervals came before.
 *                         A store's total has the same end: make another store.
 *   to begin at a place   Make a fresh receiver and write the place, u32 little-endian, into bytes 12 to 15 of its state.
 *
 * POINTS
 *
 * A point is re and im, 1024 to one level. A state of modes 1, 2, 5 and 6 is 0 to 7, at 45 degrees times the number (even ones
 * only in modes 1 and 5); of modes 3 and 4 it is the bits Y1 Y2 Q3 Q4 as a number, Y1 highest (1, 5, 9 and 13 only in mode 3).
 *
 * A point in levels has floats of 32 bits (IEEE 754) for coordinates: 1.0 is one level, 1024 units. Points of modes 1, 2, 5
 * and 6 are sent 4.0 levels from the origin, those of modes 3 and 4 have coordinates of 1.0 and 3.0; another scale is not
 * refused, but in mode 4 it gives wrong bits, since sizes are compared with 2.0 levels there. Each coordinate becomes the whole
 * number nearest 1024 times it, of two equally near ones the even one, so that it is never more than half a unit away; from
 * there on the point is that of the two whole numbers, also in its distance. Range is judged after rounding: 16.00048828125 is
 * 16384.5 units, becomes 16384 and is in range; the next greater float is not. A point with both coordinates of half a unit at
 * most is the origin. A negative zero is zero. Turning by 90 degrees, which takes (re, im) to (-im, re), gives the same point
 * before rounding and after it.
 *
 * CALLS AND REFUSALS
 *
 * Every function is total: it takes any numbers and any lent bytes. A lent slice is a pointer and a count of elements; the
 * pointer must be valid for that count, and two slices of one call must not overlap. Where a count is 0 the pointer is not
 * read, but must not be null. The length of points, and an offset among them, counts numbers, two to a point. Numbers in bytes
 * are little-endian.
 *
 * Each function returns 0, or the number of the refusal. A refusal leaves every lent byte and number as it was; of several
 * that apply, the first in the order of this list is given, in which 19 stands before 5, and 18 between 7 and 8
 * (kerambiu_read looks for 7 twice, as its table says). The table over each function has its numbers in that order and what
 * they are about there. Each number has a macro, KERAMBIU_REFUSED_MODE and so on, and kerambiu_refusal_text gives a sentence
 * for it. All numbers:
 *
 *    1  mode not 1 to 6, a handed-in state's included
 *    2  role not one of the mode's, a state's included
 *    3  training length not 0 or 1 (modes 1, 2, 5 and 6), not 1280 to 8192 (3 and 4)
 *    4  a handed-in state with another field outside its range: a reference that is no state of the mode, more than R line
 *       bits, in a sender fewer than R, in a receiver any without a reference; a guard's count above 33, or above zero in modes
 *       1 to 4 or with fewer than 12 line bits; or a byte that is not as its layout has it
 *   19  a count of bits other than 260, 500, 980 or 3860; to make a V.41 block, other than 16 fewer
 *    5  a byte above 1 among data bits or among the bits of a V.41 block
 *    6  data bits not a multiple of w (none is fine)
 *    7  lent numbers too few from the offset, or an offset past their end; also fewer lent bytes than a state, an answer, a
 *       block, a listing, a run of settled bits or a V.41 block has, fewer lent numbers than a block has distances or a track
 *       has sums, no lent number for a count and no lent byte for a verdict, an odd count of the numbers or floats of points,
 *       and line bytes and data bytes that are not equally many
 *   18  a coordinate in levels, or a power, that is NaN or infinite
 *    8  a coordinate outside -16384 to 16384; one in levels after rounding
 *    9  a gap, a hole, or a lost count to append, of 0
 *   10  not used any more, and given to nothing else: every point off the origin is in one of the eight sectors
 *   11  store size not 32 times an N from 2 to 2048
 *   12  record 0's four bytes, mode, role or a byte due to be zero
 *   13  an index of N or more, or met twice
 *   14  a chain record that breaks its layout or holds a point out of range
 *   15  total not the chain's sum
 *   16  place or total above 4294967295
 *   17  a new record is needed and the greatest index is N - 1
 */
#ifndef KERAMBIU_H
#define KERAMBIU_H

#include <stddef.h>
#include <stdint.h>

/* 0.8.0: the base and seven requests. */
#define KERAMBIU_VERSION_MAJOR 0
#define KERAMBIU_VERSION_MINOR 8
#define KERAMBIU_VERSION_PATCH 0
#define KERAMBIU_VERSION "0.8.0"

/* The refusal numbers in use. */
#define KERAMBIU_REFUSED_MODE 1
#define KERAMBIU_REFUSED_ROLE 2
#define KERAMBIU_REFUSED_TRAINING_LENGTH 3
#define KERAMBIU_REFUSED_STATE 4
#define KERAMBIU_REFUSED_BIT 5
#define KERAMBIU_REFUSED_BIT_COUNT 6
#define KERAMBIU_REFUSED_LENT 7
#define KERAMBIU_REFUSED_COORDINATE 8
#define KERAMBIU_REFUSED_NO_INTERVALS 9
#define KERAMBIU_REFUSED_STORE_SIZE 11
#define KERAMBIU_REFUSED_STORE_HEAD 12
#define KERAMBIU_REFUSED_STORE_INDEX 13
#define KERAMBIU_REFUSED_STORE_RECORD 14
#define KERAMBIU_REFUSED_STORE_TOTAL 15
#define KERAMBIU_REFUSED_INTERVALS 16
#define KERAMBIU_REFUSED_STORE_FULL 17
#define KERAMBIU_REFUSED_NOT_FINITE 18
#define KERAMBIU_REFUSED_BLOCK_SIZE 19

#ifdef __cplusplus
extern "C" {
#endif

/* A sentence for the number that a call returned, to stand behind "refused 8: ". */
static inline const char *kerambiu_refusal_text(unsigned number)
{
    switch (number) {
    case 0: return "accepted";
    case KERAMBIU_REFUSED_MODE: return "mode is not 1 to 6";
    case KERAMBIU_REFUSED_ROLE: return "role is not one that the mode has";
    case KERAMBIU_REFUSED_TRAINING_LENGTH: return "training length is not 0 or 1, in modes 3 and 4 not 1280 to 8192";
    case KERAMBIU_REFUSED_STATE: return "a field of the state is outside its range";
    case KERAMBIU_REFUSED_BIT: return "a byte among the bits is above 1";
    case KERAMBIU_REFUSED_BIT_COUNT: return "count of data bits is not a multiple of the bits in a point";
    case KERAMBIU_REFUSED_LENT: return "lent bytes or numbers are too few, odd or unequal in count, or an offset is past them";
    case KERAMBIU_REFUSED_COORDINATE: return "a coordinate is outside -16384 to 16384";
    case KERAMBIU_REFUSED_NO_INTERVALS: return "a gap, a hole or a lost count is 0";
    case KERAMBIU_REFUSED_STORE_SIZE: return "size of the store is not 32 times a number from 2 to 2048";
    case KERAMBIU_REFUSED_STORE_HEAD: return "mark, mode, role or a zero byte in the first record of the store is wrong";
    case KERAMBIU_REFUSED_STORE_INDEX: return "an index in the store is past its records or is met twice";
    case KERAMBIU_REFUSED_STORE_RECORD: return "a record of the store breaks its layout or holds a point out of range";
    case KERAMBIU_REFUSED_STORE_TOTAL: return "total of the store is not the sum of its records";
    case KERAMBIU_REFUSED_INTERVALS: return "place or total would be above 4294967295";
    case KERAMBIU_REFUSED_STORE_FULL: return "the store has no record left";
    case KERAMBIU_REFUSED_NOT_FINITE: return "a coordinate or a power is NaN or infinite";
    case KERAMBIU_REFUSED_BLOCK_SIZE: return "count of bits is not that of a V.41 block, or 16 fewer to make one";
    default: return "no such refusal";
    }
}

/*
 * A receiver's state:                          A sender's state:
 *    0  mode                                      0  mode
 *    1  role                                      1  role
 *    2  1 with a reference, 0 without one         2  the reference
 *    3  the reference, 0 without one              3  zero
 *    4  the register's line bits, u32,            4  the register's line bits, u32,
 *       newest lowest, zero beyond the count         newest lowest, zero beyond the count
 *    8  their count, 0 to R                       8  their count, R
 *    9  the guard's count, 0 to 33;               9  the guard's count, 0 to 33;
 *       0 in modes 1 to 4                            0 in modes 1 to 4
 *   10  two zeros                                10  six zeros
 *   12  the place in unit intervals, u32
 */
#define KERAMBIU_STATE_BYTES 16

/*
 * A receiver's answer:
 *    0  kind: 0 the point became the reference, 1 bits, 2 a gap
 *    1  line bits, a number with the first in time highest
 *    2  data bits, likewise; an unsettled one is 0
 *    3  how many of the data bits are unsettled: the first ones in time
 *    4  the gap in unit intervals, u32; 0 for the other kinds
 *    8  the distance of the point, u32; 0 for a gap
 * Bytes 1 to 3 are 0 for kinds 0 and 2.
 *
 * The distance is that from the received point to the sent point of the decided state, in squared units, 1024 units to one
 * level: the squares of how far re and im are apart, added. A point in range has 419430400 at most. No minimum is promised: in
 * modes 2 and 6 the decided state is not always that of the nearest sent point. There (1, 0) is decided 0 with the distance 16769025,
 * and is 16767841 from the sent point of state 1. A mean over distances leaves out gaps and, in a block, the points beside
 * KERAMBIU_ORIGIN: their 0 is no measurement.
 */
#define KERAMBIU_ANSWER_BYTES 12

/*
 * Makes a receiver that has taken nothing: no reference, no line bits, count 0, place 0.
 *    1, 2     the mode, the role
 *    7        fewer bytes than a state has
 */
uint8_t kerambiu_fresh(uint8_t *state, size_t state_len, uint8_t mode, uint8_t role);

/*
 * Takes a point; the origin is a gap of one interval.
 *    1, 2, 4  the state, if it has all its bytes
 *    7        fewer bytes than a state or an answer has
 *    8        the point
 *   16        the place after it
 */
uint8_t kerambiu_receive_point(uint8_t *state, size_t state_len, int16_t re, int16_t im, uint8_t *answer, size_t answer_len);

/*
 * Takes a gap of n intervals.
 *    1, 2, 4  the state, if it has all its bytes
 *    7        fewer bytes than a state or an answer has
 *    9        n
 *   16        the place after it
 */
uint8_t kerambiu_receive_gap(uint8_t *state, size_t state_len, uint32_t n, uint8_t *answer, size_t answer_len);

/*
 * Takes a point in levels: as kerambiu_receive_point takes the point that it is rounded to.
 *    1, 2, 4  the state, if it has all its bytes
 *    7        fewer bytes than a state or an answer has
 *   18        re or im, also where the other is out of range
 *    8        the point, rounded
 *   16        the place after it
 */
uint8_t kerambiu_receive_levels(uint8_t *state, size_t state_len, float re, float im, uint8_t *answer, size_t answer_len);

/*
 * Takes a squelched interval with its power: a gap of one interval, whatever the power, if it is finite.
 *    1, 2, 4  the state, if it has all its bytes
 *    7        fewer bytes than a state or an answer has
 *   18        the power
 *   16        the place after it
 */
uint8_t kerambiu_receive_squelch(uint8_t *state, size_t state_len, float power, uint8_t *answer, size_t answer_len);

/*
 * Takes a hole of n intervals: a gap of n, as kerambiu_receive_gap takes it.
 *    1, 2, 4  the state, if it has all its bytes
 *    7        fewer bytes than a state or an answer has
 *    9        n
 *   16        the place after it
 */
uint8_t kerambiu_receive_hole(uint8_t *state, size_t state_len, uint32_t n, uint8_t *answer, size_t answer_len);

/*
 * Takes a block of points, re and im in turn, all or none: as one kerambiu_receive_point after the other. `points_len` counts
 * numbers, two to a point. For each point a byte is written into `line`, one into `plain` and a number into `distance`; lent
 * bytes and numbers beyond the points stay as they are.
 *   line      the line bits, a number with the first in time highest (0 to 15); KERAMBIU_REFERENCE for a point that became the
 *             reference, KERAMBIU_ORIGIN for one at the origin, a gap of one interval
 *   plain     the data bits likewise, an unsettled one being 0, plus 16 times the count of unsettled ones, the first in time;
 *             0 beside KERAMBIU_REFERENCE and KERAMBIU_ORIGIN
 *   distance  the distance as in an answer, also beside KERAMBIU_REFERENCE; 0 beside KERAMBIU_ORIGIN
 *
 *    1, 2, 4  the state, if it has all its bytes
 *    7        fewer bytes than a state has; an odd count of numbers of points; in `line` or in `plain` fewer bytes than points;
 *             in `distance` fewer numbers than points
 *    8        any of the points
 *   16        the place after all of them
 */
#define KERAMBIU_REFERENCE 16
#define KERAMBIU_ORIGIN 17
uint8_t kerambiu_receive_points(uint8_t *state, size_t state_len, const int16_t *points, size_t points_len, uint8_t *line,
                                size_t line_len, uint8_t *plain, size_t plain_len, uint32_t *distance, size_t distance_len);

/*
 * Takes a block of points in levels, re and im in turn, all or none: as one kerambiu_receive_levels after the other. The length
 * of `levels` counts floats, two for each point. `line`, `plain` and `distance` become what kerambiu_receive_points writes for
 * the points, rounded; lent bytes and numbers beyond the points stay as they are.
 *    1, 2, 4  the state, if it has all its bytes
 *    7        fewer bytes than a state has; an odd count of floats; in `line` or in `plain` fewer bytes than points; in
 *             `distance` fewer numbers than points
 *   18        any of the coordinates, also where one before it is out of range
 *    8        any of the points, rounded
 *   16        the place after all of them
 */
uint8_t kerambiu_receive_level_points(uint8_t *state, size_t state_len, const float *levels, size_t levels_len, uint8_t *line,
                                      size_t line_len, uint8_t *plain, size_t plain_len, uint32_t *distance,
                                      size_t distance_len);

/*
 * Opens a sender: writes the points of its training, re and im in turn, into the lent numbers from the offset on, and the state
 * after it. In modes 1, 2, 5 and 6 the length is 0 for 80 points or 1 for 1132; in modes 3 and 4 it is the intervals of the third
 * segment, and the points are 272 more.
 *    1, 2, 3  the mode, the role, the length
 *    7        fewer bytes than a state has; fewer numbers from the offset on than two for each point, or an offset past their
 *             end
 */
uint8_t kerambiu_open(uint8_t *state, size_t state_len, uint8_t mode, uint8_t role, uint32_t length, int16_t *out,
                      size_t out_len, size_t offset);

/*
 * Sends data bits, one in a byte, w to a point: writes the points, re and im in turn, into the lent numbers from the offset on,
 * and the state after them.
 *    1, 2, 4  the state, if it has all its bytes
 *    5        any data byte, also where the state has fewer bytes
 *    6        the count of data bytes, by the state's mode
 *    7        fewer bytes than a state has; fewer numbers from the offset on than two for each point, or an offset past their
 *             end
 */
uint8_t kerambiu_send(uint8_t *state, size_t state_len, const uint8_t *input, size_t input_len, int16_t *out, size_t out_len,
                      size_t offset);

/*
 * A track store is N records of 32 bytes, N from 2 to 2048.
 *   record 0   the bytes "VSYM", 4 mode, 5 role, 6 next (u16), 8 total intervals (u32), zeros
 *   others     0 next (u16), 2 kind, 3 count; kind 1: count 1 to 7 points of re, im (i16) from byte 4; kind 2: count 0, lost
 *              intervals (u32 at 4, at least 1); unused bytes zero
 * Next is an index, 0 ends the chain; next 0 in record 0 is an empty track. Records outside the chain may hold anything. A new
 * record is the greatest index in the chain (0 if empty) plus one.
 */
#define KERAMBIU_RECORD_BYTES 32

/*
 * Makes an empty store of all the lent bytes: zeros, and record 0.
 *    1, 2     the mode, the role
 *   11        the count of bytes
 */
uint8_t kerambiu_make(uint8_t *store, size_t store_len, uint8_t mode, uint8_t role);

/*
 * Appends a point, to the chain's last record if that is of kind 1 with fewer than 7, else in a new one.
 *    8        the point
 *   11 to 15  the store
 *   16        the total after it
 *   17        a new record is needed and there is none
 */
uint8_t kerambiu_append_point(uint8_t *store, size_t store_len, int16_t re, int16_t im);

/*
 * Appends a lost count, always in a new record.
 *    9        n
 *   11 to 15  the store
 *   16        the total after it
 *   17        there is no new record
 */
uint8_t kerambiu_append_lost(uint8_t *store, size_t store_len, uint32_t n);

/*
 * Appends points, re and im in turn, all or none; `points_len` counts numbers, two to a point. Accepted exactly when the count
 * of numbers is even, the store is accepted and no kerambiu_append_point of them, one after the other, would be refused; then
 * it leaves what those leave.
 *    7        an odd count of numbers
 *    8        any of the points
 *   11 to 15  the store, also without points
 *   16        the total after all of them
 *   17        fewer places than points: those left in the chain's last record if it is of kind 1, and 7 for each record after
 *             the greatest index
 */
uint8_t kerambiu_append_points(uint8_t *store, size_t store_len, const int16_t *points, size_t points_len);

/*
 * Reads all events in chain order into the lent numbers from the offset on, three to an event: 1, re, im for a point, 2, the
 * count, 0 for lost intervals. count[0] becomes how many events there are.
 * These come in this order, so that 11 to 15 stand between two reasons for 7:
 *    7        no lent number for the count; an offset past the end of the numbers
 *   11 to 15  the store
 *    7        in an accepted store, fewer numbers from the offset on than three for each event
 */
uint8_t kerambiu_read(const uint8_t *store, size_t store_len, int64_t *out, size_t out_len, size_t offset, size_t *count,
                      size_t count_len);

/*
 * Writes the listing of a store into the lent bytes; count[0] becomes how many bytes the text has. The listing of an accepted
 * store ends with the line `sum points P lost L gaps G`, the three numbers of kerambiu_sums. A store that 11 to 15 refuse has
 * the one line `refused N` for its listing.
 *    7        no lent number for the count; fewer bytes than KERAMBIU_LISTING_BYTES, which any listing fits into
 */
#define KERAMBIU_LISTING_BYTES 372645
uint8_t kerambiu_list(const uint8_t *store, size_t store_len, uint8_t *out, size_t out_len, size_t *count, size_t count_len);

/*
 * Sums up a store: sums[0] becomes the count of decided points, sums[1] the lost intervals, a point at the origin being one,
 * and sums[2] the count of gaps, which are the lost records, each by itself also beside another, and the points at the origin.
 * The first two add up to the store's total. Lent numbers beyond the three stay as they are.
 *    7        fewer than three lent numbers
 *   11 to 15  the store
 */
uint8_t kerambiu_sums(const uint8_t *store, size_t store_len, uint64_t *sums, size_t sums_len);

/*
 * From received points to the data bits of a block protocol: takes the bytes that kerambiu_receive_points or
 * kerambiu_receive_level_points wrote, one of `line` and one of `plain` for each point, and writes the settled data bits of the
 * first run among them into `out`, one in a byte, first in time first. Give as many bytes as there are points: lent bytes beyond
 * them would be read as points. A run begins at the first point with a settled data bit and goes on over the points after it
 * whose data bits are all settled; it ends at a gap or with the bytes given. An unsettled bit is never handed over, and no bit
 * between two of a run is missing. For the next run call again with the bytes from point run[0] + run[1] on. In `out` w bytes
 * for each point always suffice; bytes beyond run[2], and numbers beyond the three, stay as they are.
 *   run[0]    the point at which the run begins, counted from 0 at the first byte of this call; the count of points if there is
 *             none. The place of point k is that of the state before the points were received, plus k.
 *   run[1]    how many points it has, 0 if there is none
 *   run[2]    how many settled data bits, w for each point; in the first point the w * run[1] - run[2] first bits are unsettled,
 *             and are not among them
 * A gap that was given by a call of its own stands in no byte. The next point is a KERAMBIU_REFERENCE or a KERAMBIU_ORIGIN, and
 * either ends the run; but where bytes from before and after it are joined, the places after it are further on than their count.
 * Bytes that no call wrote are read so: a line byte below 16 is a point with w data bits, of which the first plain / 16, at most
 * w, are unsettled and the others are the lowest bits of plain; any other line byte is a point without data bits.
 *    1        the mode
 *    7        not as many bytes in `plain` as in `line`; fewer bytes in `out` than the run has bits; fewer than three numbers in
 *             `run`
 */
uint8_t kerambiu_settled_bits(uint8_t mode, const uint8_t *line, size_t line_len, const uint8_t *plain, size_t plain_len,
                              uint8_t *out, size_t out_len, size_t *run, size_t run_len);

/*
 * A V.41 block is 260, 500, 980 or 3860 bits, one in a byte: four service bits and the information, then 16 check bits. The
 * whole, first bit as highest power, leaves nothing when divided by x^16 + x^12 + x^5 + 1. A whole block altered only within a
 * run of 16 bits, in at least one of them, is never taken for a whole one; with other alterations it can be.
 */
#define KERAMBIU_V41_CHECK_BITS 16

/*
 * Checks a block: whole[0] becomes 1 if it leaves nothing, else 0. Bytes beyond it stay as they are.
 *   19        the count of bits
 *    5        any byte
 *    7        no byte in `whole`
 */
uint8_t kerambiu_v41_check(const uint8_t *bits, size_t bits_len, uint8_t *whole, size_t whole_len);

/*
 * Makes a block of service and information bits, 244, 484, 964 or 3844 of them: the bits and their check bits stand at the front
 * of `out`. Bytes beyond them stay as they are.
 *   19        the count of bits
 *    5        any byte
 *    7        fewer bytes in `out` than 16 more than the bits
 */
uint8_t kerambiu_v41_make(const uint8_t *bits, size_t bits_len, uint8_t *out, size_t out_len);

#ifdef __cplusplus
}
#endif

#endif
