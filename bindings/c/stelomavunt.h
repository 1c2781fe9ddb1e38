/* Noise floors with a proved error bound: the functions of libstelomavunt.a (made by `./archive`), for x86-64.
 *
 * All memory is lent by the caller, as a pointer and a count of elements, and no pointer is kept. A state is a struct of plain words, passed by
 * value, that anyone may store; nothing in it is trusted. Every call, on every words and numbers, ends with an answer or a numbered refusal:
 *
 *     the field `refusal` is 0, and the others are the answer; or
 *     it is a number of the table below, and state and lent memory stand as before: an answer's state is the state that was given (all zero from
 *     `open`), its other fields are 0.
 *
 * What a caller owes is what C cannot say: a pointer and its count belong to one array that is alive for the call, and an array that is written
 * overlaps no other. With a count of 0 nothing is read, and the pointer may be anything but NULL.
 *
 * Refusals are tested in the order in which each comment names them. */
#ifndef STELOMAVUNT_H
#define STELOMAVUNT_H

#include <stddef.h>
#include <stdint.h>

#ifdef __cplusplus
extern "C" {
#endif

/* Why a call gives no answer. */
enum {
    STELO_SLOTS = 1,         /* a lent list has a length that is not allowed, or two lists do not fit each other */
    STELO_EPSILON = 2,       /* the error fraction is outside its range, or its denominator is not allowed */
    STELO_BLOCK = 3,         /* the block size is outside its range */
    STELO_DAMAGED = 4,       /* the state, with the lent lists, is not sound */
    STELO_COUNT = 5,         /* an insert at 1,000,000,000 observations */
    STELO_FULL = 6,          /* an insert while every slot is taken */
    STELO_PHI = 7,           /* the fraction asked for is outside 0 to 1, or its denominator is not allowed */
    STELO_EMPTY = 8,         /* a quantile or query with nothing accepted */
    STELO_BOUNDS_EMPTY = 9,  /* no bounds */
    STELO_BOUNDS_MANY = 10,  /* more than 1,024 bounds */
    STELO_BOUNDS_ORDER = 11, /* a bound smaller than the one before */
    STELO_FILE = 12          /* a scan file breaks its layout: no function of this header gives it */
};

/* An entry of a summary: an observation, how many ranks lie between the entry before and this one, how unsure its rank is. */
typedef struct {
    uint32_t v;
    uint32_t g;
    uint32_t delta;
} stelo_entry;

/* num / den; den from 1 to 65,536, lowest terms not required. */
typedef struct {
    uint32_t num;
    uint32_t den;
} stelo_fraction;

/* What a call that tells one number answers. */
typedef struct {
    uint32_t refusal;
    uint32_t value;
} stelo_number;

/* What a query answers. */
typedef struct {
    uint32_t refusal;
    uint32_t rank;
    uint32_t value;
} stelo_ranked;

/* ---- The Greenwald-Khanna stream: `list` has 1 to 4,096 entries, `slots` of them ------------------------------------------------------- */

/* The error's numerator and denominator, the observations accepted, the entries held: the first ones of the list. */
typedef struct {
    uint32_t num;
    uint32_t den;
    uint32_t n;
    uint32_t held;
} stelo_stream;

typedef struct {
    uint32_t refusal;
    stelo_stream stream;
} stelo_stream_answer;

/* A fresh stream with the error epsilon, above 0 and at most 1/2. All slots become zero. Refused: SLOTS, EPSILON. */
stelo_stream_answer stelo_stream_open(stelo_fraction epsilon, stelo_entry *list, size_t slots);

/* The stream with the observation v more. Slots freed in the call become zero, other free ones keep what they have.
 * Refused: SLOTS, DAMAGED, COUNT, FULL. */
stelo_stream_answer stelo_stream_insert(stelo_stream stream, stelo_entry *list, size_t slots, uint32_t v);

/* The phi-quantile, phi from 0 to 1. Refused: SLOTS, DAMAGED, PHI, EMPTY. */
stelo_number stelo_stream_quantile(stelo_stream stream, const stelo_entry *list, size_t slots, stelo_fraction phi);

/* p, which is 2 * epsilon * n rounded down. Refused: SLOTS, DAMAGED. */
stelo_number stelo_stream_p(stelo_stream stream, const stelo_entry *list, size_t slots);

/* How many observations were accepted. Refused: SLOTS, DAMAGED. */
stelo_number stelo_stream_n(stelo_stream stream, const stelo_entry *list, size_t slots);

/* How many entries are held. Refused: SLOTS, DAMAGED. */
stelo_number stelo_stream_s(stelo_stream stream, const stelo_entry *list, size_t slots);

/* ---- The histogram: 1 to 1,024 bounds that never fall, `bounds_len` of them, and one count more, `bins` of them, the last for +Inf ------ */

/* How many observations were accepted, 1 if there is a sum else 0, the sum (0 where there is none). Words that fit no histogram are DAMAGED. */
typedef struct {
    uint64_t count;
    uint64_t has_sum;
    uint64_t sum;
} stelo_histogram;

typedef struct {
    uint32_t refusal;
    stelo_histogram histogram;
} stelo_histogram_answer;

/* A bound that is asked for: +Inf if `infinite` is not 0, whatever `value` says; else `value`. */
typedef struct {
    uint32_t infinite;
    uint32_t value;
} stelo_bound;

/* What the sum is: `has_sum` 1 and the sum, or 0 and 0 while nothing was accepted. */
typedef struct {
    uint32_t refusal;
    uint32_t has_sum;
    uint64_t sum;
} stelo_sum;

/* A part of the lent counts: `length` of them from `start` on. */
typedef struct {
    uint32_t refusal;
    size_t start;
    size_t length;
} stelo_part;

/* A fresh histogram. All counts become zero. Refused: BOUNDS_EMPTY, BOUNDS_MANY, BOUNDS_ORDER, SLOTS. */
stelo_histogram_answer stelo_histogram_open(const uint32_t *bounds, size_t bounds_len, uint32_t *counts, size_t bins);

/* The histogram with v more: in the bin of the first bound that is at least v, else in that of +Inf. Refused: SLOTS, DAMAGED, COUNT. */
stelo_histogram_answer stelo_histogram_insert(stelo_histogram histogram, const uint32_t *bounds, size_t bounds_len, uint32_t *counts, size_t bins,
                                              uint32_t v);

/* How many observations were accepted. Refused: SLOTS, DAMAGED. */
stelo_number stelo_histogram_count(stelo_histogram histogram, const uint32_t *bounds, size_t bounds_len, const uint32_t *counts, size_t bins);

/* Their sum. Refused: SLOTS, DAMAGED. */
stelo_sum stelo_histogram_sum(stelo_histogram histogram, const uint32_t *bounds, size_t bounds_len, const uint32_t *counts, size_t bins);

/* How many are in bins with bound <= upper. Refused: SLOTS, DAMAGED. */
stelo_number stelo_histogram_total_below(stelo_histogram histogram, const uint32_t *bounds, size_t bounds_len, const uint32_t *counts, size_t bins,
                                         stelo_bound upper);

/* How many are in bins with bound > lower. Refused: SLOTS, DAMAGED. */
stelo_number stelo_histogram_total_above(stelo_histogram histogram, const uint32_t *bounds, size_t bounds_len, const uint32_t *counts, size_t bins,
                                         stelo_bound lower);

/* How many are in bins with lower < bound <= upper; 0 where lower >= upper. Refused: SLOTS, DAMAGED. */
stelo_number stelo_histogram_total_between(stelo_histogram histogram, const uint32_t *bounds, size_t bounds_len, const uint32_t *counts,
                                           size_t bins, stelo_bound lower, stelo_bound upper);

/* Where the counts of those bins stand: counts[start] up to counts[start + length - 1]. Refused: SLOTS, DAMAGED. */
stelo_part stelo_histogram_bins(stelo_histogram histogram, const uint32_t *bounds, size_t bounds_len, const uint32_t *counts, size_t bins,
                                stelo_bound lower, stelo_bound upper);

/* ---- The CKMS store: `list` has 1 to 4,096 entries, `slots` of them, and `blocks` as many places, `places` of them ------------------------ */

/* The error's numerator and denominator, the observations accepted, the entries held, the block size, the blocks: the first of their places. */
typedef struct {
    uint32_t num;
    uint32_t den;
    uint32_t n;
    uint32_t held;
    uint32_t block;
    uint32_t blocks;
} stelo_store;

typedef struct {
    uint32_t refusal;
    stelo_store store;
} stelo_store_answer;

/* A fresh store with the error above 0 and below 1, and blocks of 1 to 4,096 entries. All slots and block places become zero.
 * Refused: SLOTS, EPSILON, BLOCK. */
stelo_store_answer stelo_store_open(stelo_fraction error, uint32_t block, stelo_entry *list, size_t slots, uint32_t *blocks, size_t places);

/* The store with the observation v more. It does not compress itself. Refused: SLOTS, DAMAGED, COUNT, FULL. */
stelo_store_answer stelo_store_insert(stelo_store store, stelo_entry *list, size_t slots, uint32_t *blocks, size_t places, uint32_t v);

/* The store compressed, if it holds 3 entries or more. Slots and block places freed become zero. Refused: SLOTS, DAMAGED. */
stelo_store_answer stelo_store_compress(stelo_store store, stelo_entry *list, size_t slots, uint32_t *blocks, size_t places);

/* How many entries are held. Refused: SLOTS, DAMAGED. */
stelo_number stelo_store_len(stelo_store store, const stelo_entry *list, size_t slots, const uint32_t *blocks, size_t places);

/* 1 if none is held, else 0. Refused: SLOTS, DAMAGED. */
stelo_number stelo_store_is_empty(stelo_store store, const stelo_entry *list, size_t slots, const uint32_t *blocks, size_t places);

/* The rank and the value for q, from 0 to 1. Refused: SLOTS, DAMAGED, PHI, EMPTY. */
stelo_ranked stelo_store_query(stelo_store store, const stelo_entry *list, size_t slots, const uint32_t *blocks, size_t places, stelo_fraction q);

/* ---- CKMS: a store with blocks of 2,048 that compresses itself, the last value and the running mean ------------------------------------- */

/* The error's numerator and denominator, the observations accepted, the entries held, the blocks, the inserts since the last compression, 1 if there
 * is a last value else 0, that value, 1 if there is a mean else 0, the mean. What there is not, is 0. Words that fit no CKMS are DAMAGED. */
typedef struct {
    uint64_t num;
    uint64_t den;
    uint64_t n;
    uint64_t held;
    uint64_t blocks;
    uint64_t inserts;
    uint64_t has_last;
    uint64_t last;
    uint64_t has_mean;
    double mean;
} stelo_ckms;

typedef struct {
    uint32_t refusal;
    stelo_ckms ckms;
} stelo_ckms_answer;

/* What the last value is: `has_last` 1 and the value, or 0 and 0 while nothing was accepted. */
typedef struct {
    uint32_t refusal;
    uint32_t has_last;
    uint32_t last;
} stelo_last;

/* What the mean is: `has_mean` 1 and the mean, or 0 and 0 while nothing was accepted. */
typedef struct {
    uint32_t refusal;
    uint32_t has_mean;
    double mean;
} stelo_mean;

typedef struct {
    uint32_t refusal;
    stelo_fraction error;
} stelo_error_bound;

/* A fresh CKMS with the error above 0 and below 1. All slots and block places become zero. Refused: SLOTS, EPSILON. */
stelo_ckms_answer stelo_ckms_open(stelo_fraction error, stelo_entry *list, size_t slots, uint32_t *blocks, size_t places);

/* The CKMS with the observation v more. Refused: SLOTS, DAMAGED, COUNT, FULL. */
stelo_ckms_answer stelo_ckms_insert(stelo_ckms ckms, stelo_entry *list, size_t slots, uint32_t *blocks, size_t places, uint32_t v);

/* The rank and the value for q, from 0 to 1. Refused: SLOTS, DAMAGED, PHI, EMPTY. */
stelo_ranked stelo_ckms_query(stelo_ckms ckms, const stelo_entry *list, size_t slots, const uint32_t *blocks, size_t places, stelo_fraction q);

/* How many observations were accepted. Refused: SLOTS, DAMAGED. */
stelo_number stelo_ckms_count(stelo_ckms ckms, const stelo_entry *list, size_t slots, const uint32_t *blocks, size_t places);

/* The observation accepted last. Refused: SLOTS, DAMAGED. */
stelo_last stelo_ckms_last(stelo_ckms ckms, const stelo_entry *list, size_t slots, const uint32_t *blocks, size_t places);

/* The running mean. Refused: SLOTS, DAMAGED. */
stelo_mean stelo_ckms_cma(stelo_ckms ckms, const stelo_entry *list, size_t slots, const uint32_t *blocks, size_t places);

/* The error that the CKMS was opened with, not reduced. Refused: SLOTS, DAMAGED. */
stelo_error_bound stelo_ckms_error_bound(stelo_ckms ckms, const stelo_entry *list, size_t slots, const uint32_t *blocks, size_t places);

#ifdef __cplusplus
}
#endif

#endif
