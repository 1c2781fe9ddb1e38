/* The customer's readings and each refusal, from C:  cc -std=c99 -Wall -Wextra -Werror test.c libstelomavunt.a -o test && ./test */
#include "stelomavunt.h"

#include <math.h>
#include <stdio.h>
#include <string.h>

static int failed = 0;

#define EXPECT(what)                                                    \
    do {                                                                \
        if (!(what)) {                                                  \
            printf("test.c:%d: not so: %s\n", __LINE__, #what);         \
            failed++;                                                   \
        }                                                               \
    } while (0)

#define LENGTH(array) (sizeof(array) / sizeof((array)[0]))

static stelo_fraction frac(uint32_t num, uint32_t den)
{
    stelo_fraction f = {num, den};
    return f;
}

static stelo_bound finite(uint32_t value)
{
    stelo_bound b = {0, value};
    return b;
}

static const stelo_bound pos_inf = {1, 0};

static int is_entry(stelo_entry e, uint32_t v, uint32_t g, uint32_t delta)
{
    return e.v == v && e.g == g && e.delta == delta;
}

static void stream_reads(void)
{
    static const uint32_t observations[] = {30, 10, 20, 40, 25, 35};
    stelo_entry list[6];
    memset(list, 0xff, sizeof list);
    stelo_stream_answer a = stelo_stream_open(frac(1, 4), list, LENGTH(list));
    EXPECT(a.refusal == 0);
    EXPECT(is_entry(list[5], 0, 0, 0));
    for (size_t i = 0; i < LENGTH(observations); i++) {
        a = stelo_stream_insert(a.stream, list, LENGTH(list), observations[i]);
        EXPECT(a.refusal == 0);
    }
    EXPECT(a.stream.num == 1 && a.stream.den == 4 && a.stream.n == 6 && a.stream.held == 4);
    EXPECT(is_entry(list[0], 10, 1, 0) && is_entry(list[1], 20, 1, 1) && is_entry(list[2], 30, 2, 0) && is_entry(list[3], 40, 2, 0));
    EXPECT(stelo_stream_quantile(a.stream, list, LENGTH(list), frac(1, 2)).value == 30);
    EXPECT(stelo_stream_quantile(a.stream, list, LENGTH(list), frac(0, 1)).value == 10);
    EXPECT(stelo_stream_quantile(a.stream, list, LENGTH(list), frac(1, 1)).value == 40);
    EXPECT(stelo_stream_p(a.stream, list, LENGTH(list)).value == 3);
    EXPECT(stelo_stream_n(a.stream, list, LENGTH(list)).value == 6);
    EXPECT(stelo_stream_s(a.stream, list, LENGTH(list)).value == 4);
}

static void stream_refuses(void)
{
    stelo_entry list[2] = {{1, 2, 3}, {4, 5, 6}};
    EXPECT(stelo_stream_open(frac(1, 4), list, 0).refusal == STELO_SLOTS);
    EXPECT(stelo_stream_open(frac(501, 1000), list, 2).refusal == STELO_EPSILON);
    EXPECT(stelo_stream_open(frac(1, 0), list, 2).refusal == STELO_EPSILON);
    EXPECT(is_entry(list[0], 1, 2, 3) && is_entry(list[1], 4, 5, 6));
    stelo_stream s = stelo_stream_open(frac(1, 4), list, 2).stream;
    EXPECT(stelo_stream_quantile(s, list, 2, frac(2, 1)).refusal == STELO_PHI);
    EXPECT(stelo_stream_quantile(s, list, 2, frac(1, 1)).refusal == STELO_EMPTY);
    s = stelo_stream_insert(s, list, 2, 1).stream;
    s = stelo_stream_insert(s, list, 2, 2).stream;
    stelo_stream_answer full = stelo_stream_insert(s, list, 2, 3);
    EXPECT(full.refusal == STELO_FULL);
    EXPECT(full.stream.n == 2 && full.stream.held == 2);
    EXPECT(stelo_stream_insert(s, list, 0, 3).refusal == STELO_SLOTS);
    s.n = 3;
    EXPECT(stelo_stream_insert(s, list, 2, 3).refusal == STELO_DAMAGED);
    EXPECT(stelo_stream_s(s, list, 2).refusal == STELO_DAMAGED);
    EXPECT(is_entry(list[0], 1, 1, 0) && is_entry(list[1], 2, 1, 0));
}

static void histogram_reads(void)
{
    static const uint32_t bounds[] = {10, 256, 1987, 1990};
    uint32_t counts[5] = {9, 9, 9, 9, 9};
    stelo_histogram h = stelo_histogram_open(bounds, 4, counts, 5).histogram;
    EXPECT(stelo_histogram_sum(h, bounds, 4, counts, 5).has_sum == 0);
    for (uint32_t v = 0; v < 2048; v++) {
        stelo_histogram_answer a = stelo_histogram_insert(h, bounds, 4, counts, 5, v);
        EXPECT(a.refusal == 0);
        h = a.histogram;
    }
    EXPECT(counts[0] == 11 && counts[1] == 246 && counts[2] == 1731 && counts[3] == 3 && counts[4] == 57);
    EXPECT(stelo_histogram_count(h, bounds, 4, counts, 5).value == 2048);
    EXPECT(stelo_histogram_sum(h, bounds, 4, counts, 5).sum == 2096128);
    EXPECT(stelo_histogram_total_above(h, bounds, 4, counts, 5, finite(11)).value == 2037);
    EXPECT(stelo_histogram_total_below(h, bounds, 4, counts, 5, pos_inf).value == 2048);
    EXPECT(stelo_histogram_total_between(h, bounds, 4, counts, 5, finite(1987), finite(1990)).value == 3);
    stelo_part part = stelo_histogram_bins(h, bounds, 4, counts, 5, finite(256), pos_inf);
    EXPECT(part.refusal == 0 && part.start == 2 && part.length == 3);
    EXPECT(stelo_histogram_bins(h, bounds, 4, counts, 5, pos_inf, finite(10)).length == 0);
}

static void histogram_refuses(void)
{
    static const uint32_t bounds[] = {20, 10};
    uint32_t counts[3] = {7, 7, 7};
    EXPECT(stelo_histogram_open(bounds, 0, counts, 3).refusal == STELO_BOUNDS_EMPTY);
    EXPECT(stelo_histogram_open(bounds, 2, counts, 3).refusal == STELO_BOUNDS_ORDER);
    EXPECT(stelo_histogram_open(bounds, 1, counts, 3).refusal == STELO_SLOTS);
    EXPECT(counts[0] == 7 && counts[1] == 7 && counts[2] == 7);
    stelo_histogram h = stelo_histogram_open(bounds, 1, counts, 2).histogram;
    h.sum = 1;
    EXPECT(stelo_histogram_insert(h, bounds, 1, counts, 2, 5).refusal == STELO_DAMAGED);
    EXPECT(stelo_histogram_insert(h, bounds, 1, counts, 3, 5).refusal == STELO_SLOTS);
    h.sum = 0;
    h.count = (uint64_t)1 << 32;
    EXPECT(stelo_histogram_count(h, bounds, 1, counts, 2).refusal == STELO_DAMAGED);
}

static void store_reads(void)
{
    static const uint32_t observations[] = {10, 20, 30, 40, 50, 45};
    stelo_entry list[8];
    uint32_t blocks[8];
    stelo_store_answer a = stelo_store_open(frac(1, 2), 2, list, 8, blocks, 8);
    EXPECT(stelo_store_is_empty(a.store, list, 8, blocks, 8).value == 1);
    for (size_t i = 0; i < LENGTH(observations); i++) {
        a = stelo_store_insert(a.store, list, 8, blocks, 8, observations[i]);
        EXPECT(a.refusal == 0);
    }
    EXPECT(is_entry(list[4], 45, 1, 2));
    EXPECT(stelo_store_len(a.store, list, 8, blocks, 8).value == 6);
    EXPECT(stelo_store_query(a.store, list, 8, blocks, 8, frac(0, 1)).value == 10);
    EXPECT(stelo_store_compress(a.store, list, 8, blocks, 7).refusal == STELO_SLOTS);
    a = stelo_store_compress(a.store, list, 8, blocks, 8);
    EXPECT(a.refusal == 0 && a.store.n == 6 && a.store.held < 6);
    EXPECT(stelo_store_open(frac(1, 1), 2, list, 8, blocks, 8).refusal == STELO_EPSILON);
    EXPECT(stelo_store_open(frac(1, 2), 0, list, 8, blocks, 8).refusal == STELO_BLOCK);
    a.store.blocks = 0;
    EXPECT(stelo_store_query(a.store, list, 8, blocks, 8, frac(0, 1)).refusal == STELO_DAMAGED);
}

static void ckms_reads(void)
{
    stelo_entry list[8];
    uint32_t blocks[8];
    stelo_ckms_answer a = stelo_ckms_open(frac(1, 2), list, 8, blocks, 8);
    EXPECT(a.refusal == 0);
    EXPECT(stelo_ckms_last(a.ckms, list, 8, blocks, 8).has_last == 0);
    EXPECT(stelo_ckms_query(a.ckms, list, 8, blocks, 8, frac(1, 1)).refusal == STELO_EMPTY);
    for (uint32_t v = 1; v <= 3; v++)
        a = stelo_ckms_insert(a.ckms, list, 8, blocks, 8, v);
    EXPECT(is_entry(list[0], 1, 1, 0) && is_entry(list[1], 3, 2, 0) && is_entry(list[2], 0, 0, 0));
    stelo_ranked top = stelo_ckms_query(a.ckms, list, 8, blocks, 8, frac(1, 1));
    EXPECT(top.refusal == 0 && top.rank == 2 && top.value == 3);
    EXPECT(stelo_ckms_count(a.ckms, list, 8, blocks, 8).value == 3);
    EXPECT(stelo_ckms_last(a.ckms, list, 8, blocks, 8).last == 3);
    EXPECT(stelo_ckms_cma(a.ckms, list, 8, blocks, 8).mean == 2.0);
    stelo_fraction error = stelo_ckms_error_bound(a.ckms, list, 8, blocks, 8).error;
    EXPECT(error.num == 1 && error.den == 2);
    a.ckms.mean = NAN;
    EXPECT(stelo_ckms_cma(a.ckms, list, 8, blocks, 8).refusal == STELO_DAMAGED);
    a = stelo_ckms_open(frac(1, 2), list, 8, blocks, 8);
    a.ckms.mean = -0.0;
    EXPECT(stelo_ckms_count(a.ckms, list, 8, blocks, 8).refusal == STELO_DAMAGED);
}

int main(void)
{
    stream_reads();
    stream_refuses();
    histogram_reads();
    histogram_refuses();
    store_reads();
    ckms_reads();
    if (failed)
        return 1;
    printf("the C test passed\n");
    return 0;
}
