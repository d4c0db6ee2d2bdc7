/* Fills tables with ln gamma and digamma at whole numbers, as teakpool.h wants them. A program that has tables of its own needs none
 * of this.
 *
 * Nothing but additions, subtractions, multiplications and divisions of doubles is used, each rounded once, and a rounding to float;
 * no function of the C library. Every compiler that keeps to IEEE 754 gives the same bits, with fused multiply-adds or without. Up to
 * index 1,048,575 no value is further than 2 units in the last place from the true one (at most 0.51 measured).
 *
 * Do not compile this with -ffast-math, nor with a part of it. Where the compiler tells of such a flag, what follows stops it: gcc
 * tells of all that matter (12 was tried), clang of -ffast-math and -ffinite-math-only. Of the others clang tells nothing; from
 * version 12 on it is told by a pragma to leave the sums here as they are written (14 was tried). Older versions and other compilers
 * may take such a flag unnoticed, and values are then wrong in their last digits: see to their flags yourself.
 *
 * Going from k to k + 1, ln gamma grows by ln k, digamma by 1 / k, and ln k by 2 (z + z^3 / 3 + z^5 / 5 + ..) with z = 1 / (2k + 1).
 * The sums are kept in two doubles each, so that a million additions lose nothing that shows. */
#ifndef TEAKPOOL_TABLES_H
#define TEAKPOOL_TABLES_H

#include "teakpool.h"

#if defined(__FAST_MATH__) || defined(__ASSOCIATIVE_MATH__) || defined(__RECIPROCAL_MATH__) || defined(__NO_SIGNED_ZEROS__) || \
    (defined(__FINITE_MATH_ONLY__) && __FINITE_MATH_ONLY__ > 0)
#error "teakpool_tables.h: -ffast-math, or a part of it, takes away the bits that the sums here keep"
#endif
#if defined(__FLT_EVAL_METHOD__) && (__FLT_EVAL_METHOD__ == 2 || __FLT_EVAL_METHOD__ < 0)
#error "teakpool_tables.h: doubles are worked out in another precision, and the sums here want each step rounded to double"
#endif

/* Stops gcc's -fsingle-precision-constant. */
typedef char teakpool_constants_are_doubles[sizeof(1.0) == sizeof(double) ? 1 : -1];

#if defined(__clang__) && __clang_major__ >= 12
#pragma float_control(push)
#pragma float_control(precise, on)
#endif

#ifdef __cplusplus
extern "C" {
#endif

/* A number in two parts, the second below the last bit of the first. */
struct teakpool_pair {
    double high, low;
};

/* sum + (high + low). What is lost of the first parts' sum is worked out exactly, and added to the second. */
static inline struct teakpool_pair teakpool_pair_plus(struct teakpool_pair sum, double high, double low)
{
    struct teakpool_pair result;
    double added = sum.high + high;
    double part = added - sum.high;
    double lost = ((sum.high - (added - part)) + (high - part)) + (sum.low + low);
    result.high = added + lost;
    result.low = lost - (result.high - added);
    return result;
}

/* 1 / n of a whole number n below 2^24. The quotient's first 24 bits times n, the others times n, and what is left of 1, are
 * exact. */
static inline struct teakpool_pair teakpool_pair_inverse(double n)
{
    struct teakpool_pair result;
    double first, others;
    result.high = 1.0 / n;
    first = (double)(float)result.high;
    others = result.high - first;
    result.low = ((1.0 - first * n) - others * n) / n;
    return result;
}

/* ln (k + 1), from ln k. */
static inline struct teakpool_pair teakpool_pair_next_ln(struct teakpool_pair ln, double k)
{
    struct teakpool_pair z = teakpool_pair_inverse(2.0 * k + 1.0);
    double square = z.high * z.high, power = z.high * square, odd = 3.0, tail = 0.0;
    while (power > 1.0e-26) {
        tail += power / odd;
        power *= square;
        odd += 2.0;
    }
    ln = teakpool_pair_plus(ln, 2.0 * z.high, 2.0 * z.low);
    return teakpool_pair_plus(ln, 2.0 * tail, 0.0);
}

/* Fills g and d, `length` elements each, and returns them as tables to lend. Index k holds the value at k; index 0, which no call
 * reads, becomes 0. teakpool.h says under 15 what length is needed; every call wants one of 2 to TEAKPOOL_MAX_TABLE. Where g or d is
 * NULL nothing is filled, and every call refuses the tables by 1. */
static inline struct teakpool_tables teakpool_gamma_tables(double *g, double *d, size_t length)
{
    /* at k = 1: ln 1, ln gamma and digamma, which is minus Euler's constant */
    struct teakpool_pair ln = {0.0, 0.0}, ln_gamma = {0.0, 0.0}, digamma = {-0.57721566490153287, 4.9429151524306451e-18};
    size_t k;
    if (g == NULL || d == NULL) {
        return teakpool_make_tables(teakpool_make_g(NULL, length), teakpool_make_d(NULL, length));
    }
    if (length > 0) {
        g[0] = 0.0;
        d[0] = 0.0;
    }
    for (k = 1; k < length; k++) {
        struct teakpool_pair inverse = teakpool_pair_inverse((double)k);
        g[k] = ln_gamma.high;
        d[k] = digamma.high;
        ln_gamma = teakpool_pair_plus(ln_gamma, ln.high, ln.low);
        digamma = teakpool_pair_plus(digamma, inverse.high, inverse.low);
        ln = teakpool_pair_next_ln(ln, (double)k);
    }
    return teakpool_make_tables(teakpool_make_g(g, length), teakpool_make_d(d, length));
}

#ifdef __cplusplus
}
#endif

#if defined(__clang__) && __clang_major__ >= 12
#pragma float_control(pop)
#endif

#endif
