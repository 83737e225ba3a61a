/* floor, ceil, trunc, round and fract by the library's calls, held against the C library and the processor.

   check COUNT: COUNT f32 patterns, spread evenly over all 2^32 (all of them where COUNT is 4294967296), four to a call,
   and all 65,536 halves. floor is held against floorf, ceil against ceilf, trunc against truncf, round against rintf in
   the rounding mode to nearest, ties to even, and fract against the processor's difference of x and floorf(x). A half
   goes to f32 and back by the C compiler, which is exact for the first four; fract's difference of two halves is exact
   in f32 too, so that the way back rounds it once. Only NaN bits may differ. */

#include <fenv.h>
#include <inttypes.h>
#include <math.h>
#include <stdint.h>
#include <stdio.h>
#include <stdlib.h>
#include <string.h>

#include "chanrelout.h"

static float single_of(uint32_t bits)
{
    float x;
    memcpy(&x, &bits, 4);
    return x;
}

static uint32_t bits_of(float x)
{
    uint32_t bits;
    memcpy(&bits, &x, 4);
    return bits;
}

static float fract(float x)
{
    return x - floorf(x);
}

static const struct rounding {
    const char *name;
    enum chanrelout_builtin builtin;
    float (*of)(float);
} roundings[] = {
    {"floor", CHANRELOUT_FLOOR, floorf}, {"ceil", CHANRELOUT_CEIL, ceilf},   {"trunc", CHANRELOUT_TRUNC, truncf},
    {"round", CHANRELOUT_ROUND, rintf},  {"fract", CHANRELOUT_FRACT, fract},
};
enum { ROUNDINGS = sizeof roundings / sizeof *roundings };

static uint64_t differing;

static void differs(const char *name, const char *type, uint64_t lane, uint64_t theirs, uint64_t ours)
{
    if (differing++ < 20)
        printf("%s of %s %" PRIX64 ": C %" PRIX64 ", ours %" PRIX64 "\n", name, type, lane, theirs, ours);
}

/* What the library gives for four lanes of a type. */
static void fold(const struct rounding *rounding, uint64_t scalar, const uint64_t lanes[4], uint64_t out[4])
{
    struct chanrelout_call call = {.builtin = rounding->builtin, .count = 1};
    struct chanrelout_answer answer;
    call.arguments[0].type = CHANRELOUT_VECTOR(4, scalar);
    memcpy(call.arguments[0].lanes, lanes, 4 * sizeof *lanes);
    enum chanrelout_refusal refusal = chanrelout_fold(&call, &answer);
    if (refusal != 0) {
        printf("%s: refused by %d\n", rounding->name, (int)refusal);
        exit(1);
    }
    memcpy(out, answer.first.lanes, 4 * sizeof *out);
}

static void hold_singles(const struct rounding *rounding, const uint64_t lanes[4])
{
    uint64_t ours[4];
    fold(rounding, CHANRELOUT_F32, lanes, ours);
    for (int i = 0; i < 4; i++) {
        float theirs = rounding->of(single_of((uint32_t)lanes[i]));
        if (ours[i] != bits_of(theirs) && !(isnan(theirs) && isnan(single_of((uint32_t)ours[i]))))
            differs(rounding->name, "f32", lanes[i], bits_of(theirs), ours[i]);
    }
}

static _Float16 half_of(uint16_t bits)
{
    _Float16 x;
    memcpy(&x, &bits, 2);
    return x;
}

static void hold_halves(const struct rounding *rounding, const uint64_t lanes[4])
{
    uint64_t ours[4];
    fold(rounding, CHANRELOUT_F16, lanes, ours);
    for (int i = 0; i < 4; i++) {
        _Float16 theirs = (_Float16)rounding->of((float)half_of((uint16_t)lanes[i]));
        uint16_t bits;
        memcpy(&bits, &theirs, 2);
        if (ours[i] != bits && !(isnan((float)theirs) && isnan((float)half_of((uint16_t)ours[i]))))
            differs(rounding->name, "f16", lanes[i], bits, ours[i]);
    }
}

int main(int count_of_words, char **words)
{
    uint64_t count = count_of_words == 2 ? strtoull(words[1], NULL, 10) : 0;
    if (count < 4 || count > (UINT64_C(1) << 32)) {
        fprintf(stderr, "usage: check COUNT, from 4 to 4294967296\n");
        return 2;
    }
    fesetround(FE_TONEAREST);
    for (int r = 0; r < ROUNDINGS; r++)
        for (uint64_t half = 0; half <= 0xFFFF; half += 4)
            hold_halves(&roundings[r], (uint64_t[]){half, half + 1, half + 2, half + 3});

    /* One pattern of each of COUNT parts of equal length, at a place that wanders. */
    uint64_t part = (UINT64_C(1) << 32) / count, calls = count / 4;
    for (uint64_t k = 0; k < calls; k++) {
        uint64_t lanes[4];
        for (uint64_t i = 0; i < 4; i++) {
            uint64_t at = 4 * k + i;
            lanes[i] = at * part + (at * UINT64_C(2654435761) >> 7) % part;
        }
        for (int r = 0; r < ROUNDINGS; r++)
            hold_singles(&roundings[r], lanes);
        if ((k + 1) % (UINT64_C(1) << 25) == 0)
            fprintf(stderr, "%" PRIu64 " of %" PRIu64 " patterns\n", 4 * (k + 1), count);
    }
    printf("%" PRIu64 " f32 and 65536 halves, five roundings each, the C library and ours: %" PRIu64
           " differ by more than NaN bits\n",
           4 * calls, differing);
    return differing != 0;
}
