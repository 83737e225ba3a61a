/* Bakes a material of a hundred calls in one call, holds each result to the single call's, and prints the packed colours
   and what was refused: ./run builds and runs this. */

#include "chanrelout.h"

#include <inttypes.h>
#include <stdio.h>
#include <string.h>

enum { CALLS = 100 };

static uint64_t bits_of(float x)
{
    uint32_t bits;
    memcpy(&bits, &x, sizeof bits);
    return bits;
}

static void set_four(struct chanrelout_value *value, float a, float b, float c, float d)
{
    const float lanes[4] = {a, b, c, d};
    value->type = CHANRELOUT_VECTOR(4, CHANRELOUT_F32);
    for (int i = 0; i < 4; i++)
        value->lanes[i] = bits_of(lanes[i]);
}

int main(void)
{
    static struct chanrelout_call calls[CALLS];
    static struct chanrelout_result results[CALLS + 1];
    memset(results, 7, sizeof results);

    /* Five calls for each of twenty steps of a gradient: the grid cell, the colour and its brighter one, both packed. The last of every
       eighth step is given a type that it does not take. */
    for (int step = 0; step < CALLS / 5; step++) {
        struct chanrelout_call *call = &calls[5 * step];
        float x = (float)step / 4;
        call[0] = (struct chanrelout_call){.builtin = CHANRELOUT_FLOOR, .count = 1};
        set_four(&call[0].arguments[0], x, -x, x + 0.5f, 0);
        call[1] = (struct chanrelout_call){.builtin = CHANRELOUT_SATURATE, .count = 1};
        set_four(&call[1].arguments[0], x / 5, 1 - x / 5, x, 1);
        call[2] = (struct chanrelout_call){.builtin = CHANRELOUT_MAX, .count = 2};
        set_four(&call[2].arguments[0], x / 5, 0.25f, 0.5f, 1);
        set_four(&call[2].arguments[1], 0.5f, x / 5, 0.25f, 1);
        call[3] = (struct chanrelout_call){.builtin = CHANRELOUT_PACK4X8UNORM, .count = 1};
        set_four(&call[3].arguments[0], x / 5, 1 - x / 5, 0.5f, 1);
        call[4] = (struct chanrelout_call){.builtin = CHANRELOUT_PACK2X16FLOAT, .count = 1};
        set_four(&call[4].arguments[0], x, 65504 * x, 0, 0);
        if (step % 8 != 7) {
            call[4].arguments[0].type = CHANRELOUT_VECTOR(2, CHANRELOUT_F32);
            call[4].arguments[0].lanes[2] = call[4].arguments[0].lanes[3] = 0;
        }
    }

    if (chanrelout_fold_all(calls, CALLS, results, CALLS - 1) != CHANRELOUT_NO_ROOM || results[0].refusal == CHANRELOUT_ANSWERED)
        return 1;
    if (chanrelout_fold_all(calls, CALLS, results, CALLS + 1) != CHANRELOUT_ANSWERED)
        return 1;

    int answered = 0, refused = 0, lost = 0;
    for (int i = 0; i < CALLS; i++) {
        struct chanrelout_answer alone;
        memset(&alone, 0, sizeof alone);
        enum chanrelout_refusal refusal = chanrelout_fold(&calls[i], &alone);
        if (results[i].refusal != (uint64_t)refusal || memcmp(&results[i].answer, &alone, sizeof alone) != 0)
            return 1;
        answered += refusal == CHANRELOUT_ANSWERED;
        refused += refusal != CHANRELOUT_ANSWERED;
        lost += alone.loss != CHANRELOUT_EXACT;
        if (calls[i].builtin == CHANRELOUT_PACK4X8UNORM)
            printf("%08" PRIX64 "%s", alone.first.lanes[0], i % 50 == 48 ? "\n" : " ");
    }
    for (size_t i = 0; i < sizeof results[CALLS]; i++)
        if (((unsigned char *)&results[CALLS])[i] != 7)
            return 1;
    printf("%d answered, %d refused, %d lost something\n", answered, refused, lost);
    return 0;
}
