/* Both engines of the library on the 8-bit norm formats, held against each other.

   check FROM COUNT: COUNT of the 2^32 numbers from FROM on, 0 being the first. Each is a word, which unpack4x8snorm and
   unpack4x8unorm unpack by both engines; and each is an f32 lane, which pack4x8snorm and pack4x8unorm pack by both, four
   neighbours to a call. Answers must be the same to the bit, NaNs too. */

#include <inttypes.h>
#include <stdint.h>
#include <stdio.h>
#include <stdlib.h>
#include <string.h>

#include "chanrelout.h"

static uint64_t differing;

static void fold(enum chanrelout_engine engine, const struct chanrelout_call *call, struct chanrelout_answer *answer)
{
    enum chanrelout_refusal refusal = chanrelout_fold_by(CHANRELOUT_CRATE, engine, call, answer);
    if (refusal != CHANRELOUT_ANSWERED) {
        printf("refused by %d\n", (int)refusal);
        exit(1);
    }
}

static void hold(struct chanrelout_call *call, enum chanrelout_builtin builtin, uint64_t from)
{
    struct chanrelout_answer one, other;
    call->builtin = builtin;
    fold(CHANRELOUT_ARITHMETIC, call, &one);
    fold(CHANRELOUT_TABLES, call, &other);
    if (memcmp(&one, &other, sizeof one) != 0 && differing++ < 20)
        printf("builtin %d of %08" PRIX64 " on: %" PRIX64 " and %" PRIX64 "\n", (int)builtin, from, one.first.lanes[0],
               other.first.lanes[0]);
}

int main(int argc, char **argv)
{
    if (argc != 3)
        return 2;
    uint64_t from = strtoull(argv[1], NULL, 10), count = strtoull(argv[2], NULL, 10);
    struct chanrelout_call pack = {.count = 1}, unpack = {.count = 1};
    pack.arguments[0].type = CHANRELOUT_VECTOR(4, CHANRELOUT_F32);
    unpack.arguments[0].type = CHANRELOUT_U32;
    for (uint64_t n = from; n < from + count; n++) {
        unpack.arguments[0].lanes[0] = n;
        hold(&unpack, CHANRELOUT_UNPACK4X8SNORM, n);
        hold(&unpack, CHANRELOUT_UNPACK4X8UNORM, n);
        pack.arguments[0].lanes[n % 4] = n;
        if (n % 4 == 3) {
            hold(&pack, CHANRELOUT_PACK4X8SNORM, n - 3);
            hold(&pack, CHANRELOUT_PACK4X8UNORM, n - 3);
        }
        if (n % (1 << 28) == 0)
            fprintf(stderr, "engines: %08" PRIX64 "\n", n);
    }
    printf("%" PRIu64 " words unpacked to snorm and to unorm, %" PRIu64 " lanes packed to each, by both engines: %" PRIu64 " calls differ\n", count,
           count, differing);
    return differing != 0;
}
