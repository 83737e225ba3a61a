/* How far a norm code is from scale times its lane, by the library's calls, and whether a brighter lane ever packs darker.

   check EVERY: of each norm format in each reading, every EVERYth f32 of the clamping range in the order of the numbers,
   as many to a call as the packer takes. The distance is worked out in whole numbers: a lane of at least 2^-23 is m / 2^k
   with k of at most 46, so that code * 2^k - scale * m has 63 bits. A lane below that, scaled, is below 1/128, and its
   code must be 0. Prints the lane that is farthest off; status 1 where one is farther than 1/2 (the text's reading) or
   33/64 (the crate's), or a code is below the one before it. */

#include <inttypes.h>
#include <stdint.h>
#include <stdio.h>
#include <stdlib.h>

#include "chanrelout.h"

enum { MOST = 46 };

static const struct format {
    const char *name;
    enum chanrelout_builtin builtin;
    int is_signed, bits;
} formats[] = {
    {"pack4x8snorm", CHANRELOUT_PACK4X8SNORM, 1, 8},
    {"pack4x8unorm", CHANRELOUT_PACK4X8UNORM, 0, 8},
    {"pack2x16snorm", CHANRELOUT_PACK2X16SNORM, 1, 16},
    {"pack2x16unorm", CHANRELOUT_PACK2X16UNORM, 0, 16},
};
enum { FORMATS = sizeof formats / sizeof *formats };

static const struct {
    const char *name;
    int allowed; /* in 64ths */
} readings[] = {{"crate", 33}, {"text", 32}};

/* The range in order: from -1 to -0 where codes are signed, then from +0 to 1. */
static const int64_t one = 0x3F800000, minus = 0x80000000;

static uint32_t lane_at(int64_t place)
{
    return (uint32_t)(place < 0 ? minus - 1 - place : place);
}

static void refused(const struct format *format, uint64_t refusal)
{
    fprintf(stderr, "%s: refused by %" PRIu64 "\n", format->name, refusal);
    exit(1);
}

/* |code - scale * lane| in units of 2^-MOST, 0 for a lane that is too small to count */
static uint64_t distance(int64_t code, int64_t scale, uint32_t lane)
{
    int field = (int)(lane >> 23 & 0xFF), k = 150 - field;
    if (k > MOST)
        return code == 0 ? 0 : UINT64_MAX;
    int64_t size = (int64_t)((lane & 0x7FFFFF) | 0x800000), scaled = scale * (lane >> 31 ? -size : size);
    int64_t off = code * (INT64_C(1) << k) - scaled;
    return (uint64_t)(off < 0 ? -off : off) << (MOST - k);
}

static int sweep(const struct format *format, int reading, int64_t every)
{
    int lanes = 32 / format->bits;
    int64_t full = INT64_C(1) << format->bits, scale = format->is_signed ? full / 2 - 1 : full - 1, before = -scale;
    uint64_t worst = 0, tried = 0, darker = 0;
    uint32_t worst_lane = 0;
    int64_t worst_code = 0;
    struct chanrelout_call call = {.builtin = format->builtin, .count = 1};
    struct chanrelout_answer answer;
    call.arguments[0].type = (uint64_t)CHANRELOUT_VECTOR(lanes, CHANRELOUT_F32);
    for (int64_t place = format->is_signed ? -one - 1 : 0; place <= one;) {
        int filled = 0;
        for (; filled < lanes && place <= one; filled++, place += every)
            call.arguments[0].lanes[filled] = lane_at(place);
        enum chanrelout_refusal refusal = chanrelout_fold_in((enum chanrelout_reading)reading, &call, &answer);
        if (refusal != CHANRELOUT_ANSWERED)
            refused(format, refusal);
        for (int i = 0; i < filled; i++, tried++) {
            uint32_t lane = (uint32_t)call.arguments[0].lanes[i];
            int64_t code = (int64_t)(answer.first.lanes[0] >> i * format->bits & (uint64_t)(full - 1));
            if (format->is_signed && code >= full / 2)
                code -= full;
            uint64_t off = distance(code, scale, lane);
            if (off > worst)
                worst = off, worst_lane = lane, worst_code = code;
            darker += code < before;
            before = code;
        }
    }
    uint64_t top = worst;
    int k = MOST;
    for (; top != 0 && top % 2 == 0 && k > 0; k--)
        top /= 2;
    int far = worst > (uint64_t)readings[reading].allowed << (MOST - 6);
    printf("%s, the %s's reading: %" PRIu64 " lanes, %" PRIu64 " darker; farthest %08" PRIX32 ", code %" PRId64
           ", off by %" PRIu64 "/2^%d = %.9f, %.6f of 64ths%s\n",
           format->name, readings[reading].name, tried, darker, worst_lane, worst_code, top, k,
           (double)worst / (double)(UINT64_C(1) << MOST), (double)worst / (double)(UINT64_C(1) << (MOST - 6)),
           far ? ": too far" : "");
    fflush(stdout);
    return far || darker != 0;
}

int main(int count_of_words, char **words)
{
    int64_t every = count_of_words == 2 ? strtoll(words[1], NULL, 10) : 0;
    if (every < 1) {
        fprintf(stderr, "usage: check EVERY, from 1\n");
        return 2;
    }
    int failed = 0;
    for (int f = 0; f < FORMATS; f++)
        for (int reading = 0; reading < 2; reading++)
            failed |= sweep(&formats[f], reading, every);
    return failed;
}
