/* lanes BUILTIN ENGINE COUNT: folds COUNT calls of an 8-bit norm format's builtin, by an engine's number; the script
   `lanes` counts the instructions that this takes. A packer is given four f32 lanes from 2^-10 to 2 of either sign, an
   unpacker any word. */

#include <stdint.h>
#include <stdlib.h>
#include <string.h>

#include "chanrelout.h"

/* The lowest bit of x leaves, and a pattern of bits comes in where it was 1. */
static uint32_t next(uint32_t x)
{
    return x >> 1 ^ (x & 1 ? 0xA3000000u : 0);
}

int main(int argc, char **argv)
{
    if (argc != 4)
        return 2;
    static const struct {
        const char *name;
        enum chanrelout_builtin builtin;
    } builtins[] = {
        {"pack4x8snorm", CHANRELOUT_PACK4X8SNORM},
        {"pack4x8unorm", CHANRELOUT_PACK4X8UNORM},
        {"unpack4x8snorm", CHANRELOUT_UNPACK4X8SNORM},
        {"unpack4x8unorm", CHANRELOUT_UNPACK4X8UNORM},
    };
    struct chanrelout_call call = {.count = 1};
    for (size_t i = 0; i < sizeof builtins / sizeof *builtins; i++)
        if (strcmp(argv[1], builtins[i].name) == 0)
            call.builtin = builtins[i].builtin;
    uint64_t engine = strtoull(argv[2], NULL, 10), count = strtoull(argv[3], NULL, 10);
    struct chanrelout_answer answer;
    int packs = argv[1][0] == 'p';
    call.arguments[0].type = packs ? CHANRELOUT_VECTOR(4, CHANRELOUT_F32) : CHANRELOUT_U32;
    uint32_t bits = 1;
    for (uint64_t i = 0; i < count; i++) {
        for (int k = 0; k < (packs ? 4 : 1); k++) {
            bits = next(bits);
            call.arguments[0].lanes[k] = packs ? (bits & 0x807FFFFFu) | (117 + bits / 2 % 11) << 23 : bits;
        }
        if (chanrelout_fold_by(CHANRELOUT_CRATE, (enum chanrelout_engine)engine, &call, &answer) != CHANRELOUT_ANSWERED)
            return 1;
    }
    return 0;
}
