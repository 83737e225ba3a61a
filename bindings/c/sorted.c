/* Prints a listing of answers from standard input in order, as foldsort does, by the library's index; and holds every
   two f32 that follow each other in it to the library's comparison. ./run builds this and holds it to foldsort. */

#include "chanrelout.h"

#include <inttypes.h>
#include <stdio.h>
#include <string.h>

/* Where each line starts, and where the next would. */
static size_t lines_of(const char *listing, size_t length, size_t *starts)
{
    size_t count = 0, at = 0;
    while (at < length) {
        starts[count++] = at;
        const char *newline = memchr(listing + at, '\n', length - at);
        at = newline ? (size_t)(newline - listing) + 1 : length;
    }
    starts[count] = length;
    return count;
}

/* The value of a line that is one f32 and nothing else. */
static int read_f32(const char *line, size_t length, struct chanrelout_value *value)
{
    char text[16];
    int end = 0;
    if (length != 13)
        return 0;
    memcpy(text, line, length);
    text[length] = '\0';
    memset(value, 0, sizeof *value);
    value->type = CHANRELOUT_F32;
    return sscanf(text, "f32:%8" SCNx64 "\n%n", &value->lanes[0], &end) == 1 && end == 13;
}

int main(void)
{
    static char listing[CHANRELOUT_LONGEST_LISTING];
    static size_t starts[CHANRELOUT_MOST_LINES + 1];
    uint16_t index[CHANRELOUT_MOST_LINES];
    size_t length = fread(listing, 1, sizeof listing, stdin);
    uint64_t answer = chanrelout_sort((const uint8_t *)listing, length, index, CHANRELOUT_MOST_LINES);
    if (chanrelout_sort_refusal(answer) != CHANRELOUT_ANSWERED) {
        printf("refused\t%d\n", chanrelout_sort_refusal(answer));
        return 0;
    }
    size_t count = chanrelout_sort_count(answer);
    if (lines_of(listing, length, starts) != count)
        return 1;
    struct chanrelout_value last = {0}, next;
    for (size_t i = 0; i < count; i++) {
        const char *line = listing + starts[index[i] - 1];
        size_t size = starts[index[i]] - starts[index[i] - 1];
        if (read_f32(line, size, &next)) {
            if (last.type != CHANRELOUT_NO_TYPE && chanrelout_order_of(&last, &next) > CHANRELOUT_SAME)
                return 1;
            last = next;
        }
        fwrite(line, 1, size, stdout);
    }
    return 0;
}
