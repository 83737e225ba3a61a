/* Packs a colour, in both readings and by both engines too, unpacks it again, tells what halves lost, folds a line, reads and writes a value and puts values and
   lines in order: ./run builds and runs this. */

#include "chanrelout.h"

#include <inttypes.h>
#include <stdio.h>
#include <string.h>

static void print_value(const char *what, const struct chanrelout_value *value, size_t lanes)
{
    printf("%-16s", what);
    for (size_t i = 0; i < lanes; i++)
        printf(" %08" PRIX64, value->lanes[i]);
    putchar('\n');
}

/* What was expected where a line is wrong: its field up to there is a type, a colon and lanes. */
static const char *expected(const char *line, enum chanrelout_refusal fault, size_t place)
{
    const char *end = line + place - 1, *field = end;
    while (field > line && field[-1] != '\t')
        field--;
    const char *colon = memchr(field, ':', (size_t)(end - field));
    if (fault == CHANRELOUT_FAULTY_TYPE || colon == NULL)
        return "a type, as f32 or vec4<f32>, and a colon before a value's lanes";
    /* one digit in a bool's name or behind its vec is a count, and so is one on each side of a matrix's x */
    size_t lanes = field[0] == 'v' ? (size_t)(field[3] - '0') : 1;
    if (field[0] == 'm')
        lanes = (size_t)(field[3] - '0') * (size_t)(field[5] - '0');
    const char *scalar = lanes == 1 ? field : memchr(field, '<', (size_t)(colon - field)) + 1;
    size_t digits = scalar[0] == 'b' ? 1 : scalar[1] == '1' ? 4 : 8, due = lanes - 1, in_lane = 0;
    for (const char *byte = colon + 1; byte < end; byte++) {
        in_lane = *byte == ',' ? 0 : in_lane + 1;
        due -= *byte == ',';
    }
    if (in_lane == digits)
        return due == 0 ? "the end of the value" : fault == CHANRELOUT_FAULTY_DIGIT ? "a comma" : "a comma and another lane";
    return digits == 1 ? "0 or 1" : "a digit, 0 to 9 or A to F";
}

/* A misspelled line with a caret under the byte; a tab is shown as an arrow. */
static void print_misspelled(const char *line, uint64_t answer)
{
    enum chanrelout_refusal fault = chanrelout_line_refusal(answer);
    size_t place = chanrelout_line_place(answer);
    printf("misspelled at byte %zu: expected %s\n    ", place, expected(line, fault, place));
    for (const char *byte = line; *byte != 0; byte++)
        fputs(*byte == '\t' ? "\u2192" : (char[]){*byte, 0}, stdout);
    printf("\n    %*s\n", (int)place, "^");
}

static uint64_t bits_of(float x)
{
    uint32_t bits;
    memcpy(&bits, &x, sizeof bits);
    return bits;
}

int main(void)
{
    /* A call as a record: pack4x8unorm of four floats. */
    struct chanrelout_call pack = {.builtin = CHANRELOUT_PACK4X8UNORM, .count = 1};
    pack.arguments[0].type = CHANRELOUT_VECTOR(4, CHANRELOUT_F32);
    const float colour[4] = {1.0f, 0.5f, 0.0f, -1.0f};
    for (int i = 0; i < 4; i++)
        pack.arguments[0].lanes[i] = bits_of(colour[i]);

    struct chanrelout_answer packed;
    enum chanrelout_refusal refusal = chanrelout_fold(&pack, &packed);
    if (refusal != CHANRELOUT_ANSWERED) {
        fprintf(stderr, "refused, %d\n", refusal);
        return 1;
    }
    print_value("packed", &packed.first, 1);

    /* A lane that the two readings pack to different codes, as a record and as a line; a third reading there is none. */
    struct chanrelout_call close = pack;
    close.arguments[0].lanes[0] = 0x3B008080;
    struct chanrelout_answer read;
    const char *same = "pack4x8unorm\tvec4<f32>:3B008080,3F000000,00000000,BF800000";
    for (uint64_t reading = CHANRELOUT_CRATE; reading <= CHANRELOUT_TEXT; reading++) {
        char text[CHANRELOUT_LONGEST_ANSWER];
        if (chanrelout_fold_in((enum chanrelout_reading)reading, &close, &read) != CHANRELOUT_ANSWERED)
            return 1;
        print_value(reading == CHANRELOUT_TEXT ? "the text's" : "the crate's", &read.first, 1);
        uint64_t line_read = chanrelout_line_in(reading, (const uint8_t *)same, strlen(same), (uint8_t *)text, sizeof text);
        printf("%-16s %.*s\n", "as a line", (int)chanrelout_line_length(line_read), text);
    }
    printf("%-16s %d\n", "a third reading", chanrelout_call_in(2, (const uint64_t *)&close, sizeof close / 8,
                                                              (uint64_t *)&read, sizeof read / 8));

    /* The same by tables, as a record and as a line; a third engine there is none. */
    char by_line[CHANRELOUT_LONGEST_ANSWER];
    if (chanrelout_fold_by(CHANRELOUT_CRATE, CHANRELOUT_TABLES, &close, &read) != CHANRELOUT_ANSWERED)
        return 1;
    print_value("by tables", &read.first, 1);
    uint64_t line_by = chanrelout_line_by(CHANRELOUT_CRATE, CHANRELOUT_TABLES, (const uint8_t *)same, strlen(same),
                                          (uint8_t *)by_line, sizeof by_line);
    printf("%-16s %.*s\n", "as a line", (int)chanrelout_line_length(line_by), by_line);
    printf("%-16s %d\n", "a third engine", chanrelout_call_by(CHANRELOUT_CRATE, 2, (const uint64_t *)&close,
                                                             sizeof close / 8, (uint64_t *)&read, sizeof read / 8));

    /* What it gave is the next call's argument as it stands. */
    struct chanrelout_call unpack = {.builtin = CHANRELOUT_UNPACK4X8UNORM, .count = 1};
    unpack.arguments[0] = packed.first;
    struct chanrelout_answer unpacked;
    if (chanrelout_fold(&unpack, &unpacked) != CHANRELOUT_ANSWERED)
        return 1;
    print_value("unpacked", &unpacked.first, 4);

    /* A call that is refused leaves the answer as it was. */
    unpack.arguments[0].type = CHANRELOUT_I32;
    refusal = chanrelout_fold(&unpack, &unpacked);
    printf("%-16s %d\n", "an i32 unpacked", refusal);

    /* What becomes a half may lose something: the answer tells it, and so does the conversion. */
    struct chanrelout_call halves = {.builtin = CHANRELOUT_PACK2X16FLOAT, .count = 1};
    halves.arguments[0].type = CHANRELOUT_VECTOR(2, CHANRELOUT_F32);
    const float normal[2] = {0.1f, 70000.0f};
    for (int i = 0; i < 2; i++)
        halves.arguments[0].lanes[i] = bits_of(normal[i]);
    struct chanrelout_answer lossy;
    if (chanrelout_fold(&halves, &lossy) != CHANRELOUT_ANSWERED)
        return 1;
    print_value("halves", &lossy.first, 1);
    printf("%-16s %" PRIu64 "\n", "lost", lossy.loss);
    for (int i = 0; i < 2; i++) {
        uint32_t told = chanrelout_f32_to_f16_told((uint32_t)bits_of(normal[i]));
        printf("%-16s %04X %d\n", i == 0 ? "half of 0.1" : "half of 70000", chanrelout_told_half(told),
               chanrelout_told_loss(told));
    }

    /* A call as a line. */
    const char *line = "frexp\tf32:00000001";
    char out[CHANRELOUT_LONGEST_ANSWER];
    uint64_t answer = chanrelout_line((const uint8_t *)line, strlen(line), (uint8_t *)out, sizeof out);
    if (chanrelout_line_refusal(answer) != CHANRELOUT_ANSWERED)
        return 1;
    printf("%-16s %.*s\n", "frexp", (int)chanrelout_line_length(answer), out);

    /* A misspelled line tells the byte. */
    line = "abs\tvec2<f16>:3C00,400G";
    answer = chanrelout_line((const uint8_t *)line, strlen(line), (uint8_t *)out, sizeof out);
    print_misspelled(line, answer);

    /* A value's text, read with the place of its fault, and written. */
    const char *text = "vec2<f16>:3C00,400G";
    struct chanrelout_value half;
    answer = chanrelout_read_value((const uint8_t *)text, strlen(text), (uint64_t *)&half, sizeof half / 8);
    printf("%-16s %d at byte %zu\n", "misspelled", chanrelout_read_refusal(answer), chanrelout_read_place(answer));
    answer = chanrelout_write_value((const uint64_t *)&packed.first, sizeof packed.first / 8, (uint8_t *)out, sizeof out);
    if (chanrelout_line_refusal(answer) != CHANRELOUT_ANSWERED)
        return 1;
    printf("%-16s %.*s\n", "packed, spelled", (int)chanrelout_line_length(answer), out);

    /* Every two values stand in one order, a NaN too. */
    const struct chanrelout_value one = {.type = CHANRELOUT_F32, .lanes = {bits_of(1.0f)}};
    const struct chanrelout_value nan = {.type = CHANRELOUT_F32, .lanes = {0x7FC00000}};
    printf("%-16s %d %d\n", "1 and NaN", chanrelout_order_of(&one, &nan), chanrelout_order_of(&nan, &one));

    /* Answer lines in that order, by their numbers. */
    const char *listing = "f32:7FC00000\nrefused\t3\nf32:80000000\nf32:00000000\n";
    uint16_t index[CHANRELOUT_MOST_LINES];
    answer = chanrelout_sort((const uint8_t *)listing, strlen(listing), index, CHANRELOUT_MOST_LINES);
    if (chanrelout_sort_refusal(answer) != CHANRELOUT_ANSWERED)
        return 1;
    printf("%-16s", "lines in order");
    for (size_t i = 0; i < chanrelout_sort_count(answer); i++)
        printf(" %d", index[i]);
    putchar('\n');

    /* The same listing baked again: which lines differ, how, and the first of them. */
    const char *again = "f32:FFC00000\nrefused\t3\nf32:00000000\nf32:00000000\n";
    const uint8_t *left = (const uint8_t *)listing, *right = (const uint8_t *)again;
    uint8_t kinds[64];
    answer = chanrelout_diff(left, strlen(listing), right, strlen(again), kinds, sizeof kinds);
    if (chanrelout_sort_refusal(answer) != CHANRELOUT_ANSWERED)
        return 1;
    printf("%-16s", "kinds");
    for (size_t i = 0; i < chanrelout_sort_count(answer); i++)
        printf(" %d", kinds[i]);
    uint64_t place = chanrelout_first_difference(left, strlen(listing), right, strlen(again));
    printf("\n%-16s %d: %.*s\n", "first, in", chanrelout_difference_side(place),
           (int)chanrelout_difference_length(place), again + chanrelout_difference_offset(place));
    return 0;
}
