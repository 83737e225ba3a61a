/* Chanrelout: WGSL constant folding, proved. Link libchanrelout.a, which `rt lib` in crates/chanrelout writes
   to its out/. It allocates nothing, keeps no state, may be called from several threads at once, and needs of the C
   library only memcpy and memset.

   Every call ends, whatever its arguments hold. The library reads only the slices that it is lent, and writes only
   where a function below says so. A pointer of a slice of length 0 is not followed, but must not be null. */

#ifndef CHANRELOUT_H
#define CHANRELOUT_H

#include <stddef.h>
#include <stdint.h>

#ifdef __cplusplus
extern "C" {
#endif

/* ---- refusals

   A call is answered, or refused with one of these numbers: the first that applies in the order 7, 1, 2, 3, 4, 5, 6,
   8; a listing in the order 15, 17, 14, 8. In a line 9, 10 and 11 stand in the place of 3, the leftmost fault first.
   A refusal leaves lent memory as it was. */

enum chanrelout_refusal {
    CHANRELOUT_ANSWERED = 0,
    CHANRELOUT_UNKNOWN_BUILTIN = 1, /* no builtin has that name or number */
    CHANRELOUT_ARGUMENT_COUNT = 2,  /* the builtin takes another number of arguments; bitcast's type counts as one */
    CHANRELOUT_BAD_VALUE = 3,       /* of a record: a value is not well formed, or bitcast's type is none */
    CHANRELOUT_TYPE_NOT_TAKEN = 4,  /* the builtin does not take an argument of that type in that place */
    CHANRELOUT_TYPES_DIFFER = 5,    /* each argument alone is taken, but not together */
    CHANRELOUT_SIZES_DIFFER = 6,    /* bitcast between types of different sizes */
    CHANRELOUT_LINE_TOO_LONG = 7,   /* the line has more than 400 bytes */
    CHANRELOUT_NO_ROOM = 8,         /* the lent memory is too short for the answer */
    CHANRELOUT_FAULTY_TYPE = 9,     /* of a text: the type is misspelled, or no colon stands behind it */
    CHANRELOUT_FAULTY_LANES = 10,   /* a lane too few or too many */
    CHANRELOUT_FAULTY_DIGIT = 11,   /* a digit that is none, too few or too many digits, or a bool above 1 */
    CHANRELOUT_NO_ANSWER_LINE = 14, /* a line of the listing is no answer line */
    CHANRELOUT_LISTING_TOO_LONG = 15, /* the listing has more than 32,768 bytes */
    CHANRELOUT_TOO_MANY_LINES = 17  /* the listing has more than 512 lines */
};

/* ---- readings

   A call is folded in the crate's reading, or in the text's: there pack4xI8Clamp and pack4xU8Clamp clamp each lane, and
   the four norm packers round down the exact 0.5 + scale * clamped lane, as the WGSL specification writes them. All else
   is the same. The functions that take a reading refuse any other number with CHANRELOUT_UNKNOWN_BUILTIN, before they
   look at anything else; those that take none fold in the crate's. */

enum chanrelout_reading {
    CHANRELOUT_CRATE = 0, /* as wgsl-types 0.3.2 and foldlines */
    CHANRELOUT_TEXT = 1   /* as the WGSL specification and foldtext */
};

/* ---- engines

   What a call gives is the same by each engine, which is proved; they differ in what the processor does for it. By tables
   pack4x8snorm and pack4x8unorm in the crate's reading, and unpack4x8snorm and unpack4x8unorm, do without a float
   operation; all else is by arithmetic. The functions that take an engine refuse any other number as they refuse a
   reading's; those that take none go by arithmetic. */

enum chanrelout_engine {
    CHANRELOUT_ARITHMETIC = 0,
    CHANRELOUT_TABLES = 1
};

/* ---- lines: a call spelled as text

   line     the call: the builtin's name and its arguments, a tab before each. A value is its type, a colon, and its
            lanes in upper-case hex, parted by commas: 8 digits a lane, 4 for f16, 1 for bool. No newline.
   line_len its bytes. Above 400 it is refused.
   out      where the answer is written, without a newline and without a NUL. It must not overlap line.
   out_len  how many bytes may be written there. CHANRELOUT_LONGEST_ANSWER are always enough.
   Answers a number that chanrelout_line_refusal, chanrelout_line_length and chanrelout_line_place take apart. Bytes of
   out past the answer stay as they were; of a refused line, all of them do. */

#define CHANRELOUT_LONGEST_ANSWER 311

uint64_t chanrelout_line(const uint8_t *line, size_t line_len, uint8_t *out, size_t out_len);

/* The same in a reading, a number of enum chanrelout_reading. */
uint64_t chanrelout_line_in(uint64_t reading, const uint8_t *line, size_t line_len, uint8_t *out, size_t out_len);

/* And by an engine, a number of enum chanrelout_engine. */
uint64_t chanrelout_line_by(uint64_t reading, uint64_t engine, const uint8_t *line, size_t line_len, uint8_t *out,
                            size_t out_len);

static inline enum chanrelout_refusal chanrelout_line_refusal(uint64_t answer)
{
    return (enum chanrelout_refusal)(answer >> 32);
}

static inline size_t chanrelout_line_length(uint64_t answer)
{
    return (size_t)(answer & 0xFFFFFFFF);
}

/* Of a line that is refused by 9, 10 or 11: the byte at which it is wrong, counted from 1; one past the line where
   something is missing at its end. 0 of every other refusal. */
static inline size_t chanrelout_line_place(uint64_t answer)
{
    return (size_t)(answer & 0xFFFFFFFF);
}

/* ---- records: a call as words of 64 bits */

/* A value: the number of its type and its lanes as bits, lane 0 first; a matrix column by column. Lanes past the
   type's are 0, a bool is 0 or 1, and a lane of the others has no bit above its 32 or, for f16, its 16. */
struct chanrelout_value {
    uint64_t type;
    uint64_t lanes[16];
};

/* A call of 54 words: a builtin, how many arguments it is given, the type that bitcast is to give (not looked at
   elsewhere; it counts as an argument, so that bitcast's count is 2 and its value stands in arguments[0]), and the
   arguments. Arguments past the count are not looked at, so that words past them may be left out of the slice. */
struct chanrelout_call {
    uint64_t builtin;
    uint64_t count;
    uint64_t target;
    struct chanrelout_value arguments[3];
};

/* An answer of 35 words. Only frexp has a second value, the exponent; elsewhere its words are 0. Only pack2x16float
   loses something: `loss` is a number of enum chanrelout_loss, the larger of its two lanes'; elsewhere 0. */
struct chanrelout_answer {
    struct chanrelout_value first;
    struct chanrelout_value second;
    uint64_t loss;
};

/* What an f32 lost that became a half. */
enum chanrelout_loss {
    CHANRELOUT_EXACT = 0,     /* nothing: the half is the same number, or both are an infinity or NaN */
    CHANRELOUT_ROUNDED = 1,   /* it was rounded to a finite half, which may be a zero */
    CHANRELOUT_OVERFLOWED = 2 /* a finite number became an infinity */
};

/* call     the words of a struct chanrelout_call, or some of them from the first on: a value of which not all words
            are there is none, and any other word that is not there is 0.
   call_len how many words. Words past the 54th are not looked at.
   out      where the answer's 35 words are written. It must not overlap call.
   out_len  how many words may be written there. Below 35 a call that would be answered gives CHANRELOUT_NO_ROOM.
   Answers a number of enum chanrelout_refusal, and nothing else: what was lost stands in the answer. */

uint8_t chanrelout_call(const uint64_t *call, size_t call_len, uint64_t *out, size_t out_len);

/* The same in a reading, a number of enum chanrelout_reading. */
uint8_t chanrelout_call_in(uint64_t reading, const uint64_t *call, size_t call_len, uint64_t *out, size_t out_len);

/* And by an engine, a number of enum chanrelout_engine. */
uint8_t chanrelout_call_by(uint64_t reading, uint64_t engine, const uint64_t *call, size_t call_len, uint64_t *out,
                           size_t out_len);

/* The same for a record. */
static inline enum chanrelout_refusal chanrelout_fold(const struct chanrelout_call *call, struct chanrelout_answer *out)
{
    return (enum chanrelout_refusal)chanrelout_call((const uint64_t *)call, sizeof *call / 8, (uint64_t *)out,
                                                    sizeof *out / 8);
}

static inline enum chanrelout_refusal chanrelout_fold_in(enum chanrelout_reading reading,
                                                         const struct chanrelout_call *call,
                                                         struct chanrelout_answer *out)
{
    return (enum chanrelout_refusal)chanrelout_call_in((uint64_t)reading, (const uint64_t *)call, sizeof *call / 8,
                                                       (uint64_t *)out, sizeof *out / 8);
}

static inline enum chanrelout_refusal chanrelout_fold_by(enum chanrelout_reading reading, enum chanrelout_engine engine,
                                                         const struct chanrelout_call *call,
                                                         struct chanrelout_answer *out)
{
    return (enum chanrelout_refusal)chanrelout_call_by((uint64_t)reading, (uint64_t)engine, (const uint64_t *)call,
                                                       sizeof *call / 8, (uint64_t *)out, sizeof *out / 8);
}

/* ---- a whole material: calls one after another, in one call

   Result k is what the single call gives for call k. A call that is refused has its refusal's number, empty values and no
   loss in its result, and the work goes on after it. */

struct chanrelout_result {
    struct chanrelout_answer answer;
    uint64_t refusal; /* a number of enum chanrelout_refusal */
};

/* calls     the words of calls, 54 each, one after another. A last part of fewer words is a call too, read as
             chanrelout_call reads one of which words are left out.
   calls_len how many words.
   out       where the results are written, 36 words each; words past the last stay as they were. It must not overlap
             calls.
   out_len   how many words may be written there.
   Answers CHANRELOUT_NO_ROOM where out has no room for all results: no call is looked at then, and nothing is written;
   else CHANRELOUT_ANSWERED, whatever each call gives. */

uint8_t chanrelout_calls(const uint64_t *calls, size_t calls_len, uint64_t *out, size_t out_len);

/* The same in a reading and by an engine, which are chosen once for all calls. */
uint8_t chanrelout_calls_by(uint64_t reading, uint64_t engine, const uint64_t *calls, size_t calls_len, uint64_t *out,
                            size_t out_len);

/* The same for records: count calls, and room for so many results. */
static inline enum chanrelout_refusal chanrelout_fold_all(const struct chanrelout_call *calls, size_t count,
                                                          struct chanrelout_result *out, size_t room)
{
    return (enum chanrelout_refusal)chanrelout_calls((const uint64_t *)calls, count * (sizeof *calls / 8),
                                                     (uint64_t *)out, room * (sizeof *out / 8));
}

/* Types. A vector's number is CHANRELOUT_VECTOR of its lanes (2 to 4) and its scalar, a matrix's CHANRELOUT_MATRIX of
   its columns and rows (2 to 4) and of CHANRELOUT_F32 or CHANRELOUT_F16. */
enum chanrelout_type {
    CHANRELOUT_NO_TYPE = 0,
    CHANRELOUT_BOOL = 1,
    CHANRELOUT_I32 = 2,
    CHANRELOUT_U32 = 3,
    CHANRELOUT_F32 = 4,
    CHANRELOUT_F16 = 5
};

#define CHANRELOUT_VECTOR(lanes, scalar) (5 * ((lanes) - 1) + (scalar))
#define CHANRELOUT_MATRIX(columns, rows, scalar) \
    (21 + 9 * ((scalar) == CHANRELOUT_F16) + 3 * ((columns) - 2) + ((rows) - 2))

/* Builtins, in the order of the table in docs/01-scope.md; then those of Q-3 in docs/02-change-requests.md. */
enum chanrelout_builtin {
    CHANRELOUT_ALL = 1,
    CHANRELOUT_ANY,
    CHANRELOUT_SELECT,
    CHANRELOUT_ABS,
    CHANRELOUT_SIGN,
    CHANRELOUT_COUNT_LEADING_ZEROS,
    CHANRELOUT_COUNT_ONE_BITS,
    CHANRELOUT_COUNT_TRAILING_ZEROS,
    CHANRELOUT_MIN,
    CHANRELOUT_MAX,
    CHANRELOUT_CLAMP,
    CHANRELOUT_SATURATE,
    CHANRELOUT_STEP,
    CHANRELOUT_CROSS,
    CHANRELOUT_DOT,
    CHANRELOUT_TRANSPOSE,
    CHANRELOUT_FREXP,
    CHANRELOUT_LDEXP,
    CHANRELOUT_BITCAST,
    CHANRELOUT_PACK4X8SNORM,
    CHANRELOUT_PACK4X8UNORM,
    CHANRELOUT_PACK4XI8,
    CHANRELOUT_PACK4XI8_CLAMP,
    CHANRELOUT_PACK4XU8,
    CHANRELOUT_PACK4XU8_CLAMP,
    CHANRELOUT_PACK2X16SNORM,
    CHANRELOUT_PACK2X16UNORM,
    CHANRELOUT_PACK2X16FLOAT,
    CHANRELOUT_UNPACK4X8SNORM,
    CHANRELOUT_UNPACK4X8UNORM,
    CHANRELOUT_UNPACK4XI8,
    CHANRELOUT_UNPACK4XU8,
    CHANRELOUT_UNPACK2X16SNORM,
    CHANRELOUT_UNPACK2X16UNORM,
    CHANRELOUT_UNPACK2X16FLOAT,
    CHANRELOUT_FLOOR,
    CHANRELOUT_CEIL,
    CHANRELOUT_TRUNC,
    CHANRELOUT_ROUND,
    CHANRELOUT_FRACT
};

/* ---- values as text, as lines spell them */

/* text      a value's text.
   text_len  its bytes.
   value     where its 17 words are written, a struct chanrelout_value. It must not overlap text.
   value_len how many words may be written there.
   Answers a number that chanrelout_read_refusal and chanrelout_read_place take apart. A refusal leaves value as it was.
   The refusals are those of faults, of which the leftmost is told, and CHANRELOUT_NO_ROOM below 17 words. */

uint64_t chanrelout_read_value(const uint8_t *text, size_t text_len, uint64_t *value, size_t value_len);

static inline enum chanrelout_refusal chanrelout_read_refusal(uint64_t answer)
{
    return (enum chanrelout_refusal)(answer >> 32);
}

/* The byte of the fault, counted from 1; 0 where there is none. */
static inline size_t chanrelout_read_place(uint64_t answer)
{
    return (size_t)(answer & 0xFFFFFFFF);
}

/* value     the words of a struct chanrelout_value; words past the 17th are not looked at, and fewer are no value.
   value_len how many words.
   out       where its text is written, without a NUL. It must not overlap value.
   out_len   how many bytes may be written there. CHANRELOUT_LONGEST_VALUE are always enough.
   Answers a number that chanrelout_line_refusal and chanrelout_line_length take apart: refused are a value that is not
   well formed (CHANRELOUT_BAD_VALUE) and too little room (CHANRELOUT_NO_ROOM), and then out stays as it was. */

#define CHANRELOUT_LONGEST_VALUE 155

uint64_t chanrelout_write_value(const uint64_t *value, size_t value_len, uint8_t *out, size_t out_len);

/* ---- the one order of values: docs/ORDER.md. First by type, in the order of their numbers, then lane by lane from lane
   0: bools and integers by number, floats by IEEE 754's totalOrder, so that -0 stands before +0 and every NaN has its
   place. Two values are the same only where type and lanes are. */

enum chanrelout_order {
    CHANRELOUT_BEFORE = 0,
    CHANRELOUT_SAME = 1,
    CHANRELOUT_AFTER = 2,
    CHANRELOUT_ILL_FORMED = 3 /* a value is not well formed, so that there is no order */
};

/* a, b         the words of a struct chanrelout_value each; words past the 17th are not looked at, and fewer are no
                value.
   Answers a number of enum chanrelout_order: how a stands to b. */

uint8_t chanrelout_compare(const uint64_t *a, size_t a_len, const uint64_t *b, size_t b_len);

/* The same for two records. */
static inline enum chanrelout_order chanrelout_order_of(const struct chanrelout_value *a,
                                                        const struct chanrelout_value *b)
{
    return (enum chanrelout_order)chanrelout_compare((const uint64_t *)a, sizeof *a / 8, (const uint64_t *)b,
                                                     sizeof *b / 8);
}

/* listing      answer lines as chanrelout_line gives them, or `refused`, tab, number and perhaps tab, place, each ended
                by a newline; the last may go without.
   listing_len  its bytes, at most CHANRELOUT_LONGEST_LISTING.
   index        where the numbers of the lines, from 1, are written in order: by their first values, a lone value before
                a frexp pair, then by the second values, refused lines last, ties by number. It must not overlap listing.
   index_len    how many entries it has. CHANRELOUT_MOST_LINES are always enough.
   Answers a number that chanrelout_sort_refusal and chanrelout_sort_count take apart. Entries past the last line stay as
   they were; of a refused listing, all of them do. */

#define CHANRELOUT_LONGEST_LISTING 32768
#define CHANRELOUT_MOST_LINES 512

uint64_t chanrelout_sort(const uint8_t *listing, size_t listing_len, uint16_t *index, size_t index_len);

static inline enum chanrelout_refusal chanrelout_sort_refusal(uint64_t answer)
{
    return (enum chanrelout_refusal)(answer >> 32);
}

static inline size_t chanrelout_sort_count(uint64_t answer)
{
    return (size_t)(answer & 0xFFFFFFFF);
}

/* ---- two listings compared, line by line. A line's kind of difference is the first that applies. */

enum chanrelout_difference {
    CHANRELOUT_ALIKE = 0,
    CHANRELOUT_DIFFERS_MISSING = 1, /* one listing has ended */
    CHANRELOUT_DIFFERS_REFUSAL = 2, /* either line is refused */
    CHANRELOUT_DIFFERS_TYPE = 3,    /* the types differ; a pair and a lone value do */
    CHANRELOUT_DIFFERS_VALUE = 4,   /* some lane differs by more than NaN bits or a zero's sign */
    CHANRELOUT_DIFFERS_NAN = 5,     /* only NaN bits or zero signs differ, at least one of the former */
    CHANRELOUT_DIFFERS_ZERO = 6     /* only zero signs differ */
};

/* left, right  listings as chanrelout_sort takes them, of any number of lines.
   kinds        where a number of enum chanrelout_difference is written for each line of the longer listing. It must not
                overlap the listings.
   kinds_len    how many entries it has. As many as the longer listing has bytes are always enough.
   Answers a number that chanrelout_sort_refusal and chanrelout_sort_count take apart: refused in the order 15, 14, 8. */

uint64_t chanrelout_diff(const uint8_t *left, size_t left_len, const uint8_t *right, size_t right_len, uint8_t *kinds,
                         size_t kinds_len);

/* Where the first line that differs stands: the right one, or the one that goes on where the other has ended, without
   its newline. 0 where the listings are equal or one is refused. */

uint64_t chanrelout_first_difference(const uint8_t *left, size_t left_len, const uint8_t *right, size_t right_len);

/* Which listing it stands in: 0 neither, 1 left, 2 right. */
static inline int chanrelout_difference_side(uint64_t place)
{
    return (int)(place >> 32);
}

static inline size_t chanrelout_difference_offset(uint64_t place)
{
    return (size_t)(place >> 16 & 0xFFFF);
}

static inline size_t chanrelout_difference_length(uint64_t place)
{
    return (size_t)(place & 0xFFFF);
}

/* ---- half conversion, both sides as bits: to the nearest, ties to the even one, and exact on the way back */

uint16_t chanrelout_f32_to_f16(uint32_t bits);
uint32_t chanrelout_f16_to_f32(uint16_t bits);

/* The half and what was lost, a number that the next two take apart. */
uint32_t chanrelout_f32_to_f16_told(uint32_t bits);

static inline uint16_t chanrelout_told_half(uint32_t told)
{
    return (uint16_t)(told & 0xFFFF);
}

static inline enum chanrelout_loss chanrelout_told_loss(uint32_t told)
{
    return (enum chanrelout_loss)(told >> 16);
}

#ifdef __cplusplus
}
#endif

#endif
