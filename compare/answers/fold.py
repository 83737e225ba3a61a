#!/usr/bin/env python3
"""fold.py [--text] <lines >answers

Answers each line of standard input as foldlines must, or with --text as foldtext must: a reading of docs/01-scope.md and
of Q-1, Q-2 and Q-3 in docs/02-change-requests.md, with docs/DECISIONS.md where they leave a choice, written from their
words and not from the proved code. "01", "Q-1", "Q-2" and "Q-3" below are those.

A lane is its bits. What is worked out is worked out in whole numbers and exact fractions, never in floats:
`Format.number` says which number a float's bits are, and `Format.rounded` alone turns a number into a float's bits.
"""

import math
import sys
from fractions import Fraction
from typing import Callable, NamedTuple

# ---- floats


class Format:
    """A binary format of IEEE 754, given by how many bits its exponent and its fraction have."""

    def __init__(self, exponent_bits, fraction_bits):
        self.fraction_bits = fraction_bits
        self.hidden = 1 << fraction_bits  # the digit that a normal number has before its fraction
        self.sign = 1 << (exponent_bits + fraction_bits)
        self.infinity = self.sign - self.hidden
        self.nan = self.infinity + self.hidden // 2  # the worked-out one
        self.least = 2 - (1 << (exponent_bits - 1)) - fraction_bits  # the least subnormal is 2 to this

    def is_nan(self, bits):
        return bits % self.sign > self.infinity

    def is_infinite(self, bits):
        return bits % self.sign == self.infinity

    def is_nonzero_number(self, bits):
        return 0 < bits % self.sign < self.infinity

    def number(self, bits):
        """The number that a finite float is."""
        exponent, fraction = divmod(bits % self.sign, self.hidden)
        digits = fraction if exponent == 0 else self.hidden + fraction
        size = digits * power_of_two(max(exponent, 1) - 1 + self.least)
        return -size if bits & self.sign else size

    def rounded(self, number, zero=0):
        """The float nearest to a number, of two the even one, infinity past the greatest; `zero` of 0."""
        if number == 0:
            return zero
        size = abs(Fraction(number))
        step = max(exponent_of(size) - self.fraction_bits - self.least, 0)
        digits = nearest(size / power_of_two(step + self.least))
        # Patterns count the floats upwards, so that digits which reach the next power of two need no care.
        pattern = min(step * self.hidden + digits, self.infinity)
        return pattern + self.sign if number < 0 else pattern

    def order(self, bits):
        """A whole number that is below another's exactly when the floats, which are no NaN, are so."""
        return -(bits % self.sign) if bits & self.sign else bits

    def times(self, a, b):
        sign = (a ^ b) & self.sign
        if self.is_nan(a) or self.is_nan(b):
            return self.nan
        if self.is_infinite(a) or self.is_infinite(b):
            return self.nan if 0 in (a % self.sign, b % self.sign) else sign + self.infinity
        return self.rounded(self.number(a) * self.number(b), zero=sign)

    def plus(self, a, b):
        if self.is_nan(a) or self.is_nan(b):
            return self.nan
        infinities = {bits for bits in (a, b) if self.is_infinite(bits)}
        if infinities:
            return infinities.pop() if len(infinities) == 1 else self.nan
        return self.rounded(self.number(a) + self.number(b), zero=a & b & self.sign)

    def minus(self, a, b):
        return self.plus(a, b ^ self.sign)


def power_of_two(exponent):
    return Fraction(2) ** exponent


def exponent_of(size):
    """The greatest n for which 2 to the n is not above the size."""
    guess = size.numerator.bit_length() - size.denominator.bit_length()
    return guess if power_of_two(guess) <= size else guess - 1


def nearest(size):
    """The whole number nearest to a size, of two the even one."""
    whole = size.numerator // size.denominator
    rest = size - whole
    up = rest > Fraction(1, 2) or rest == Fraction(1, 2) and whole % 2 == 1
    return whole + 1 if up else whole


F32, F16 = Format(8, 23), Format(5, 10)
FORMATS = {'f32': F32, 'f16': F16}

# ---- types and values

WORD = 1 << 32
DIGITS = {'bool': 1, 'i32': 8, 'u32': 8, 'f32': 8, 'f16': 4}  # of a lane
BYTES = {'i32': 4, 'u32': 4, 'f32': 4, 'f16': 2}


class Type(NamedTuple):
    """Lanes of one scalar. A scalar is one column of one row, a vector one column of several."""

    scalar: str
    columns: int = 1
    rows: int = 1

    def __str__(self):
        if self.columns > 1:
            return f'mat{self.columns}x{self.rows}<{self.scalar}>'
        return f'vec{self.rows}<{self.scalar}>' if self.rows > 1 else self.scalar

    @property
    def shape(self):
        return self.columns, self.rows

    @property
    def lane_count(self):
        return self.columns * self.rows


class Value(NamedTuple):
    type: Type
    lanes: tuple

    def __str__(self):
        return f'{self.type}:' + ','.join(f'{lane:0{DIGITS[self.type.scalar]}X}' for lane in self.lanes)


def scalars(*names):
    return {Type(name) for name in names}


def vectors(*names):
    return {Type(name, 1, rows) for name in names for rows in (2, 3, 4)}


def scalars_and_vectors(*names):
    return scalars(*names) | vectors(*names)


MATRICES = {Type(name, columns, rows) for name in FORMATS for columns in (2, 3, 4) for rows in (2, 3, 4)}
ALL_TYPES = scalars_and_vectors(*DIGITS) | MATRICES
TYPES = {str(type): type for type in ALL_TYPES}

# ---- lanes: each function takes the lanes' scalar, then a lane of each argument


def signed(bits, width=32):
    return bits - (1 << width) if bits >> (width - 1) else bits


def order(scalar, lane):
    if scalar in FORMATS:
        return FORMATS[scalar].order(lane)
    return signed(lane) if scalar == 'i32' else lane


def is_nan(scalar, lane):
    return scalar in FORMATS and FORMATS[scalar].is_nan(lane)


def worked_out(scalar, lane):
    return FORMATS[scalar].nan if is_nan(scalar, lane) else lane


def abs_of(scalar, lane):
    if scalar in FORMATS:
        return lane % FORMATS[scalar].sign
    return abs(order(scalar, lane)) % WORD


def sign_of(scalar, lane):
    number = order(scalar, lane)
    if is_nan(scalar, lane) or number == 0:
        return worked_out(scalar, lane)
    one = 1 if number > 0 else -1
    return FORMATS[scalar].rounded(one) if scalar in FORMATS else one % WORD


def leading_zeros(_, lane):
    return 32 - lane.bit_length()


def ones(_, lane):
    return bin(lane).count('1')


def trailing_zeros(_, lane):
    return (lane & -lane).bit_length() - 1 if lane else 32


def one_of(scalar, first, second, second_is_due):
    """The second if it is due, else the first; but of a NaN and another the other."""
    if is_nan(scalar, first):
        second_is_due = True
    elif is_nan(scalar, second):
        second_is_due = False
    return worked_out(scalar, second if second_is_due else first)


def max_of(scalar, first, second):
    return one_of(scalar, first, second, order(scalar, first) < order(scalar, second))


def min_of(scalar, first, second):
    return one_of(scalar, first, second, order(scalar, second) < order(scalar, first))


def clamp_of(scalar, lane, low, high):
    return min_of(scalar, max_of(scalar, lane, low), high)


def saturate_of(scalar, lane):
    return clamp_of(scalar, lane, F32.rounded(0), F32.rounded(1))


def step_of(scalar, edge, lane):
    reached = not is_nan(scalar, edge) and not is_nan(scalar, lane) and order(scalar, edge) <= order(scalar, lane)
    return FORMATS[scalar].rounded(1 if reached else 0)


def frexp_of(scalar, lane):
    """Fraction and exponent."""
    floats = FORMATS[scalar]
    if not floats.is_nonzero_number(lane):
        return worked_out(scalar, lane), 0
    number = floats.number(lane)
    exponent = exponent_of(abs(number)) + 1
    return floats.rounded(number / power_of_two(exponent)), exponent % WORD


def ldexp_of(_, lane, exponent):
    if not F32.is_nonzero_number(lane):
        return worked_out('f32', lane)
    # Already 2 to the 300 takes every finite f32 but zero past the greatest, or below half of the least.
    shift = max(-300, min(signed(exponent), 300))
    return F32.rounded(F32.number(lane) * power_of_two(shift))


def made_whole(scalar, lane, whole):
    """The whole number that a finite float is taken to; a zero has the float's sign (Q-3)."""
    floats = FORMATS[scalar]
    if is_nan(scalar, lane) or floats.is_infinite(lane):
        return worked_out(scalar, lane)
    return floats.rounded(whole(floats.number(lane)), zero=lane & floats.sign)


def floor_of(scalar, lane):
    return made_whole(scalar, lane, math.floor)


def ceil_of(scalar, lane):
    return made_whole(scalar, lane, math.ceil)


def trunc_of(scalar, lane):
    return made_whole(scalar, lane, math.trunc)


def round_of(scalar, lane):
    return made_whole(scalar, lane, lambda number: nearest(abs(number)) * (-1 if number < 0 else 1))


def fract_of(scalar, lane):
    """e minus floor(e), rounded once."""
    floats = FORMATS[scalar]
    if is_nan(scalar, lane) or floats.is_infinite(lane):
        return floats.nan
    number = floats.number(lane)
    return floats.rounded(number - math.floor(number))


# ---- packed words


def joined(codes, width):
    return sum((code % (1 << width)) << (width * index) for index, code in enumerate(codes))


def codes_of(word, width):
    return [(word >> at) % (1 << width) for at in range(0, 32, width)]


def norm_code(lane, low, scale):
    """Clamp to [low, 1], times scale, plus 0.5, each step in f32, and round down."""
    if F32.is_nan(lane):
        return 0
    clamped = clamp_of('f32', lane, F32.rounded(low), F32.rounded(1))
    scaled = F32.times(clamped, F32.rounded(scale))
    return F32.number(F32.plus(scaled, F32.rounded(Fraction(1, 2)))) // 1


def exact_norm_code(lane, low, scale):
    """Q-1, the text's reading: the exact value of 0.5 + scale times the lane, clamped to [low, 1], rounded down."""
    if F32.is_nan(lane):
        return 0
    negative = bool(lane & F32.sign)
    lane = (low if negative else 1) if F32.is_infinite(lane) else max(low, min(F32.number(lane), 1))
    return (Fraction(1, 2) + scale * lane) // 1


def converted(bits, source, target):
    """A float of one format in another."""
    if source.is_nan(bits):
        return target.nan
    sign = target.sign if bits & source.sign else 0
    if source.is_infinite(bits):
        return sign + target.infinity
    return target.rounded(source.number(bits), zero=sign)


def word_of(lanes, width, code):
    return [Value(Type('u32'), (joined(map(code, lanes), width),))]


def packs_norm(width, low, scale, code=norm_code):
    return lambda value: word_of(value.lanes, width, lambda lane: code(lane, low, scale))


def packs_clamped(clamped):
    """Q-1, the text's reading: each lane clamped, and kept apart."""
    return lambda value: word_of(value.lanes, 8, clamped)


def packs_halves(value):
    return word_of(value.lanes, 16, lambda lane: converted(lane, F32, F16))


def packs_low_bytes(value):
    return word_of(value.lanes, 8, lambda lane: lane)


def packs_signed_bytes_by_or(value):
    """pack4xI8Clamp: the lane's sign, which the shift carries along, fills every lane above."""
    word = 0
    for index, lane in enumerate(value.lanes):
        word |= signed(lane % 256, 8) << (8 * index)
    return [Value(Type('u32'), (word % WORD,))]


def unpacks(scalar, width, lane_of):
    def unpack(value):
        lanes = tuple(lane_of(code) for code in codes_of(value.lanes[0], width))
        return [Value(Type(scalar, 1, len(lanes)), lanes)]

    return unpack


def unpacks_snorm(width, scale):
    def lane_of(code):
        return max_of('f32', F32.rounded(Fraction(signed(code, width), scale)), F32.rounded(-1))

    return unpacks('f32', width, lane_of)


def unpacks_unorm(width, scale):
    return unpacks('f32', width, lambda code: F32.rounded(Fraction(code, scale)))


# ---- calls: each function takes the arguments and gives the list of the answer's values


def by_lane(function):
    def fold(*values):
        type = values[0].type
        return [Value(type, tuple(function(type.scalar, *lanes) for lanes in zip(*(v.lanes for v in values))))]

    return fold


def folds_to_bool(function):
    return lambda value: [Value(Type('bool'), (int(function(value.lanes)),))]


def select(no, yes, condition):
    chosen = condition.lanes
    if len(chosen) == 1:
        chosen *= len(no.lanes)
    return [Value(no.type, tuple(y if c else n for n, y, c in zip(no.lanes, yes.lanes, chosen)))]


def cross(first, second):
    a, b = first.lanes, second.lanes

    def lane(i, j):
        return F32.minus(F32.times(a[i], b[j]), F32.times(a[j], b[i]))

    return [Value(first.type, (lane(1, 2), lane(2, 0), lane(0, 1)))]


def dot(first, second):
    scalar = first.type.scalar
    if scalar == 'f32':
        times, plus = F32.times, F32.plus
    else:
        times, plus = lambda a, b: a * b % WORD, lambda a, b: (a + b) % WORD
    products = [times(a, b) for a, b in zip(first.lanes, second.lanes)]
    total = products[0]
    for product in products[1:]:
        total = plus(total, product)
    return [Value(Type(scalar), (total,))]


def transpose(value):
    scalar, columns, rows = value.type
    lanes = tuple(value.lanes[column * rows + row] for row in range(rows) for column in range(columns))
    return [Value(Type(scalar, rows, columns), lanes)]


def frexp(value):
    fractions, exponents = zip(*(frexp_of(value.type.scalar, lane) for lane in value.lanes))
    return [Value(value.type, fractions), Value(value.type._replace(scalar='i32'), exponents)]


def bitcast(target, value):
    all_bytes = b''.join(lane.to_bytes(BYTES[value.type.scalar], 'little') for lane in value.lanes)
    size = BYTES[target.scalar]
    parts = (all_bytes[at:at + size] for at in range(0, len(all_bytes), size))
    return [Value(target, tuple(int.from_bytes(part, 'little') for part in parts))]


# ---- 01's table: which types each argument may have alone, which they may have together, and what is answered


def any_types(*_):
    return True


def one_type(*types):
    return len(set(types)) == 1


def one_shape(*types):
    return len({type.shape for type in types}) == 1


def selectable(no, yes, condition):
    return no == yes and condition.shape in (Type('bool').shape, no.shape)


class Builtin(NamedTuple):
    takes: tuple
    fold: Callable
    together: Callable = one_type


BOOLS = scalars_and_vectors('bool')
NUMBERS = scalars_and_vectors('i32', 'u32', 'f32', 'f16')
INTEGERS = scalars_and_vectors('i32', 'u32')
FLOATS = scalars_and_vectors('f32', 'f16')
I32S, F32S = scalars_and_vectors('i32'), scalars_and_vectors('f32')
LIMITED = INTEGERS | F32S
DOTTED = vectors('i32', 'u32', 'f32')
VEC2_F32, VEC3_F32, VEC4_F32 = ({Type('f32', 1, rows)} for rows in (2, 3, 4))
VEC4_I32, VEC4_U32 = {Type('i32', 1, 4)}, {Type('u32', 1, 4)}
U32 = scalars('u32')

BUILTINS = {
    'all': Builtin((BOOLS,), folds_to_bool(all)),
    'any': Builtin((BOOLS,), folds_to_bool(any)),
    'select': Builtin((ALL_TYPES, ALL_TYPES, BOOLS), select, selectable),
    'abs': Builtin((NUMBERS,), by_lane(abs_of)),
    'sign': Builtin((NUMBERS,), by_lane(sign_of)),
    'countLeadingZeros': Builtin((INTEGERS,), by_lane(leading_zeros)),
    'countOneBits': Builtin((INTEGERS,), by_lane(ones)),
    'countTrailingZeros': Builtin((INTEGERS,), by_lane(trailing_zeros)),
    'min': Builtin((LIMITED, LIMITED), by_lane(min_of)),
    'max': Builtin((LIMITED, LIMITED), by_lane(max_of)),
    'clamp': Builtin((LIMITED, LIMITED, LIMITED), by_lane(clamp_of)),
    'saturate': Builtin((F32S,), by_lane(saturate_of)),
    'step': Builtin((FLOATS, FLOATS), by_lane(step_of)),
    'cross': Builtin((VEC3_F32, VEC3_F32), cross),
    'dot': Builtin((DOTTED, DOTTED), dot),
    'transpose': Builtin((MATRICES,), transpose),
    'frexp': Builtin((FLOATS,), frexp),
    'ldexp': Builtin((F32S, I32S), by_lane(ldexp_of), one_shape),
    'bitcast': Builtin((NUMBERS, NUMBERS), bitcast, any_types),
    'pack4x8snorm': Builtin((VEC4_F32,), packs_norm(8, -1, 127)),
    'pack4x8unorm': Builtin((VEC4_F32,), packs_norm(8, 0, 255)),
    'pack4xI8': Builtin((VEC4_I32,), packs_low_bytes),
    'pack4xI8Clamp': Builtin((VEC4_I32,), packs_signed_bytes_by_or),
    'pack4xU8': Builtin((VEC4_U32,), packs_low_bytes),
    'pack4xU8Clamp': Builtin((VEC4_U32,), packs_low_bytes),
    'pack2x16snorm': Builtin((VEC2_F32,), packs_norm(16, -1, 32767)),
    'pack2x16unorm': Builtin((VEC2_F32,), packs_norm(16, 0, 65535)),
    'pack2x16float': Builtin((VEC2_F32,), packs_halves),
    'unpack4x8snorm': Builtin((U32,), unpacks_snorm(8, 127)),
    'unpack4x8unorm': Builtin((U32,), unpacks_unorm(8, 255)),
    'unpack4xI8': Builtin((U32,), unpacks('i32', 8, lambda code: signed(code, 8) % WORD)),
    'unpack4xU8': Builtin((U32,), unpacks('u32', 8, lambda code: code)),
    'unpack2x16snorm': Builtin((U32,), unpacks_snorm(16, 32767)),
    'unpack2x16unorm': Builtin((U32,), unpacks_unorm(16, 65535)),
    'unpack2x16float': Builtin((U32,), unpacks('f32', 16, lambda code: converted(code, F16, F32))),
    'floor': Builtin((FLOATS,), by_lane(floor_of)),
    'ceil': Builtin((FLOATS,), by_lane(ceil_of)),
    'trunc': Builtin((FLOATS,), by_lane(trunc_of)),
    'round': Builtin((FLOATS,), by_lane(round_of)),
    'fract': Builtin((FLOATS,), by_lane(fract_of)),
}

# In the text's reading these six are others.
TEXT_BUILTINS = BUILTINS | {
    'pack4x8snorm': Builtin((VEC4_F32,), packs_norm(8, -1, 127, exact_norm_code)),
    'pack4x8unorm': Builtin((VEC4_F32,), packs_norm(8, 0, 255, exact_norm_code)),
    'pack4xI8Clamp': Builtin((VEC4_I32,), packs_clamped(lambda lane: max(-128, min(signed(lane), 127)))),
    'pack4xU8Clamp': Builtin((VEC4_U32,), packs_clamped(lambda lane: min(lane, 255))),
    'pack2x16snorm': Builtin((VEC2_F32,), packs_norm(16, -1, 32767, exact_norm_code)),
    'pack2x16unorm': Builtin((VEC2_F32,), packs_norm(16, 0, 65535, exact_norm_code)),
}

# ---- lines: one character for each byte

LONGEST_LINE = 400
WRONG_TYPE, WRONG_LANE_COUNT, WRONG_DIGIT = 9, 10, 11  # Q-2's, which stand in 3's place


class Refused(Exception):
    """With 01's number, and the place of Q-2 where the number is 9, 10 or 11."""


def read_type(field, place):
    """The type that a field spells. The field's first byte stands at `place` in the line."""
    if field not in TYPES:
        raise Refused(WRONG_TYPE, place)
    return TYPES[field]


def read_value(field, place):
    """The value that a field spells. The field's first byte stands at `place` in the line."""
    spelling, colon, text = field.partition(':')
    if not colon:
        raise Refused(WRONG_TYPE, place)
    type = read_type(spelling, place)
    faults = list(lane_faults(type, text, place + len(spelling) + 1))
    if faults:
        # the leftmost, and 11 before 10 at one place
        raise Refused(*min(faults, key=lambda fault: (fault[1], -fault[0])))
    return Value(type, tuple(int(lane, 16) for lane in text.split(',')))


def lane_faults(type, text, place):
    """The faults of the lanes' text, which starts at `place`: the number of each and its place."""
    digits = '01' if type.scalar == 'bool' else '0123456789ABCDEF'
    lanes = text.split(',')
    for index, lane in enumerate(lanes):
        if index >= type.lane_count:
            yield WRONG_LANE_COUNT, place - 1
        for at, digit in enumerate(lane):
            if digit not in digits or at >= DIGITS[type.scalar]:
                yield WRONG_DIGIT, place + at
        if len(lane) < DIGITS[type.scalar]:
            yield WRONG_DIGIT, place + len(lane)
        place += len(lane) + 1
    if len(lanes) < type.lane_count:
        yield WRONG_LANE_COUNT, place - 1


def fold(line, builtins):
    """The values that a line is answered by."""
    if len(line) > LONGEST_LINE:
        raise Refused(7)
    name, *fields = line.split('\t')
    if name not in builtins:
        raise Refused(1)
    builtin = builtins[name]
    if len(fields) != len(builtin.takes):
        raise Refused(2)
    arguments, types, place = [], [], len(name) + 2
    for index, field in enumerate(fields):
        if name == 'bitcast' and index == 0:
            arguments.append(read_type(field, place))
            types.append(arguments[-1])
        else:
            arguments.append(read_value(field, place))
            types.append(arguments[-1].type)
        place += len(field) + 1
    if any(type not in taken for type, taken in zip(types, builtin.takes)):
        raise Refused(4)
    if not builtin.together(*types):
        raise Refused(5)
    if name == 'bitcast' and len({type.lane_count * BYTES[type.scalar] for type in types}) > 1:
        raise Refused(6)
    return builtin.fold(*arguments)


def answer(line, builtins):
    try:
        return '\t'.join(map(str, fold(line, builtins)))
    except Refused as refused:
        return '\t'.join(map(str, ('refused', *refused.args)))


def main():
    builtins = {(): BUILTINS, ('--text',): TEXT_BUILTINS}[tuple(sys.argv[1:])]
    for line in sys.stdin.buffer:
        if line.endswith(b'\n'):
            line = line[:-1]
        print(answer(line.decode('latin-1'), builtins))


if __name__ == '__main__':
    main()
