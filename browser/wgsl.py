"""Lines as WGSL: how a call is spelled as a const-expression, which words it gives, and which calls WGSL refuses.

Lines are read by compare/answers/fold.py (`rules` here). A float's bits are spelled in one of two ways, by what a
browser keeps: Chromium loses the sign of a literal -0, Firefox folds no bitcast.
"""

import os
import sys
from typing import NamedTuple, Optional

sys.path.append(os.path.join(os.path.dirname(os.path.abspath(__file__)), '..', 'compare', 'answers'))
import fold as rules
from fold import F16, F32, FORMATS, Type, Value

GREATEST_EXPONENT = 128  # of ldexp: one above f32's bias
U32 = Type('u32')
UNPACKED = {
    'unpack4x8snorm': Type('f32', 1, 4),
    'unpack4x8unorm': Type('f32', 1, 4),
    'unpack4xI8': Type('i32', 1, 4),
    'unpack4xU8': Type('u32', 1, 4),
    'unpack2x16snorm': Type('f32', 1, 2),
    'unpack2x16unorm': Type('f32', 1, 2),
    'unpack2x16float': Type('f32', 1, 2),
}


class Call(NamedTuple):
    name: str
    target: Optional[Type]  # bitcast's
    values: tuple

    @property
    def needs_f16(self):
        types = [value.type for value in self.values] + ([self.target] if self.target else [])
        return any(type.scalar == 'f16' for type in types)


def call_of(line):
    """The call that a line spells, whatever its types; None where it spells none."""
    name, *fields = line.split('\t')
    if len(line) > rules.LONGEST_LINE or name not in rules.BUILTINS:
        return None
    if len(fields) != len(rules.BUILTINS[name].takes):
        return None
    try:
        target = rules.read_type(fields.pop(0), 0) if name == 'bitcast' else None
        return Call(name, target, tuple(rules.read_value(field, 0) for field in fields))
    except rules.Refused:
        return None


def answer_of(text):
    """The values of a program's answer line, every NaN the worked-out one; None of a refusal."""
    if text.startswith('refused'):
        return None
    return with_lanes(rules.worked_out, [rules.read_value(field, 0) for field in text.split('\t')])


def unsigned_zeros(answer):
    """An answer with the signs of its zeros cleared."""
    return with_lanes(unsigned_zero, answer)


def unsigned_zero(scalar, lane):
    return 0 if scalar in FORMATS and lane == FORMATS[scalar].sign else lane


def with_lanes(change, values):
    return [Value(v.type, tuple(change(v.type.scalar, lane) for lane in v.lanes)) for v in values]


# ---- spelling


def float_by_bits(scalar, lane):
    return f'bitcast<f32>({lane:#x}u)' if scalar == 'f32' else f'bitcast<vec2<f16>>({lane:#x}u).x'


def float_by_digits(scalar, lane):
    """As a hexadecimal literal, which is exact; there is none of a NaN or an infinity."""
    if not is_finite(scalar, lane):
        return float_by_bits(scalar, lane)
    floats = FORMATS[scalar]
    exponent, digits = divmod(lane % floats.sign, floats.hidden)
    if exponent > 0:
        digits += floats.hidden
    sign = '-' if lane & floats.sign else ''
    literal = f'{sign}{digits:#x}p{max(exponent, 1) - 1 + floats.least}f'
    return literal if scalar == 'f32' else f'f16({literal})'


def spelled_lane(scalar, lane, spelled_float):
    if scalar == 'bool':
        return 'true' if lane else 'false'
    if scalar == 'u32':
        return f'{lane:#x}u'
    if scalar == 'i32':
        return f'i32({lane:#x}u)'
    return spelled_float(scalar, lane)


def spelled_value(value, spelled_float):
    lanes = ', '.join(spelled_lane(value.type.scalar, lane, spelled_float) for lane in value.lanes)
    return lanes if value.type.lane_count == 1 else f'{value.type}({lanes})'


def spelled(call, spelled_float):
    """The call as a const-expression."""
    target = f'<{call.target}>' if call.target else ''
    arguments = ', '.join(spelled_value(value, spelled_float) for value in call.values)
    return f'{call.name}{target}({arguments})'


# ---- results


def results(call):
    """The members of the call's result and their types: one that has no name, or frexp's two."""
    first = call.values[0].type
    if call.name in ('all', 'any'):
        return [('', Type('bool'))]
    if call.name == 'dot':
        return [('', Type(first.scalar))]
    if call.name == 'transpose':
        return [('', Type(first.scalar, first.rows, first.columns))]
    if call.name == 'frexp':
        return [('.fract', first), ('.exp', first._replace(scalar='i32'))]
    if call.name == 'bitcast':
        return [('', call.target)]
    if call.name.startswith('pack'):
        return [('', U32)]
    return [('', UNPACKED.get(call.name, first))]


def lanes_of(name, type):
    if type.columns > 1:
        return [f'{name}[{column}][{row}]' for column in range(type.columns) for row in range(type.rows)]
    return [f'{name}[{row}]' for row in range(type.rows)] if type.rows > 1 else [name]


def word_of(scalar, lane):
    """A lane as a u32; an f16 as the f32 that has its value."""
    if scalar == 'bool':
        return f'select(0u, 1u, {lane})'
    return f'bitcast<u32>(f32({lane}))' if scalar == 'f16' else f'bitcast<u32>({lane})'


def words_of(call, name):
    """The words of the call's result, which is the constant of that name."""
    return [word_of(type.scalar, lane) for member, type in results(call) for lane in lanes_of(name + member, type)]


def values_of(call, words):
    """The values that the words are."""
    values, words = [], list(words)
    for _, type in results(call):
        lanes, words = words[:type.lane_count], words[type.lane_count:]
        if type.scalar == 'f16':
            lanes = [rules.converted(lane, F32, F16) for lane in lanes]
        values.append(Value(type, tuple(lanes)))
    return values


# ---- what WGSL refuses


def is_finite(scalar, lane):
    return scalar not in FORMATS or lane % FORMATS[scalar].sign < FORMATS[scalar].infinity


def all_finite(values):
    return all(is_finite(value.type.scalar, lane) for value in values for lane in value.lanes)


def must_be_refused(call, answer):
    """Whether the text refuses a call that a program answers so: a NaN or an infinity in an argument or in the answer,
    in a packed half too, clamp's low above its high, ldexp's exponent above f32's."""
    if answer is None:
        return False
    if not all_finite(call.values) or not all_finite(answer):
        return True
    if call.name == 'pack2x16float':
        return not all(is_finite('f16', half) for half in rules.codes_of(answer[0].lanes[0], 16))
    if call.name == 'clamp':
        _, low, high = call.values
        scalar = low.type.scalar
        return any(rules.order(scalar, a) > rules.order(scalar, b) for a, b in zip(low.lanes, high.lanes))
    if call.name == 'ldexp':
        return any(rules.signed(lane) > GREATEST_EXPONENT for lane in call.values[1].lanes)
    return False
