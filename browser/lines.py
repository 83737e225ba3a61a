#!/usr/bin/env python3
"""Prints lines around the thresholds of the norm packers and the limits of the clamping ones, with one lane that is not
zero in each."""

from fractions import Fraction

from wgsl import F32, Type, Value, rules

CODES = 256  # of a format at most
STEPS = range(-2, 3)  # floats beside a threshold
NORM_PACKERS = [
    ('pack4x8unorm', 4, 1, 255), ('pack4x8snorm', 4, -126, 127),
    ('pack2x16unorm', 2, 1, 65535), ('pack2x16snorm', 2, -32766, 32767),
]  # fmt: skip
CLAMPING_PACKERS = [('pack4xI8Clamp', 'i32', [127, 128, -1, -128, -129]), ('pack4xU8Clamp', 'u32', [255, 256])]


def line_of(name, scalar, lanes, place, lane):
    """A packer's line with that lane in that place, zeros elsewhere."""
    values = tuple(lane if other == place else 0 for other in range(lanes))
    return f'{name}\t{Value(Type(scalar, 1, lanes), values)}'


def threshold_lines(name, lanes, first, scale):
    """Lines for codes from the first to the scale: (code - 1/2) / scale is the least number that has the code."""
    codes = range(first, scale + 1, -(-(scale + 1 - first) // CODES))
    for index, code in enumerate(sorted(codes, key=abs)):
        threshold = F32.rounded((code - Fraction(1, 2)) / scale)
        for step in STEPS:
            yield line_of(name, 'f32', lanes, index % lanes, threshold + step)


def limit_lines(name, scalar, numbers):
    for place in range(4):
        for number in numbers:
            yield line_of(name, scalar, 4, place, number % rules.WORD)


def main():
    for packer in NORM_PACKERS:
        print(*threshold_lines(*packer), sep='\n')
    for packer in CLAMPING_PACKERS:
        print(*limit_lines(*packer), sep='\n')


if __name__ == '__main__':
    main()
