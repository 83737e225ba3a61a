#!/usr/bin/env python3
"""exact.py LANES SEED PROGRAM..

Holds the six packers of the text's reading (docs/02-change-requests.md, Q-1) to whole numbers. Lines go to the program,
foldtext, and each word that it answers is held to what is worked out here: of a norm packer the floor of the exact
0.5 + scale times the clamped lane, of a clamping packer the clamped lane.

For each of the four norm formats both sides of the threshold of every code, each in every lane; LANES random lanes, spread
over the formats, of which every tenth is any 32 bits and the others lie within or near the clamping range; and for the two
clamping packers the numbers from -300 to 600 in every lane, and LANES / 100 random ones.
"""

import random
import subprocess
import sys
import tempfile
from typing import NamedTuple

ONE = 1 << 149  # of the units in which every finite f32 is a whole number
INFINITY, SIGN = 0x7F800000, 0x80000000


def units(magnitude):
    exponent, fraction = divmod(magnitude, 1 << 23)
    return fraction if exponent == 0 else (fraction + (1 << 23)) << (exponent - 1)


class Norm(NamedTuple):
    name: str
    signed: bool
    width: int

    @property
    def lanes(self):
        return 32 // self.width

    @property
    def scale(self):
        return (1 << (self.width - 1 if self.signed else self.width)) - 1

    @property
    def type(self):
        return f'vec{self.lanes}<f32>'

    def number(self, bits):
        """The code as a number: floor(0.5 + scale * clamped lane)."""
        magnitude = bits % SIGN
        if magnitude > INFINITY:
            return 0
        size = min(units(magnitude), ONE) if magnitude < INFINITY else ONE
        lane = size if bits < SIGN else -size if self.signed else 0
        return (ONE + 2 * self.scale * lane) // (2 * ONE)

    def code(self, bits):
        return self.number(bits) % (1 << self.width)


def clamped_i8(bits):
    return max(-128, min(bits - (1 << 32) if bits >= SIGN else bits, 127)) % 256


class Clamping(NamedTuple):
    name: str
    type: str
    code: object
    width: int = 8
    lanes: int = 4


NORMS = (Norm('pack4x8snorm', True, 8), Norm('pack4x8unorm', False, 8),
         Norm('pack2x16snorm', True, 16), Norm('pack2x16unorm', False, 16))
CLAMPING = (Clamping('pack4xI8Clamp', 'vec4<i32>', clamped_i8),
            Clamping('pack4xU8Clamp', 'vec4<u32>', lambda bits: min(bits, 255)))


def of_order(order):
    """The f32 at a place in the numeric order; 0 is +0."""
    return order if order >= 0 else SIGN - order


def threshold(norm, number):
    """The place of the least f32 that packs to this code's number or a higher one."""
    low, high = -0x3F800000, 0x3F800000
    while low < high:
        half = (low + high) // 2
        if norm.number(of_order(half)) >= number:
            high = half
        else:
            low = half + 1
    return low


def thresholds(norm):
    least = -norm.scale if norm.signed else 0
    for number in range(least + 1, norm.scale + 1):
        place = threshold(norm, number)
        assert norm.number(of_order(place - 1)) == number - 1 and norm.number(of_order(place)) == number
        yield of_order(place - 1)
        yield of_order(place)


def in_every_lane(lanes, values):
    """Words' lanes, in which each value stands in each place."""
    values = list(values)
    for at in range(len(values)):
        yield [values[(at + lane) % len(values)] for lane in range(lanes)]


def random_lane(chance):
    if chance.random() < 0.1:
        return chance.getrandbits(32)
    return chance.getrandbits(1) << 31 | chance.randrange(107, 129) << 23 | chance.getrandbits(23)


def words(lanes, chance):
    for norm in NORMS:
        for word in in_every_lane(norm.lanes, thresholds(norm)):
            yield norm, word
    for norm in NORMS:
        for _ in range(lanes // len(NORMS) // norm.lanes):
            yield norm, [random_lane(chance) for _ in range(norm.lanes)]
    for packer in CLAMPING:
        for word in in_every_lane(4, (number % (1 << 32) for number in range(-300, 601))):
            yield packer, word
        for _ in range(lanes // 100 // len(CLAMPING) // 4):
            yield packer, [chance.getrandbits(32) for _ in range(4)]


def expected(packer, word):
    return sum(packer.code(bits) << (packer.width * at) for at, bits in enumerate(word))


def main():
    lanes, seed, program = int(sys.argv[1]), int(sys.argv[2]), sys.argv[3:]
    with tempfile.TemporaryFile('w+') as calls, tempfile.TemporaryFile('w+') as answers:
        for packer, word in words(lanes, random.Random(seed)):
            print(packer.name, packer.type + ':' + ','.join(f'{bits:08X}' for bits in word), sep='\t', file=calls)
        calls.seek(0)
        print('exact.py: the lines are made', file=sys.stderr)
        subprocess.run(program, stdin=calls, stdout=answers, check=True)
        calls.seek(0)
        answers.seek(0)
        count = compared = differing = 0
        for line, answer, (packer, word) in zip(calls, answers, words(lanes, random.Random(seed)), strict=True):
            count, compared = count + 1, compared + packer.lanes
            if answer != f'u32:{expected(packer, word):08X}\n':
                differing += 1
                if differing <= 20:
                    print(f'{line.rstrip()}: exactly {expected(packer, word):08X}, ours {answer.rstrip()}')
            if count % 500000 == 0:
                print(f'exact.py: {count} words held to whole numbers', file=sys.stderr)
    print(f"{count} words, {compared} lanes, of the text's reading, whole numbers and ours: {differing} words differ")
    return differing != 0


if __name__ == '__main__':
    sys.exit(main())
