#!/usr/bin/env python3
"""fract.py EACH PROGRAM..

Holds fract, and floor, ceil, trunc and round beside it, to exact fractions: lines of f32 lanes go to the program, which
folds them, and each answer is held to fold.py's, which works in fractions. Of every exponent and sign: the first and the
last EACH fractions, EACH about the middle, and EACH others. All halves too.
"""

import pathlib
import random
import subprocess
import sys
import tempfile

sys.path.insert(0, str(pathlib.Path(__file__).resolve().parent.parent / 'answers'))
import fold  # noqa: E402

NAMES = ('fract', 'floor', 'ceil', 'trunc', 'round')
FRACTIONS = 1 << 23


def singles(each):
    others = random.Random(1)
    for top in range(512):  # sign and exponent
        near = [*range(each), *range(FRACTIONS // 2 - each // 2, FRACTIONS // 2 + each // 2),
                *range(FRACTIONS - each, FRACTIONS), *(others.randrange(FRACTIONS) for _ in range(each))]
        for fraction in near:
            yield f'f32:{top * FRACTIONS + fraction:08X}'


def lines(each):
    for name in NAMES:
        for half in range(1 << 16):
            yield f'{name}\tf16:{half:04X}'
    for value in singles(each):
        for name in NAMES:
            yield f'{name}\t{value}'


def main():
    each, program = int(sys.argv[1]), sys.argv[2:]
    with tempfile.TemporaryFile('w+') as calls, tempfile.TemporaryFile('w+') as answers:
        for line in lines(each):
            print(line, file=calls)
        calls.seek(0)
        subprocess.run(program, stdin=calls, stdout=answers, check=True)
        calls.seek(0)
        answers.seek(0)
        count = differing = 0
        for line, answer in zip(calls, answers, strict=True):
            line, answer, count = line.rstrip('\n'), answer.rstrip('\n'), count + 1
            exact = fold.answer(line, fold.BUILTINS)
            if answer != exact:
                differing += 1
                if differing <= 20:
                    print(f'{line}: exactly {exact}, ours {answer}')
            if count % 500000 == 0:
                print(f'{count} lines held to exact fractions', file=sys.stderr)
    print(f'{count} lines of fract, floor, ceil, trunc and round, exact fractions and ours: {differing} differ')
    return differing != 0


if __name__ == '__main__':
    sys.exit(main())
