#!/usr/bin/env python3
"""compare.py --crate COMMAND --text COMMAND --browsers NAME,NAME.. FILE

Folds the lines of FILE by the two programs and by each browser, and prints for each browser a table of agreement, the
smallest line of each kind of difference, and both as Markdown. browser/run calls it; its head says what is counted.
"""

import argparse
import os
import signal
import subprocess
import sys
import time
from collections import Counter, defaultdict
from itertools import islice
from typing import NamedTuple, Optional

import wgsl
from browsers import Browser, BrowserFailed

BATCH = 400  # lines that are read, and modules that a browser has in hand, at a time
SECONDS_BETWEEN_NEWS = 5
DOES_NOT_FOLD = 'Not implemented as constant expression'  # how Firefox says that it knows a builtin only at run time

COMPARED = ['both', "crate's only", "text's only", 'neither', 'browser refuses']
COLUMNS = [*COMPARED, 'must refuse', 'all refuse', 'left out']
ZERO_SIGNS = 'neither, zero signs only'
ANSWERS_A_REFUSED = 'neither, both programs refuse'
ANSWERS_WHAT_IT_MUST_NOT = 'must refuse, but answers'
KINDS = [
    "crate's only", "text's only", 'neither', ZERO_SIGNS, ANSWERS_A_REFUSED, 'browser refuses',
    ANSWERS_WHAT_IT_MUST_NOT,
]  # fmt: skip
PARTS = ['Calls', 'No calls, not asked', 'Answered, but not spelled here']


class Asked(NamedTuple):
    """A line, its call, None where none is spelled, and what the programs answer: values, or None for a refusal."""

    line: str
    call: Optional[wgsl.Call]
    crate: Optional[list]
    text: Optional[list]

    @property
    def must_be_refused(self):
        return any(wgsl.must_be_refused(self.call, answer) for answer in (self.crate, self.text))


class Reply(NamedTuple):
    """What a browser gives: values, or None and why."""

    values: Optional[list]
    why: str = ''

    def __str__(self):
        return shown(self.values) + (f' ({self.why})' if self.why else '')


NO_F16 = Reply(None, 'has no f16 on its software device')


class Difference(NamedTuple):
    """The smallest line of a kind, what the browser gives there, and how many lines are of that kind."""

    asked: Asked
    reply: Reply
    count: int = 1

    def joined(self, later):
        smallest = later if len(later.asked.line) < len(self.asked.line) else self
        return smallest._replace(count=self.count + later.count)


def column_of(asked, reply):
    """The column that a line is counted in, and which kind of difference it is, if any."""
    answers = reply.values is not None
    if reply is NO_F16:
        return 'left out', None
    if asked.must_be_refused:
        return 'must refuse', ANSWERS_WHAT_IT_MUST_NOT if answers else None
    as_crate, as_text = reply.values == asked.crate, reply.values == asked.text
    if as_crate and as_text:
        return 'both' if answers else 'all refuse', None
    if DOES_NOT_FOLD in reply.why:
        return 'left out', None
    if as_crate or as_text:
        only = "crate's only" if as_crate else "text's only"
        return only, only
    if not answers:
        return 'browser refuses', 'browser refuses'
    return 'neither', kind_of_neither(asked, reply)


def kind_of_neither(asked, reply):
    programs = [answer for answer in (asked.crate, asked.text) if answer is not None]
    if not programs:
        return ANSWERS_A_REFUSED
    unsigned = wgsl.unsigned_zeros(reply.values)
    return ZERO_SIGNS if unsigned in map(wgsl.unsigned_zeros, programs) else 'neither'


class Tally:
    """A browser, and what was counted of its answers."""

    def __init__(self, name):
        self.browser = Browser(name)
        self.version = self.browser.version
        self.counts = defaultdict(Counter)
        self.differences = {}
        self.left_out = defaultdict(Counter)

    def has_compared(self, name):
        return any(self.counts[name][column] for column in COMPARED)

    def judge(self, asked_lines):
        sent = [asked for asked in asked_lines if self.browser.f16 or not asked.call.needs_f16]
        answers = iter(self.browser.fold([asked.call for asked in sent]) if sent else [])
        for asked in asked_lines:
            left_out = asked.call.needs_f16 and not self.browser.f16
            self.count(asked, NO_F16 if left_out else reply_of(asked.call, next(answers)))

    def count(self, asked, reply):
        name = asked.call.name
        column, kind = column_of(asked, reply)
        self.counts[name][column] += 1
        if kind:
            difference, known = Difference(asked, reply), self.differences.get((name, kind))
            self.differences[name, kind] = known.joined(difference) if known else difference
        if column == 'left out':
            self.left_out[NO_F16.why if reply is NO_F16 else 'does not fold every builtin'][name] += 1


def reply_of(call, answer):
    if 'refused' in answer:
        return Reply(None, first_line(answer['refused']))
    return Reply(wgsl.values_of(call, answer['words']))


def first_line(message):
    """The first line of what a browser says of an error, shortened."""
    line = message.strip().split('\n')[0].removeprefix("Shader '' parsing error: ")
    return line.replace('`', "'")[:100]


# ---- reading


def answers_of(command, lines):
    """What a program answers to each line."""
    text = b''.join(line + b'\n' for line in lines)
    said = subprocess.run(['bash', '-c', command], input=text, stdout=subprocess.PIPE, check=True).stdout
    answers = said.decode('latin-1').split('\n')[:-1]
    if len(answers) != len(lines):
        raise RuntimeError(f'{command}: {len(answers)} answers to {len(lines)} lines')
    return [wgsl.answer_of(answer) for answer in answers]


def batches(file):
    lines = (line[:-1] if line.endswith(b'\n') else line for line in file)
    while batch := list(islice(lines, BATCH)):
        yield batch


def asked_of(lines, crate, text):
    for line, *answers in zip(lines, answers_of(crate, lines), answers_of(text, lines)):
        line = line.decode('latin-1')
        yield Asked(line, wgsl.call_of(line), *answers)


class Progress:
    """Tells on standard error how far a file is read: on a terminal in one line that moves, elsewhere now and then."""

    def __init__(self, file):
        self.file, self.size = file, os.fstat(file.fileno()).st_size
        self.begun = self.told = time.monotonic()

    def tell(self, lines):
        now = time.monotonic()
        part = f', {100 * self.file.tell() // self.size} % of the file' if self.size else ''
        said = f'browser: {lines:,} lines{part}, {now - self.begun:.0f} s'
        if sys.stderr.isatty():
            print(f'\r{said}\033[K', end='', file=sys.stderr, flush=True)
        elif now - self.told >= SECONDS_BETWEEN_NEWS:
            print(said, file=sys.stderr, flush=True)
            self.told = now

    def end(self):
        if sys.stderr.isatty():
            print(file=sys.stderr)


# ---- printing


def shown(answer):
    return 'refused' if answer is None else '→'.join(map(str, answer))


def table_rows(tally):
    """For each builtin its name, its lines and a number for each column, in the order of 01's table; then the sums."""
    for name in wgsl.rules.BUILTINS:
        if name in tally.counts:
            yield table_row(name, tally.counts[name])
    yield table_row('all builtins', sum(tally.counts.values(), Counter()))


def table_row(name, counts):
    return [name, sum(counts.values()), *(counts[column] for column in COLUMNS)]


def differences(tally):
    for name in wgsl.rules.BUILTINS:
        for kind in KINDS:
            if (name, kind) in tally.differences:
                yield name, kind, tally.differences[name, kind]


def line_and_answers(difference):
    asked = difference.asked
    return [asked.line.replace('\t', '→'), shown(asked.crate), shown(asked.text), str(difference.reply)]


def print_plain(tally):
    heads = ['builtin', 'lines', *COLUMNS]
    print(f'\n{tally.version}\n')
    for row in [heads, *table_rows(tally)]:
        print(f'{row[0]:<20}' + ''.join(f'{cell:>{max(len(head), 7) + 2}}' for head, cell in zip(heads[1:], row[1:])))
    for name, kind, difference in differences(tally):
        line, *answers = line_and_answers(difference)
        print(f'\n{name}, {kind} ({difference.count:,}):\n    {line}')
        for who, answer in zip(["crate's", "text's", 'browser'], answers):
            print(f'    {who:<8} {answer}')


def print_markdown(tallies):
    print_row(['Browser', 'Builtin', 'Lines', *(column.capitalize() for column in COLUMNS)], head=True)
    for tally in tallies:
        for name, *numbers in table_rows(tally):
            if name not in tally.counts or tally.has_compared(name):
                print_row([tally.version, name, *(f'{number:,}' for number in numbers)])
    print()
    print_row(['Browser', 'Builtin', 'Kind', 'Lines', 'Smallest line', "Crate's", "Text's", "Browser's"], head=True)
    for tally in tallies:
        for name, kind, difference in differences(tally):
            quoted = [f'`{text}`' for text in line_and_answers(difference)]
            print_row([tally.version, name, kind, f'{difference.count:,}', *quoted])
    for tally in tallies:
        for why, counts in tally.left_out.items():
            wholly = ', '.join(name for name in sorted(counts) if not tally.has_compared(name))
            lines = f'{sum(counts.values()):,} lines are left out' + (f', all of {wholly}' if wholly else '')
            print(f'\n{tally.version} {why}: {lines}.')


def print_row(cells, head=False):
    print(f'| {" | ".join(cells)} |')
    if head:
        print('|' + '---|' * len(cells))


# ---- the run


def started(names):
    for name in names:
        print(f'browser: starting {name}', file=sys.stderr)
        try:
            yield Tally(name)
        except BrowserFailed as reason:
            print(f'{name} is left out: {reason}')


def compare(words, tallies):
    counts = Counter()
    with open(words.file, 'rb') as file:
        progress = Progress(file)
        for batch in batches(file):
            asked_lines = list(asked_of(batch, words.crate, words.text))
            counts.update(part_of(asked) for asked in asked_lines)
            calls = [asked for asked in asked_lines if asked.call is not None]
            for tally in tallies:
                tally.judge(calls)
            progress.tell(sum(counts.values()))
        progress.end()
    print(f'Lines: {sum(counts.values()):,}. ' + ' '.join(f'{part}: {counts[part]:,}.' for part in PARTS))


def part_of(asked):
    if asked.call is not None:
        return 'Calls'
    return 'No calls, not asked' if asked.crate is None and asked.text is None else 'Answered, but not spelled here'


def main():
    parser = argparse.ArgumentParser()
    parser.add_argument('--crate', required=True)
    parser.add_argument('--text', required=True)
    parser.add_argument('--browsers', required=True)
    parser.add_argument('file')
    words = parser.parse_args()
    signal.signal(signal.SIGTERM, lambda *_: sys.exit('browser: FAILED, it was ended'))
    tallies = []
    try:
        tallies.extend(started(words.browsers.split(',')))
        if not tallies:
            sys.exit('browser: FAILED, no browser is left')
        compare(words, tallies)
    except (BrowserFailed, RuntimeError, OSError, subprocess.CalledProcessError) as reason:
        sys.exit(f'browser: FAILED, {reason}')
    finally:
        for tally in tallies:
            tally.browser.close()
    for tally in tallies:
        print_plain(tally)
    print()
    print_markdown(tallies)


if __name__ == '__main__':
    main()
