#!/usr/bin/env python3
"""What calls come to whose devices fail: devices.py FOLDER, which is cases/devices, prints its table of answers.

A command opens its files in the order of docs/FILES.md, reads each until a read gives nothing, and creates, writes and
finishes each output in turn. The call of a number among those of one kind fails, until there is no such call. A line of the
table is a command, the kind, the error, the most bytes of a call, the numbers from and to, the exit code, and what is on
standard output and in the files then.
"""
import itertools
import math
import sys

NOTHING, NO_ENTRY, BROKEN, NO_PERMISSION, NO_SPACE = 0, 2, 5, 13, 28
ERRORS = {
    'open': [NO_ENTRY, BROKEN, NO_PERMISSION],
    'read': [BROKEN],
    'create': [NO_ENTRY, BROKEN, NO_PERMISSION, NO_SPACE],
    'write': [NOTHING, BROKEN, NO_SPACE],
    'sink': [NOTHING, NO_SPACE],
}
FEW, MANY = 8, 1000000


def pieces(text, chunk):
    return math.ceil(len(text) / chunk)


def shown(text):
    return text.replace('\n', '|')


def listed(said, files):
    return shown(said) + ''.join(f' {path.split("/")[1]}:{shown(text)}' for path, text in files)


def opened(inputs, error):
    """What the failing call of each number comes to: its exit code, and what is said and written."""
    for path in inputs:
        yield (4, f'error: no file: {path}|') if error == NO_ENTRY else (6, f'error: read fault: {path}|')


def read(inputs, chunk):
    for path, text in inputs.items():
        # The last read gives nothing.
        yield from [(6, f'error: read fault: {path}|')] * (pieces(text, chunk) + 1)


def created(outputs):
    for number, (path, _) in enumerate(outputs):
        yield 6, listed(f'error: write fault: {path}\n', outputs[:number])


def written(outputs, chunk):
    for number, (path, text) in enumerate(outputs):
        for piece in range(pieces(text, chunk)):
            yield 6, listed(f'error: write fault: {path}\n', outputs[:number] + [(path, text[:piece * chunk])])


def taken(outputs, text, chunk):
    """A front of the text is on standard output, and then the line of the fault; the files are there."""
    for piece in range(pieces(text, chunk)):
        yield 6, listed(text[:piece * chunk] + 'error: write fault: -\n', outputs)


def rows(command, inputs, outputs, text):
    for kind, errors in ERRORS.items():
        for error, chunk in itertools.product(errors, [FEW, MANY]):
            if kind in ('open', 'create') and chunk == MANY:
                continue
            failing = {
                'open': lambda: opened(inputs, error),
                'read': lambda: read(inputs, chunk),
                'create': lambda: created(outputs),
                'write': lambda: written(outputs, chunk),
                'sink': lambda: taken(outputs, text, chunk),
            }[kind]()
            answers = [*failing, (0, listed(text, outputs))]
            number = 1
            for answer, same in itertools.groupby(answers):
                count = len(list(same))
                yield command, kind, error, chunk, number, number + count - 1, *answer
                number += count


def main(folder):
    def held(*paths):
        found = {}
        for path in paths:
            with open(f'{folder}/{path}', encoding='ascii') as file:
                found[path] = file.read()
        return found

    outputs = held('expected/X.csv', 'expected/Y.csv')
    x, y = outputs.values()
    of_run = held('script.vtl', 'structures.csv', 'in/A.csv', 'in/B.csv')
    of_engine = held('script.sql', 'in/A.csv', 'in/B.csv')
    of_text = held('script.vtl', 'structures.csv')
    # The edits leave the inputs as they were at first.
    of_replay = held('script.vtl', 'structures.csv', 'edits', 'in/A.csv', 'in/B.csv', 'in2/A.csv', 'in3/A.csv')
    cases = [
        ('run', of_run, [('out/X.csv', x), ('out/Y.csv', y)], ''),
        ('sqlrun', of_run, [('out/X.csv', x), ('out/Y.csv', y)], ''),
        ('replay', of_replay, [('out/X.csv', x), ('out/Y.csv', y)], *held('refreshes').values()),
        ('engine', of_engine, [('out/A.csv', x), ('out/B.csv', y)], ''),
        ('sql', of_text, [], *held('script.printed').values()),
        ('lineage', of_text, [], *held('links').values()),
        ('format', held('script.vtl'), [], *held('script.vtl').values()),
        ('demo', {}, [], *held('demo').values()),
    ]
    for case in cases:
        for row in rows(*case):
            print(*row, sep='\t')
    # A line is written in parts, and no rule says in which: without the first one nothing is said, and the code stays.
    for error in ERRORS['sink']:
        print('none', 'sink', error, MANY, 1, 1, 1, '', sep='\t')


main(*sys.argv[1:])
