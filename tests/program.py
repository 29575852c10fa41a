#!/usr/bin/env python3
"""Runs the built programs pfafstetter and atlas on every stored case of tests/cases/ and compares what they print, byte
for byte: with the stored listing or refusal, and with the stored atlas, or that of tests/atlas_text.py where none is
stored. Then on inputs that break the rules and do not end: they must not wait for more of them."""
import os
import subprocess
import sys

sys.dont_write_bytecode = True
from atlas_text import atlas_of

HERE = os.path.dirname(os.path.abspath(__file__))
CASES = os.path.join(HERE, 'cases')
PROGRAMS = os.path.join(HERE, '..', 'target', 'bin')

# bytes after which the input stays open, and what is printed then, by both programs
OPEN = [
    ('81 bytes without a line feed', bytes(81), b'refused,place\n8,1\n'),
    ('sizes out of bounds', b'rows,cols,depth\n0,4,2\n', b'refused,place\n1,2\n'),
    ('depth 37', b'rows,cols,depth\n3,4,37\n', b'refused,place\n2,2\n'),
    ('a name alone', b'rows,cols,depth,least\n', b'refused,place\n8,1\n'),
    ('least out of bounds', b'split,least,rows,cols,depth\n4,0,3,4,2\n', b'refused,place\n19,2\n'),
    ('a weight out of bounds', b'rows,cols,depth\n3,4,2\nweight\n1001\n', b'refused,place\n17,4\n'),
    ('81 bytes in the third line', b'rows,cols,depth\n3,4,2\n' + 81 * b'0', b'refused,place\n8,3\n'),
]


def printed_before_the_end(program, data):
    with subprocess.Popen([program], stdin=subprocess.PIPE, stdout=subprocess.PIPE) as run:
        run.stdin.write(data)
        run.stdin.flush()
        try:
            run.wait(20)
        except subprocess.TimeoutExpired:
            run.kill()
        return run.stdout.read()


def contents(path):
    with open(path, 'rb') as file:
        return file.read()


def stored(case):
    """What pfafstetter and atlas print for a stored case."""
    printed = contents(case + '.out')
    yield 'pfafstetter', printed
    yield 'atlas', contents(case + '.atlas') if os.path.exists(case + '.atlas') else atlas_of(printed)


def runs():
    """Each run, as (what it is, whether the program printed what it should)."""
    for name in sorted(name[:-3] for name in os.listdir(CASES) if name.endswith('.in')):
        case = os.path.join(CASES, name)
        for program, expected in stored(case):
            with open(case + '.in', 'rb') as data:
                run = subprocess.run([os.path.join(PROGRAMS, program)], stdin=data, capture_output=True)
            yield '%s by %s' % (name, program), run.stdout == expected and run.stderr == b''
    for name, data, expected in OPEN:
        for program in ('pfafstetter', 'atlas'):
            printed = printed_before_the_end(os.path.join(PROGRAMS, program), data)
            yield '%s by %s' % (name, program), printed == expected


def main():
    passed = failed = 0
    for what, good in runs():
        if good:
            passed += 1
        else:
            failed += 1
            print('%s differs' % what)
    print('%d passed, %d failed' % (passed, failed))
    return 0 if failed == 0 and passed > 0 else 1


if __name__ == '__main__':
    sys.exit(main())
