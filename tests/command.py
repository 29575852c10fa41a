#!/usr/bin/env python3
"""Tries the commands ./pfafstetter and ./atlas as a user would: the examples, their status, bad arguments, input that
cannot be read, output that cannot be written, and input that never ends. The stored answers of the examples are
compared with the reference program too."""
import os
import signal
import subprocess
import sys
from typing import NamedTuple

TOP = os.path.join(os.path.dirname(os.path.abspath(__file__)), '..')
REFERENCE = os.path.join(TOP, 'tests', 'reference.py')
SAMPLE = os.path.join(TOP, 'examples', 'sample-a.csv')
LARGEST = os.path.join(TOP, 'examples', 'basin-32-by-64.csv')
SECONDS = 60  # for an answer that must not wait for more input; it comes in far less
failed = []
passed = 0


class Ended(NamedTuple):
    stdout: bytes
    stderr: bytes
    status: int


def expect(what, good):
    global passed
    if good:
        passed += 1
    else:
        failed.append(what)
        print('%s: not as it should be' % what)


def run(words, **streams):
    """What the command wrote, and its status; None for the status if it did not end in time."""
    child = subprocess.Popen(words, stdout=subprocess.PIPE, stderr=subprocess.PIPE, start_new_session=True, **streams)
    try:
        stdout, stderr = child.communicate(timeout=SECONDS)
    except subprocess.TimeoutExpired:
        os.killpg(child.pid, signal.SIGKILL)
        return Ended(b'', b'', None)
    return Ended(stdout, stderr, child.returncode)


class Command(NamedTuple):
    name: str
    ending: str  # of the files with its answers to examples
    options: list  # of the reference program

    def path(self):
        return os.path.join(TOP, self.name)

    def label(self, *words, **streams):
        return run([self.path(), *words], **streams)

    def expect(self, what, good):
        expect('./%s: %s' % (self.name, what), good)

    def begins(self, text):
        """Does a line on standard error begin with the name of the command?"""
        return text.startswith(b'%s: ' % self.name.encode())


COMMANDS = [Command('pfafstetter', '.out', []), Command('atlas', '.atlas', ['--atlas'])]


def contents(path):
    with open(path, 'rb') as file:
        return file.read()


def examples(command):
    folder = os.path.join(TOP, 'examples')
    for name in sorted(name for name in os.listdir(folder) if name.endswith('.csv')):
        path = os.path.join(folder, name)
        with open(path, 'rb') as data:
            words = [sys.executable, REFERENCE, *command.options]
            reference = subprocess.run(words, stdin=data, capture_output=True).stdout
        answer = contents(path[:-4] + command.ending)
        status = 1 if answer.startswith(b'refused,place\n') else 0
        command.expect('reference of ' + name, reference == answer)
        command.expect(name, command.label(path, stdin=subprocess.DEVNULL) == Ended(answer, b'', status))
        with open(path, 'rb') as data:
            command.expect(name + ' on standard input', command.label(stdin=data) == Ended(answer, b'', status))


def arguments(command):
    usage = command.label('--help', stdin=subprocess.DEVNULL)
    beginning = b'usage: ./%s ' % command.name.encode()
    command.expect('--help', usage.status == 0 and usage.stdout.startswith(beginning))
    for words in (['--wrong'], ['-x'], [''], [SAMPLE, SAMPLE], ['no-such-file.csv'], [TOP]):
        bad = command.label(*words, stdin=subprocess.DEVNULL)
        told = bad.stderr == usage.stdout if words in ([''], [SAMPLE, SAMPLE]) else command.begins(bad.stderr)
        command.expect('arguments %r' % words, bad.status == 2 and bad.stdout == b'' and told)
    terminal, other = os.openpty()
    waiting = command.label(stdin=other)
    os.close(terminal)
    os.close(other)
    command.expect('a terminal', waiting.status == 2 and waiting.stderr == usage.stdout)


def streams(command):
    lines = {'a folder as input': '"$0" < /', 'a closed input': '"$0" <&-', 'a full disk': '"$0" "$1" > /dev/full',
             'a closed output': '"$0" "$1" >&-',
             'a text that is cut short on its way': 'trap "" XFSZ; ulimit -f 1; "$0" "$2"',
             'a text that is cut short after a page': 'trap "" XFSZ; ulimit -f 5; "$0" "$2"'}
    for what, line in lines.items():
        got = run(['bash', '-c', line, command.path(), SAMPLE, LARGEST])
        told = got.stderr.startswith(b'%s: standard ' % command.name.encode()) and got.stderr.count(b'\n') == 1
        command.expect(what, got.status == 2 and got.stdout == b'' and told)


def endless(command):
    with open('/dev/zero', 'rb') as zeros:
        command.expect('zero bytes without end', command.label(stdin=zeros) == Ended(b'refused,place\n8,1\n', b'', 1))
    beginnings = {b'rows,cols,depth\n3,4,2\nrow,col,dir\n0,0,16\nbad\n': b'8,5', b'rows,cols,depth\n0,4,2\n': b'1,2',
                  b'rows,cols,depth,least,split\n3,4,2,2,5\n': b'19,2',
                  b'rows,cols,depth\n3,4,2\nweight\n1\n0\n': b'17,5', b'rows,cols,depth\n1,4,2\nweight\n1\n1\n': b'8,5',
                  b'rows,cols,depth\n3,4,2\nrow,col,dir\n' + b'7' * 81: b'8,4'}
    for beginning, answer in beginnings.items():
        source, sink = os.pipe()
        os.write(sink, beginning)
        got = command.label(stdin=source)
        os.close(source)
        os.close(sink)
        refused = Ended(b'refused,place\n' + answer + b'\n', b'', 1)
        command.expect('an open pipe after %r' % beginning[-9:], got == refused)


for command in COMMANDS:
    for part in (examples, arguments, streams, endless):
        part(command)
print('%d passed, %d failed' % (passed, len(failed)))
sys.exit(1 if failed else 0)
