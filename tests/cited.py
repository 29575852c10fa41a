#!/usr/bin/env python3
"""Checks that every path and name that README.md and docs/ cite in backticks exists in the repository.

`crates/x/y.antt: a, b` and `x/y.antt: a, b` ask for the file and for each name in it; a path asks for the file, a folder or a must-fail edit;
a single name asks that some file of the repository has it. Anything else in backticks (a command, a formula) is not looked at."""
import re
import sys
from pathlib import Path

root = Path(__file__).resolve().parent.parent
documents = [root / 'README.md'] + sorted((root / 'docs').rglob('*.md'))
sources = [f for part in ('crates', 'include', 'tests', 'bench', 'examples') for f in (root / part).rglob('*')
           if f.is_file() and f.suffix in ('.rt', '.antt', '.py', '.c', '.h', '.edit')]
text = {f: f.read_text(errors='replace') for f in sources}
every_word = set()
for content in text.values():
    every_word.update(re.findall(r"[\w\-'′₀-₉]+", content))
every_word.update(f.stem for f in sources)
every_word.update(f.name for f in (root / 'crates').iterdir())
every_word.update(f.stem for f in (root / 'tests' / 'cases').iterdir())


def found(path):
    """The files that a cited path names: from the root, below crates/, or a must-fail edit; a star stands for any name."""
    hits = []
    for base in (root, root / 'crates'):
        for ending in ('', '.edit'):
            hits += base.glob(path.rstrip('/') + ending)
    return hits


def faults(span):
    named = re.fullmatch(r'([\w./*-]+\.\w+): (.+)', span)
    if named:
        files = found(named.group(1))
        if not files:
            yield 'no file ' + named.group(1)
            return
        content = '\n'.join(text.get(f, '') for f in files)
        for name in named.group(2).split(', '):
            if not re.search(r"(?<![\w-])" + re.escape(name) + r"(?![\w-])", content):
                yield 'no %s in %s' % (name, named.group(1))
    elif re.fullmatch(r'[\w.*-]+(/[\w.*+-]+)+/?', span):
        if not found(span) and not span.startswith('target/'):
            yield 'no file ' + span
    elif re.fullmatch(r"[A-Za-z_][\w-]*", span):
        if span not in every_word and not found(span):
            yield 'no name ' + span


def main():
    cited, bad = 0, 0
    for document in documents:
        for number, line in enumerate(document.read_text().split('\n'), 1):
            if line.startswith('    '):
                continue
            for span in re.findall(r'`([^`]+)`', line):
                cited += 1
                for fault in faults(span):
                    bad += 1
                    print('%s:%d: %s' % (document.relative_to(root), number, fault))
    print('%d passed, %d failed' % (cited - bad, bad))
    sys.exit(1 if bad else 0)


main()
