#!/usr/bin/env python3
"""Brings the repository's own names to the library's spelling: words and lemmas in snake case.

Run once, at the top, after port.py. It turns names that specs/ and proofs/ declare, wherever they stand: in .antt files,
in clauses and comments of .rt files, in must-fail edits, and in code spans of the documents. Functions of src/, exported
names, strings and data keep theirs. A lemma whose new name another name has already gets '_lem' behind it.
usage: spelling.py [--dry]
"""
import collections
import glob
import re
import sys

WORD = re.compile(r"[^\s(){}.;,@\"«»`\[\]]+")
CAMEL = re.compile(r"[a-z][a-z0-9_]*[A-Z][A-Za-z0-9_]*'*$")
DASHED = re.compile(r"[A-Za-z][A-Za-z0-9_']*(-[A-Za-z0-9_']+)+$")
HEAD = re.compile(r"( *)((?:pub |abbrev |unfoldable |data |record |constructor |ruleset )*)([^\s(){}.;,@\"]+)( .*)? ?:(\s|$)")
# facts, which are spelled as types
FACTS = {"fitsByte": "FitsByte"}

# fields whose new name is otherwise a function's alone
MODULES_ALONE = {"labels-part", "from-intake"}


def snake(word):
    word = re.sub(r"([a-z0-9])([A-Z])", r"\1_\2", word)
    return word.lower().replace("-", "_")


def own_files(crates):
    for crate in crates:
        for path in sorted(glob.glob(f"crates/{crate}/**/*.antt", recursive=True)):
            if "/out/" not in path:
                yield path


def main():
    crates = [
        line.split(":")[0].split()[0]
        for line in open("crates.txt", encoding="utf-8")
        if line.strip() and not line.startswith("#")
    ]
    antt = list(own_files(crates))
    texts = {path: open(path, encoding="utf-8").read() for path in antt}
    declared, lemma_files = collections.defaultdict(set), collections.defaultdict(set)
    tokens, kit = collections.Counter(), set()
    for path, text in texts.items():
        shared = re.match(r"crates/\w+/(specs|proofs)/\w+\.antt$", path)
        for line in text.split("\n"):
            m = HEAD.match(line)
            if m and len(m.group(1)) % 2 == 0 and not line.strip().startswith("--"):
                if shared:
                    declared[m.group(3)].add(path)
        for m in re.finditer(r"^use ([^\s{]+?)\.?\{([^}]*)\}", text, re.M):
            root = m.group(1).split(".")
            if not (root[0] == "Rattle" and root[1] in crates):
                kit.update(re.split(r"[,\s]+", m.group(2)))
        for m in WORD.finditer(re.sub(r"--[^\n]*", "", text)):
            if m.start() == 0 or text[m.start() - 1 : m.start()] != ".":
                tokens[m.group(0)] += 1
    functions = set()
    for path in glob.glob("crates/*/src/*.rt"):
        functions.update(re.findall(r"\bfn (\w+)", open(path, encoding="utf-8").read()))
    table = {}
    for word in sorted(tokens):
        if CAMEL.match(word) and word not in kit:
            table[word] = FACTS.get(word, snake(word))
    for word in declared:
        if CAMEL.match(word) and word not in kit:
            table[word] = FACTS.get(word, snake(word))
    taken = set(table.values())
    for word in sorted(declared):
        if word in kit or word in table:
            continue
        if DASHED.match(word):
            new = snake(word)
            if word not in MODULES_ALONE and (new in taken or new in tokens or new in functions or new in kit):
                new += "_lem"
            assert new not in taken, (word, new)
            taken.add(new)
            table[word] = new
        elif word in taken and "_" in word:
            table[word] = word + "_lem"
            taken.add(word + "_lem")
    clash = collections.defaultdict(list)
    for old, new in table.items():
        clash[new].append(old)
    for new, olds in clash.items():
        if len(olds) > 1:
            print("falls together:", new, olds)
    for old, new in sorted(table.items()):
        if new in tokens and new not in table:
            print("stands already:", old, new, tokens[new])
    plain = {w for w in table if not (CAMEL.match(w) or DASHED.match(w))}  # turned in antt alone

    def turn(text, names, behind_dots):
        def one(m):
            word = m.group(0)
            if word not in names:
                return word
            if word in plain and text[m.start() - 1 : m.start()] == ".":
                return word
            if behind_dots is not None and text[m.start() - 1 : m.start()] == "." and word not in behind_dots:
                return word
            return names[word]

        return WORD.sub(one, text)

    known = set(table.values()) | set(declared)

    def in_document(span):
        # port.py turned some names in .antt files alone
        def one(m):
            word, after = m.group(0), span[m.end() : m.end() + 4]
            if re.match(r"\.[a-z]", after) or not (CAMEL.match(word) or DASHED.match(word)):
                return word
            if word in coded:
                return coded[word]
            if DASHED.match(word) and snake(word) in plain:
                return table[snake(word)]
            return snake(word) if snake(word) in known else word

        return WORD.sub(one, span)

    fields = set()
    for path, text in texts.items():
        if re.match(r"crates/\w+/(specs|proofs)/\w+\.antt$", path):
            for line in text.split("\n"):
                m = HEAD.match(line)
                if m and len(m.group(1)) in (2, 4):
                    fields.add(m.group(3))
    coded = {w: n for w, n in table.items() if w not in plain}
    out = {}
    for path, text in texts.items():
        in_function = not re.match(r"crates/\w+/(specs|proofs)/\w+\.antt$", path)
        # English words with a dash in a comment stay, unless quoted as code
        lines = []
        body = []
        for line in text.split("\n"):
            m = re.match(r"(.*?(?:^|\s))(--.*)$", line)
            if m:
                code, note = m.group(1), m.group(2)
                note = re.sub(r"`[^`]*`", lambda s: turn(s.group(0), coded, None), note)
                note = WORD.sub(lambda s: in_document(s.group(0)) if CAMEL.match(s.group(0)) else s.group(0), note)
                lines.append(turn(code, table, fields if in_function else None) + note)
            else:
                lines.append(turn(line, table, fields if in_function else None))
        out[path] = "\n".join(lines)
    for path in glob.glob("crates/*/src/*.rt") + glob.glob("crates/*/must-fail/*.edit"):
        text = open(path, encoding="utf-8").read()
        in_antt = path.endswith(".edit") and ".antt" in text
        lines = []
        for line in text.split("\n"):
            m = re.match(r"(\s*)(//|#)(.*)$", line)
            if m:
                note = re.sub(r"`[^`]*`", lambda s: turn(s.group(0), coded, None), m.group(3))
                note = WORD.sub(lambda s: in_document(s.group(0)) if CAMEL.match(s.group(0)) else s.group(0), note)
                lines.append(m.group(1) + m.group(2) + note)
            else:
                lines.append(turn(line, table if in_antt else coded, None))
        out[path] = "\n".join(lines)
    for path in ["README.md"] + glob.glob("docs/*.md") + glob.glob("docs/requests/*.md"):
        if path.endswith("PORT.md"):
            continue
        text = open(path, encoding="utf-8").read()
        out[path] = re.sub(r"`[^`\n]*`", lambda s: in_document(s.group(0)), text)
    changed = 0
    for path, text in sorted(out.items()):
        old = open(path, encoding="utf-8").read()
        if old != text:
            changed += 1
            if "--dry" not in sys.argv:
                open(path, "w", encoding="utf-8").write(text)
    if "--table" in sys.argv:
        for old, new in sorted(table.items()):
            print(f"{old}\t{new}")
    print(len(table), "names,", changed, "files")


main()
