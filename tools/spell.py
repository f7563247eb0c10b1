#!/usr/bin/env python3
"""Brings the repository's own definitions and lemmas to today's spelling: words in snake case, types in camel case.

usage: tools/spell.py [--dry]      at the top of the checkout, once, after the kit's port.py

A lower word with a capital inside it (`levelOf`, `bitTaken-fits`) becomes snake case (`level_of`, `bit_taken-fits`), in
specs/, proofs/, clauses and edits. A definition of specs/ whose words are joined by a dash (`check-at`) is joined by
`_`; a type (`Going-on`) becomes camel case. Lemmas keep the dash that joins two names. Text in strings,
functions of src/, inputs and outputs stay. Names that would fall together with one that is there are printed, and
nothing is written.
"""
import os
import re
import sys

WORD = re.compile(r"(?<![\w'·\u2080-\u209f])([A-Za-z_][\w'\u2080-\u209f]*(?:-[\w'\u2080-\u209f*]+)*)")
HUMP = re.compile(r"([a-z0-9\u2080-\u2089])([A-Z])")
# registers keep TI's names: a dash joins one to what is said of it
JOINED = re.compile(r"^(USI|P\d)")
TYPES = {"Going-on": "GoingOn", "In-turn": "InTurn", "Kept-all": "KeptAll"}


def files(ends):
    for folder in ("crates",):
        for base, dirs, names in os.walk(folder):
            dirs[:] = sorted(d for d in dirs if d != "out")
            for name in sorted(names):
                if name.endswith(ends):
                    yield os.path.join(base, name)


def read(path):
    with open(path, encoding="utf-8") as f:
        return f.read()


def humped(word):
    """Whether a lower word has a capital inside it; words that begin with a capital are types or registers."""
    return any(HUMP.search(part) and part[0].islower() for part in word.split("-"))


def snake(word):
    parts = []
    for part in word.split("-"):
        if part and part[0].islower():
            part = HUMP.sub(lambda m: m.group(1) + "_" + m.group(2).lower(), part)
        parts.append(part)
    return "-".join(parts)


def dashed_definitions():
    found = set()
    for path in files((".antt",)):
        if "/specs/" not in path:
            continue
        block = None
        for line in read(path).split("\n"):
            m = re.match(r"^(\s*)(?:abbrev|unfoldable) (?:pub )?([^\s:({\[]+) :", line)
            if m:
                found.add(m.group(2))
            m = re.match(r"^(\s*)(?:pub )?(?:data|record) (\S+)", line)
            if m:
                block = len(m.group(1))
                continue
            if block is not None and line.strip():
                if len(line) - len(line.lstrip()) <= block:
                    block = None
                elif not line.strip().startswith("--"):
                    m = re.match(r"^\s+(?:pub )?([^\s:({\[]+(?: [^\s:({\[]+)*) :", line)
                    if m:
                        found.update(m.group(1).split())
    return {word for word in found if "-" in word and not JOINED.match(word) and word not in TYPES}


def plan():
    words, there = set(), set()
    for path in files((".antt",)):
        for m in WORD.finditer(read(path)):
            there.add(m.group(1))
    for path in files((".rt",)):
        for m in WORD.finditer(read(path)):
            for part in m.group(1).split("-"):
                there.add(part)
    to = {}
    for word in there:
        if humped(word):
            to[word] = snake(word)
    for word in dashed_definitions():
        to[word] = snake(word).replace("-", "_")
    to.update(TYPES)
    clash = []
    made = {}
    for word, new in sorted(to.items()):
        if new in made:
            clash.append((word, new, "made of " + made[new]))
        made[new] = word
    # a lemma or a local name that has the new name already, and had a dash before port.py: it gets the dash back
    for path in files((".antt",)):
        for word in own_words(read(path)):
            if word in made and word not in to:
                back = word.replace("_", "-")
                if back in there or back in made:
                    clash.append((word, back, "is there"))
                to[word] = back
    return to, clash


def own_words(text):
    """Words that stand by themselves: no part of a path, no field, nothing in a comment or an import."""
    text = re.sub(r"--.*|^use .*$", "", text, flags=re.M)
    return {m.group(1) for m in WORD.finditer(text) if text[m.start() - 1 : m.start()] != "."}


def ghost_spans(text):
    """Of Rattle code: whether each line is ghost (imports, clauses, ghost fields) or a comment."""
    lines, inside, depth = [], False, 0
    for line in text.split("\n"):
        stripped = line.strip()
        start = bool(re.match(r"(pub )?(ghost|requires|ensures)\b", stripped))
        if start and not inside:
            inside, depth = True, 0
        ghost = inside
        if inside:
            depth += line.count("{") - line.count("}")
            if depth <= 0:
                inside = False
        lines.append((line, ghost))
    return lines


def turned(line, to, dashes, lemmas=False):
    imports = line.startswith("use ")

    def one(m):
        word = m.group(1)
        if word not in to or ("-" in word and not dashes):
            return word
        if "-" in to[word] and "-" not in word:
            # a lemma: in proofs/, by itself or brought in by name
            path = line[m.start() - 1 : m.start()] == "." or (imports and not re.search(r"\{[^}]*$", line[: m.start()]))
            return to[word] if lemmas and not path else word
        return to[word]

    return WORD.sub(one, line)


def outside_strings(line, to, dashes):
    parts = re.split(r'("(?:\\.|[^"\\])*")', line)
    return "".join(p if i % 2 else turned(p, to, dashes) for i, p in enumerate(parts))


def turn(path, to):
    text = read(path)
    if path.endswith(".antt"):
        return "\n".join(turned(line, to, True, True) for line in text.split("\n"))
    if path.endswith(".rt"):
        return "\n".join(
            turned(line, to, True) if ghost else outside_strings(line, to, False) for line, ghost in ghost_spans(text)
        )
    out, source = [], False
    for line in text.split("\n"):
        if line.startswith("file:"):
            source = line.split(":", 1)[1].strip().startswith("src/")
        elif source and not re.search(r"\b(ghost|requires|ensures)\b", line):
            line = outside_strings(line, to, False)
        else:
            line = turned(line, to, True)
        out.append(line)
    return "\n".join(out)


def main():
    to, clash = plan()
    for word, new, why in clash:
        print(f"falls together: {word} -> {new}: {why}")
    print(f"{len(to)} words")
    if "--dry" in sys.argv:
        return
    if clash:
        raise SystemExit(1)
    count = 0
    for path in files((".antt", ".rt", ".edit")):
        new = turn(path, to)
        if new != read(path):
            with open(path, "w", encoding="utf-8") as f:
                f.write(new)
            count += 1
    print(f"{count} files")


main()
