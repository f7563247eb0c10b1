#!/usr/bin/env python3
"""tools/places.py POINT [COMMIT]: the places of docs/DESIGN-PASS.md in src/, a line each, of a commit or of the tree as it
stands; the last line counts them. POINT is 1 (enums of the shape of Option or Result, a flag with a value beside, numbers
for refusals), 2 (functions that differ only in a type, a size or a constant), 3 (loops that count an index by hand),
4 (what a derive, From, TryFrom or Display writes), 5 (parameters that travel together), 6 (a length beside a buffer,
searches by hand) or 7 (a switch on which step to run)."""
import re
import subprocess
import sys
from collections import defaultdict
from pathlib import Path

ROOT = Path(__file__).resolve().parent.parent


def sources(commit):
    """Each source file's name and text."""
    if commit:
        names = subprocess.run(["git", "ls-tree", "-r", "--name-only", commit, "crates"], cwd=ROOT, check=True,
                               capture_output=True, text=True).stdout.split()
        for name in names:
            if "/src/" in name and name.endswith(".rt"):
                text = subprocess.run(["git", "show", f"{commit}:{name}"], cwd=ROOT, check=True,
                                      capture_output=True, text=True).stdout
                yield name, text
        return
    for path in sorted(ROOT.glob("crates/*/src/**/*.rt")):
        yield str(path.relative_to(ROOT)), path.read_text()


def line_at(text, at):
    return text.count("\n", 0, at) + 1


def block(text, at):
    """The text from the first brace at or after a place to the brace that closes it."""
    start = text.index("{", at)
    depth = 0
    for end in range(start, len(text)):
        depth += (text[end] == "{") - (text[end] == "}")
        if depth == 0:
            return text[start:end + 1]
    return text[start:]


def bare(text):
    """Without comments and clauses."""
    text = re.sub(r"//[^\n]*", "", text)
    return re.sub(r"^ *(ensures|requires)\b[^\n]*\n( {8,}[^\n]*\n)*", "", text, flags=re.M)


FUNCTION = re.compile(r"^ *(?:pub(?:\([a-z]+\))? )?(?:extern \"C\" )?fn (\w+)", re.M)


def functions(text):
    for found in FUNCTION.finditer(text):
        rest = text[found.start():]
        body = re.search(r"\n *\{\n|\{\n", rest)
        if body:
            yield found.group(1), line_at(text, found.start()), rest[:body.start()], block(rest, body.start())


NO_VALUE = r"Refused|Bad|No|Nothing|Missing|Failed|TooLong|NoText|End|Equal|Malformed|WrongDirection|TooLarge"


def point_1(name, text):
    for found in re.finditer(r"\benum (\w+)[^{]*", text):
        variants = re.findall(r"^    (?:    )?([A-Z]\w*)", re.sub(r"//[^\n]*", "", block(text, found.start())), re.M)
        values = [variant for variant in variants if not re.fullmatch(NO_VALUE, variant)]
        if len(values) == 1 and len(variants) > 1:
            yield found.start(), f"enum {found.group(1)}"
    for found in re.finditer(r"\bstruct (\w+)[^{;]*\{", text):
        for field in re.finditer(r"^    (?:pub(?:\([a-z]+\))? )?(refusal|number|errno): (u8|u64|Refusal)", block(text, found.start()), re.M):
            yield found.start(), f"struct {found.group(1)} {{ {field.group(1)}: {field.group(2)} }}"
    for found in re.finditer(r"[^\n]*\b(?:number|errno)\b (?:!=|==|>) 0[^\n]*", text):
        yield found.start(), found.group(0).strip()
    for fn, line, head, body in functions(text):
        for found in re.finditer(r"let (\w+) = [\w:.]*(?:index_of|first_\w+|find\w*|bad_\w+|slash_at|round_of|place_of|slot)\([^;]*;", body):
            if re.search(rf"if {found.group(1)} (?:<|==|!=|>=) [\w:.]*(?:len\(\)|MAX|[A-Z_]+|0)", body):
                yield line, f"{fn}: {found.group(1)} past the last is none"


def shape(body):
    """A function's words with its own names, numbers and types left out."""
    words = re.findall(r"[A-Za-z_]\w*|\d+|[^\s\w]", body)
    seen = {}
    keep = {"let", "mut", "if", "else", "while", "for", "in", "return", "match", "as", "true", "false"}
    return tuple(w if w in keep or not re.match(r"\w", w) else seen.setdefault(w, len(seen)) for w in words)


def point_3(name, text):
    for found in re.finditer(r"^ *while ([^\n]*)\{\n", text, re.M):
        body = block(text, found.end() - 2)
        counters = [w for w in re.findall(r"\b[a-z]\w*\b", found.group(1))
                    if re.search(rf"\b{w} (?:\+=|-=) 1;|\b{w} = (?:\w+::)*\w*\(?{w}\b[^;]*1\)?;", body)]
        if counters:
            yield found.start(), f"while {found.group(1).strip()}"


HAND = re.compile(r"^ *(?:pub(?:\([a-z]+\))? )?fn (is_same|same|equal|least|least_number|less|greater|lesser|before|more|shifted|"
                  r"either|digit|flag_byte|at_level|number_of|to_\w+|from_\w+|word)\b[^\n]*", re.M)


def point_4(name, text):
    for found in HAND.finditer(text):
        yield found.start(), found.group(0).strip()


def groups(files):
    """Groups of three parameters or more, the same by name and type, that five functions of a crate or more take; the largest alone."""
    taken = defaultdict(list)
    for name, text in files:
        for _, _, head, _ in functions(text):
            head = head[:re.search(r"\n *(ensures|requires)\b|$", head).start()]
            taken[name.split("/")[1]].append(frozenset(re.findall(r"(\w+): ([^,()]+)", head[head.find("("):head.rfind(")")])))
    for crate, heads in sorted(taken.items()):
        shared = {one & other for at, one in enumerate(heads) for other in heads[at + 1:] if len(one & other) >= 3}
        counts = {group: sum(group <= head for head in heads) for group in shared}
        counts = {group: count for group, count in counts.items() if count >= 5}
        for group, count in sorted(counts.items(), key=lambda g: (-g[1], sorted(g[0]))):
            if not any(group < other for other in counts):
                yield f"crates/{crate}: {count} functions: {', '.join(sorted(name for name, _ in group))}"


def point_6(name, text):
    for fn, line, head, body in functions(text):
        for buffer, length in re.findall(r"(\w+): &\[\w+(?:; \w+)?\],[^)]*?\b(count|length|size|len|used): usize", head):
            yield line, f"{fn}: {buffer} with {length}"


def point_7(name, text):
    for fn, line, head, body in functions(text):
        flags = re.findall(r"(\w+): (?:bool|Group|Stage|Kind|Course)\b", head[head.find("("):])
        for flag in flags:
            arms = re.search(rf"(?:if {flag} \{{|match {flag} \{{)", body)
            if arms and len(re.findall(r"\w+\(", body)) >= 2 and len(body) < 400:
                yield line, f"{fn}: by {flag}"


def twins(files):
    groups = defaultdict(list)
    for name, text in files:
        for fn, line, head, body in functions(text):
            plain = bare(body)
            if len(plain) > 90 and "/cases_" not in name:
                groups[shape(plain)].append((name, line, fn))
    for places in sorted(groups.values()):
        if len(places) > 1 and len({fn for _, _, fn in places}) > 1 or len(places) > 2:
            yield from places


def main():
    if len(sys.argv) not in (2, 3) or sys.argv[1] not in "1234567":
        sys.exit(__doc__)
    files = list(sources(sys.argv[2] if len(sys.argv) == 3 else None))
    count = 0
    if sys.argv[1] in "25":
        for place in twins(files) if sys.argv[1] == "2" else groups(files):
            print(place if isinstance(place, str) else "{}:{}: {}".format(*place))
            count += 1
    else:
        point = globals()[f"point_{sys.argv[1]}"]
        for name, text in files:
            for at, words in sorted(point(name, text)):
                line = at if sys.argv[1] in "67" or words.split(":")[0].isidentifier() and " past the last" in words else line_at(text, at)
                print(f"{name}:{line}: {words}")
                count += 1
    print(f"{count} places")


main()
