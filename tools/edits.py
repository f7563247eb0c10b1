#!/usr/bin/env python3
"""Brings the wrong versions to the present text of the files that they change: the edits of crates/ (*.edit) and the
wrong definitions (tests/wrong_definitions/*.change).

usage: tools/edits.py [--dry] [--words] [--old COMMIT] [NAME..]    NAME: a part of a path, for those alone

The kit's port.py turns no edit. Each is read as it was at COMMIT (the last one in the old spelling), with the file that
it changes then and now. Its old text and its new one are turned by the same rules, which are those of port.py as far as
an edit needs them (clauses, borrows, projections, paths, operators), and by the words that changed, which are learned
from all files of the crates then and now (--words prints them). Code outside clauses stays as it is. An edit's turned
old text must stand on the line that the old line became, by an alignment of the file then and now, and once in the file;
a wrong definition's once in the file. Else it is named ("by hand") and left as it is. An import that now stands in a line
with others gets the names that the change adds, or loses the one that it takes away; a name that only the change uses,
and the file therefore no longer imports (rt tidy), is imported in the change. A word of a new text that its file
has nowhere is named ("look"): it must be in scope by a path or a field. So the script can be run again whenever the
present text has changed. BY_HAND names what was written by hand, which it never writes.
"""
import argparse
import difflib
import functools
import re
import subprocess
import sys
from collections import Counter
from pathlib import Path

ROOT = Path(__file__).resolve().parent.parent
OLD = "955d66688288ed227d3566bf788b7eb5d3b6d9b6"

BY_HAND = set()

WORD = re.compile(r"«[^»]*»|[\w'\u2032\u2080-\u209f]+(?:-[\w'\u2032\u2080-\u209f]+)*")
TOKEN = re.compile(WORD.pattern + r"|\s+|\S")
SIGNATURE = re.compile(r"\bfn (\w+)")


# ---- the tree then


@functools.cache
def batch():
    return subprocess.Popen(["git", "cat-file", "--batch"], cwd=ROOT, stdin=subprocess.PIPE, stdout=subprocess.PIPE)


@functools.cache
def then(commit, path):
    """The text of a file at a commit, or None."""
    git = batch()
    git.stdin.write(f"{commit}:{path}\n".encode())
    git.stdin.flush()
    head = git.stdout.readline().split()
    if head[-1] == b"missing":
        return None
    text = git.stdout.read(int(head[2])).decode()
    git.stdout.read(1)
    return text


@functools.cache
def now(path):
    place = ROOT / path
    return place.read_text() if place.is_file() else None


def listed(commit):
    out = subprocess.run(["git", "ls-tree", "-r", "--name-only", "-z", commit, "crates", "tests"], cwd=ROOT, capture_output=True,
                         text=True, check=True)
    return [path for path in out.stdout.split("\0") if path]


# ---- lines and words that belong together


SHAPE = re.compile(r"[()⌜⌝«»{}]|\bλ r\.|\bnow\b|\.(?:entry|exit|old|new|now)\b")


def key(line, words):
    """What of a line is the same in both spellings, so far as it can be said without the rules."""
    line = SHAPE.sub(" ", line)
    return " ".join(words.get(m, m).lower().replace("-", "_") for m in re.findall(WORD.pattern + r"|[^\s.,◌_]", line))


@functools.cache
def aligned(commit, path, learned=()):
    """For each line of the file then, the number of the line now that it became, or None."""
    words = dict(learned)
    a, b = then(commit, path).split("\n"), (now(path) or "").split("\n")
    ka, kb = [key(line, words) for line in a], [key(line, {}) for line in b]
    to = [None] * len(a)
    for tag, i, j, k, m in difflib.SequenceMatcher(None, ka, kb, autojunk=False).get_opcodes():
        if tag == "equal":
            to[i:j] = range(k, m)
        elif tag == "replace":
            place = k
            for line in range(i, j):
                scored = [(difflib.SequenceMatcher(None, ka[line], kb[n], autojunk=False).ratio(), -n)
                          for n in range(place, m)] if ka[line] else []
                score, n = max(scored, default=(0, 0))
                if score > 0.6:
                    to[line], place = -n, -n + 1
    return to


def learn(commit):
    """The words that became others: by most of the places where one stands for the other, on lines of equal form."""
    seen = {}
    for path in listed(commit):
        if not path.endswith((".antt", ".rt")) or now(path) is None:
            continue
        a, b = then(commit, path).split("\n"), now(path).split("\n")
        for line, to in enumerate(aligned(commit, path)):
            if to is None or a[line].strip().startswith(("//", "--")):
                continue
            wa, wb = WORD.findall(SHAPE.sub(" ", a[line])), WORD.findall(SHAPE.sub(" ", b[to]))
            if len(wa) == len(wb) and wa:
                for x, y in zip(wa, wb):
                    seen.setdefault(x, Counter())[y] += 1
    words = {}
    for x, ys in seen.items():
        y, count = ys.most_common(1)[0]
        if y != x and count > ys[x] and count * 2 > sum(ys.values()) and same(x, y):
            words[x] = y
    return words


def same(x, y):
    """Whether two words are spellings of one: what else stands in a word's place is a change of the proofs. Of std's
    words only getD has another name now."""
    x, y = (re.sub(r"[-_'\u2032]", "", word).lower() for word in (x, y))
    return x.replace("getd", "getor") == y


# names that stand in wrong versions alone, of the kit or their own
STD = {"and-zero-r": "and_zero_r", "startSeen": "start_seen"}

# ---- the rules


def parameters(text, line):
    """Of the function whose clause stands on a line: its parameters that are borrowed to be changed, and the others."""
    lines = text.split("\n")
    start = max((n for n in range(line + 1) if SIGNATURE.search(lines[n])), default=None)
    if start is None:
        return set(), set()
    head = "\n".join(lines[start:]).split("{")[0]
    head = head[head.find("("):]
    lent, shared = set(), set()
    for name, kind in re.findall(r"(\w+): ([^,)\n]+)", head):
        (lent if kind.startswith("&mut") else shared if kind.startswith("&") else set()).add(name)
    if "&mut self" in head:
        lent.add("self")
    elif "&self" in head:
        shared.add("self")
    return lent, shared


def borrows(text, lent):
    def one(m):
        name, which = m[1].strip("«»"), m[2]
        return f"{name}.{('old' if which == 'entry' else 'new') if name in lent else 'now'}"

    text = re.sub(r"\(now \(([\w«»']+) \.(entry|exit)\)\)", one, text)
    return re.sub(r"\bnow \(([\w«»']+) \.(entry|exit)\)", one, text)


BREAKS = {"=", ";", ",", "∷", "+", "-", "*", "/", "%", "^", "≡", "≤", "<", "→", "×", "∙", "λ", ".", ":", "|", "&", "{", "}",
          "let", "in", "record", "$"}


def atoms(text):
    """The atoms of a text from the left: words, groups in brackets, operators; with where each stands."""
    found, i = [], 0
    while i < len(text):
        if text[i] == "(":
            deep, j = 1, i + 1
            while j < len(text) and deep:
                deep += (text[j] == "(") - (text[j] == ")")
                j += 1
            if deep:
                found.append((i, i + 1, "open"))
                i += 1
                continue
            while (m := re.match(r"\.[\w']+", text[j:])):
                j += m.end()
            found.append((i, j, "atom"))
            i = j
        elif (m := re.match(WORD.pattern, text[i:])):
            j = i + m.end()
            while (m := re.match(r"\.[\w']+", text[j:])):
                j += m.end()
            found.append((i, j, "break" if text[i:j] in BREAKS else "atom"))
            i = j
        else:
            if not text[i].isspace():
                found.append((i, i + 1, "break"))
            i += 1
    return found


def projections(text):
    """`x .f` is `x.f`, and `g x .f` is `(g x).f`."""
    while (m := re.search(r"(?<=[\w')]) \.([a-z\d][\w']*)", text)):
        before = text[: m.start()]
        # within an open bracket only what is inside counts
        deep, start = 0, len(before)
        while start and not (before[start - 1] == "(" and deep == 0):
            start -= 1
            deep += (before[start] == ")") - (before[start] == "(")
        inside = before[start:]
        run = []
        for i, j, kind in reversed(atoms(inside)):
            if kind != "atom":
                break
            run.insert(0, (i, j))
        first = start + run[0][0]
        head = before[first:]
        if len(run) == 1:
            word, whole = head, first > 0 and text[first - 1] == "(" and text[m.end(): m.end() + 1] == ")"
            made = f"{word}.{m[1]}"
            text = text[: first - whole] + made + text[m.end() + whole:]
        else:
            whole = first > 0 and text[first - 1] == "(" and text[m.end(): m.end() + 1] == ")"
            text = text[: first - whole] + f"({head}).{m[1]}" + text[m.end() + whole:]
    return text


def turned(text, words, ghost, lent=()):
    """A text of specs/, proofs/ or a clause in today's spelling; code only as its words in strings stay."""
    if not ghost:
        return text
    text = borrows(text, lent)
    text = re.sub(r"Rattle·(\w+)(?:·specs\.specs|·proofs\.proofs|\.specs|\.proofs)\.",
                  lambda m: f"Rattle.{m[1]}.{'proofs' if 'proofs' in m[0] else 'specs'}.", text)
    text = re.sub(r"(?<=[{ ])_([^\w\s,}]+)_(?=[,}])", r"◌\1◌", text)
    text = text.replace("Bool·beq", "beq")
    text = re.sub(r"λ r\. (?=⌜)", "", text)
    text = re.sub(r"⌜ | ⌝", "", text)
    parts = re.split(r'("(?:\\.|[^"\\])*")', text)
    return "".join(p if i % 2 else projections(spelled(p, words)) for i, p in enumerate(parts))


def spelled(text, words):
    return WORD.sub(lambda m: words.get(m[0], m[0]), text)


def ghosts(text):
    """Of Rattle code: which lines are imports for clauses, clauses or ghost items."""
    inside, deep, found = False, 0, []
    for line in text.split("\n"):
        if not inside and re.match(r"\s*(pub )?(ghost|requires|ensures)\b", line):
            inside, deep = True, 0
        found.append(inside)
        if inside:
            deep += line.count("{") - line.count("}")
            inside = deep > 0
    return found


# ---- an edit

CLAUSE = re.compile(r"\b(?:requires|ensures) \{[^{}]*\}")


class ByHand(Exception):
    pass


GHOST_USE = re.compile(r"^((?:ghost )?use [\w·.]+\.\{)([^}]*)\}(;?)$")
CODE_USE = re.compile(r"^use ([\w:]+)::(\w+);$")


def added(head, items, more):
    """A line's head with its first name, and with more names before that."""
    first = items.split(",")[0]
    return head + first, head + ", ".join([*more, first])


# std's names for specs/ that Prelude doesn't pass on, and where an import of this repository has them
PRELUDE = "use Rattle.std.specs.Prelude."
ELSEWHERE = {"beq": "Rattle.std.specs.Bool", "zip_with": "mathlib.Core.List", "bool_byte": "mir.Val"}


def names(items, words):
    """The names of an import in today's spelling; an operator by itself is no case of the rule for imports."""
    items = [re.sub(r"^_(.+)_$", r"◌\1◌", item.strip()) for item in items.split(",")]
    return [spelled(item.replace("Bool·beq", "beq"), words) for item in items]


def merged(after, old, new, words):
    """Of a changed import, which stands now in a line with others of its module: the head of that line with the names
    that the change adds; or that line without the name that the change declares in its place. Further imports of the
    new text stand before it, those of std in one line."""
    lines = after.split("\n")
    if (was := GHOST_USE.match(old)):
        here, more, other = names(was[2], words), [], []
        for line in new.split("\n"):
            if not (to := GHOST_USE.match(line)):
                return None
            if to[1] == was[1]:
                if not set(here) <= set(names(to[2], words)):
                    return None
            elif "Rattle·" in to[1] or not any(line.split("{")[0].endswith(PRELUDE) for line in lines):
                other.append(turned(line, words, True))
                continue
            more += [name for name in names(to[2], words) if name not in here]
        imports = [m for line in lines if (m := GHOST_USE.match(line))]
        there = [m for m in imports if set(here) <= set(names(m[2], {}))] or [m for m in imports if m[1].endswith(PRELUDE + "{")]
        if len(there) != 1 or after.count(there[0][1]) != 1:
            return None
        imported = {name for m in imports for name in names(m[2], {})}
        more = [name for name in more if name not in imported]
        prelude = there[0][1].endswith(PRELUDE + "{")
        ghost = "ghost " if old.startswith("ghost") else ""
        for name in [name for name in more if prelude and name in ELSEWHERE]:
            more.remove(name)
            other.append(f"{ghost}use {ELSEWHERE[name]}.{{{name}}}{was[3]}")
        old2, new2 = added(there[0][1], there[0][2], more)
        return old2, "\n".join([*other, new2])
    if (was := CODE_USE.match(old)):
        head = f"use {was[1]}::{{"
        line = [line for line in lines if line.startswith(head) and line.endswith("};")]
        items = re.findall(r"\w+", line[0][len(head):]) if len(line) == 1 else []
        if was[2] in items and after.count(head) == 1:
            if new.startswith(old + " ") and (more := CODE_USE.match(new[len(old) + 1:])) and more[1] == was[1]:
                return added(head, line[0][len(head):-2], [more[2]])
            if re.match(rf"const {was[2]}: .*;$", new):
                return line[0], head + ", ".join(item for item in items if item != was[2]) + "}; " + new
    return None


def carried(commit, path, old, new, words, learned):
    """The old text and the new one as they must be now."""
    before, after = then(commit, path), now(path)
    if after is None:
        raise ByHand(f"no file {path}")
    if before.count(old) != 1:
        raise ByHand(f"stood {before.count(old)} times: {old}")
    if (GHOST_USE.match(old) or CODE_USE.match(old)) and after.count(old) != 1:
        if (both := merged(after, old, new, words)):
            return both
    line = before[: before.index(old)].count("\n")
    to = aligned(commit, path, learned)[line]
    code = path.endswith(".rt")
    ghost = not code or ghosts(before)[line]
    lent, _ = parameters(before, line) if code and ghost else ((), ())
    here = dict(words)
    if code and ghost:
        here["r"] = "result"
    old2, new2 = turned(old, here, ghost, lent), turned(new, here, ghost, lent)
    if code and not ghost:
        new2 = CLAUSE.sub(lambda m: turned(m[0], words | {"r": "result"}, True), new2)
    if to is None:
        raise ByHand(f"its line is not found again: {old}")
    if after.split("\n")[to].count(old2) != 1 or after.count(old2) != 1:
        raise ByHand(f"not on its line: {old2}\n      the line is: {after.split(chr(10))[to]}")
    return old2, new2


def edited(commit, path, words, learned):
    """An edit's present text."""
    crate = path.split("/")[1]
    out, file, old = [], None, None
    for line in then(commit, path).split("\n"):
        if line.startswith("file: "):
            file = f"crates/{crate}/{line[len('file: '):]}"
        elif line.startswith("old: "):
            old = line[len("old: "):]
            continue
        elif line.startswith("new:"):
            new = line[len("new:"):].removeprefix(" ")
            old2, new2 = carried(commit, file, old, new, words, learned)
            out.append("old: " + old2)
            line = ("new: " + new2) if new2 else "new:"
        out.append(line)
    return "\n".join(out)


def block(commit, path, old, new, words, learned):
    """The same of texts of several lines, each line by itself."""
    before, after = then(commit, path), now(path)
    if after is None:
        raise ByHand(f"no file {path}")
    if before.count(old) != 1:
        raise ByHand(f"stood {before.count(old)} times: {old}")
    if (GHOST_USE.match(old) or CODE_USE.match(old)) and after.count(old) != 1:
        if (both := merged(after, old, new, words)):
            return both
    first, code = before[: before.index(old)].count("\n"), path.endswith(".rt")
    inside = ghosts(before) if code else None
    lent, _ = parameters(before, first) if code else ((), ())

    def line_now(line, ghost):
        if code and not ghost:
            return CLAUSE.sub(lambda m: turned(m[0], words | {"r": "result"}, True), line)
        return turned(line, words | {"r": "result"} if code else words, ghost, lent)

    old2 = "\n".join(line_now(line, not code or inside[first + n]) for n, line in enumerate(old.split("\n")))
    ghost = not code or inside[first]
    clause = [ghost or bool(re.match(r"\s*(ghost use|requires|ensures)\b", line)) for line in new.split("\n")]
    new2 = "\n".join(line_now(line, ghost) for line, ghost in zip(new.split("\n"), clause))
    if after.count(old2) != 1:
        raise ByHand(f"{after.count(old2)} times now:\n      " + old2.replace("\n", "\n      "))
    return old2, new2


def changed(commit, path, words, learned):
    """A wrong definition's present text (tests/wrong_definitions/*.change)."""
    out, crate, file, old, new, word = [], None, None, None, None, None

    blank = "new:" if "\nnew:\n" in then(commit, path) else "new: "

    def put():
        place = ROOT / "crates" / str(crate) / str(file)
        if re.fullmatch(r"proofs/.*/Proof\.antt", str(file)) and not place.is_file():
            # a function's own proof, which is found or written otherwise now: what judges a change reads none
            if out[-1] == f"file: {file}":
                print(f"look: {path}: {file} is gone, and what the change did there")
                out.pop()
        elif old is not None:
            old2, new2 = block(commit, f"crates/{crate}/{file}", "\n".join(old), "\n".join(new), words, learned)
            out.extend(f"old: {line}" for line in old2.split("\n"))
            out.extend(f"new: {line}" if line else blank for line in new2.split("\n"))

    for line in then(commit, path).split("\n"):
        before, (word, _, rest) = word, line.partition(":")
        rest = rest.removeprefix(" ")
        if word == "old" and before != "old":
            put()
            old, new = [rest], []
        elif word == "old":
            old.append(rest)
        elif word == "new" and not line.startswith("#"):
            new.append(rest)
        else:
            put()
            old = new = None
            crate = rest if word == "crate" else crate
            file = rest if word == "file" else file
            if word == "refused by" and rest.startswith("theorem "):
                name = rest.split()[2]
                line = line.removesuffix(name) + (words.get(name, name) if not stated(rest.split()[1], name) else name)
            out.append(line)
    return "\n".join(out)


def imported(text, words=None):
    """The names that a file imports for clauses, as it calls them, each with its import up to the bracket."""
    found = {}
    for line in text.split("\n"):
        if (m := GHOST_USE.match(line)):
            head = m[1] if words is None else turned(m[1] + "}", words, True)[:-1]
            found |= {name.split(" as ")[-1]: head for name in names(m[2], words or {})}
    return found


def used(name, text):
    sign = re.fullmatch("◌(.+)◌", name)
    if sign:
        return re.search(r"(?<=[ )])" + re.escape(sign[1]) + r"(?=[ (])", text)
    return "[]" in text if name == "[]" else name in WORD.findall(text)


def lacking(commit, path, texts, words):
    """The names that new texts use, which the file imported then and, being needed for nothing else, now doesn't: by
    the import up to the bracket where they go."""
    said = "\n".join(text for text in texts if not text.startswith(("use ", "ghost use "))
                     and (path.endswith(".antt") or re.search(r"\b(requires|ensures)\b|≡", text)))
    have = set(imported(now(path)))
    for text in texts:
        if (m := re.match(r"(?:ghost )?use [\w.]+\.\{([^}]*)", text)):
            have |= {name.split(" as ")[-1] for name in names(m[1], {})}
    found = {}
    for name, head in imported(then(commit, path), words).items():
        if name not in have and used(name, said):
            if not re.search(r"use Rattle\.", head):
                ghost = "ghost " if head.startswith("ghost") else ""
                head = f"{ghost}use {ELSEWHERE[name]}.{{" if name in ELSEWHERE else ghost + PRELUDE + "{"
            found.setdefault(head, []).append(name)
    return found


def completed(commit, path, text, words):
    """An edit's text with the imports that its new texts lack."""
    crate, file, lines = path.split("/")[1] if path.endswith(".edit") else None, None, text.rstrip("\n").split("\n")
    groups = {}
    for n, line in enumerate(lines):
        word, _, rest = line.partition(": ")
        crate, file = (rest if word == "crate" else crate), (rest if word == "file" else file)
        if line.startswith("new:"):
            groups.setdefault(f"crates/{crate}/{file}", []).append(n)
    for place, at in reversed(groups.items()):
        news = [lines[n][len("new:"):].removeprefix(" ") for n in at]
        for head, more in lacking(commit, place, news, words).items():
            here = [n for n in at if lines[n].startswith("new: " + head)]
            there = [m for line in now(place).split("\n") if (m := GHOST_USE.match(line)) and m[1] == head]
            if here:
                lines[here[0]] = "new: " + head + ", ".join([*more, lines[here[0]][len("new: " + head):]])
            elif len(there) == 1:
                old2, new2 = added(head, there[0][2], more)
                lines[at[-1]] += f"\nold: {old2}\nnew: {new2}"
            else:
                raise ByHand(f"{place} lacks an import of {', '.join(more)}: {head}")
    return "\n".join(lines) + text[len(text.rstrip("\n")):]


def stated(crate, theorem):
    header = re.compile(rf"^ *(pub )?{re.escape(theorem)} :", re.M)
    return any(header.search(path.read_text()) for path in (ROOT / "crates" / crate / "proofs").glob("*.antt"))


def gone(path, text):
    """Words of new texts that stand neither in their file nor in the crate's definitions nor in std's words."""
    crate = path.split("/")[1]
    file, found = None, []
    old = ""
    for line in text.split("\n"):
        if line.startswith("file: "):
            file = f"crates/{crate}/{line[len('file: '):]}"
        elif line.startswith("old: "):
            old = line
        elif line.startswith("new:"):
            there = set(WORD.findall(now(file) or ""))
            found += [w for w in WORD.findall(line[4:]) if w not in there and not w[0].isdigit() and w not in old]
    return found


def where(path):
    """Where the edit is now: an edit may have moved within its crate."""
    crate = ROOT / "/".join(path.split("/")[:2])
    found = [ROOT / path] if (ROOT / path).is_file() else list(crate.rglob(path.split("/")[-1]))
    if len(found) != 1:
        sys.exit(f"{len(found)} files for {path}")
    return found[0]


def main():
    parser = argparse.ArgumentParser(description=__doc__, formatter_class=argparse.RawDescriptionHelpFormatter)
    parser.add_argument("--dry", action="store_true")
    parser.add_argument("--old", default=OLD)
    parser.add_argument("--words", action="store_true", help="print the words that changed")
    parser.add_argument("names", nargs="*")
    asked = parser.parse_args()
    words = learn(asked.old)
    words |= STD
    learned = tuple(sorted(words.items()))
    if asked.words:
        print("\n".join(f"{x} {y}" for x, y in learned))
        return 0
    count = hand = 0
    for path in listed(asked.old):
        if not re.search(r"/must-fail/.*\.edit$|\.change$", path):
            continue
        if (asked.names and not any(n in path for n in asked.names)) or path.removeprefix("crates/") in BY_HAND:
            continue
        try:
            text = (changed if path.endswith(".change") else edited)(asked.old, path, words, learned)
            text = completed(asked.old, path, text, words)
        except ByHand as why:
            hand += 1
            print(f"by hand: {path}: {why}")
            continue
        if path.endswith(".edit") and (lost := gone(path, text)):
            print(f"look: {path}: its file has no {', '.join(lost)}")
        if text != (place := where(path)).read_text():
            count += 1
            if not asked.dry:
                place.write_text(text)
    print(f"{count} edits written, {hand} by hand")
    return 0


if __name__ == "__main__":
    sys.exit(main())
