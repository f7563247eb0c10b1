#!/usr/bin/env python3
"""tests/wrong_definitions.py [--apply | --table | --agree] [NAME..]: wrong definitions, with the code changed alike.

Each tests/wrong_definitions/NAME.change breaks one rule of document 01 in a definition and in the code, so that the
code can keep its contract. Nothing in the crate itself notices that; each `refused by:` line names what must:

  theorem CRATE NAME   a theorem about the definitions, stated in crates/CRATE/proofs, is no longer proved. It is
                       checked over the changed definitions alone: no function, no theorem but those that it cites
  cases_X              the changed code, run unproved, writes something else than crates/cases_X/stdout
  comparison           the changed crates are proved, and the library differs from the Rust model (needs out/)

Without a mode each is tried, and a line says where it was refused; first the same is tried with no change, which must
pass. --apply says whether every change still applies, and whether docs/WRONG.md has its row: quick, for the gate.
--table prints those rows. --agree proves the changed crates with each change (needs out/): definition and code
agree, or the crate's own proofs refuse them too. All work on a copy of the tree. Without a name: all of them."""
import re
import shutil
import sys
import tempfile
import time
from pathlib import Path

CHANGES = Path(__file__).resolve().with_suffix("")
sys.dont_write_bytecode = True
sys.path.insert(0, str(CHANGES))
from judges import FORMS, ROOT, Bad, Judges, dependencies, stated  # noqa: E402


class Change:
    """One file: the rule that it breaks, the replacements in it, and what must refuse it."""

    def __init__(self, path):
        self.name, self.rule, self.edits, self.refusals = path.stem, [], [], []
        crate = file = word = None
        for line in path.read_text().removesuffix("\n").split("\n"):
            before, (word, _, rest) = word, line.partition(":")
            rest = rest.removeprefix(" ")
            if line.startswith("#"):
                self.rule.append(line.removeprefix("#").strip())
            elif word == "crate":
                crate, file = rest, None
            elif word == "file":
                file = rest
            # old and new may take several lines, each with its word
            elif word == "old" and before == "old":
                self.edits[-1][2] += "\n" + rest
            elif word == "old":
                self.edits.append([crate, file, rest, None])
            elif word == "new" and before == "new":
                self.edits[-1][3] += "\n" + rest
            elif word == "new" and before == "old":
                self.edits[-1][3] = rest
            elif word == "refused by":
                self.refusals.append(tuple(rest.split()))
            elif line:
                raise Bad(f"not understood: {line}")
        self.whole()

    def whole(self):
        if not self.rule or not self.edits or not self.refusals:
            raise Bad("a rule, a change and what refuses it are needed")
        if any(not crate or not file or new is None for crate, file, _, new in self.edits):
            raise Bad("crate, file, old and new are needed")
        for word, *rest in self.refusals:
            if FORMS.get(word) != len(rest):
                raise Bad(f"not understood: refused by: {word} {' '.join(rest)}")
            if word == "theorem":
                stated(*rest)
        if not {"specs", "src"} <= {file.partition("/")[0] for _, file, _, _ in self.edits}:
            raise Bad("a definition (specs/) and code (src/) are changed together")

    def crates(self):
        return {crate for crate, _, _, _ in self.edits}

    def applied(self, root):
        """The texts of the changed files, each old text having stood in its file exactly once; nothing is written."""
        texts = {}
        for crate, file, old, new in self.edits:
            path = root / "crates" / crate / file
            if not path.is_file():
                raise Bad(f"no file crates/{crate}/{file}")
            text = texts.get(path) or path.read_text()
            if text.count(old) != 1 or old == new:
                raise Bad(f"{text.count(old)} times in crates/{crate}/{file}, or changed to itself: {old.strip()}")
            texts[path] = text.replace(old, new)
        return texts

    def row(self):
        """Its row of the table in docs/WRONG.md."""
        by = [f"`{rest[1]}` of `{rest[0]}`" if rest else f"`{word}`" for word, *rest in self.refusals]
        return f"| `{self.name}` | {' '.join(self.rule)} | {', '.join(by)} |"


def read(names):
    """The changes by what they change, lowest crate first; how many are no good."""
    paths = {path.stem: path for path in sorted(CHANGES.glob("*.change"))}
    changes, bad = [], 0
    for name in names or paths:
        try:
            if name not in paths:
                raise Bad("no such wrong definition")
            change = Change(paths[name])
            change.applied(ROOT)
            changes.append(change)
        except Bad as fault:
            bad += 1
            print(f"{name}: {fault}")
    order = list(dependencies())
    return sorted(changes, key=lambda change: (min(map(order.index, change.crates())), change.name)), bad


def unlisted(changes):
    """Says which changes have no row in docs/WRONG.md, and which rows have no change; how many."""
    text = (ROOT / "docs" / "WRONG.md").read_text()
    there, wanted = set(re.findall(r"^\| `.*\|$", text, re.M)), {change.row() for change in changes}
    for row in sorted(there ^ wanted):
        print(f"docs/WRONG.md {'has' if row in there else 'lacks'} the row {row}")
    return len(there ^ wanted)


def tried(judges, change):
    """Whether all that must refuse a change do; says where."""
    began, places = time.time(), []
    for refusal in change.refusals:
        place = judges.judge(refusal)
        if place is None:
            print(f"{change.name}: NOT REFUSED by {' '.join(refusal)}", flush=True)
            return False
        places.append(place)
    print(f"{change.name}: refused by {'; '.join(places)} ({time.time() - began:.0f} s)", flush=True)
    return True


def agrees(judges, change):
    began = time.time()
    print(f"{change.name}: {judges.agreement(change.crates())} ({time.time() - began:.0f} s)", flush=True)
    return True


def each(changes, judges, what):
    """What is asked of each change, applied; how many did not meet it, and how many could not be judged."""
    passed = unjudged = 0
    for change in changes:
        judges.tree.apply(change.applied(ROOT))
        try:
            passed += not what(judges, change)
        except Bad as fault:
            unjudged += 1
            print(f"{change.name}: NOT JUDGED: {fault}", flush=True)
        finally:
            judges.tree.restore()
    return passed, unjudged


def main():
    modes = [word for word in sys.argv[1:] if word.startswith("-")]
    names = [word for word in sys.argv[1:] if not word.startswith("-")]
    if modes not in ([], ["--apply"], ["--table"], ["--agree"]):
        sys.exit(__doc__)
    changes, bad = read(names)
    count = len(changes) + bad
    if modes == ["--table"]:
        print("\n".join(change.row() for change in changes))
        return bad > 0
    if modes == ["--apply"] or bad:
        missing = 0 if names or bad else unlisted(changes)
        print(f"{count} wrong definitions, {bad} do not apply")
        return bad + missing > 0 or not count
    work = Path(tempfile.mkdtemp())
    try:
        judges = Judges(work)
        if modes == ["--agree"]:
            _, unjudged = each(changes, judges, agrees)
            print(f"{count} wrong definitions, {unjudged} not judged")
            return unjudged > 0
        judges.control({refusal for change in changes for refusal in change.refusals})
        passed, unjudged = each(changes, judges, tried)
    except Bad as fault:
        sys.exit(str(fault))
    finally:
        shutil.rmtree(work, ignore_errors=True)
    others = f", {unjudged} not judged" if unjudged else ""
    print(f"{count} wrong definitions, {count - passed - unjudged} refused, {passed} passed{others}")
    return passed + unjudged > 0


if __name__ == "__main__":
    sys.exit(main())
