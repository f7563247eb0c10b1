#!/usr/bin/env python3
"""Every wrong version, those outside the gate too, must still apply: its file exists and each old text stands in it
exactly once. The gate's own tries would notice it only of the edits that it tries."""
import sys
from pathlib import Path

ROOT = Path(__file__).resolve().parent.parent


class Fault(Exception):
    """Why a wrong version does not apply."""


def changed(text, old, new):
    if text.count(old) != 1:
        raise Fault(f"{text.count(old)} times in the file: {old.strip()}")
    if old == new:
        raise Fault(f"changes nothing: {old.strip()}")
    return text.replace(old, new)


def applied(edit):
    """The files that the edit changes, by their paths below the root, with their new text."""
    crate = ROOT / "crates" / edit.relative_to(ROOT / "crates").parts[0]
    files, path, old = {}, None, None
    for line in edit.read_text().split("\n"):
        if line.startswith("file: "):
            path = (crate / line[len("file: "):]).relative_to(ROOT)
            if not (ROOT / path).is_file():
                raise Fault(f"no file {path}")
            files.setdefault(path, (ROOT / path).read_text())
        elif line.startswith("old: "):
            old = line[len("old: "):]
        elif line.startswith("new:"):
            if path is None or old is None:
                raise Fault("new without file and old before it")
            files[path] = changed(files[path], old, line[len("new:"):].removeprefix(" "))
    if old is None:
        raise Fault("no line is changed")
    return files


def fault(edit):
    try:
        applied(edit)
    except Fault as why:
        return str(why)
    return None


def edits_of(crate):
    """Its wrong versions, those that the gate tries (right in must-fail/) and the others."""
    return sorted(path for path in crate.rglob("*.edit") if path.relative_to(crate).parts[0] != "out")


def main():
    edits = [edit for crate in sorted((ROOT / "crates").iterdir()) for edit in edits_of(crate)]
    bad = [(edit, why) for edit in edits if (why := fault(edit))]
    for edit, why in bad:
        print(f"{edit.relative_to(ROOT)}: {why}")
    print(f"{len(edits)} wrong versions, {len(bad)} do not apply")
    return 1 if bad or not edits else 0


if __name__ == "__main__":
    sys.exit(main())
