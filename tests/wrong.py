#!/usr/bin/env python3
"""tests/wrong.py [CRATE..]: tries every wrong version of the crates, those that the gate leaves out too
(those not right in must-fail/), with `rt must-fail` on a copy of the tree where all stand right in must-fail/: some seconds
each, over what `rt check` kept in out/. The prover must refuse each because a fact fails. What was tried before and
stands on nothing that changed is not tried again. The last line counts."""
import re
import shutil
import subprocess
import sys
import tempfile
from pathlib import Path

from edits_apply import ROOT, edits_of

TRIED = re.compile(r"^(?:rt: )?must-fail (\S+\.edit): "
                   r"(refused, as it must be \(only|refused|NOT REFUSED|BAD EDIT|NOT TRIED)")
# the proof's file names what the edit took away: that says nothing of the contract
NAME_ALONE = "refused, as it must be (only"


def copy_of_tree(where):
    """The tree with every edit in the gate's place; how many edits each crate has."""
    for part in ("crates", "crates.txt", "HANDLES"):
        source = ROOT / part
        if source.is_dir():
            shutil.copytree(source, where / part, symlinks=True)
        elif source.exists():
            shutil.copy(source, where / part)
    counts = {}
    for crate in sorted((where / "crates").iterdir()):
        edits, place = edits_of(crate), crate / "must-fail"
        texts = {edit.name: edit.read_bytes() for edit in edits}
        if len(texts) != len(edits):
            sys.exit(f"two wrong versions of {crate.name} have one name")
        shutil.rmtree(place, ignore_errors=True)
        if edits:
            place.mkdir()
            counts[crate.name] = len(edits)
        for name, text in texts.items():
            (place / name).write_bytes(text)
    return counts


def main():
    with tempfile.TemporaryDirectory() as place:
        counts = copy_of_tree(Path(place))
        names = sys.argv[1:] or list(counts)
        words = {"stdout": subprocess.PIPE, "stderr": subprocess.STDOUT, "text": True, "errors": "replace"}
        answers = {}
        with subprocess.Popen(["rt", "must-fail", *names], cwd=place, **words) as tries:
            for line in tries.stdout:
                print(line, end="", flush=True)
                if found := TRIED.match(line):
                    answers[found[1]] = found[2]
    said = list(answers.values())
    count, refused, by_name = sum(counts.get(name, 0) for name in names), said.count("refused"), said.count(NAME_ALONE)
    other = count - refused - by_name
    print(f"{count} wrong versions, {refused} refused, {by_name} refused for a name alone, {other} not refused")
    return 1 if other or not count else 0


sys.exit(main())
