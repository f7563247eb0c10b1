#!/usr/bin/env python3
"""Brings names of definitions, theorems and lemmas in pages and comments to today's spelling.

usage: tools/names.py [--dry] [--old COMMIT]     at the top of the checkout, after port.py, tools/spell.py, tools/edits.py

The words are those that tools/edits.py learns: what stands now for each word of the crates at COMMIT. Only words that
specs/, proofs/ or a clause then declared or used are turned: in the pages inside `..`, and a word with a capital inside
it (levelsAfter) outside too; in scripts and Rust only in comments. A word that is also a name of src/ stays, as do
fenced lines, the pages of BUT, strings, stored outputs, examples and inputs.
"""
import argparse
import re
import sys

import edits

PAGES = ["README.md", *sorted(str(path.relative_to(edits.ROOT)) for path in (edits.ROOT / "docs").rglob("*.md"))]
CODE = [str(path.relative_to(edits.ROOT)) for folder, ends in (("rust", ".rs"), ("judges", ".py"), ("tests", ".py"),
        ("tests", ".sh"), ("tests", ".c"), ("tests", ".awk"), ("include", ".h"))
        for path in sorted((edits.ROOT / folder).rglob("*" + ends)) if "target" not in path.parts]
CHANGES = sorted(str(path.relative_to(edits.ROOT)) for path in (edits.ROOT / "tests").rglob("*.change"))
EDITS = sorted(str(path.relative_to(edits.ROOT)) for path in (edits.ROOT / "crates").glob("*/**/*.edit") if "out" not in path.parts)
BUT = {"docs/PORT.md"}

COMMENT = {".rs": r"//.*", ".c": r"//.*|/\*.*\*/", ".h": r"//.*|/\*.*\*/", ".py": r"#.*|\"\"\".*", ".sh": r"#.*", ".awk": r"#.*"}
HUMP = re.compile(r"[a-z0-9][A-Z]")


def code_names():
    """Names that src/ declares, which keep their spelling."""
    found = set()
    for path in (edits.ROOT / "crates").glob("*/src/**/*.rt"):
        found.update(re.findall(r"\b(?:fn|struct|enum|const|mod) (\w+)", path.read_text()))
    return found


def plan(commit):
    words, own = edits.learn(commit), code_names()
    return {old: new for old, new in words.items() if old not in own and ("-" in old or "'" in new or HUMP.search(old))}


def turned(text, words, only_humps=False):
    def one(m):
        word = m[0]
        return words.get(word, word) if not only_humps or ("-" not in word and HUMP.search(word)) else word

    return edits.WORD.sub(one, text)


def page(text, words):
    out, fenced = [], False
    for line in text.split("\n"):
        fenced ^= line.startswith("```")
        if fenced or line.startswith("    "):
            out.append(line)
            continue
        parts = re.split(r"(`[^`]*`)", line)
        out.append("".join(turned(part, words, only_humps=n % 2 == 0) for n, part in enumerate(parts)))
    return "\n".join(out)


def comments(text, words, form):
    return re.sub(form, lambda m: turned(m[0], words, only_humps=True), text)


def main():
    parser = argparse.ArgumentParser(description=__doc__, formatter_class=argparse.RawDescriptionHelpFormatter)
    parser.add_argument("--dry", action="store_true")
    parser.add_argument("--old", default=edits.OLD)
    asked = parser.parse_args()
    words, count = plan(asked.old), 0
    for path in [*PAGES, *CODE, *CHANGES, *EDITS]:
        if path in BUT:
            continue
        file = edits.ROOT / path
        text = file.read_text()
        if path.endswith(".md"):
            new = page(text, words)
        elif path.endswith((".change", ".edit")):
            new = comments(text, words, r"(?m)^#.*")
        else:
            new = comments(text, words, COMMENT[file.suffix])
        if new == text:
            continue
        count += 1
        for old_line, new_line in zip(text.split("\n"), new.split("\n")):
            if old_line != new_line:
                was, now = edits.WORD.findall(old_line), edits.WORD.findall(new_line)
                print(f"{path}: " + ", ".join(f"{a} -> {b}" for a, b in zip(was, now) if a != b))
        if not asked.dry:
            file.write_text(new)
    print(f"{count} files")
    return 0


if __name__ == "__main__":
    sys.exit(main())
