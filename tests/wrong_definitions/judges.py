"""What refuses a wrong definition: a theorem over the definitions alone, a stored case, the comparison."""
import os
import re
import shutil
import subprocess
import sys
from pathlib import Path

ROOT = Path(__file__).resolve().parent.parent.parent
SEED = "20261115"

# the words of a `refused by:` line, and how many more each takes
FORMS = {"theorem": 2, "cases_usi": 0, "cases_bus": 0, "cases_arbitration": 0, "comparison": 0}


class Bad(Exception):
    """A change that shows nothing: it does not apply, is not understood, or never came to be judged."""


def run(words, **options):
    out = {"stdout": subprocess.PIPE, "stderr": subprocess.STDOUT, "text": True, "errors": "replace"}
    return subprocess.run([str(word) for word in words], **out, **options)


def dependencies():
    """What each crate of the tree uses, the lines of crates.txt with the lowest crates first."""
    uses, order = {}, {}
    for line in (ROOT / "crates.txt").read_text().split("\n"):
        name, colon, rest = line.partition("#")[0].partition(":")
        if colon:
            uses[name.split()[0]] = rest.split()

    def visit(name):
        if name in uses and name not in order:
            for used in uses[name]:
                visit(used)
            order[name] = uses[name]

    for name in uses:
        visit(name)
    return order


def stated(crate, theorem):
    """The file in which a crate states a theorem."""
    header = re.compile(rf"^ *(pub )?{re.escape(theorem)} :", re.M)
    paths = sorted((ROOT / "crates" / crate / "proofs").glob("*.antt"))
    found = [path for path in paths if header.search(path.read_text())]
    if len(found) != 1:
        raise Bad(f"{len(found)} files of crates/{crate}/proofs state {theorem}")
    return found[0]


class Kit:
    """The compiler and prover that `rt` runs."""

    def __init__(self):
        home = Path(shutil.which("rt") or sys.exit("no rt in PATH")).resolve().parent.parent
        self.prover, rlibs = home / "bin" / "rattle", home / "rlibs"
        self.words = ["--antt-project", home / "rattle" / "logic" / "antt-project.json"]
        self.words += ["--logic-built", home / "logic_built", "--jobs", "1"]
        self.words += [word for name in ("core", "std") for word in ("--extern", f"{name}={rlibs}/{name}.rlib")]
        self.words += ["-L", f"dependency={rlibs}"]

    def check(self, crate, root, more):
        return run([self.prover, "check", "--crate-name", crate, root / "src" / "lib.rt", *self.words, *more])


class Tree:
    """A copy of the crates, where one change at a time is applied."""

    def __init__(self, work):
        self.root, self.uses, self.changed = work / "tree", dependencies(), []
        for part in ("crates", "rust"):
            shutil.copytree(ROOT / part, self.root / part, ignore=shutil.ignore_patterns("target", "out", "must-fail"))
        shutil.copy(ROOT / "crates.txt", self.root)

    def apply(self, texts):
        for path, text in texts.items():
            self.changed.append(path.relative_to(ROOT))
            (self.root / self.changed[-1]).write_text(text)

    def restore(self):
        while self.changed:
            path = self.changed.pop()
            shutil.copy(ROOT / path, self.root / path)

    def reached(self, crate):
        """The crates of the tree that a crate uses, and those that they use, lowest first."""
        found, more = set(), {crate}
        while more:
            more = {used for name in more for used in self.uses[name] if used in self.uses} - found
            found |= more
        return [name for name in self.uses if name in found]


# ---- a theorem over the definitions alone

FUNCTION = re.compile(r'(pub(\(crate\))? )?(extern "C" )?fn |impl |#\[unsafe\(no_mangle\)\]|#\[cycle\(')
SHOWN = re.compile(r"^pub use [^;]*;", re.M)
OUTSIDE = re.compile(r"^((ghost |pub )?use|(pub )?mod) [^;]*;.*\n", re.M)
USE = re.compile(r"^(?:pub )?use ([\w:]+)::(?:(\w+)|\{([^}]*)\});", re.M)
DECLARED = re.compile(r"(?:(?:abbrev|unfoldable) )?(?:pub )?([^\s:]+) :")


def types(text):
    """The types and constants of a crate's root file, which its definitions may name; no function."""
    kept, inside = [], False
    for line in OUTSIDE.sub("", text).split("\n"):
        inside = inside or bool(FUNCTION.match(line))
        if not inside:
            kept.append(line)
        inside = inside and line != "}"
    # a word of a comment names no item
    named = words("\n".join(line.partition("//")[0] for line in kept))
    inner = {"crate", *re.findall(r"^(?:pub )?mod (\w+);", text, re.M)}
    uses = [f"use {path}::{item};" for path, item in imports(text)
            if item in named and (path.partition("::")[0] not in inner or path.startswith("crate") and item[0].isupper())]
    # what speaks of the whole file (#![..]) is for functions
    return "\n".join([*uses, *(line for line in kept if not line.startswith("#!["))])


def imports(text):
    """The items that a file imports, each with the path before it."""
    return [(path, item) for path, one, several in USE.findall(text)
            for item in ([one] if one else re.findall(r"\w+", several))]


def words(text):
    return set(re.findall(r"[\w'-]+", text))


def alone(text, names):
    """A file of theorems with those of such names and what they cite in it; the lines of the others are empty."""
    blocks = []
    for chunk in text.split("\n\n"):
        if blocks and chunk.startswith((" ", "\n")):
            blocks[-1] += "\n\n" + chunk
        else:
            blocks.append(chunk)
    declared = []
    for block in blocks:
        code = [line for line in block.split("\n") if not line.startswith("--")]
        found = DECLARED.match(code[0]) if code else None
        declared.append(found[1] if found else None)
    # what is no single declaration (imports, records, modules) stays
    kept, wanted = {i for i, name in enumerate(declared) if name is None}, set(names)
    while True:
        wanted |= {word for i in kept for word in words(blocks[i])}
        more = {i for i, name in enumerate(declared) if name in wanted} - kept
        if not more:
            break
        kept |= more
    return "\n\n".join(block if i in kept else "\n" * block.count("\n") for i, block in enumerate(blocks))


class Definitions:
    """Crates of definitions: the types, specs/, and of proofs/ what a theorem cites. No code is proved in them."""

    def __init__(self, kit, tree, work):
        self.kit, self.tree, self.root = kit, tree, work / "definitions"

    def cited(self, crate, theorem):
        """A theorem and what it cites, by crate and module: each module's text without the rest."""
        needs = {(crate, stated(crate, theorem).stem): {theorem}}
        while True:
            texts, cites = {}, {}
            for (owner, module), names in needs.items():
                text = (self.tree.root / "crates" / owner / "proofs" / f"{module}.antt").read_text()
                texts[owner, module] = alone(text, names)
            for text in texts.values():
                for other, module in re.findall(r"Rattle\.(\w+)\.proofs\.(\w+)", text):
                    if other in self.tree.uses:
                        cites.setdefault((other, module), set()).update(words(text))
            if all(names <= needs.get(place, set()) for place, names in cites.items()):
                return texts
            for place, names in cites.items():
                needs.setdefault(place, set()).update(names)

    def write(self, crate, texts):
        source, target = self.tree.root / "crates" / crate, self.root / crate
        (target / "src").mkdir(parents=True)
        self.write_types(source / "src", target / "src")
        if (source / "specs").is_dir():
            shutil.copytree(source / "specs", target / "specs")
        modules = {module: text for (owner, module), text in texts.items() if owner == crate}
        if modules:
            (target / "proofs").mkdir()
            (target / "proofs" / "Lib.antt").write_text("".join(f"pub mod {module}\n" for module in sorted(modules)))
        for module, text in modules.items():
            (target / "proofs" / f"{module}.antt").write_text(text)

    def write_types(self, source, target):
        """The types of the root file, and of each module that declares one, which the root file shows as before."""
        root, parts = (source / "lib.rt").read_text(), []
        for path in sorted(source.glob("*.rt")):
            kept = types(path.read_text())
            if path.name == "lib.rt" or not re.search(r"^(pub(\(crate\))? )?(struct|enum) ", kept, re.M):
                continue
            (target / path.name).write_text(kept)
            parts.append(f"mod {path.stem};")
            shown = [item for owner, item in imports("\n".join(SHOWN.findall(root))) if owner == path.stem]
            parts += [f"pub use {path.stem}::{item};" for item in shown if re.search(rf"\b(struct|enum) {item}\b", kept)]
        (target / "lib.rt").write_text("\n".join([*parts, types(root)]))

    def named(self, crate):
        """The crates that what is written of one names, and those that they name, lowest first."""
        text = "".join(path.read_text() for path in (self.root / crate).rglob("*.antt"))
        found = {name for name in re.findall(r"Rattle\.(\w+)\.", text)}
        found |= {path.partition("::")[0] for path, _ in imports((self.root / crate / "src" / "lib.rt").read_text())}
        found &= set(self.tree.uses)
        for name in found - {crate}:
            found = found | set(self.named(name))
        return [name for name in self.tree.reached(crate) if name in found]

    def judge(self, crate, theorem):
        """Where the theorem is refused, or None."""
        shutil.rmtree(self.root, ignore_errors=True)
        texts = self.cited(crate, theorem)
        for name in [*self.tree.reached(crate), crate]:
            self.write(name, texts)
        more = [word for name in self.named(crate) for word in ("--lib", f"{name}={self.root}/{name}/src/lib.rt")]
        said = self.kit.check(crate, self.root / crate, more)
        if said.returncode == 0:
            return None
        # not those that only cite what is refused
        errors = re.findall(r"^(\S+?):(\d+):\d+: error: `([^`]+)`(?!: `[^`]+` was not admitted)", said.stdout, re.M)
        for path, line, name in sorted(errors, key=lambda error: error[2] != theorem):
            place, text = Path(path).relative_to(self.root), Path(path).read_text()
            if name == theorem:
                return f"{theorem} ({place}:{line})"
            # a lemma that the theorem rests on, and not one of the definitions
            definition = re.compile(rf"^ *(abbrev|unfoldable) (pub )?{re.escape(name)} :", re.M)
            if place.parts[1] == "proofs" and not definition.search(text):
                return f"{theorem}, at its lemma {name} ({place}:{line})"
            raise Bad(f"refused, but not at {theorem}: at {name} ({place}:{line})")
        raise Bad("the prover gave no verdict:\n" + said.stdout[-2000:])


# ---- the stored cases, the comparison, and the changed crates themselves


def stored(tree, cases):
    """The first line that the changed program writes otherwise, or None. The interpreter has too few steps for all."""
    folder = tree.root / "crates" / cases
    with (folder / "stdin").open("rb") as given:
        said = subprocess.run(["rt", "try"], cwd=folder, stdin=given, capture_output=True)
    ended = re.search(rb"^run=ended status=(\d+) ", said.stderr, re.M)
    if said.returncode == 4:
        return f"{cases}: a fault"
    if not ended:
        raise Bad("the program was not run:\n" + said.stderr.decode(errors="replace")[-2000:])
    if ended[1] != b"0":
        return f"{cases}: status {ended[1].decode()}"
    wrote, wanted = said.stdout, (folder / "stdout").read_bytes()
    if wrote == wanted:
        return None
    same = len(os.path.commonprefix([wrote, wanted]))
    before = wanted[:same].decode(errors="replace").split("\n")
    heading = next((line for line in reversed(before) if line.startswith("# ")), "# stdout")
    return f"{cases} (stdout:{len(before)}, {heading[2:]})"


class Comparison:
    """The changed library, proved, against the Rust model. What is unchanged is taken from out/ as it is proved."""

    def __init__(self, tree, work):
        self.tree, self.built = tree, work / "cargo"

    def begin(self):
        for crate in [*self.tree.reached("export"), "export"]:
            source, target = (root / "crates" / crate / "out" for root in (ROOT, self.tree.root))
            if not (source / ("incremental" if crate == "export" else "rlib")).is_dir():
                raise Bad(f"no {source.relative_to(ROOT)}: rt lib in crates/export makes it")
            shutil.rmtree(target, ignore_errors=True)
            shutil.copytree(source, target)

    def judge(self):
        self.begin()
        export, linked = self.tree.root / "crates" / "export", self.tree.root / "target" / "staticlib"
        archive = run(["rt", "lib"], cwd=export)
        if archive.returncode != 0:
            raise Bad("the changed library is not proved:\n" + archive.stdout[-2000:])
        linked.mkdir(parents=True, exist_ok=True)
        shutil.copy(export / "out" / "libexport.a", linked)
        compare = "cargo run --quiet --manifest-path rust/Cargo.toml --release -p linked --bin compare -- all"
        built = {**os.environ, "CARGO_TARGET_DIR": str(self.built)}
        said = run([*compare.split(), "--seed", SEED], cwd=self.tree.root, env=built)
        found = re.search(r"^DIFFERENCE in (.*)$", said.stdout, re.M)
        if said.returncode != 0 and not found:
            raise Bad("the comparison was not run:\n" + said.stdout[-2000:])
        return f"comparison ({found[1]})" if found else None


class Judges:
    def __init__(self, work):
        self.kit, self.tree = Kit(), Tree(work)
        self.definitions, self.comparison = Definitions(self.kit, self.tree, work), Comparison(self.tree, work)

    def judge(self, refusal):
        """Where the tree as it stands now is refused by one of them, or None."""
        word, *rest = refusal
        if word == "theorem":
            return self.definitions.judge(*rest)
        return self.comparison.judge() if word == "comparison" else stored(self.tree, word)

    def control(self, refusals):
        """With no change nothing is refused, else a refusal shows nothing. (The gate runs the comparison.)"""
        for refusal in sorted(refusals - {("comparison",)}):
            place = self.judge(refusal)
            if place is not None:
                raise Bad(f"refused with no change: {' '.join(refusal)}: {place}")

    def agreement(self, changed):
        """Proves the changed crates: unchanged ones below as built, those that use a changed one as source."""
        tops = [crate for crate in changed if not any(crate in self.tree.reached(other) for other in changed)]
        for top in sorted(tops):
            more = []
            for name in self.tree.reached(top):
                if changed & {name, *self.tree.reached(name)}:
                    more += ["--lib", f"{name}={self.tree.root}/crates/{name}/src/lib.rt"]
                else:
                    built = ROOT / "crates" / name / "out" / "rlib"
                    more += ["--extern", f"{name}={built}/{name}.rlib", "-L", f"dependency={built}"]
            said = self.kit.check(top, self.tree.root / "crates" / top, more)
            first = re.search(r"^(?:note: )?(\S+?\.(?:rt|antt)):(\d+):\d+:", said.stdout, re.M)
            if said.returncode != 0 and ("logic=not-proved" not in said.stdout or not first):
                raise Bad("the prover gave no verdict:\n" + said.stdout[-2000:])
            if said.returncode != 0:
                place = Path(first[1]).relative_to(self.tree.root / "crates")
                return f"its own proofs refuse it too ({place}:{first[2]})"
        return f"definition and code agree: {', '.join(sorted(tops))} proved"
