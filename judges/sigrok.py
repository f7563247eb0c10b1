#!/usr/bin/env python3
"""Our drawings and readings against sigrok's I2C decoder (Debian packages sigrok-cli, libsigrokdecode4).

Draws random complete event lists with `rig encode`, rehearses random loads with `rig clash`, writes what they show as a
Value Change Dump with `rig dump`, and lets sigrok-cli decode it. Its events must be those of the list, of the carried
bytes, and of the frames that `rig match` shows. Then cuts drawings short: what sigrok finds in the cut trace must be what `rig decode` finds. GTKWave's converters
(Debian's gtkwave) must hand each dump back with the same changes. Exit status 1 at the first difference, 2 where a tool is
missing."""
import os, random, re, shutil, subprocess, sys, tempfile

TOP = os.path.join(os.path.dirname(os.path.abspath(__file__)), "..")
PROGRAMS = os.environ.get("RIG_PROGRAMS", os.path.join(TOP, "target/bin"))
RIG = os.path.join(PROGRAMS, "rig")
SIGROK = ["sigrok-cli", "-I", "vcd:compress=1", "-P", "i2c:scl=scl:sda=sda:address_format=unshifted", "-A", "i2c=addr-data"]


def rig(folder, words, text):
    path = os.path.join(folder, "input")
    with open(path, "w") as f:
        f.write(text)
    program = os.path.join(PROGRAMS, "rig_clash" if words[0] == "clash" else "rig")
    return subprocess.run([program] + words + [path], capture_output=True, text=True, cwd=folder).stdout


def dump(folder, levels):
    """`rig dump` of the levels, 5 us apart."""
    text = rig(folder, ["dump"], "".join(f"{50 * i} {level}\n" for i, level in enumerate(levels)))
    text, last = text[: text.rstrip("\n").rfind("\n") + 1], text.splitlines()[-1]
    assert last.startswith("ok "), last
    return text


def changes(text):
    """The stamps of a VCD with the levels after each, by the wires' names, whatever its identifiers are."""
    names = {m[1]: m[2] for m in re.finditer(r"\$var wire 1 (\S+) (\w+)", text)}
    found, levels, stamp = [], {}, None
    for word in text[text.index("$enddefinitions") :].split():
        if word[0] == "#":
            if stamp is not None:
                found.append((stamp, dict(levels)))
            stamp = int(word[1:])
        elif word[0] in "01" and word[1:] in names:
            levels[names[word[1:]]] = word[0]
    return found + [(stamp, dict(levels))]


def converted(folder, text):
    """A dump as GTKWave's converters hand it back: to its own format, and to a VCD again."""
    path = os.path.join(folder, "dump.vcd")
    with open(path, "w") as f:
        f.write(text)
    subprocess.run(["vcd2fst", path, path + ".fst"], check=True, capture_output=True)
    return subprocess.run(["fst2vcd", path + ".fst"], check=True, capture_output=True, text=True).stdout


def judged(folder, levels):
    """The events that sigrok finds in levels. libsigrok never decodes the last change: one more stamp follows it."""
    return judged_text(folder, dump(folder, levels) + f"#{50 * len(levels)}\n")


def judged_text(folder, text):
    """The events that sigrok finds in a dump, in our numbers."""
    path = os.path.join(folder, "trace.vcd")
    with open(path, "w") as f:
        f.write(text)
    run = subprocess.run(SIGROK + ["-i", path], capture_output=True, text=True)
    if run.stderr.strip():
        sys.exit(f"sigrok-cli: {run.stderr.strip()}")
    events, byte = [], None
    for line in run.stdout.splitlines():
        word = line.split(": ", 1)[1]
        if word in ("Start", "Start repeat", "Stop"):
            events.append({"Start": 512, "Start repeat": 513, "Stop": 514}[word])
        elif re.match(r"(Address|Data) (write|read): ", word):
            byte = int(word.split(": ")[1], 16)
        elif word in ("ACK", "NACK"):
            events.append(byte + 256 * (word == "NACK"))
    return events


def random_list(rng):
    """One to three frames, each of one to three parts."""
    events = []
    for _ in range(rng.randint(1, 3)):
        events.append(512)
        for part in range(rng.randint(1, 3)):
            events += [513] * (part > 0)
            events += [rng.randrange(256) + 256 * rng.randrange(2) for _ in range(rng.randint(1, 4))]
        events.append(514)
    return events


def drawn(folder, events):
    out = rig(folder, ["encode"], " ".join(map(str, events)) + "\n").splitlines()
    assert out[-1].startswith("ok"), out[-1]
    return [int(line.split()[1]) for line in out[:-1]]


def read(folder, levels):
    """The events that `rig decode` finds."""
    out = rig(folder, ["decode"], "".join(f"{50 * i} {level}\n" for i, level in enumerate(levels))).splitlines()
    assert out[-1].startswith(("ok", "look")), out[-1]
    marks = {"START": 512, "repeated START": 513, "STOP": 514, "cut byte": 515}
    words = [line.split(": ", 1)[1] for line in out[:-1] if line[0].isdigit()]
    return [marks[w] if w in marks else int(w[:2], 16) + 256 * w.endswith("NACK") for w in words]


def matched(folder, levels):
    """The events of the frames that `rig match` shows of levels, where nothing was rehearsed; STOP is not shown."""
    text = "ok 0 loads\n" + rig(folder, ["decode", "--thin"], "".join(f"{50 * i} {level}\n" for i, level in enumerate(levels)))
    program = os.path.join(PROGRAMS, "rig_match")
    out = subprocess.run([program, "match"], input=text, capture_output=True, text=True).stdout
    events = []
    for frame in re.findall(r"^frame .*: not rehearsed: (.*)$", out, re.M):
        for i, part in enumerate(frame.split(" / ")):
            events += [513 if i > 0 else 512]
            events += [int(byte[:2], 16) + 256 * byte.endswith("NACK") for byte in part.split(", ")]
    return events


def load(rng):
    """Two to sixteen boards with a long shared beginning, in alike parts, and all acknowledged but perhaps one byte."""
    shared = [rng.randrange(0, 256, 2)] + [rng.randrange(256) for _ in range(rng.randint(0, 4))]
    size = len(shared) + rng.randint(1, 4)
    boards = [shared + [rng.randrange(256) for _ in range(size - len(shared))] for _ in range(rng.randint(2, 16))]
    starts = rng.sample(range(1, size), rng.randint(0, min(3, size - 1)))
    acks = [0] * size
    if rng.randrange(3) == 0:
        acks[rng.randrange(size)] = 1
    lines = ["load judged"] + ["board " + " ".join(words(board, starts)) for board in boards]
    return "\n".join(lines + ["ack " + " ".join(map(str, acks))]) + "\n"


def words(board, starts):
    """A message as a file of loads has it: a slash before each byte that a repeated START precedes, a write."""
    return [f"/ {byte & 0xFE:02X}" if i in starts else f"{byte:02X}" for i, byte in enumerate(board)]


def shown(block):
    """Levels and carried events of a load's block."""
    wave = {w: "".join(re.findall(rf"^  {w}     (.*)$", block, re.M)) for w in ("scl", "sda")}
    high = {w: [c in '"/' for c in wave[w]] for w in wave}
    levels = [s + 2 * d for s, d in zip(high["scl"], high["sda"])]
    parts = re.search(r"^  carried (.*)$", block, re.M).group(1).split(" / ")
    events = [512]
    for i, part in enumerate(parts):
        events += [513] * (i > 0)
        events += [int(byte[:2], 16) + 256 * byte.endswith("NACK") for byte in part.split(", ")]
    return levels, events + [514]


def same(what, ours, theirs):
    if ours != theirs:
        print(f"{what}: we say {ours}, sigrok says {theirs}")
        sys.exit(1)


def main():
    if not shutil.which("sigrok-cli") or not shutil.which("vcd2fst") or not os.path.exists(RIG):
        print("judges/sigrok.py: install Debian's sigrok-cli, libsigrokdecode4 and gtkwave, and build the program: ./rig build")
        sys.exit(2)
    seed, count = 20261115, int(sys.argv[1]) if len(sys.argv) > 1 else 300
    rng = random.Random(seed)
    with tempfile.TemporaryDirectory() as folder:
        for _ in range(count):
            events = random_list(rng)
            levels = drawn(folder, events)
            theirs = judged(folder, levels)
            same("a drawing", events, theirs)
            same("frames of a match", matched(folder, levels), [event for event in theirs if event != 514])
            text = dump(folder, levels)
            same("a dump through GTKWave's converters", changes(text), changes(converted(folder, text)))
            # sigrok takes a bit as SCL rises, document 01 as it falls: both have taken it where SCL is low
            cut = levels[: rng.choice([i + 1 for i, level in enumerate(levels) if level % 2 == 0])]
            same("a cut drawing", read(folder, cut), judged(folder, cut))
            levels, carried = shown(rig(folder, ["clash", "--wave"], load(rng)))
            same("an arbitration", carried, judged(folder, levels))
    print(f"seed {seed}: sigrok reads {count} drawings, {count} cut drawings and {count} arbitrations as we do, dumped by rig dump")
    print(f"GTKWave's vcd2fst and fst2vcd hand {count} dumps back with the same changes")


if __name__ == "__main__":
    main()
