#!/usr/bin/env python3
"""The stored listings of dumps that other tools wrote, against those tools (Debian packages gtkwave, sigrok-cli,
libsigrokdecode4).

Each dump of tests/dumps that a tool made and `rig decode` reads, and examples/capture.vcd, goes through GTKWave's
converters (sigrok's own do not: GTKWave's read a value a line), and what comes back must change as often, from the same
stamp on, as the listing has samples. Then sigrok's I2C decoder reads it, with one stamp more, since libsigrok never decodes
the last change of a file: the events must be those of the listing, with their stamps. A byte's stamp is that of the fall of
SCL after the rise at which sigrok takes its acknowledge. Exit status 1 at the first difference, 2 where a tool is missing."""
import glob, os, re, shutil, subprocess, sys, tempfile

sys.dont_write_bytecode = True
from sigrok import TOP, changes, converted, same

SIGROK = ["sigrok-cli", "-I", "vcd:compress=1", "--protocol-decoder-samplenum"]
SIGROK += ["-P", "i2c:scl=scl:sda=sda:address_format=unshifted", "-A", "i2c=addr-data"]
CONDITIONS = {"Start": 512, "Start repeat": 513, "Stop": 514}
MARKS = {"START": 512, "repeated START": 513, "STOP": 514, "cut byte": 515}
# two channels of the demo device, no I2C: sigrok takes conditions at samples in which both lines change
NO_TRAFFIC = ["sigrok_demo"]
# files for single rules: what must be said of them was written down with them
BY_HAND = ("read_", "refused_", "lines_")


def listed(path):
    """Samples, first stamp and events with their stamps of a stored listing; nothing of a dump that is not read."""
    with open(path, encoding="latin-1") as f:
        lines = f.read().splitlines()
    if not lines[0].startswith("# a Value Change Dump"):
        return None
    samples = int(re.search(r" in (\d+) samples?, ", lines[-1])[1])
    events = []
    for stamp, word in (line.split(": ", 1) for line in lines if line[0].isdigit()):
        events.append((int(stamp), MARKS[word] if word in MARKS else int(word[:2], 16) + 256 * word.endswith("NACK")))
    return samples, int(lines[1].split()[1]), events


def shown(text):
    """The stamps at which a level changes, the first one too."""
    stamps, before = [], None
    for stamp, levels in changes(text):
        if levels != before:
            stamps.append(stamp)
        before = levels
    return stamps


def judged(folder, text):
    """The events that sigrok finds, with their stamps: compressed, the file has a sample for each stamp."""
    path, samples = os.path.join(folder, "judged.vcd"), changes(text)
    with open(path, "w") as f:
        f.write(f"{text}#{samples[-1][0] + 1000}\n")
    run = subprocess.run(SIGROK + ["-i", path], capture_output=True, text=True)
    if run.stderr.strip():
        sys.exit(f"sigrok-cli: {run.stderr.strip()}")
    events, byte = [], None
    for line in run.stdout.splitlines():
        place, word = re.match(r"(\d+)-\d+ \S+: (.*)", line).groups()
        here = samples[int(place) :]
        if word in CONDITIONS:
            events.append((here[0][0], CONDITIONS[word]))
        elif re.match(r"(Address|Data) (write|read): ", word):
            byte = int(word.split(": ")[1], 16)
        elif word in ("ACK", "NACK"):
            fall = next(stamp for stamp, levels in here if levels["scl"] == "0")
            events.append((fall, byte + 256 * (word == "NACK")))
    return events


def renamed(text):
    """The wires as scl and sda, in the order of their declarations."""
    names = iter(["scl", "sda"])
    return re.sub(r"(\$var\s+wire\s+0*1\s+\S+)\s.*?\s\$end", lambda m: f"{m[1]} {next(names)} $end", text, flags=re.S)


def main():
    if not shutil.which("sigrok-cli") or not shutil.which("vcd2fst"):
        print("judges/corpus.py: install Debian's sigrok-cli, libsigrokdecode4 and gtkwave")
        sys.exit(2)
    pairs = [(path, path[: -len(".vcd")] + ".expected") for path in sorted(glob.glob(os.path.join(TOP, "tests/dumps/*.vcd")))]
    pairs.append((os.path.join(TOP, "examples/capture.vcd"), os.path.join(TOP, "tests/expected/decode.capture.vcd")))
    handed_back = decoded = 0
    with tempfile.TemporaryDirectory() as folder:
        for path, listing in pairs:
            name, stored = os.path.basename(path)[: -len(".vcd")], listed(listing)
            if stored is None or name.startswith(BY_HAND):
                continue
            with open(path, encoding="latin-1") as f:
                text = renamed(f.read())
            if not name.startswith("sigrok_"):
                text = converted(folder, text)
                handed_back += 1
            samples, start, events = stored
            stamps = shown(text)
            same(f"{name}: samples and the first stamp", (samples, start), (len(stamps), stamps[0]))
            if name not in NO_TRAFFIC:
                same(f"{name}: events", events, judged(folder, text))
                decoded += 1
    print(f"GTKWave's vcd2fst and fst2vcd hand {handed_back} dumps back with the samples that are stored for them")
    print(f"sigrok finds the events that are stored for {decoded} dumps")


main()
