#!/usr/bin/env python3
"""The library's dumps read by sigrok's I2C decoder (Debian packages sigrok-cli, libsigrokdecode4).

A program in C draws random complete event lists with `kan_bus_encode` and writes them with `kan_bus_dump`; sigrok-cli reads the
text, with one stamp more, since libsigrok never decodes the last change of a file. Its events must be those of the list.
Exit status 1 at the first difference, 2 where a tool is missing: docs/LINKING.md says how to make the archive."""
import os, random, shutil, subprocess, sys, tempfile

sys.dont_write_bytecode = True
from sigrok import TOP, judged_text, random_list, same

ARCHIVE = os.path.join(TOP, "target/staticlib/libexport.a")
GAP = 50
PROGRAM = """
#include "kanaouvel.h"
#include <stdio.h>
#include <stdlib.h>
static uint16_t events[1024];
static uint32_t stamps[KAN_MAX_SAMPLES];
static uint8_t levels[KAN_MAX_SAMPLES], text[KAN_MAX_DUMP_BYTES];
int main(int argc, char **argv)
{
    for (int i = 2; i < argc; i++)
        events[i - 2] = (uint16_t)atoi(argv[i]);
    uint64_t drawn = kan_bus_encode(events, (size_t)(argc - 2), 0, (uint32_t)atoi(argv[1]), stamps, KAN_MAX_SAMPLES,
                                    levels, KAN_MAX_SAMPLES);
    size_t count = kan_encode_count(drawn);
    uint64_t written = kan_bus_dump(stamps, count, levels, count, text, sizeof text);
    return kan_refusal(drawn) || kan_refusal(written)
        || fwrite(text, 1, kan_count(written), stdout) != kan_count(written);
}
"""


def compiled(folder):
    source, program = os.path.join(folder, "dumps.c"), os.path.join(folder, "dumps")
    with open(source, "w") as f:
        f.write(PROGRAM)
    include = os.path.join(TOP, "include")
    subprocess.run(["cc", "-std=c11", "-Wall", "-I", include, "-o", program, source, ARCHIVE], check=True)
    return program


def main():
    if not shutil.which("sigrok-cli") or not os.path.exists(ARCHIVE):
        print("judges/dump.py: install Debian's sigrok-cli and libsigrokdecode4, and make the archive (docs/LINKING.md)")
        sys.exit(2)
    seed, count = 20261115, int(sys.argv[1]) if len(sys.argv) > 1 else 300
    rng = random.Random(seed)
    with tempfile.TemporaryDirectory() as folder:
        program = compiled(folder)
        for _ in range(count):
            events = random_list(rng)
            words = [program, str(GAP)] + [str(event) for event in events]
            text = subprocess.run(words, capture_output=True, text=True, check=True).stdout
            last = int(text.rsplit("#", 1)[1].split()[0])
            same("a dump", events, judged_text(folder, text + f"#{last + GAP}\n"))
    print(f"seed {seed}: sigrok reads {count} dumps of the library as the lists that were drawn")


main()
