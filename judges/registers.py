#!/usr/bin/env python3
"""Our register table against TI's own headers (Debian package msp430mcu).

Reads addresses and bit positions from crates/usi_registers/specs/Registers.antt and compares them with every header that
declares a USI. Exit status 1 at the first difference, 2 where the headers are not installed."""
import glob, os, re, sys

top = os.path.join(os.path.dirname(os.path.abspath(__file__)), "..")
table = open(os.path.join(top, "crates/usi_registers/specs/Registers.antt"), encoding="utf-8").read()


def declared(header):
    """The numbers that a header gives its USI names."""
    text = open(header, encoding="latin-1").read()
    return {n: int(v, 16) for n, v in re.findall(r"#define\s+(USI\w+)\s+\(?(0x[0-9A-Fa-f]+)\)?", text)}


def expected():
    """The same numbers by our table: a header's name, and the value that it must have."""
    want = {}
    for name, value in re.findall(r"^(USI\w+) = (0x[0-9a-f]+)$", table, re.M):
        want[name + "_"] = int(value, 16)
    for name, position in re.findall(r"^(USI\w+) = bit (\d+)$", table, re.M):
        want[name] = 1 << int(position)
    for name in ("USIDIV", "USISSEL"):
        low = int(re.search(rf"^{name}-position = (\d+)$", table, re.M).group(1))
        for i in range(int(re.search(rf"^{name}-width = (\d+)$", table, re.M).group(1))):
            want[f"{name}{i}"] = 1 << (low + i)
    for i in range(int(re.search(r"^USICNTx = lowest (\d+)$", table, re.M).group(1))):
        want[f"USICNT{i}"] = 1 << i
    return want


headers = [h for h in sorted(glob.glob("/usr/msp430/include/*.h")) if "__MSP430_HAS_USI__" in open(h, encoding="latin-1").read()]
if not headers:
    print("judges/registers.py: no header of a part with a USI: install Debian's msp430mcu")
    sys.exit(2)
want = expected()
for header in headers:
    have = declared(header)
    for name, value in want.items():
        if have.get(name) != value:
            print(f"{os.path.basename(header)}: {name} is {have.get(name)}, our table has {value}")
            sys.exit(1)
print(f"{len(want)} addresses and bits agree with each of {len(headers)} headers")
