#!/usr/bin/env python3
"""Random records, some of them damaged, through examples/receiver.c: it must print what bench/model.py gives.

text.py RECEIVER TEXTS SEED

The texts are those of bench/fuzz.py, by which slotcheck is tried. One that differs is left beside RECEIVER, as
text.in."""
import os
import random
import subprocess
import sys

sys.dont_write_bytecode = True
sys.path.insert(0, os.path.join(os.path.dirname(os.path.abspath(__file__)), "..", "..", "bench"))
import fuzz


def main(receiver, texts, seed):
    lines = wrong = 0
    random.seed(int(seed))
    for _ in range(int(texts)):
        octets = fuzz.text()
        expected = fuzz.expected(octets)
        printed = subprocess.run([receiver], input=octets, stdout=subprocess.PIPE, check=True).stdout
        lines += expected.count(b"\n")
        if printed != expected:
            wrong += 1
            with open(os.path.join(os.path.dirname(receiver), "text.in"), "wb") as file:
                file.write(octets)
    print(f"{lines} lines, {wrong} wrong")
    return wrong != 0


if __name__ == "__main__":
    sys.exit(main(*sys.argv[1:]) if len(sys.argv) == 4 else __doc__)
