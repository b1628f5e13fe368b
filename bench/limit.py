#!/usr/bin/env python3
"""The slot limit of a receiving call, seen: 1,000,001 lost slots of one call, and what comes after them. What slotcheck prints must be what bench/model.py gives.

limit.py     needs crates/slotcheck/out/slotcheck (./run slotcheck builds it)"""
import os
import subprocess
import sys

import model

ROOT = os.path.join(os.path.dirname(os.path.abspath(__file__)), "..")
BEFORE = ["K\t2\t0\tABCDEF0123456789", "O\t2\t0\tABCDEF1234567890"]
# past the limit a slot is 16, arrived or lost, and only a mask is refused before it; an announcement is taken, and the next call has slots again
AFTER = ["V\t15\t" + 56 * "0", "V\t16\t" + 56 * "0", "I\tABCDEF1234567890", "L", "E", "L", "O\t2\t0\tABCDEF1234567890", "L"]


def main():
    slots = model.MOST_SLOTS + 1
    lines = BEFORE + slots * ["L"] + AFTER
    text = "".join(line + "\n" for line in lines).encode()
    printed = subprocess.run([os.path.join(ROOT, "run"), "slotcheck"], input=text, stdout=subprocess.PIPE, check=True).stdout.decode()
    receiver = model.Receiver()
    if printed != "".join(receiver.line(line.encode()) for line in lines):
        sys.exit("limit.py: slotcheck prints something else than bench/model.py")
    answers = [line.split("\t")[0] for line in printed.splitlines()]
    print(f"{slots - 1} lost slots: {answers[2:slots + 1].count('0')} answered 0; the next: {answers[slots + 1]}")
    print("after them:", ", ".join(f"{line.split(chr(9))[0]} {answer}" for line, answer in zip(AFTER, answers[slots + 2:])))


main()
