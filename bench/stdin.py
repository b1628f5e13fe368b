#!/usr/bin/env python3
"""Makes crates/slotcheck/stdin anew from its line MARK on (what stands before is by hand), and crates/slotcheck/stdout by bench/model.py.

An announcement at every position of an opened, a held, an announced and a joined session; empty lines by the thousand, whose output fills the room for it;
and, for pieces of PIECE octets, a voice record across each seam, each cut at another place, and a line that is longer than a piece."""
import os
import subprocess
import sys

HERE = os.path.dirname(os.path.abspath(__file__))
FILES = os.path.join(HERE, "..", "crates", "slotcheck")
MARK = b"# the lines below are made by bench/stdin.py\n"
PIECE = 131072
VECTORS = ["ABCDEF1234567890", "8B8DDEEB890F4CF1", "C83AB2073A8D80E8"]
ZEROS = "0" * 16
FRAME = "0123456789ABCDEFFEDCBA987654321000112233445566778899AABB"


def line(*fields):
    return "\t".join(map(str, fields)).encode() + b"\n"


def voice(mask=15):
    return line("V", mask, FRAME)


def session(positions, vector):
    """An announcement before each slot."""
    return b"".join(line("I", vector) + voice() for _ in range(positions))


def announced():
    """Every position of an opened and a joined session of each cipher, and of one that is held and one that was announced; opened and announced with zeros too."""
    text = b""
    for cipher, slots in ((1, 4), (2, 8), (3, 8)):
        text += line("O", cipher, 0, VECTORS[0]) + session(slots, VECTORS[1])
        if cipher != 1:
            text += voice() + session(slots - 1, ZEROS)
            text += line("I", VECTORS[1]) + session(slots, VECTORS[2])
            text += line("I", ZEROS) + session(slots, VECTORS[2])
        text += line("E") + line("O", cipher, 0, ZEROS) + session(slots, VECTORS[1])
        for vector in VECTORS[0], ZEROS:
            text += line("E") + line("J", cipher, 0) + session(4, VECTORS[0]) + line("I", vector) + voice()
        text += line("E")
    return text


def up_to(text, place):
    """A malformed line that ends there."""
    return text + b"#" * (place - len(text) - 1) + b"\n"


def across(text, seam, cipher, slots, cut):
    """A call in which so many octets of a voice record stand before the seam, after so many slots."""
    text += line("O", cipher, 0, VECTORS[0]) + slots * voice()
    return up_to(text, seam - cut) + voice(11) + voice() + line("E")


def main():
    with open(os.path.join(FILES, "stdin"), "rb") as file:
        text = file.read().split(MARK)[0] + MARK
    text += announced() + line("J", 1, 0) + 10000 * b"\n" + line("E")
    record = len(voice())
    text = across(text, PIECE, 1, 2, record // 2)
    text = across(text, 2 * PIECE, 2, 5, 1)
    text = across(text, 3 * PIECE, 3, 7, record - 1)
    text += line("O", 3, 0, VECTORS[0]) + voice()
    text = up_to(text, 4 * PIECE - 10) + line("V", 15, "F" * 140000) + voice() + b"E"
    with open(os.path.join(FILES, "stdin"), "wb") as file:
        file.write(text)
    printed = subprocess.run([sys.executable, os.path.join(HERE, "model.py"), "slotcheck"], input=text, capture_output=True, check=True).stdout
    with open(os.path.join(FILES, "stdout"), "wb") as file:
        file.write(printed)


main()
