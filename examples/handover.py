#!/usr/bin/env python3
"""Makes examples/handover.txt: what a recorder's receiver is told of a handover over the air. The sender is bench/model.py's keystream.

Speech here is text, six characters to a word, so that the opened frames can be read: see examples/README.md."""
import os
import sys

sys.path.insert(0, os.path.join(os.path.dirname(__file__), "..", "bench"))
from model import following, stream

DES, KEY_ID, KEY = 2, 5, bytes.fromhex("ABCDEF0123456789")
FIRST = bytes.fromhex("ABCDEF1234567890")
VECTORS = [FIRST]
while len(VECTORS) < 5:
    VECTORS.append(following(VECTORS[-1]))


def told(*fields):
    print(*fields, sep="\t")


def frame(text):
    """Four words of six characters; the last octet of a word has its last speech bit and seven spare bits."""
    text = text.ljust(24).encode()
    return b"".join(text[6 * w:6 * w + 6] + b"\0" for w in range(4))


def on_air(session, slot, mask, spoken):
    bits = int.from_bytes(stream(DES, KEY, VECTORS[session], 196), "big")
    out = b""
    for word in range(4):
        octets = int.from_bytes(spoken[7 * word:7 * word + 7], "big")
        if mask >> word & 1:
            octets ^= (bits >> 1568 - 49 - (196 * slot + 49 * word) & 2**49 - 1) << 7
        out += octets.to_bytes(7, "big")
    return out


def heard(session, slot, text, mask=15):
    told("V", mask, on_air(session, slot, mask, frame(text)).hex().upper())


def talk(session, first, lines):
    for slot, text in enumerate(lines, first):
        told("L") if text is None else heard(session, slot, *text) if isinstance(text, tuple) else heard(session, slot, text)


# keys for the shift: a scramble key for the yard, the DES key of the handover, an AES key for the ward
told("K", 1, 0, "0001")
told("K", DES, KEY_ID, KEY.hex().upper())
told("K", 3, 1, bytes(range(1, 33)).hex().upper())
told("O", DES, KEY_ID, FIRST.hex().upper())
# session 0: in slot 2 the second word gives way to signalling, slots 4 and 5 fade
talk(0, 0, ["WARD FOUR, CREW TWO.    ", "GIRL, 31 WEEKS, 1420 G. ", ("BORN 0\1\2\3\4\5\6, APGAR 7, 9", 13), "TEMP 36.8, SATS 94.     ",
            None, None, "DOSE PLAN FOLLOWS.      ", "CAFFEINE 20 MG PER KG,  "])
# session 1: its announcement is lost, so it is held
talk(1, 0, ["OVER 30 MINUTES, ONCE.  ", "THEN 5 MG PER KG DAILY. ", "GENTAMICIN 5 MG PER KG  ", "EVERY 36 HOURS.         ",
            "AMPICILLIN 50 MG PER KG ", "EVERY 12 HOURS.         ", "READ BACK, PLEASE.      ", "CREW TWO WAITING.       "])
# session 2: announced
told("I", VECTORS[2].hex().upper())
talk(2, 0, ["WARD FOUR READS BACK:   ", "CAFFEINE 28 MG, ONCE.   ", "GENTAMICIN 7 MG,        ", "AMPICILLIN 71 MG.       "])
told("E")
# late entry: a second recorder joins at the end of session 3's first superframe, and holds until session 4 is announced
told("J", DES, KEY_ID)
talk(3, 4, ["CORRECT. ARRIVAL 04:55. ", "LIFT TWO, PLEASE.       ", "INCUBATOR ON BATTERY,   ", "90 MINUTES LEFT.        "])
told("I", VECTORS[4].hex().upper())
talk(4, 0, ["WARD FOUR: LIFT TWO IS  ", "HELD FOR YOU. OUT.      "])
told("E")
