#!/usr/bin/env python3
"""Random records, some of them damaged, cut into odd pieces: what slotcheck prints must be what bench/model.py gives.

fuzz.py [SECONDS [SEED]]     needs crates/slotcheck/out/slotcheck (./run slotcheck builds it), on Linux; an input that differs is left in target/fuzz.in"""
import fcntl
import os
import random
import struct
import subprocess
import sys
import termios
import time

import model

ROOT = os.path.join(os.path.dirname(os.path.abspath(__file__)), "..")
KEYS = {
    "1": ["0001", "7FFF", "4000", "0000", "8000", "1234"],
    "2": ["ABCDEF0123456789", "0101010101010101", "FEFEFEFEFEFEFEFE"],
    "3": ["00" * 32, bytes(range(32)).hex().upper()],
}
VECTORS = ["ABCDEF1234567890", "0000000000000001", "8000000000000000", "0000000000000000", "FFFFFFFFFFFFFFFF"]
ODD = [bytes([octet]) for octet in b"\t\r\0 \n\x0b\xffaf0G-+/:@KVA"]
LONG = [95, 96, 97, 98, 1000, 131071, 131072, 131073, 200000]


def hexed(n):
    return random.randbytes(n).hex().upper()


def number(usual):
    return str(random.choice(usual) if random.random() < 0.9 else random.randint(0, 300))


def record():
    kind = random.choices("KOJVILE", [8, 8, 6, 50, 12, 11, 5])[0]
    cipher, key_id = number([1, 2, 3]), number([0, 1, 2, 63])
    if kind == "K":
        key = random.choice(KEYS.get(cipher, KEYS["1"])) if random.random() < 0.9 else hexed(random.randint(0, 34))
        return ["K", cipher, key_id if random.random() < 0.7 else number(range(64)), key]
    return [kind] + {"O": [cipher, key_id, random.choice(VECTORS)], "J": [cipher, key_id], "V": [number(range(16)), hexed(28)], "I": [random.choice(VECTORS)]}.get(kind, [])


def damaged(line):
    for _ in range(random.choice([1, 1, 1, 2, 3])):
        at = random.randint(0, len(line))
        odd = random.choice([b"", random.choice(ODD), random.choice(ODD) * random.choice([1, 20, 90, 500])])
        line = random.choice([line[:at] + odd + line[at:], line[:at] + odd + line[at + 1:], line[:at] + odd, line.lower()])
    return line


def text():
    lines, damage = [], random.choice([0, 0.02, 0.15, 0.6])
    for _ in range(random.choice([1, 5, 200, 3000])):
        line = "\t".join(record()).encode()
        if random.random() < damage:
            line = damaged(line)
        if random.random() < 0.003:
            line = random.choice(b"0VLE\t\0\r\xff").to_bytes(1, "big") * random.choice(LONG)
        lines.append(line)
    # empty lines by the thousand: their output fills the room for it
    return b"\n".join(lines) + b"\n" * random.choices([0, 1, 2, 30000], [10, 10, 10, 1])[0]


def expected(octets):
    receiver, lines = model.Receiver(), octets.split(b"\n")
    if lines[-1] == b"":
        lines.pop()
    return "".join(receiver.line(line) for line in lines).encode()


def printed(octets, most):
    """Each piece is handed over once the one before it was read."""
    with open(os.path.join(ROOT, "target", "fuzz.out"), "wb+") as out:
        program = subprocess.Popen([os.path.join(ROOT, "run"), "slotcheck"], stdin=subprocess.PIPE, stdout=out)
        pipe, at = program.stdin.fileno(), 0
        while at < len(octets):
            at += os.write(pipe, octets[at:at + random.randint(1, most)])
            while struct.unpack("i", fcntl.ioctl(pipe, termios.FIONREAD, bytes(4)))[0] and program.poll() is None:
                os.sched_yield()
        program.stdin.close()
        program.wait()
        out.seek(0)
        return out.read()


def main(seconds=60.0, seed=1):
    end, inputs, lines = time.time() + float(seconds), 0, 0
    os.makedirs(os.path.join(ROOT, "target"), exist_ok=True)
    random.seed(int(seed))
    while time.time() < end:
        octets = text()
        most = random.choice([1, 3, 7, 62, 98] if len(octets) < 20000 else [4000, 131072, 200000])
        if printed(octets, most) != expected(octets):
            with open(os.path.join(ROOT, "target", "fuzz.in"), "wb") as file:
                file.write(octets)
            sys.exit(f"fuzz.py: input {inputs} of seed {seed} differs, in pieces of at most {most}: target/fuzz.in")
        inputs, lines = inputs + 1, lines + octets.count(b"\n")
    print(f"{inputs} inputs, {lines} lines: no difference")


if __name__ == "__main__":
    main(*sys.argv[1:3])
