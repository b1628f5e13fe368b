#!/usr/bin/env python3
"""An independent model of the build paper, to compare with: scramble, the generator, the book and the receiver in Python, DES and AES by OpenSSL's command.

model.py first               prints crates/vectors/data/nxdn-first-messages.tsv, the enciphered user data as 001 has it
model.py messages            prints crates/vectors/data/data-messages.tsv
model.py slots               prints crates/vectors/data/voice-slots.tsv
model.py zeros               prints crates/vectors/data/voice-slots-zeros.tsv
model.py calls               prints crates/vectors/data/call-counts.tsv
model.py slotcheck < FILE    prints what slotcheck should print
model.py book < FILE         prints what bookwalk should have printed, by the operations in what it printed
Each first checks the model against section 7.2.2 of NXDN TS 1-D ("001").
A voice call has a rate: a word has 49 speech bits at half rate and 72 at full rate, and each other size follows from that. A row of slots gives the rate, and where it
gave a position it gives how many slots of the call come before, so that it may stand in a later session. slotcheck's calls are at half rate and strict:
at a session's end a strict receiver's vector is unknown until the next is announced. By default a receiver goes on with the generator's next, as a row of slots does."""
import functools
import re
import subprocess
import sys

KEY_OCTETS = {1: 2, 2: 8, 3: 32}
SLOTS = {1: 4, 2: 8, 3: 8}
HALF, FULL = 0, 1
WIDTH = {HALF: 49, FULL: 72}  # the speech bits of a word (001, 5.4.2 and 5.4.4.1)
WORDS = 4


def word_octets(rate):
    return (WIDTH[rate] + 7) // 8


# ---- keystreams


def following(vector):
    """L(S): 64 shifts of the generator."""
    register = int.from_bytes(vector, "big")
    for _ in range(64):
        fed = (register >> 63 ^ register >> 61 ^ register >> 45 ^ register >> 37 ^ register >> 26 ^ register >> 14) & 1
        register = register << 1 & 2**64 - 1 | fed
    return register.to_bytes(8, "big")


def scramble(key, octets):
    value = int.from_bytes(key, "big")
    p = [value >> i & 1 for i in range(15)]
    while len(p) < 8 * octets:
        p.append(p[-14] ^ p[-15])
    return bytes(int("".join(map(str, p[8 * i:8 * i + 8])), 2) for i in range(octets))


def feedback(algorithm, key, vector, octets):
    """Output feedback over zeros, without its first block."""
    zeros = bytes(octets + 2 * len(vector))
    command = ["openssl", "enc", "-" + algorithm, "-K", key.hex(), "-iv", vector.hex(), "-nopad"]
    return subprocess.run(command, input=zeros, capture_output=True, check=True).stdout[len(vector):][:octets]


@functools.lru_cache(maxsize=None)
def stream(cipher, key, vector, octets):
    if cipher == 1:
        return scramble(key, octets)
    if cipher == 2:
        return feedback("des-ede3-ofb", 3 * key, vector, octets)
    return feedback("aes-256-ofb", key, vector + following(vector), octets)


# ---- data messages

KEYS = {1: "0001", 2: "ABCDEF0123456789", 3: "ABCDEF0123456789CDEF0123456789ABEF0123456789ABCD0123456789ABCDEF"}
SEED = {1: "0000000000000000", 2: "ABCDEF1234567890", 3: "ABCDEF1234567890"}
TEXT = b"ABCDEFGHIJKLMNOPQRST"
PUBLISHED = {
    1: "C143434245524730485A4D2C580E30D150545540",
    2: "FE04A2AB29D0CFAE27FAABCAB12DF741898BE218",
    3: "7C06FE6BF9BDA40E9ADBF432E471E71F1C6BE8BF",
}
PROTECTED = {1: 20, 2: 14, 3: 14, 4: 8}
HEAD, TAIL = bytes.fromhex("F00F"), {1: b"", 2: b"", 3: bytes.fromhex("55AA"), 4: b""}


def turned(cipher, count, text):
    start = count * len(text)
    bits = stream(cipher, bytes.fromhex(KEYS[cipher]), bytes.fromhex(SEED[cipher]), start + len(text))
    return bytes(a ^ b for a, b in zip(text, bits[start:]))


def row(cipher, kind, count, text, enciphered):
    message, sent = (HEAD + octets + TAIL[kind] for octets in (text, enciphered))
    print(cipher, kind, KEYS[cipher], SEED[cipher], f"{count:04X}", message.hex().upper(), sent.hex().upper(), sep="\t")


def first():
    print("# The first message of each kind and cipher, from 001, 7.2.2: cipher type, kind, key, vector, count of messages before it (hex), message, message protected.")
    print("# Rows of kind 1 have the user data as printed there; those of kinds 2 to 4 are cut from it, to 14 and 8 characters, as 7.2.2 says. The two octets before it, and after it in kind 3, are ours.")
    for kind, protected in PROTECTED.items():
        for cipher in KEYS:
            row(cipher, kind, 0, TEXT[:protected], bytes.fromhex(PUBLISHED[cipher])[:protected])


def messages():
    print("# The second message of each kind and cipher, and the thousandth of kind 2: cipher type, kind, key, vector, count of messages before it (hex), message, message protected.")
    print("# Printed by bench/model.py messages: scramble and the generator in Python, DES and AES by OpenSSL.")
    for kind, protected in PROTECTED.items():
        for cipher in KEYS:
            for count in [1, 999] if kind == 2 else [1]:
                text = (TEXT if count != 1 else TEXT[::-1])[:protected]
                row(cipher, kind, count, text, turned(cipher, count, text))


# ---- a voice slot


def turned_frame(rate, cipher, key, vector, position, mask, frame):
    """The words of the mask turned by the bits of the session's slot, which stand for all words, in the mask or not."""
    width, octets, slot = WIDTH[rate], word_octets(rate), WORDS * WIDTH[rate]
    session = 8 * slot
    bits = int.from_bytes(stream(cipher, key, vector, session // 8), "big")
    out = b""
    for word in range(WORDS):
        spoken = int.from_bytes(frame[octets * word:octets * (word + 1)], "big")
        if mask >> word & 1:
            after = session - (slot * position + width * (word + 1))
            spoken ^= (bits >> after & 2**width - 1) << 8 * octets - width
        out += spoken.to_bytes(octets, "big")
    return out


# ---- the key book

ENTRIES, ENTRY, KEY, NAME = 16, 52, 4, 36  # entries of so many octets; in each, where key and name begin
NO_NAME = bytes(ENTRY - NAME)


def allowed(cipher, key):
    if cipher == 1:
        return 1 <= int.from_bytes(key, "big") <= 32767
    return cipher == 3 or all(bin(x).count("1") % 2 for x in key)


def name_right(name):
    return re.fullmatch(rb"[ -~]*\0*", name) is not None


def entry_right(entry):
    cipher, key_id, count, ready = entry[:KEY]
    if cipher == 0:
        return not any(entry)
    if cipher not in KEY_OCTETS or key_id > 63 or count > KEY_OCTETS[cipher] or any(entry[KEY + count:NAME]) or not name_right(entry[NAME:]):
        return False
    return ready == 0 or ready == 1 and count == KEY_OCTETS[cipher] and allowed(cipher, entry[KEY:KEY + count])


class Book:
    def __init__(self, octets=ENTRIES * ENTRY):
        self.octets = bytearray(octets)

    def entries(self):
        return [self.octets[ENTRY * k:ENTRY * (k + 1)] for k in range(ENTRIES)]

    def put(self, k, entry):
        self.octets[ENTRY * k:ENTRY * (k + 1)] = entry

    def good(self):
        used = [bytes(entry[:2]) for entry in self.entries() if entry[0]]
        return all(map(entry_right, self.entries())) and len(set(used)) == len(used)

    def sized(self):
        return len(self.octets) == ENTRIES * ENTRY

    def find(self, cipher, key_id):
        """The place and the entry for a cipher and key ID, or 2, 3, 4 or 5."""
        if not self.sized():
            return 2, None, None
        if cipher not in KEY_OCTETS or key_id > 63:
            return 3, None, None
        if not self.good():
            return 4, None, None
        found = [(0, k, entry) for k, entry in enumerate(self.entries()) if (entry[0], entry[1]) == (cipher, key_id)]
        return found[0] if found else (5, None, None)

    def begin(self, cipher, key_id, name=NO_NAME):
        answer, _, _ = self.find(cipher, key_id)
        if len(name) != len(NO_NAME) or answer in (2, 3):
            return 2 if len(name) != len(NO_NAME) else answer
        if not name_right(name):
            return 17
        if answer != 5:
            return answer or 11
        free = [k for k, entry in enumerate(self.entries()) if entry[0] == 0]
        if not free:
            return 12
        self.put(free[0], bytes([cipher, key_id]) + bytes(NAME - 2) + name)
        return 0

    def add(self, cipher, key_id, octets):
        answer, k, entry = (2, None, None) if len(octets) > 32 else self.find(cipher, key_id)
        if answer or entry[3]:
            return answer or 11
        if entry[2] + len(octets) > KEY_OCTETS[cipher]:
            return 13
        entry[KEY + entry[2]:KEY + entry[2] + len(octets)] = octets
        entry[2] += len(octets)
        self.put(k, entry)
        return 0

    def finish(self, cipher, key_id):
        answer, k, entry = self.find(cipher, key_id)
        if answer or entry[3]:
            return answer or 11
        if entry[2] < KEY_OCTETS[cipher]:
            return 6
        if not allowed(cipher, entry[KEY:KEY + entry[2]]):
            return 7
        entry[3] = 1
        self.put(k, entry)
        return 0

    def erase(self, cipher, key_id):
        answer, k, _ = self.find(cipher, key_id)
        if not answer:
            self.put(k, bytes(ENTRY))
        return answer

    def load(self, cipher, key_id, key):
        answer = self.begin(cipher, key_id)
        if not answer:
            answer = self.add(cipher, key_id, key) or self.finish(cipher, key_id)
            if answer:
                self.erase(cipher, key_id)
        return answer

    def ready(self, cipher, key_id):
        answer, _, entry = self.find(cipher, key_id)
        if answer or not entry[3]:
            return answer or 6, bytes(NAME - KEY)
        return 0, bytes(entry[KEY:NAME])

    def name(self, cipher, key_id):
        answer, _, entry = self.find(cipher, key_id)
        return answer, NO_NAME if answer else bytes(entry[NAME:])

    def inventory(self, k):
        answer = 2 if not self.sized() else 3 if k >= ENTRIES else 0 if self.good() else 4
        entry = bytes(ENTRY) if answer else self.entries()[k]
        return answer, list(entry[:KEY]), bytes(entry[NAME:])


def walked():
    """The lines of bookwalk, answered by the model."""
    for line in sys.stdin.read().splitlines():
        words = line.split(": ")[0].split(" ")
        if words[0] in ("#", "seen"):
            print(line)
        elif words[0] == "book":
            book = Book(int(words[2]))
            print(line)
        elif words[0] == "octet":
            book.octets[int(words[1])] = int(words[2], 16)
            print(line)
        elif words[0] == "inventory":
            answer, numbers, name = book.inventory(int(words[1]))
            print(" ".join(words) + ":", answer, *numbers, name.hex())
        else:
            given = [int(words[1]), int(words[2])] + [bytes.fromhex(x) for x in words[3:]]
            answer = getattr(book, words[0])(*given)
            print(" ".join(words) + ":", *([answer[0], answer[1].hex()] if isinstance(answer, tuple) else [answer]))


# ---- the receiver

NUMBER, HEX = "(0|[1-9][0-9]{0,2})", "((?:[0-9A-F]{2})%s)"
RECORD = re.compile(
    "K\t%s\t%s\t%s|O\t%s\t%s\t%s|J\t%s\t%s|V\t%s\t%s|I\t%s|L|E"
    % (NUMBER, NUMBER, HEX % "{1,32}", NUMBER, NUMBER, HEX % "{8}", NUMBER, NUMBER, NUMBER, HEX % f"{{{WORDS * word_octets(HALF)}}}", HEX % "{8}"))


def read(line):
    """The record of a line, or None."""
    text = line.decode("latin-1")
    found = RECORD.fullmatch(text) if len(text) <= 96 else None
    if not found:
        return None
    fields = [x for x in found.groups() if x is not None]
    octets = bytes.fromhex(fields.pop()) if text[0] in "KOVI" else b""
    numbers = [int(x) for x in fields]
    return None if any(n > 255 for n in numbers) else (text[0], numbers, octets)


COUNTS = "opened", "held", "replaced", "lost"
MOST_SLOTS = 1_000_000


class Receiver:
    def __init__(self, strict=True):
        self.strict = strict
        self.book, self.call = Book(), None  # a call: cipher, key, position, vector or None, whether it was told
        self.counts = dict.fromkeys(COUNTS, 0)

    def begin(self, cipher, key_id, vector=None):
        if cipher not in KEY_OCTETS or key_id > 63:
            return 3
        if self.call:
            return 9
        answer, key = self.book.ready(cipher, key_id)
        if answer:
            return answer
        joined = vector is None and cipher != 1
        known = bytes(8) if cipher == 1 else vector
        self.call = [cipher, key[:KEY_OCTETS[cipher]], 4 if joined else 0, known, not joined]
        self.counts = dict.fromkeys(COUNTS, 0)
        return 0

    def full(self):
        return sum(self.counts.values()) == WORDS * MOST_SLOTS

    def slot(self, words):
        for word in words:
            self.counts[word] += 1
        cipher, _, position, vector, _ = self.call
        self.call[2] = (position + 1) % SLOTS[cipher]
        if self.call[2] == 0 and cipher != 1:
            self.call[3:] = None if self.strict or vector is None else following(vector), False

    def voice(self, mask, frame):
        if mask > 15:
            return 10, None
        if not self.call:
            return 9, None
        if self.full():
            return 16, None
        cipher, key, position, vector, _ = self.call
        self.slot("replaced" if not mask >> word & 1 else "held" if vector is None else "opened" for word in range(WORDS))
        if vector is None:
            return 1, None
        return 0, turned_frame(HALF, cipher, key, vector, position, mask, frame)

    def lost(self):
        if self.full():
            return 16
        self.slot(WORDS * ["lost"])
        return 0

    def announce(self, vector):
        if not self.call or self.call[0] == 1 or self.call[2] != 0 or self.call[4]:
            return 9
        self.call[3:] = vector, True
        return 0

    def line(self, line):
        frame, record = None, read(line)
        if record is None:
            answer = 15
        else:
            letter, numbers, octets = record
            if letter == "K":
                answer = self.book.load(*numbers, octets)
            elif letter in "OJ":
                answer = self.begin(*numbers, octets if letter == "O" else None)
            elif letter == "V":
                answer, frame = self.voice(*numbers, octets)
            elif letter == "I":
                answer = self.announce(octets)
            elif not self.call:
                answer = 9
            elif letter == "E":
                answer, self.call = 0, None
            else:
                answer = self.lost()
        position = "-" if self.call is None else str(self.call[2])
        return f"{answer}\t{position}\t{frame.hex().upper() if frame else '-'}\n"


# ---- voice slots

# cipher type, rate, key, slots of the call before it, mask and a frame, any octets
FRAMES = [
    (1, HALF, "5A3C", 2, 15, "A3E46432FF55F87827B12299E296E86E70D3C2A3864C3D50E8F049CE"),
    (1, HALF, "5A3C", 3, 10, "9E006095AAC607C8B0E24C9AF4894DC4CE73FF23C4310C3982F5FE96"),
    (1, HALF, "5A3C", 6, 15, "FF382EB1D01AA4458A07E26103E1FC6630914D3BB086BDD47B2AC93C"),
    (1, FULL, "5A3C", 0, 15, "9C07D50B2A057C32191834DF504E708A49FFC5937BA38340209660B12BA1D215AE6B15EB"),
    (1, FULL, "5A3C", 2, 6, "366E61B4E5966C77276E6DC192DBBACD36EF7B1F48CFD7E7AB9BB894594698DD44BEDFA6"),
    (1, FULL, "5A3C", 3, 8, "68A0A9DC7A4929E86C0AE51BE84CFA9A63E180CC9BFD598A1FF5FEA46E2B75F3932DFB6A"),
    (1, FULL, "5A3C", 4, 15, "3626145EB72E6C9A6441661039A1C8AD2CF43A4B61229F7C06511B1C0E383BBBC292B88B"),
    (1, FULL, "5A3C", 9, 15, "10083CD4F389CA05129E1225A0866CAE2B7B6EE9D8705E96913FB3CE51533FFAEEE61BAD"),
    (2, HALF, KEYS[2], 1, 15, "1D1676873F7FE5974381DB2340834680F5049B34E19671BF0155964F"),
    (2, HALF, KEYS[2], 3, 10, "2B18CADAAFD04F196799B30C84065F049B837D0E8C28CB500727FC37"),
    (2, HALF, KEYS[2], 7, 14, "ACCDC65C47B6DAF73D136F9CD4809CD8894415AB99DB0809BD5DD760"),
    (2, HALF, KEYS[2], 8, 15, "830C64E1CE3A922FB50633A5EBB5E0A9FE69D7B2F13B117FC68A6160"),
    (2, FULL, KEYS[2], 0, 15, "09B23A35CE2E26690CD9804A7ACBCC8A1721BA2A3D16A79930FB4BF491ABBF88A04175C6"),
    (2, FULL, KEYS[2], 4, 10, "BBC96629D6D5F6379D3121E4230EB25E9327DB21D17DEA8D170F477F9BD3DD0DEF39E1C8"),
    (2, FULL, KEYS[2], 7, 8, "B89533B4651BE70D33BE95A108FEB7A2D3AE63FCC6DC7A8537E46E169FA22AD56A1C4286"),
    (2, FULL, KEYS[2], 10, 15, "4A789ACF873C4867D9F7605A5CE0A4C381E86280D5EE37E9DA00008B96AAB41F5699B914"),
    (2, FULL, KEYS[2], 17, 15, "7EF1B5FF6DAB015B958E6ED8509AA02819FC52A9485D9A06D752DCAB024931C6B903647B"),
    (3, HALF, KEYS[3], 1, 15, "55AF56D922BC7FAF4AE1EFD028334F46B188B218C37BCB2CBDFB3CF7"),
    (3, HALF, KEYS[3], 5, 5, "748DB6313C5AE63AC1883AFEE5D2BFF653903D46577817C081279AAE"),
    (3, HALF, KEYS[3], 7, 8, "53211E950C8C4B90FA2A8A2581D626544FC52A56411CE18D3E305AA1"),
    (3, HALF, KEYS[3], 12, 7, "8E52E0C43F5BA42D69242340371198E441CED460EE3BB7676C4CF1B9"),
    (3, FULL, KEYS[3], 0, 1, "0EFF3B31A0FC444D79D52E8CAD9FD4FD6DE2AE94166FBEA88AEF81F74B3E647372470D90"),
    (3, FULL, KEYS[3], 0, 15, "8B68F21CD90566A1E7CDE3D6B6DB9A8BA729BE29D5C14B33CA3486665B328D1AFCBC3913"),
    (3, FULL, KEYS[3], 5, 9, "0741461CBCCAEE8C05654414EEFD98D9F7EEBDFB3F4FBF94D925E1C4C82757E77B9DD031"),
    (3, FULL, KEYS[3], 7, 15, "8A4943BAFBB4F2844A61A63A6EF6E76F54C9F56581F2190235C84FAE1568DCFF929D00F7"),
    (3, FULL, KEYS[3], 10, 15, "434C197180FB8B6EB6022EF3B90BEE4EEC588561A023C952DAD452AFCCA3AD0DF16C9318"),
    (3, FULL, KEYS[3], 17, 15, "84CA3FE535B821A993E7E918AA53A5C75FDCBF277A9674EF444FE8EE30EF6382FC4D95DD"),
]


def print_slots(what, command, rows):
    print(f"# {what}: cipher type, rate, key, vector of the call's first session, slots of the call before it, mask (hex), frame, turned frame.")
    print(f"# Printed by bench/model.py {command}: scramble and the generator in Python, DES and AES by OpenSSL.")
    for first, (cipher, rate, key, before, mask, frame) in rows:
        receiver = Receiver(strict=False)
        receiver.call = [cipher, bytes.fromhex(key), 0, bytes.fromhex(first), True]
        for _ in range(before):
            receiver.slot(WORDS * ["replaced"])
        _, octets, position, vector, _ = receiver.call
        out = turned_frame(rate, cipher, octets, vector, position, mask, bytes.fromhex(frame))
        print(cipher, rate, key, first, before, f"{mask:02X}", frame, out.hex().upper(), sep="\t")


def slots():
    print_slots("Voice slots at both rates, in a first session and past it", "slots", [(SEED[row[0]], row) for row in FRAMES])


def zeros():
    past = [row for row in FRAMES if row[0] != 1 and row[3] >= SLOTS[row[0]]]
    print_slots("Voice slots of a sender whose vectors are zeros, past a first session", "zeros", [("00" * 8, row) for row in past])


# ---- calls to their end

# cipher type, rate, whether it is strict, whether it joins, and what it is told: a slot's mask, FE for an announcement, FF for a lost slot
CALLS = [
    (1, HALF, 0, 0, "0F0003FF0A"),
    (1, FULL, 1, 1, "FF0F0F010FFE0F00"),
    (2, HALF, 1, 0, "0F0FFF0F0F070F0F" + "0F03FF"),
    (2, HALF, 0, 0, "0F0FFF0F0F070F0F" + "0F03FF"),
    (2, FULL, 1, 1, "0F0100FF" + "FE0F0E0F0F0F0F0F0F" + "05FE00FF"),
    (2, FULL, 0, 1, "0F0100FF" + "0F0E0F0F0F0F0F0F" + "FE05FE00FF"),
    (3, HALF, 1, 1, "0F030102" + "FE0FFFFF0F0F0F0F0D" + "FF0C"),
    (3, HALF, 0, 1, "FFFFFFFF" + "FFFFFFFFFFFFFFFF" + "FE0608FF"),
    (3, FULL, 0, 0, "100F0B"),
    (3, FULL, 1, 0, ""),
]


def calls():
    print("# Calls of a receiver from their opening to their end: cipher type, rate, strictness, key, 1 where it joined and knows no vector, what it is told (a slot's mask, FE for an announcement, FF for a lost slot; hex), and how many words were opened, held, replaced and lost.")
    print("# Printed by bench/model.py calls.")
    for cipher, rate, strict, joins, told in CALLS:
        receiver = Receiver(strict=strict)
        receiver.book.load(cipher, 0, bytes.fromhex(KEYS[cipher]))
        receiver.begin(cipher, 0, None if joins else bytes(8))
        for what in bytes.fromhex(told):
            if what == 0xFE:
                receiver.announce(8 * b"\xAB")
            elif what == 0xFF:
                receiver.lost()
            else:
                receiver.voice(what, bytes(WORDS * word_octets(HALF)))
        print(cipher, rate, strict, KEYS[cipher], int(joins and cipher != 1), told, *receiver.counts.values(), sep="\t")


# ---- slotcheck


def slotcheck(text):
    receiver = Receiver()
    lines = text.split(b"\n")
    if lines[-1] == b"":
        lines.pop()
    sys.stdout.writelines(receiver.line(line) for line in lines)


for cipher, enciphered in PUBLISHED.items():
    assert turned(cipher, 0, TEXT).hex().upper() == enciphered

if __name__ == "__main__":
    printed = {"first": first, "messages": messages, "slots": slots, "zeros": zeros, "calls": calls, "book": walked}
    if len(sys.argv) == 2 and sys.argv[1] in printed:
        printed[sys.argv[1]]()
    elif sys.argv[1:] == ["slotcheck"]:
        slotcheck(sys.stdin.buffer.read())
    else:
        sys.exit(__doc__)
