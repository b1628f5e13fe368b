#!/usr/bin/env python3
"""Does again, by bench/model.py, the operations that tests/c/random wrote into a log: the answers and octets must be
the same.

against_model.py LOG

A line of the log is a function, its numbers, its buffers in hex ('.': none), '=', the answer, and each buffer
afterwards ('-': as it was). The model has books, keystreams and the receiver of a call; a call's and a packet's octets,
senders, vectors that are heard early, and the report are here."""
import os
import struct
import sys

sys.dont_write_bytecode = True
sys.path.insert(0, os.path.join(os.path.dirname(os.path.abspath(__file__)), "..", "..", "bench"))
import model

BOOK, CALL, PACKET, VECTOR = model.ENTRIES * model.ENTRY, struct.Struct(">7B8s8s32s4I"), struct.Struct(">BBH8s32s"), 8
SENDING, RECEIVING = 1, 2
UNKNOWN, TOLD, CARRIED = 0, 1, 2
MOST_WORDS = model.WORDS * model.MOST_SLOTS
SCRAMBLE = 1
SHOWN_KEY, SHOWN_CALL, NAME, STEP = 20, 5, 16, 38


class Refused(Exception):
    """An answer that leaves everything as it was."""


def refuse(when, answer):
    if when:
        raise Refused(answer)


def done(answer):
    refuse(answer, answer)


def in_range(cipher, key_id):
    return cipher in model.KEY_OCTETS and key_id <= 63


def key_in(cipher, room):
    """The key at the start of 32 octets, or None where they are no key of this cipher."""
    octets = model.KEY_OCTETS.get(cipher)
    right = octets and not any(room[octets:]) and model.allowed(cipher, room[:octets])
    return room[:octets] if right else None


# ---- the book: the model's, over octets


def begin(cipher, key_id, book, name):
    kept = model.Book(book)
    done(kept.begin(cipher, key_id, name))
    return 0, kept.octets, name


def add(cipher, key_id, book, octets):
    kept = model.Book(book)
    done(kept.add(cipher, key_id, octets))
    return 0, kept.octets, octets


def finish(cipher, key_id, book):
    kept = model.Book(book)
    done(kept.finish(cipher, key_id))
    return 0, kept.octets


def erase(cipher, key_id, book):
    kept = model.Book(book)
    done(kept.erase(cipher, key_id))
    return 0, kept.octets


def name(cipher, key_id, book, out):
    refuse(len(out) != NAME, 2)
    answer, octets = model.Book(book).name(cipher, key_id)
    done(answer)
    return 0, book, octets


def inventory(entry, book, out):
    refuse(len(out) != SHOWN_KEY, 2)
    answer, numbers, octets = model.Book(book).inventory(entry)
    done(answer)
    return 0, book, bytes(numbers) + octets


# ---- a call: the model's receiver, read from octets and written to them


class Call(model.Receiver):
    """A receiver, or a sender: that goes on as a handset does, and knows every vector."""

    def __init__(self, octets):
        refuse(len(octets) != CALL.size, 2)
        self.octets_before = octets

    def read(self):
        """4 where the octets are no good call."""
        super().__init__()
        self.end, self.rate, self.kept = 0, 0, None
        octets = self.octets_before
        if not any(octets):
            return self
        end, cipher, rate, strict, position, known, keeps, vector, kept, room, *counts = CALL.unpack(octets)
        key = key_in(cipher, room)
        refuse(end not in (SENDING, RECEIVING) or key is None or position >= model.SLOTS[cipher], 4)
        refuse(rate not in model.WIDTH or strict > 1 or strict and end == SENDING or known > CARRIED or keeps > 1, 4)
        refuse(not keeps and any(kept), 4)
        # scramble has no vectors, an unknown one is written as zeros, and a sender's own is never zeros
        refuse((known == UNKNOWN or cipher == SCRAMBLE) and any(vector), 4)
        refuse((end == SENDING or cipher == SCRAMBLE) and known != TOLD, 4)
        refuse(end == SENDING and cipher != SCRAMBLE and not any(vector), 4)
        refuse(strict and known == CARRIED, 4)
        awaits = position == 0 and known != TOLD
        refuse(keeps and (end == SENDING or cipher == SCRAMBLE or awaits), 4)
        told, (opened, held, _, lost) = sum(counts), counts
        refuse(told and end == SENDING, 4)
        if end == RECEIVING:
            refuse(told > MOST_WORDS or told % 4 or lost % 4 or (told // 4 - position) % 4, 4)
            refuse(held and cipher == SCRAMBLE or opened and known == UNKNOWN and not strict, 4)
        self.end, self.rate, self.strict, self.kept = end, rate, bool(strict), kept if keeps else None
        self.call = [cipher, key, position, None if known == UNKNOWN else vector, known == TOLD]
        self.counts = dict(zip(model.COUNTS, counts))
        return self

    def octets(self):
        if not self.call:
            return bytes(CALL.size)
        cipher, key, position, vector, told = self.call
        known = UNKNOWN if vector is None else TOLD if told or self.end == SENDING else CARRIED
        counts = self.counts.values() if self.end == RECEIVING else 4 * [0]
        return CALL.pack(self.end, cipher, self.rate, self.strict, position, known, self.kept is not None,
                         vector or bytes(VECTOR), self.kept or bytes(VECTOR), key, *counts)

    def hears(self):
        return self.end == RECEIVING and self.call[0] != SCRAMBLE

    def past_limit(self):
        return self.end == RECEIVING and self.full()

    def slot(self, words):
        """A vector that was heard is announced by itself as its session starts."""
        super().slot(words)
        if self.kept and self.call[2] == 0:
            done(self.announce(self.kept))
            self.kept = None


def entered(call, end, cipher, key_id, rate, strict, vector, book):
    kept = Call(call)
    refuse(len(book) != BOOK or vector is not None and len(vector) != VECTOR, 2)
    refuse(not in_range(cipher, key_id) or rate not in model.WIDTH or strict > 1, 3)
    kept.read()
    kept.book = model.Book(book)
    done(kept.begin(cipher, key_id, vector))
    refuse(end == SENDING and cipher != SCRAMBLE and not any(vector), 8)
    kept.end, kept.rate, kept.strict = end, rate, bool(strict)
    return kept.octets()


def open_(cipher, key_id, rate, strict, call, vector, book):
    return 0, entered(call, RECEIVING, cipher, key_id, rate, strict, vector, book), vector, book


def start(cipher, key_id, rate, call, vector, book):
    return 0, entered(call, SENDING, cipher, key_id, rate, 0, vector, book), vector, book


def join(cipher, key_id, rate, strict, call, book):
    return 0, entered(call, RECEIVING, cipher, key_id, rate, strict, None, book), book


def voice(mask, call, frame):
    kept = Call(call)
    refuse(mask > 15, 10)
    kept.read()
    refuse(not kept.call, 9)
    refuse(kept.past_limit(), 16)
    refuse(len(frame) != model.WORDS * model.word_octets(kept.rate), 2)
    cipher, key, position, vector, _ = kept.call
    known = "held" if vector is None else "opened"
    kept.slot(known if mask >> word & 1 else "replaced" for word in range(model.WORDS))
    if vector is None:
        return 1, kept.octets(), frame
    return 0, kept.octets(), model.turned_frame(kept.rate, cipher, key, vector, position, mask, frame)


def lost(call):
    kept = Call(call).read()
    refuse(kept.end != RECEIVING, 9)
    done(kept.lost())
    return 0, kept.octets()


def heard(call, vector):
    kept = Call(call)
    refuse(len(vector) != VECTOR, 2)
    kept.read()
    refuse(not kept.hears(), 9)
    if kept.announce(vector) != 0:
        kept.kept = vector
    return 0, kept.octets(), vector


def announce(call, vector):
    kept = Call(call)
    refuse(len(vector) != VECTOR, 2)
    kept.read()
    refuse(kept.end != RECEIVING, 9)
    done(kept.announce(vector))
    return 0, kept.octets(), vector


def next_vector(call, out):
    kept = Call(call)
    refuse(len(out) != VECTOR, 2)
    kept.read()
    refuse(kept.end != SENDING or kept.call[0] == SCRAMBLE, 9)
    return 0, call, model.following(kept.call[3])


def taken(call, step):
    """A step of a batch: its answer, and the call and the step afterwards."""
    kind, mask, lent = step[0], step[1], step[2:]
    octets = model.WORDS * model.word_octets(call[2] == 1) if kind == 1 else VECTOR
    given = lent[:octets]
    try:
        refuse(kind not in (1, 2, 3, 4), 3)
        if kind == 2:
            return lost(call) + (step,)
        answer, call, given = voice(mask, call, given) if kind == 1 else (announce, heard)[kind - 3](call, given)
        return answer, call, step[:2] + given + lent[octets:]
    except Refused as refused:
        return refused.args[0], call, step


def batch(call, steps, answers):
    refuse(len(call) != CALL.size or len(steps) != STEP * len(answers), 2)
    numbers, after = [], []
    for at in range(0, len(steps), STEP):
        answer, call, step = taken(call, steps[at:at + STEP])
        numbers.append(answer)
        after.append(step)
    return 0, call, b"".join(after), bytes(numbers)


def end(call, out):
    kept = Call(call)
    refuse(len(out) != 16, 2)
    kept.read()
    refuse(not kept.call, 9)
    return 0, bytes(CALL.size), struct.pack("=4I", *kept.counts.values())


def show(call, out):
    kept = Call(call)
    refuse(len(out) != SHOWN_CALL, 2)
    kept.read()
    if not kept.call:
        return 0, call, bytes(SHOWN_CALL)
    cipher, _, position, vector, _ = kept.call
    return 0, call, bytes([kept.end, cipher, kept.rate, position, vector is not None and not kept.past_limit()])


# ---- a packet


def read_packet(octets):
    refuse(len(octets) != PACKET.size, 2)
    kind, cipher, count, vector, room = PACKET.unpack(octets)
    if not any(octets):
        return None
    refuse(kind not in model.PROTECTED or key_in(cipher, room) is None or count > 1000, 4)
    refuse(cipher == SCRAMBLE and any(vector), 4)
    return kind, cipher, count, vector, room


def packet_open(use, kind, cipher, key_id, packet, vector, book):
    refuse(len(packet) != PACKET.size or len(vector) != VECTOR or len(book) != BOOK, 2)
    refuse(use > 1 or kind not in model.PROTECTED or not in_range(cipher, key_id), 3)
    refuse(read_packet(packet), 9)
    answer, key = model.Book(book).ready(cipher, key_id)
    done(answer)
    refuse(use == 1 and cipher != SCRAMBLE and not any(vector), 8)
    return 0, PACKET.pack(kind, cipher, 0, bytes(VECTOR) if cipher == SCRAMBLE else vector, key), vector, book


def counted(packet):
    """The next message's packet, and the packet after it."""
    kept = read_packet(packet)
    refuse(not kept or kept[2] == 1000, 9)
    kind, cipher, count, vector, room = kept
    return kept, PACKET.pack(kind, cipher, count + 1, vector, room)


def message(packet, text):
    (kind, cipher, count, vector, room), after = counted(packet)
    head, octets = len(model.HEAD), model.PROTECTED[kind]
    refuse(len(text) != head + octets + len(model.TAIL[kind]), 2)
    # in thousands of octets, so that what was made for one message does for others
    made = model.stream(cipher, key_in(cipher, room), vector, (octets * (count + 1) // 1000 + 1) * 1000)
    turned = bytes(a ^ b for a, b in zip(text[head:head + octets], made[octets * count:]))
    return 0, after, text[:head] + turned + text[head + octets:]


def packet_lost(packet):
    return 0, counted(packet)[1]


def packet_end(packet):
    refuse(not read_packet(packet), 9)
    return 0, bytes(PACKET.size)


# ---- a report


def report(counts, out):
    refuse(len(counts) % 16 or len(out) != 48, 2)
    numbers = [x for x, in struct.iter_unpack("=I", counts)]
    refuse(len(numbers) > 40_000 or any(x > MOST_WORDS for x in numbers), 16)
    sums = [sum(numbers[place::4]) for place in range(4)]
    return 0, counts, struct.pack("=6Q", *sums, sums[0], sums[0] + sums[1])


# ---- the log

FUNCTIONS = {f.__name__.rstrip("_"): f for f in (
    begin, add, finish, erase, name, inventory, open_, start, join, voice, lost, heard, announce, next_vector, batch,
    end, show, packet_open, message, packet_lost, packet_end, report)}


def octets_of(text):
    return bytes.fromhex("" if text == "." else text)


def again(function, numbers, buffers):
    """The answer and the buffers afterwards, by the model."""
    try:
        answer, *after = FUNCTIONS[function](*numbers, *buffers)
    except Refused as refused:
        answer, after = refused.args[0], buffers
    return [str(answer)] + ["-" if bytes(x) == b else bytes(x).hex().upper() for x, b in zip(after, buffers)]


def main(log):
    operations = wrong = 0
    with open(log) as lines:
        for line in lines:
            given, got = (part.split() for part in line.split("="))
            first = len(given) - len(got) + 1  # of the buffers: each is there before and after
            expected = again(given[0], [int(x) for x in given[1:first]], [octets_of(x) for x in given[first:]])
            operations += 1
            if expected != got:
                wrong += 1
                if wrong <= 10:
                    print("wrong:", line.strip(), "but by the model", *expected, file=sys.stderr)
    print(f"{operations} operations, {wrong} wrong")
    return wrong != 0 or operations == 0


if __name__ == "__main__":
    sys.exit(main(*sys.argv[1:2]) if len(sys.argv) == 2 else __doc__)
