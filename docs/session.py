#!/usr/bin/env python3
"""docs/session.py > docs/session.svg: the sessions of examples/handover.txt, what slotcheck answers (examples/handover.out), and what a handset would (bench/model.py)."""
import sys
from html import escape
from pathlib import Path

ROOT = Path(__file__).resolve().parent.parent
sys.path.append(str(ROOT / "bench"))
import model

EXAMPLES = ROOT / "examples"
TOLD = [line.split("\t") for line in (EXAMPLES / "handover.txt").read_text().splitlines()]
ANSWERED = [line.split("\t") for line in (EXAMPLES / "handover.out").read_text().splitlines()]
LATE_SESSION = 3  # a J record does not say in which session it joins: handover.py does
SLOTS, SLOT, LEFT = 8, 34, 150
FAINT, BLUE, RED = "#555", "#1f5fa8", "#b03030"
STYLE = """
  text { fill: #222 } .small { font-size: 11px } .line { font-family: monospace; font-size: 12px } .head { font-weight: bold }
  .air { fill: #d6e3f5; stroke: #444 } .open { fill: #cfe8cf; stroke: #444 } .held { fill: #f3d9a6; stroke: #444 }
  .lost { fill: #e6e6e6; stroke: #444; stroke-dasharray: 3 2 } .untold { fill: none; stroke: #bbb; stroke-dasharray: 2 2 }
  .way { fill: none; stroke: #1f5fa8; stroke-width: 1.5 } .stopped { fill: none; stroke: #b03030; stroke-width: 1.5; stroke-dasharray: 4 3 }
  .cross { fill: none; stroke: #b03030; stroke-width: 2.5 } .brace { fill: none; stroke: #888 }"""
out = []


def text(x, y, words, kind="small", fill=None, anchor="start"):
    colour = f' style="fill: {fill}"' if fill else ""
    out.append(f'<text class="{kind}" x="{x:g}" y="{y:g}" text-anchor="{anchor}"{colour}>{escape(words)}</text>')


def box(kind, x, y, width=SLOT, height=30):
    out.append(f'<rect class="{kind}" x="{x:g}" y="{y:g}" width="{width:g}" height="{height:g}"/>')


def path(kind, way, tip=False):
    out.append(f'<path class="{kind}" d="{way}"' + (' marker-end="url(#tip)"' if tip else "") + "/>")


def receiver(records, session):
    """What one receiver was told: cells (session, slot, letter, mask, answer, position after) and marks (session, slot, letter)."""
    cells, marks, slot = [], [], 0
    for fields, (answer, position, _) in records:
        if fields[0] in "VL":
            cells.append((session, slot, fields[0], int(fields[1]) if fields[0] == "V" else 15, answer, position))
            session, slot = (session, slot + 1) if slot < SLOTS - 1 else (session + 1, 0)
        else:
            slot = int(position) if fields[0] == "J" else slot
            marks.append((session, slot, fields[0]))
        assert position in ("-", str(slot))
    return cells, marks


def row(top, first, sessions, name, cells, marks, handset):
    """The air above, what slotcheck answers below, and under it what a handset would answer to the same."""
    def at(session, slot):
        return LEFT + SLOT * (SLOTS * (session - first) + slot)
    told = {(session, slot) for session, slot, *_ in cells}
    text(10, top + 74, "on the air", "head")
    text(10, top + 90, "slots 0 to 7 of a session", fill=FAINT)
    for session in range(first, first + sessions):
        text(at(session, 4), top + 18, f"session {session}, vector S{session}" + (f" = L(S{session - 1})" if session else ""), "head", anchor="middle")
        for half in (0, 4):
            path("brace", f"M{at(session, half) + 3} {top + 34} v-6 h{4 * SLOT - 6} v6")
            text(at(session, half + 2), top + 46, "superframe", fill=FAINT, anchor="middle")
        for slot in range(SLOTS):
            here = (session, slot) in told
            box("air" if here else "untold", at(session, slot), top + 54)
            text(at(session, slot) + SLOT / 2, top + 74, str(slot), "", None if here else "#999", "middle")
    text(10, top + 186, name, "head")
    text(10, top + 202, "answer; position after it", fill=FAINT)
    for session, slot, letter, mask, answer, position in cells:
        x, y = at(session, slot), top + 166
        box("lost" if letter == "L" else "open" if answer == "0" else "held", x, y)
        if mask != 15:
            for word in range(4):
                box("open" if mask >> word & 1 else "air", x + word * SLOT / 4, y + 15, SLOT / 4, 15)
            text(x + SLOT / 2, y - 6, f"mask {mask}", fill=FAINT, anchor="middle")
        text(x + SLOT / 2, *((y + 20, answer, "") if mask == 15 else (y + 12, answer)), anchor="middle")
        text(x + SLOT / 2, y + 44, position, fill=FAINT, anchor="middle")
        if letter == "L":
            text(x + SLOT / 2, y - 6, "L", fill=FAINT, anchor="middle")
    text(10, top + 237, "a handset", "head")
    for (session, slot, letter, mask, *_), answer in zip(cells, handset):
        box("lost" if letter == "L" else "open" if answer == "0" else "held", at(session, slot), top + 222, height=20)
        for word in range(4):
            if not mask >> word & 1:
                box("air", at(session, slot) + word * SLOT / 4, top + 222, SLOT / 4, 20)
        text(at(session, slot) + SLOT / 2, top + 237, answer, "", anchor="middle")
    for session, slot, letter in marks:
        x = at(session, slot)
        path("way", f"M{x} {top + 164} v34")
        text(x, top + 160, letter, "head", BLUE, "middle")
    return at


def announced(x, y, to, words, reached):
    """An announcement in the second superframe goes to the start of the next session, or is lost on the way."""
    if reached:
        path("way", f"M{x} {y} C {x} {y + 44}, {to - 2} {y + 44}, {to + 2} {y + 8}", tip=True)
    else:
        path("stopped", f"M{x} {y} C {x} {y + 44}, {to - 6} {y + 44}, {to - 4} {y + 20}")
        path("cross", f"M{to - 10} {y + 8} l12 12 m0 -12 l-12 12")
    text((x + to) / 2, y + 50, words, fill=BLUE if reached else RED, anchor="middle")


def spoken(frame):
    """Words of six characters, as examples/words shows them; one that is no text is dots."""
    words = [bytes.fromhex(frame[n:n + 12]) for n in range(0, 56, 14)]
    return "".join(w.decode() if all(32 <= c < 127 for c in w) else "······" for w in words).strip()


def cut(field, most):
    return field if len(field) <= most else field[:most - 1] + "…"


def prints(top, rows):
    columns = ((10, "line"), (60, "told"), (290, "answered"), (480, "what it says"))
    text(10, top, "slotcheck prints", "head")
    for x, heading in columns:
        text(x, top + 20, heading, "small head", FAINT)
    path("brace", f"M10 {top + 25} H990")
    for n, (number, says) in enumerate(rows):
        y, told, (answer, position, frame) = top + 42 + 18 * n, TOLD[number - 1], ANSWERED[number - 1]
        text(10, y, str(number), "line", FAINT)
        text(60, y, " ".join(cut(field, 17) for field in told), "line")
        text(290, y, f"{answer} {position} {cut(frame, 13)}", "line")
        text(480, y, says + (f": “{spoken(frame)}”" if frame != "-" else ""))
    return top + 42 + 18 * len(rows)


def legend(x, y):
    for kind, *lines in (
            ("open", "0: opened. The words of the mask are the", "words that were spoken; a word that gave",
             "way to signalling (air’s colour) stays as it", "came, and uses up its bits all the same"),
            ("lost", "0 for L: a lost slot. It uses up its bits, so", "the next one opens"),
            ("held", "1: held as it came. This receiver does not", "know the session’s vector; nothing is", "filed as opened"),
            ("untold", "a slot that this receiver was not told of")):
        box(kind, x, y - 11, 22, 14)
        for line in lines:
            text(x + 30, y, line)
            y += 14
        y += 8


late = next(n for n, fields in enumerate(TOLD) if fields[0] == "J")
lines = list(zip(TOLD, ANSWERED))
riding = model.Receiver(strict=False)
handset = [riding.line("\t".join(fields).encode()).split("\t")[0] for fields in TOLD]
slots = [[handset[n] for n, fields in enumerate(TOLD) if fields[0] in "VL" and (n < late) == early] for early in (True, False)]
first = row(6, 0, 3, "slotcheck (O)", *receiver([line for line in lines[:late] if line[0][0] != "K"], 0), slots[0])
announced(first(0, 5) + SLOT / 2, 92, first(1, 0), "S1 announced: lost in the fade", False)
announced(first(1, 5) + SLOT / 2, 92, first(2, 0), "S2 announced: belongs to the next session", True)
text(LEFT, 142, "the opening carries S0", fill=BLUE)
second = row(276, LATE_SESSION, 2, "slotcheck (J)", *receiver(lines[late:], LATE_SESSION), slots[1])
announced(second(LATE_SESSION, 5) + SLOT / 2, 362, second(LATE_SESSION + 1, 0), "S4 announced: belongs to the next session", True)
text(second(LATE_SESSION, 4) - 10, 436, "joins after a first superframe", fill=BLUE, anchor="end")
legend(716, 340)
text(10, 546, "slotcheck, like the recorder, is strict: after slot 7 it knows no vector until it is told one (I), and a session that begins without one is held to its end.", fill=FAINT)
text(10, 562, "A handset, by default, goes on with the generator’s next: S1 = L(S0) needs no announcement. Where it knew no vector it holds too.", fill=FAINT)
height = prints(594, (
    (7, "session 0, slot 2: opened, the second word as it came"),
    (9, "session 0, slot 4: lost"),
    (13, "session 1, slot 0: held, so no frame"),
    (21, "S2, told as session 2 starts"),
    (22, "session 2, slot 0: opened"),
    (27, "late entry, after session 3’s first superframe: position 4"),
    (28, "session 3, slot 4: held; its vector was announced before it joined"),
    (32, "S4, told as session 4 starts"),
    (33, "session 4, slot 0: opened")))
print(f'<svg xmlns="http://www.w3.org/2000/svg" viewBox="0 0 1000 {height}" font-family="sans-serif" font-size="13">')
print("<title>Five sessions of a DES call on the air, with a lost announcement and a late entry, what slotcheck answers, and what a handset would</title>")
print(f"<style>{STYLE}\n</style>")
print(f'<defs><marker id="tip" markerWidth="8" markerHeight="8" refX="7" refY="4" orient="auto"><path d="M0 0 L8 4 L0 8 z" fill="{BLUE}"/></marker></defs>')
print(f'<rect width="1000" height="{height}" fill="#fcfcfa"/>')
print("\n".join(out))
print("</svg>")
