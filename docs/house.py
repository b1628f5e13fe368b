#!/usr/bin/env python3
"""The plan of the house, from crates.txt: which crate rests on which.

docs/house.py > docs/house.svg    draws it, with README's words for each crate; arrows that others imply are left out
docs/house.py check               says what a crate lists and never names in its files, and what it names and doesn't list"""
import random
import re
import sys
import textwrap
from html import escape
from pathlib import Path

ROOT = Path(__file__).resolve().parent.parent
# Listed though never named: a value of such a crate's type reaches them, and the toolchain wants the crate listed.
REACHED = {"calls": {"keybook"}, "data": {"keybook"}, "slotcheck": {"calls"}, "vectors": {"answers"}}


def listed():
    lines = (line.split("#")[0].strip() for line in (ROOT / "crates.txt").read_text().splitlines())
    return {crate.split()[0]: rests.split() for crate, rests in (line.split(":") for line in lines if line)}


def named(crate, known):
    """The crates that the files of a crate name, but itself: in code by `name::`, in definitions and proofs by `Rattle.name.`."""
    names = set()
    for file in (ROOT / "crates" / crate).rglob("*"):
        if file.suffix in (".rt", ".antt"):
            text = re.sub(r"(//|--).*", "", file.read_text())
            names.update(re.findall(r"Rattle\.(\w+)\.", text))
            if file.suffix == ".rt":
                names.update(re.findall(r"(?<![\w:])(\w+)::", text))
    return (names & known) - {crate}


def check():
    rests = listed()
    known = set(rests).union(*rests.values())
    found = False
    for crate in rests:
        names = named(crate, known)
        needless, missing = set(rests[crate]) - names - REACHED.get(crate, set()), names - set(rests[crate])
        if needless:
            print(crate, "lists and never names", *sorted(needless))
        if missing:
            print(crate, "names and doesn't list", *sorted(missing))
        found = found or bool(needless or missing)
    return found


def said():
    """README's words for each crate. A row of several has their words in turn, parted by semicolons, or the same for all."""
    words = {}
    for line in (ROOT / "README.md").read_text().splitlines():
        crates = re.findall(r"\[\w+\]\(crates/(\w+)\)", line.split(" | ")[0])
        if line.startswith("| [") and crates:
            row = line.split(" | ")[1].rstrip(" |").replace("`", "")
            parts = row.split("; ")
            words.update(zip(crates, parts if len(parts) == len(crates) > 1 else [row] * len(crates)))
    return words


def reach(rests, crate):
    """All that a crate rests on, directly or not."""
    return set(rests[crate]).union(*(reach(rests, below) for below in rests[crate]))


def arrows(rests):
    """What a crate rests on, without what follows from the rest."""
    implied = {crate: set().union(*(reach(rests, below) for below in rests[crate])) for crate in rests}
    return {crate: [below for below in rests[crate] if below not in implied[crate]] for crate in rests}


def storeys(rests):
    """A crate stands above all that it rests on; one that others rest on, right below the lowest of them."""
    storey = {}
    for crate in sorted(rests, key=lambda c: len(reach(rests, c))):
        storey[crate] = 1 + max((storey[below] for below in rests[crate]), default=-1)
    for crate in sorted(rests, key=lambda c: -storey[c]):
        storey[crate] = min((storey[user] - 1 for user in rests if crate in rests[user]), default=storey[crate])
    return storey


WIDTH, BOX, LANE, GAP, HEIGHT, STEP = 1200, 208, 14, 16, 60, 90


def lanes(rests, storey):
    """The places of each storey, crates and lanes for arrows that pass by, and the links from storey to storey."""
    places, links = [[] for _ in range(max(storey.values()) + 1)], []
    for crate in rests:
        places[storey[crate]].append(crate)
    for crate, belows in arrows(rests).items():
        for below in belows:
            stops = [(crate, below, n) for n in range(storey[crate] - 1, storey[below], -1)]
            for stop in stops:
                places[stop[2]].append(stop)
            links += zip([crate, *stops], [*stops, below])
    return places, links


def wide(place):
    return LANE if isinstance(place, tuple) else BOX


def crossings(places, links):
    at = {place: n for row in places for n, place in enumerate(row)}
    storey = {place: n for n, row in enumerate(places) for place in row}
    ways = [(storey[a], at[a], at[b]) for a, b in links]
    return sum(s == t and (a - c) * (b - d) < 0 for n, (s, a, b) in enumerate(ways) for t, c, d in ways[:n])


def spread(row, wish):
    """The places of a storey in their order, as near to their wishes as their widths let them."""
    x, edge = {}, 10
    for place in row:
        x[place] = max(wish[place], edge + wide(place) / 2)
        edge = x[place] + wide(place) / 2 + GAP
    edge = WIDTH - 10
    for place in reversed(row):
        x[place] = min(x[place], edge - wide(place) / 2)
        edge = x[place] - wide(place) / 2 - GAP
    return x


def placed(places, links):
    """A crate wishes to stand at the middle of its neighbours, a lane right above what it leads to; a few rounds settle it."""
    x = {}
    for row in places:
        x.update(spread(row, {place: WIDTH * (n + 0.5) / len(row) for n, place in enumerate(row)}))
    near = {place: [b for a, b in links if a == place] for row in places for place in row}
    for a, b in links:
        if not isinstance(b, tuple):
            near[b].append(a)
    for turn in range(40):
        for row in places if turn % 2 else reversed(places):
            x.update(spread(row, {place: sum(x[other] for other in near[place]) / len(near[place]) for place in row}))
    return x


def untangled(places, links):
    """An order of each storey in which few arrows cross: from many starts, the best that swapping neighbours comes to."""
    chance, best = random.Random(1), None
    for _ in range(100):
        rows = [chance.sample(row, len(row)) for row in places]
        fewest, before = crossings(rows, links), None
        while fewest != before:
            before = fewest
            for row in rows:
                for n in range(len(row) - 1):
                    row[n], row[n + 1] = row[n + 1], row[n]
                    now = crossings(rows, links)
                    if now < fewest:
                        fewest = now
                    else:
                        row[n], row[n + 1] = row[n + 1], row[n]
        x = placed(rows, links)
        cost = fewest, sum(abs(x[a] - x[b]) for a, b in links)
        if best is None or cost < best[0]:
            best = cost, rows
    return best[1]


def boxed(crate, middle, top, words):
    kind = "program" if (ROOT / "crates" / crate / "src" / "main.rt").exists() else "crate"
    yield f'<rect class="{kind}" x="{middle - BOX / 2:.0f}" y="{top}" width="{BOX}" height="{HEIGHT}" rx="3"/>'
    yield f'<text x="{middle:.0f}" y="{top + 17}" text-anchor="middle" font-weight="bold">{crate}</text>'
    for n, line in enumerate(textwrap.wrap(words, 37, max_lines=3, placeholder=" …")):
        yield f'<text x="{middle:.0f}" y="{top + 30 + 12 * n}" text-anchor="middle" font-size="10">{escape(line)}</text>'


def way(a, b, begin, end, leads_on):
    """An arrow from the foot of one place to the head of another, or through it where it is a lane."""
    through, tip = (f" V{end + HEIGHT}", "") if leads_on else ("", ' marker-end="url(#tip)"')
    return f'<path class="way" d="M{a:.0f} {begin} C {a:.0f} {begin + 18}, {b:.0f} {end - 18}, {b:.0f} {end}{through}"{tip}/>'


def drawn():
    everything = listed()
    rests = {crate: [below for below in belows if below in everything] for crate, belows in everything.items()}
    words = said()
    places, links = lanes(rests, storeys(rests))
    places = untangled(places, links)
    x = placed(places, links)
    top = {place: 20 + STEP * (len(places) - 1 - n) for n, row in enumerate(places) for place in row}
    height = STEP * len(places) + 38
    kit = ", ".join(sorted(set().union(*everything.values()) - set(everything)))
    yield f'<svg xmlns="http://www.w3.org/2000/svg" viewBox="0 0 {WIDTH} {height}" font-family="sans-serif" font-size="13" fill="#222">'
    yield "<title>The crates, and what each rests on</title>"
    yield "<style>.crate { fill: #eef3fa; stroke: #444 } .program { fill: #cfe8cf; stroke: #444 }"
    yield "  .way { fill: none; stroke: #1f5fa8; stroke-width: 1.5 }</style>"
    yield '<defs><marker id="tip" markerWidth="8" markerHeight="8" refX="7" refY="4" orient="auto">'
    yield '<path d="M0 0 L8 4 L0 8 z" fill="#1f5fa8"/></marker></defs>'
    yield f'<rect width="{WIDTH}" height="{height}" fill="#fcfcfa"/>'
    for a, b in links:
        yield way(x[a], x[b], top[a] + HEIGHT, top[b], b not in rests)
    for crate in rests:
        yield from boxed(crate, x[crate], top[crate], words.get(crate, ""))
    yield f'<text x="10" y="{height - 12}" font-size="11" style="fill: #555">An arrow goes to what a crate rests on; those that others imply '
    yield f"are left out. Green: programs. Not drawn: {kit}, the toolchain’s own.</text>"
    yield "</svg>"


if __name__ == "__main__":
    if sys.argv[1:] == ["check"]:
        sys.exit(check())
    print(*drawn(), sep="\n")
