"""Counts the places in src/ where an older form of the language may stand (docs/DESIGN-PASS.md, "How the places are counted").

    python3 tools/places.py                   the counts
    python3 tools/places.py POINT             each place of a point, as FILE:LINE TEXT
    python3 tools/places.py all|POINT FOLDER  the same of another checkout

A point is 1 to 7. What a pattern finds may be right as it stands: then a line that begins '// Kept:' says why, at the place or
above the first of its kind in the file.
"""

import pathlib
import re
import sys

TOP = pathlib.Path(sys.argv[2] if len(sys.argv) > 2 else __file__ + "/../..").resolve()

# Of each point: what is looked for, and the pattern of a line of code.
LINES = {
    1: [
        ("a case that says that there is nothing", r"^\s*(Not|Missing|Malformed|Refused\(\w+\)),?$"),
        ("a struct of an answer and what counts only where it is done", r"^\s*(pub )?answer: Answer,"),
        ("a flag beside a value", r"^\s*(pub )?(done|more|made): bool,?$|\bmade: bool\b.*\)"),
        ("an answer compared by its number", r"\.number\(\) (==|!=|>|<)|\bnumber (!=|>) [01]\b"),
        ("a field that is a number for a kind", r"^\s*pub (cipher|end|rate|strictness|known|kind|kept): u8,"),
        ("a constant that is a number for a kind", r"^\s*(pub )?const \w+: u8 = \d+;"),
    ],
    3: [("a loop that counts by hand", r"\b(while|loop)\b")],
    4: [
        ("octets' own wide, least and copy", r"(?<![.\w])(octets::)?(wide|least|copy)\("),
        ("a conversion by hand that std has", r"fn (wide|least|copy|flag|widened|two|four|two_at|four_at|write_two|write_four|as_word|number_of|octets_of)\("),
        ("a widening by as", r"\bas (u16|u32|u64|usize)\b"),
        ("fields compared one after the other", r"fn (is_closed|is_as)\("),
    ],
    6: [
        ("a buffer with a length beside it", r"^\s*(mut )?(kept|line): (\[u8|&mut \[u8\])|^\s*pub line: \["),
        ("a search by hand", r"fn (find|free|text_octets|part_end|is_part|field)\("),
    ],
    7: [("a switch on which step to run", r"match (set|engine|way|kind|parsed)\b|^\s*if kind == [A-Z]+ \{")],
}


def sources():
    for path in sorted(TOP.glob("crates/*/src/**/*.rt")):
        yield path, path.read_text().splitlines()


def code(line):
    """A line without its comment."""
    return re.sub(r"\s*//.*", "", line)


def by_line(point):
    for what, pattern in LINES[point]:
        for path, lines in sources():
            for number, line in enumerate(lines, 1):
                if re.search(pattern, code(line)) and not code(line).lstrip().startswith("ghost use"):
                    yield what, path, number, line.strip()


def functions():
    """Each function: its path, line, name, clauses and body."""
    for path, lines in sources():
        text = "\n".join(code(line) for line in lines)
        for found in re.finditer(r"^([ ]*)(?:pub(?:\(crate\))? )?(?:extern \"C\" )?fn (\w+)(.*?)^\1\{\n(.*?)^\1\}", text, re.M | re.S):
            yield path, text.count("\n", 0, found.start()) + 1, found.group(2), found.group(3), found.group(4)


def twins():
    """Functions of one shape: bodies that are the same but for names and numbers, of three statements or more."""
    groups = {}
    for path, number, name, head, body in functions():
        shape = re.sub(r"\b\d+\b|0x[0-9A-Fa-f]+", "0", re.sub(r"\s+", " ", body))
        shape = re.sub(r"\b(?!(?:if|else|let|mut|return|for|in|while|match|as|true|false)\b)[A-Za-z_]\w*\b", "n", shape)
        if shape.count(";") + shape.count("{") >= 2:
            groups.setdefault(shape, []).append((path, number, name))
    for group in groups.values():
        if len(group) > 1:
            for path, number, name in group:
                yield "of one shape with " + ", ".join(n for _, _, n in group if n != name), path, number, "fn " + name


def repeated():
    """A fact of one crate that three or more functions require, the names of what it is about aside."""
    facts = {}
    for path, number, name, head, body in functions():
        crate = path.relative_to(TOP).parts[1]
        for clause in re.findall(r"requires (?:\w+ )?\{(.*?)\}\n", head):
            for fact in re.split(r" × ", clause):
                fact = re.sub(r"[()]", "", re.sub(r"\b\w+(\.\w+)*\.(old|now)\b", "_", fact)).strip()
                facts.setdefault((crate, fact), []).append((path, number, name))
    for (crate, fact), where in sorted(facts.items()):
        if len(where) >= 3:
            for path, number, name in where:
                yield "required of " + str(len(where)) + ": " + fact, path, number, "fn " + name


def together():
    """Parameters that three or more functions of a crate have beside one another."""
    pairs = [("session", "made"), ("tables", "keys"), ("octets", "words"), ("columns", "schedule"), ("line", "cursor"), ("kept", "count")]
    for one, other in pairs:
        where = [(p, n, f) for p, n, f, h, b in functions() if re.search(rf"\b{one}:", h) and re.search(rf"\b{other}:", h)]
        if len(where) >= 3:
            for path, number, name in where:
                yield one + " and " + other, path, number, "fn " + name


def places(point):
    if point == 2:
        return list(twins())
    if point == 5:
        return list(repeated()) + list(together())
    return list(by_line(point))


def main():
    if sys.argv[1:] and sys.argv[1] != "all":
        for what, path, number, line in places(int(sys.argv[1])):
            print(f"{path.relative_to(TOP)}:{number} {line}    [{what}]")
        return
    for point in range(1, 8):
        found = places(point)
        print(f"{point}: {len(found)} places")
        for what in dict.fromkeys(w for w, *_ in found):
            print(f"    {sum(1 for w, *_ in found if w == what):4} {what}")
    kept = [line for _, lines in sources() for line in lines if "// Kept:" in line]
    print(f"kept, with a reason beside it: {len(kept)} lines")


main()
