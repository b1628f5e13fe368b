"""Says of each crates/NAME/must-fail/*.edit whether it can be applied.

    python3 tools/edits.py [NAME..]

An edit is lines 'file: PATH', 'old: TEXT', 'new: TEXT' ('#' starts a comment). Each old text
must stand exactly once in its file, later ones in what the earlier ones made. A line is
printed for each that doesn't, with the number of times it stands; the exit status is 1 then.
"""

import pathlib
import sys

TOP = pathlib.Path(__file__).resolve().parent.parent


def pairs(text):
    """The (file, old, new) of an edit, and what is not such a line."""
    found, bad, file, old = [], [], None, None
    for line in text.splitlines():
        if line.startswith("file: "):
            file = line[6:].strip()
        elif line.startswith("old: "):
            old = line[5:]
        elif line.startswith("new:") and old is not None and file is not None:
            found.append((file, old, line[5:]))
            old = None
        elif line.strip() and not line.startswith("#"):
            bad.append(line)
    if old is not None:
        bad.append("old: " + old)
    return found, bad


def faults(edit):
    """What keeps the edit from being applied, a line for each."""
    crate = edit.parent.parent
    found, said = pairs(edit.read_text())
    said = ["not a line of an edit: " + line for line in said]
    if not found:
        said.append("no pair")
    texts = {}
    for file, old, new in found:
        if file not in texts:
            path = crate / file
            if not path.is_file():
                said.append(f"no file {file}")
                continue
            texts[file] = path.read_text()
        count = texts[file].count(old)
        if count != 1:
            said.append(f"{file}: stands {count} times: {old}")
        elif old == new:
            said.append(f"{file}: changes nothing: {old}")
        else:
            texts[file] = texts[file].replace(old, new)
    return said


def main(names):
    edits = sorted(TOP.glob("crates/*/must-fail/*.edit"))
    if names:
        edits = [edit for edit in edits if edit.parent.parent.name in names]
    bad = 0
    for edit in edits:
        said = faults(edit)
        bad += bool(said)
        for line in said:
            print(f"{edit.relative_to(TOP)}: {line}")
    print(f"edits: {len(edits)}, of them {bad} bad")
    return 1 if bad else 0


if __name__ == "__main__":
    sys.exit(main(sys.argv[1:]))
