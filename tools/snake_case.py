#!/usr/bin/env python3
"""Brings the names of this repository's definitions, lemmas, fields and helpers to snake case, and the edits that must fail with them.

usage: python3 tools/snake_case.py          in the repository's root, once, right after the library's own names were brought over

A name with a dash or a capital inside becomes words joined by underscores: `restOf-bit` becomes `rest_of_bit`. Types and modules begin with a capital and stay.
A lemma that would get the name of its function ends in `_lem`. Names that a file takes from a library stay as they are. The script stops, and writes nothing,
if two names of one file would fall together.
"""
import collections
import glob
import re
import sys

OWN = re.compile(r"Rattle\.(paper|tables|bench)\.")
USE = re.compile(r"\s*use (\S+?)\.\{(.*)\}\s*$")
WORD = re.compile(r"[^\s(){}\[\],;.\"`«»]+")
ODD = re.compile(r"[a-z][^\s]*[A-Z-]")

# lemmas that would get the name of the function that they speak of
LEMMAS = {
    "all-below", "bit-and", "bit-at", "bit-or", "bytes-from", "contents-right", "entries-bound", "every-below", "finished-below", "line-node", "lines-bound", "may-take",
    "parts-grammar", "past-right", "record-before", "record-place", "record-right", "right-for", "same-derivation", "same-list", "some_below", "steps-bound", "symbols-right",
}
# members of a library's module, which no file takes by name
MEMBERS = {"not-nil"}
# names of one file that fall together and may: a helper of one lemma and a local name of another
APART = {"on_tops"}
# what the library renamed, where it stands in an edit
LIBRARY = {"getD": "get_or"}


def snake(name):
    if name in LEMMAS:
        return snake_only(name) + "_lem"
    return snake_only(name)


def snake_only(name):
    return re.sub(r"([a-z0-9])([A-Z])", lambda m: m.group(1) + "_" + m.group(2).lower(), name).replace("-", "_").lower()


def parts(line):
    """The code of a line and its comment."""
    found = re.search(r"(^|\s)--(\s|$)", line)
    return (line[: found.start()], line[found.start() :]) if found else (line, "")


def taken(texts):
    """The names that some file takes from a library."""
    names = set(MEMBERS)
    for text in texts.values():
        for line in text.split("\n"):
            use = USE.match(line)
            if use and not OWN.match(use.group(1)):
                names.update(word.strip().split(" as ")[0] for word in use.group(2).split(","))
    return names


def odd(texts, library):
    """The names of this repository that are not in snake case."""
    names = set(LEMMAS)
    for text in texts.values():
        for line in text.split("\n"):
            use = USE.match(line)
            if use and not OWN.match(use.group(1)):
                continue
            names.update(word for word in WORD.findall(parts(line)[0]) if ODD.match(word))
    return {name: snake(name) for name in names if name not in library}


def together(path, text, new):
    """The pairs of names of one file that would be one."""
    by = collections.defaultdict(set)
    for line in text.split("\n"):
        for word in WORD.findall(parts(line)[0]):
            by[new.get(word, word)].add(word)
    return [f"{path}: {' and '.join(sorted(olds))} would both be {name}" for name, olds in by.items() if len(olds) > 1 and name not in APART]


def turn(text, new):
    lines = []
    for line in text.split("\n"):
        code, comment = parts(line)
        code = WORD.sub(lambda m: new.get(m.group(0), m.group(0)), code) if not (USE.match(line) and not OWN.match(USE.match(line).group(1))) else code
        comment = re.sub(r"`[^`]*`", lambda m: WORD.sub(lambda w: new.get(w.group(0), w.group(0)), m.group(0)), comment)
        lines.append(code + comment)
    return "\n".join(lines)


def tight(text):
    """A projection is written tight, and stands without brackets."""
    return re.sub(r"(\w) \.(\w)", r"\1.\2", re.sub(r"\((\w+) \.(\w+)\)", r"\1.\2", text))


def turn_edit(text, new):
    out = []
    for line in text.split("\n"):
        if line.startswith(("old: ", "new: ")):
            line = line[:5] + WORD.sub(lambda m: (new | LIBRARY).get(m.group(0), m.group(0)), tight(line[5:]))
        out.append(line)
    return "\n".join(out)


def main():
    texts = {path: open(path, encoding="utf-8").read() for path in sorted(glob.glob("crates/*/specs/*.antt") + glob.glob("crates/*/proofs/*.antt"))}
    new = odd(texts, taken(texts))
    clashes = [clash for path, text in texts.items() for clash in together(path, text, new)]
    if clashes:
        sys.exit("\n".join(clashes))
    for path, text in texts.items():
        open(path, "w", encoding="utf-8").write(turn(text, new))
    for path in sorted(glob.glob("crates/*/must-fail/*.edit")):
        text = open(path, encoding="utf-8").read()
        open(path, "w", encoding="utf-8").write(turn_edit(text, new))
    print(f"{len(new)} names in snake case")


main()
