#!/usr/bin/env python3
"""Brings the repository's own words to today's spelling, over what the kit's script for older repositories left.

usage: python3 tools/spelling.py [--list]      at the top of the repository, once, after that script and before any edit by hand

A word of specs/ or proofs/ in camel case becomes snake case; a definition that is a type begins with a capital; a record's field, a constructor or a
definition of specs/ that has a dash gets an underscore, since a dash joins two names. Lemmas keep their dashes. Names of src/ are in snake case already, and
strings, exported names, inputs and outputs hold none of these words. With --list the names are printed and nothing is written.
"""
import glob
import re
import sys

WORD = re.compile(r"[\w'][\w'-]*")
CAMEL = re.compile(r"[a-z0-9][A-Z]")
# Types, and names that would fall together with another in their scope.
BY_HAND = {"pinsBelow": "GatePinsBelow", "getD-map-inside": "get_or-map-inside"}
# A field that would fall together with the definition `pinCount`; where a call of `pin_count` is cited the name stays.
FIELD = (re.compile(r"(?<![\w'-])(?<!before\.)(?<!\bc\.)pin-count(?![\w'.-])"), "few_pins")
KEPT = {"eM"}
# Lemmas that would get the name of the definition that they speak of.
LEMMAS = {
    "fold_over": "fold_pins-over",
    "is_live": "is_live-positive",
    "all_placed": "all_placed-all",
    "last_line": "last_line-number",
    "in_a_row": "in_a_row-refusal",
    "right_answer": "right_answer-at",
}
LEMMA = re.compile(r"(?<![\w':.-])(" + "|".join(LEMMAS) + r")(?![\w'-])(?! = )")


def texts():
    for pattern in ("crates/*/specs/**/*.antt", "crates/*/proofs/**/*.antt", "crates/*/src/**/*.rt"):
        yield from sorted(glob.glob(pattern, recursive=True))


def snake(part):
    return re.sub(r"(?<=[a-z0-9A-Z])([A-Z])", r"_\1", part).lower() if part[:1].islower() and CAMEL.search(part) else part


def declared(text, is_spec):
    """The dashed names that a file declares as fields and constructors, and, in specs/, as definitions."""
    block = None
    for line in text.splitlines():
        if re.match(r"(pub )?(data|record) ", line):
            block = line
        elif line and not line.startswith(" ") and not line.startswith("--"):
            block = None
        at = re.match(r"(\s*)((?:abbrev |unfoldable )?(?:pub )?)([\w'][\w'-]*) : ", line)
        if at and "-" in at[3] and ((block and at[1] == "  ") or (is_spec and not at[1])):
            yield at[3]


def names():
    found = {}
    for path in texts():
        with open(path) as it:
            text = it.read()
        for word in WORD.findall(text):
            if word not in KEPT and any(snake(part) != part for part in word.split("-")):
                found[word] = "-".join(map(snake, word.split("-")))
        if path.endswith(".antt"):
            found.update((word, word.replace("-", "_")) for word in declared(text, "/specs/" in path))
    del found["pin-count"]
    found.update(BY_HAND)
    return found


def main():
    new = names()
    if "--list" in sys.argv:
        print("\n".join(f"{old} {to}" for old, to in sorted(new.items())))
        return
    paths = [*texts(), *sorted(glob.glob("crates/*/must-fail/*.edit"))]
    for path in paths:
        with open(path) as it:
            text = it.read()
        turned = text
        if "/proofs/" in path:
            turned = LEMMA.sub(lambda name: LEMMAS[name[0]], turned)
        if path.endswith(".antt"):
            turned = FIELD[0].sub(FIELD[1], turned)
        turned = WORD.sub(lambda word: new.get(word[0], word[0]), turned)
        if turned != text:
            with open(path, "w") as it:
                it.write(turned)


main()
