#!/usr/bin/env python3
"""Counts the places in src/ that docs/DESIGN-PASS.md speaks of, point by point.

    tools/places.py [COMMIT]      counts, of a commit or of what stands in the tree
    tools/places.py -v [COMMIT]   and the places themselves
"""
import itertools
import re
import subprocess
import sys


def sources(commit):
    """Each file of src/ with its text, comments taken off."""
    if commit:
        names = subprocess.run(["git", "ls-tree", "-r", "--name-only", commit], capture_output=True, text=True, check=True).stdout.split("\n")
        names = [n for n in names if re.fullmatch(r"crates/\w+/src/.*\.rt", n)]
        texts = {n: subprocess.run(["git", "show", f"{commit}:{n}"], capture_output=True, text=True, check=True).stdout for n in names}
    else:
        names = subprocess.run(["git", "ls-files", "crates/*/src/*.rt"], capture_output=True, text=True, check=True).stdout.split()
        texts = {n: open(n, encoding="utf-8").read() for n in names}
    return {n: "\n".join(re.sub(r"//.*", "", line) for line in t.split("\n")) for n, t in texts.items()}


def lines(texts, pattern):
    """Lines that a pattern is found in."""
    found = []
    for name, text in texts.items():
        for number, line in enumerate(text.split("\n"), 1):
            if re.search(pattern, line):
                found.append(f"{name}:{number}: {line.strip()}")
    return found


def functions(texts):
    """(place, name, parameters, clauses, body) of each function."""
    made = []
    for name, text in texts.items():
        for m in re.finditer(r"(?m)^ *(?:pub )?(?:extern \"C\" )?fn (\w+)[^(]*\(", text):
            depth, i = 1, m.end()
            while depth:
                depth += {"(": 1, ")": -1}.get(text[i], 0)
                i += 1
            params = [p.strip() for p in re.split(r",(?![^<\[(]*[>\])])", text[m.end():i - 1]) if p.strip()]
            start = text.find("\n" + re.match(r" *", m.group(0)).group(0) + "{\n", i)
            declared = text.find(";\n", i)
            if 0 <= declared < start or start < 0:
                start = -1
            end = text.find("\n" + re.match(r" *", m.group(0)).group(0) + "}\n", i)
            body = text[start:end] if 0 <= start < end else ""
            clauses = re.findall(r"(?m)^ +requires \w* ?\{ (.*) \}$", text[i:start] if start > 0 else "")
            place = f"{name}:{text.count(chr(10), 0, m.start()) + 1}"
            made.append((place, m.group(1), params, clauses, body))
    return made


def twins(made):
    """Functions whose bodies are the same but for names and numbers."""
    groups = {}
    for place, name, _, _, body in made:
        tokens = re.findall(r"[A-Za-z_]\w*|\d[\w.]*|[^\s\w]", body)
        if len(tokens) < 30:
            continue
        key = " ".join("x" if re.match(r"[A-Za-z_\d]", t) and t not in ("if", "else", "while", "for", "match", "return", "let", "mut") else t for t in tokens)
        groups.setdefault(key, []).append(f"{place}: {name}")
    return [" = ".join(g) for g in groups.values() if len(g) > 1]


def numbered(made):
    """Functions that differ in a number word of their names."""
    groups = {}
    for place, name, _, _, _ in made:
        stem = re.sub(r"_(none|single|lowest|one|two|three|four)$", "_", name)
        if stem != name:
            groups.setdefault((place.split(":")[0], stem), []).append(f"{place}: {name}")
    return [" = ".join(g) for g in groups.values() if len(g) > 1]


def clauses(made):
    """Facts that stand word for word in the contracts of three functions of a crate."""
    groups = {}
    for place, name, _, facts, _ in made:
        for fact in facts:
            groups.setdefault((place.split("/")[1], fact), []).append(name)
    return [f"{c}: {f} -- {', '.join(n)}" for (c, f), n in groups.items() if len(n) > 2]


def together(made):
    """Functions of a crate that share three parameters, by name and type, with two others."""
    groups = {}
    for place, name, params, _, _ in made:
        for three in itertools.combinations(sorted(p for p in params if ":" in p), 3):
            groups.setdefault((place.split("/")[1], three), set()).add(f"{place}: {name}")
    return sorted({f for g in groups.values() if len(g) > 2 for f in g})


ARRAYS = [("starts", "lines"), ("names", "numbers"), ("first", "end"), ("words", "bits"), ("pins", "counts"), ("next", "unseen")]
LENGTHS = [("starts", "n"), ("names", "many"), ("heads", "gates"), ("outs", "outputs"), ("lines", "n")]


def pairs(made, named, length):
    """Functions that are lent two arrays that are read alike, or an array with its length beside it."""
    found = []
    for place, name, params, _, _ in made:
        types = dict(p.split(": ", 1) for p in params if ": " in p)
        for a, b in named:
            if "[" in types.get(a, "") and ("[" in types.get(b, "") or length and b in types):
                found.append(f"{place}: {name} {a} {b}")
                break
    return found


def main():
    args = [a for a in sys.argv[1:] if a != "-v"]
    texts = sources(args[0] if args else None)
    made = functions(texts)
    of_programs = {n: t for n, t in texts.items() if n.endswith("main.rt")}
    by_hand = r"^ *(pub )?fn (smaller|larger|same|wide|byte|low|high|apart|copy|earlier|field_bytes|two_bytes|four_bytes|print_word|end_line|print_text)\("
    points = [
        ("1 enums of the shape of Option or Result", lines(texts, r"^\s+(Refused|Fine|Accepted|Unlike|Missing|Differs|Misfit)\b.*,$")),
        ("1 refusals handed on by hand", lines(texts, r"Refused\((number|a|b), \w+\) =>|return Judgement::Refused\(number")),
        ("1 numbers for refusals and kinds", lines(texts, r"^pub const \w+: u8 = \d+;|^pub const (OUTPUTS|COVER): usize = \d;|^\s+(return )?2;?$|ending: 2")),
        ("2 bodies that differ in names and numbers", twins(made)),
        ("2 functions by the number in their names", numbered(made)),
        ("3 loops that count an index", lines(texts, r"^\s*while ")),
        ("4 equality, order, copying, conversion by hand", lines(texts, by_hand)),
        ("4 printing by hand", lines(of_programs, r"print_word\(|print_text\(")),
        ("5 functions that share three parameters with two others", together(made)),
        ("5 facts in three contracts", clauses(made)),
        ("6 parallel arrays lent together", pairs(made, ARRAYS, False)),
        ("6 buffers with a length beside them", pairs(made, LENGTHS, True)),
        ("7 a switch on which step to run", lines(texts, r"match (method|end|count|kind) \{")),
    ]
    for title, places in points:
        print(f"{len(places):4} {title}")
        if "-v" in sys.argv:
            for place in places:
                print("       " + place)


main()
