#!/usr/bin/env python3
"""Counts the old forms in crates/*/src and the proof files beside them, by the points of docs/DESIGN-PASS.md.

    tools/forms.py          the counts, a line for each point
    tools/forms.py 3        the places of point 3, a line each: file:line: text
"""
import collections
import glob
import os
import re
import sys

os.chdir(os.path.join(os.path.dirname(os.path.abspath(__file__)), ".."))

SOURCES = sorted(glob.glob("crates/*/src/**/*.rt", recursive=True))
ANSWERS = sorted(glob.glob("crates/*/proofs/**/Answers.antt", recursive=True))


def lines(pattern, files=SOURCES):
    """Each line of code that the pattern is found in; comments and clauses do not count."""
    for path in files:
        for number, line in enumerate(open(path), 1):
            code = line.split("//")[0]
            if re.match(r"\s*(ghost |requires|ensures)", code):
                continue
            if re.search(pattern, code):
                yield f"{path}:{number}: {line.strip()}"


def functions():
    for path in SOURCES:
        text = open(path).read()
        for m in re.finditer(r"\bfn (\w+)\s*(?:<[^(]*>)?\(([^)]*)\)([^{]*)", text):
            number = text.count("\n", 0, m.start()) + 1
            parameters = [p.strip() for p in re.sub(r"\s+", " ", m.group(2)).split(",") if p.strip()]
            yield path, number, m.group(1), parameters, m.group(3)


def first():
    """An enum or a struct with a refusal's number in it; an enum of two cases, one of them bare; a flag with a value beside it; a number for a refusal."""
    for path in SOURCES:
        text = open(path).read()
        if "#[repr(C)]" in text:
            text = re.sub(r"#\[repr\(C\)\][^}]*\}", lambda m: "\n" * m.group(0).count("\n"), text)
        for m in re.finditer(r"(enum|struct) (\w+)(?:<[^>]*>)? \{(.*?)\n\}", text, re.S):
            number = text.count("\n", 0, m.start()) + 1
            body = m.group(3)
            cases = re.findall(r"^    (\w+)(.*?)(?:,$|,\n|$)", body, re.M)
            shape = None
            if re.search(r"number: u32", body) or re.search(r"Refused|Wrong\(u32\)", body):
                shape = "a refusal's number"
            elif m.group(1) == "enum" and len(cases) == 2 and any(not rest.strip() for _, rest in cases):
                shape = "two cases, one bare" if any(rest.strip() for _, rest in cases) else None
            elif m.group(1) == "struct" and re.search(r": bool,", body) and len(cases) == 2:
                shape = "a flag beside a value"
            if shape:
                yield f"{path}:{number}: {m.group(1)} {m.group(2)}: {shape}"
    yield from lines(r"number: [1-9]|efused\([1-9]|Wrong\([1-9]|const NONE\b")


def second():
    """Bodies that are equal but for names, types and numbers, of four lines or more; the small functions that say what a method of the library says."""
    seen = collections.defaultdict(list)
    for path in SOURCES:
        text = open(path).read()
        for m in re.finditer(r"\bfn (\w+)[^{;]*?\)[^{]*?\n\{\n(.*?)\n\}\n", text, re.S):
            number = text.count("\n", 0, m.start()) + 1
            body = re.sub(r"\b[a-z_]\w*\b(?!\()|\b\d+\b", "x", m.group(2))
            body = re.sub(r"\s+", " ", body)
            if m.group(2).count("\n") >= 3:
                seen[body].append(f"{path}:{number}: fn {m.group(1)}")
    for places in seen.values():
        if len(places) > 1:
            yield from places
    yield from lines(r"\bfn (least|larger|lesser|apart|wide|from_byte|from_column|less|or_wanted|alone)\b")


def third():
    """A loop whose counter is moved by hand."""
    for path in SOURCES:
        text = open(path).read().split("\n")
        for i, line in enumerate(text):
            m = re.match(r"(\s*)(?:'\w+: )?while (.*) \{", line)
            if not m:
                continue
            body = []
            for inner in text[i + 1 :]:
                if inner.startswith(m.group(1) + "}"):
                    break
                body.append(inner)
            tested = re.findall(r"\b[a-z_]\w*\b", m.group(2))
            moved = re.findall(r"^\s*(\w+) [+-]= 1;", "\n".join(body), re.M)
            if set(moved) & set(tested):
                yield f"{path}:{i + 1}: {line.strip()}"


def fourth():
    """A widening that is written as a cast; equality or order of several fields by hand."""
    yield from lines(r"\bfn (same|equal|is_equal)\w*\(")
    yield from lines(r"\bfn (of|from|to|as|told)_\w+\(.*\) -> (Self|u\d+|usize)")


def fifth():
    """A chain with its tables as three parameters; six parameters or more."""
    for path, number, name, parameters, _ in functions():
        types = " ".join(parameters)
        if "c: Chain" in types and "edges: &[u64]" in types and "denominators: &[u64]" in types:
            yield f"{path}:{number}: fn {name}: a chain and its tables"
        elif len(parameters) >= 6:
            yield f"{path}:{number}: fn {name}: {len(parameters)} parameters"


def sixth():
    """A place in a buffer is handed on and answered; a count beside an array."""
    for path, number, name, parameters, result in functions():
        if any(p.startswith("buffer: &mut [u8]") for p in parameters) and any(re.match(r"at: usize", p) for p in parameters):
            yield f"{path}:{number}: fn {name}: a buffer and a place"
    yield from lines(r"^\s*pub (count|length): usize,")


def seventh():
    """A choice of the step by an enum or a flag, and the choice between the two tables written out."""
    yield from lines(r"if opening::long\(")
    yield from lines(r"match (question|engine|mode)\b")


def eighth():
    """Lines of Answers.antt, and helper lemmas there that are copied for another place (NAME_at_PLACE)."""
    total = sum(sum(1 for _ in open(path)) for path in ANSWERS)
    yield f"{len(ANSWERS)} files, {total} lines"
    yield from lines(r"^\w+_at_\w+ :", ANSWERS)


POINTS = [first, second, third, fourth, fifth, sixth, seventh, eighth]

if __name__ == "__main__":
    if len(sys.argv) > 1:
        for place in POINTS[int(sys.argv[1]) - 1]():
            print(place)
    else:
        for k, point in enumerate(POINTS, 1):
            print(f"{k}: {sum(1 for _ in point())}")
