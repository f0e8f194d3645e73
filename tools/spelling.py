#!/usr/bin/env python3
"""Brings the repository's own names to today's spelling, once, after the toolchain's port.py and before any edit by hand.

usage: python3 tools/spelling.py [--dry]     at the top of the repository

What specs/ and proofs/ declare in camel case or with a dash (definitions, lemmas, fields, constructors) gets snake case:
chanceOf becomes chance_of, moved-one becomes moved_one. Types, facts and modules keep their capitals, and a lemma that is
named after one keeps its dash, as Held-says. Names of src/, exported names, strings, inputs and outputs stay.
A lemma whose new name is a definition's gets _lem behind it. With --dry nothing is written, and the map is printed.
"""

import collections
import glob
import re
import sys

NAME = r'[^\s(){}.;,@"«»]+'
WORD = re.compile(r"[a-z][A-Za-z0-9₀-₉']*([-_][A-Za-z0-9₀-₉']+)*$")
FUNCTION_PROOF = re.compile(r"proofs/.+/")
# What stands behind the name of a step that the check itself names.
STEP = r"\.(?:ensures|result|requires|new|old|now|type_inv|auto|lifetimes|before|invariant|true|false|args|was|is)\b"


def texts(*patterns):
    return sorted(f for p in patterns for f in glob.glob(p, recursive=True))


def lemma_files():
    """Files of definitions and of lemmas: not the proofs of single functions, whose goals the check names."""
    return texts("crates/*/specs/**/*.antt") + [f for f in texts("crates/*/proofs/*.antt")]


def declared(text):
    """Names that a file declares: at the head of a signature, as a record's field or as a constructor."""
    for line in text.split("\n"):
        if line.lstrip().startswith("--") or line.startswith("use "):
            continue
        for it in re.finditer(rf"(?:^\s*|[({{] ?|\| )(?:(?:pub|abbrev|unfoldable|record|data) )*({NAME})(?: [({{][^:]*)?(?: :(?= )| where$)", line):
            yield it.group(1)
        it = re.match(rf"^\s*(?:pub |abbrev |unfoldable )+({NAME})(?: .*)? :(?: |$)", line)
        if it:
            yield it.group(1)


def snake(name):
    name = re.sub(r"(?<=[a-z0-9₀-₉])([A-Z])", lambda m: "_" + m[1].lower(), name)
    return name.replace("-", "_")


def turnable(name):
    if not WORD.match(name):
        return False
    # A part with a capital at its head is a type's or a fact's name: such a lemma keeps its dash.
    return not any(part[:1].isupper() for part in name.split("-"))


def the_map():
    own, fields, said = set(), set(), collections.defaultdict(set)
    for f in lemma_files():
        text = open(f, encoding="utf-8").read()
        own |= set(declared(text))
        fields |= set(re.findall(rf"(?m)^ +(?:pub )?({NAME}) : ", text))
        for n in set(re.findall(NAME, text)):
            said[n].add(f)
    new = {n: snake(n) for n in own if turnable(n) and "-" not in n and snake(n) != n}
    # A lemma that would have a definition's name says so.
    for it in list(new.values()):
        if it in own:
            new[it] = it + "_lem"
    taken = own | set(new.values())
    for n in sorted(own):
        if turnable(n) and "-" in n:
            it = snake(n)
            if it in taken or said[n] & said[it]:
                it += "_lem"
            if it in taken:
                print("stays:", n)
                continue
            new[n] = it
            taken.add(it)
    return new, fields


def turned(text, new):
    return re.sub(NAME, lambda m: new.get(m[0], m[0]), text)


def turned_proof(text, new, fields):
    """A function's proof: a name with a dash may be one of the check's own, so it turns where the file imports it or where it is a field."""
    imported = set(re.findall(NAME, " ".join(re.findall(r"(?ms)^use [^{\n]*(?:\{[^}]*\})?", text))))
    plain = {n: it for n, it in new.items() if ("-" not in n and not it.endswith("_lem")) or n in imported}
    for n, it in new.items():
        if n in fields and n not in plain and n in text:
            at = re.escape(n)
            text = re.sub(rf"\.{at}(?![^\s(){{}}.;,])(?!{STEP})", "." + it, text)
            text = re.sub(rf"(?<![^\s{{(;]){at}(?= = )", it, text)
    return turned(text, plain)


def main(dry):
    new, fields = the_map()
    if dry:
        for n in sorted(new):
            print(n, new[n])
        return
    for f in texts("crates/*/specs/**/*.antt", "crates/*/proofs/**/*.antt", "crates/*/src/**/*.rt", "crates/*/must-fail/*.edit"):
        text = open(f, encoding="utf-8").read()
        if FUNCTION_PROOF.search(f):
            after = turned_proof(text, new, fields)
        elif f.endswith(".rt"):
            # In Rust's text a dash is no letter of a name, and no clause cites a lemma.
            after = turned(text, {n: it for n, it in new.items() if "-" not in n and not it.endswith("_lem")})
        else:
            after = turned(text, new)
        if after != text:
            with open(f, "w", encoding="utf-8") as out:
                out.write(after)
    print(len(new), "names")


if __name__ == "__main__":
    main("--dry" in sys.argv)
