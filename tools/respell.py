#!/usr/bin/env python3
"""Gives the definitions and lemmas of this repository the spelling of Rattle's own: words in snake case, facts in camel case.

usage: tools/respell.py            at the top of the repository

Names are taken from the signatures of crates/*/specs and crates/*/proofs, and written anew there, in the clauses of src/ and
in the wrong programs. Nothing of the code changes its name. A second run finds nothing to do.
"""
import re
import sys
from pathlib import Path

SIGNATURE = re.compile(r"\s*(?:abbrev |unfoldable |pub |data |record )*([^\s:(){}]+) :( |$)")
TOKEN = re.compile(r"\"(?:[^\"\\]|\\.)*\"|[^\s(){}\[\];,.⌜⌝\"«»|:=<>&?!`]+")

# Facts that were verbs in small letters, each with the files that speak of it.
FACTS = {
    "become": ("Become", r"crates/"),
    "storing": ("Storing", r"crates/(cells|exports|promises|demands)/"),
    "loading": ("Loading", r"crates/cells/(specs|src|wrong)|crates/exports/src/loading\.rt"),
    "loads": ("Loads", r"crates/promises/proofs/Determined"),
    "below": ("Below", r"crates/arith_cases/(specs|src)|crates/arith_cases/proofs/record/count"),
}
# Lemmas that would have the name of the definition that they are about.
LEMMAS = {
    "all_laid": ("all_laid_lem", r"crates/heightmap_laying/"),
    "read_back": ("read_back_lem", r"crates/stl_law/"),
    "one_more": ("one_more_lem", r"crates/(sheet/proofs/Laws|buffers/proofs/Laid|stl_law/proofs/Facets)"),
    "no_cell": ("no_cell_lem", r"crates/heightmap_plan/proofs/"),
}


def is_camel(word):
    return word[0].islower() and re.search(r"[a-z0-9][A-Z]", word) is not None


def snake(word):
    return re.sub(r"(?<=[a-z0-9])([A-Z])", lambda m: "_" + m[1].lower(), word)


def files():
    for path in sorted(Path("crates").rglob("*")):
        if path.suffix in (".antt", ".rt", ".edit") and "out" not in path.parts[2:3]:
            yield path


def renamings():
    found = {}
    for path in files():
        if path.suffix == ".antt":
            for line in path.read_text().splitlines():
                m = SIGNATURE.match(line)
                if m:
                    new = "-".join(snake(part) if part and is_camel(part) else part for part in m[1].split("-"))
                    if new != m[1]:
                        found[m[1]] = new
    return found


def in_scope(names, path):
    return {old: new for old, (new, where) in names.items() if re.match(where, str(path))}


def turned(text, names, facts):
    def word(m):
        return names.get(m[0], facts.get(m[0], m[0]))

    return TOKEN.sub(word, text)


def main():
    names = renamings()
    lemmas = {old: new for old, new in LEMMAS.items() if names}
    for path in files():
        text = path.read_text()
        new = turned(text, in_scope(lemmas, path), {})
        lines = []
        for line in turned(new, names, {}).split("\n"):
            spoken = path.suffix == ".antt" and not line.lstrip().startswith("--") or re.match(r"\s*(ghost use|ensures|requires)\b", line)
            lines.append(turned(line, in_scope(FACTS, path), {}) if spoken else line)
        new = "\n".join(lines)
        if new != text:
            path.write_text(new)
    print(f"{len(names)} names in small camel case, {len(lemmas)} lemmas and {len(FACTS)} facts")
    return 0


if __name__ == "__main__":
    sys.exit(main())
