#!/usr/bin/env python3
"""Brings the repository's own definitions and lemmas to snake case, at the top of the repository, once, after the port's own script.

A name in antt that begins with a small letter and has a capital in it, as readInt, becomes read_int, in definitions, lemmas, clauses and comments.
Text between double quotes stays, and so do the library's own names. Types, modules, and the functions of src/ have their spelling already.
"""
import glob
import re
import sys

# the library's own names, which stay, and one that is the library's get_or by now
LIBRARY = {"uint_Makes", "uint_Tells", "uint_Lawful", "bool_Makes", "bool_Lawful", "mut_Tells", "shr_slice_Tells", "shr_slice_Lawful", "walk_Meets", "getElem"}
OTHERS = {"getD": "get_or"}
# lemmas whose name would fall together with that of a definition that their files use: they get the ending _lem there
LEMMAS = {
    "or_nil": ["crates/model/proofs/Behaviour.antt", "crates/model/proofs/Effects.antt", "crates/indexing/proofs/LocalTakes.antt"],
    "read_below": ["crates/model/proofs/Numbers.antt", "crates/model/proofs/NumberWords.antt"],
    "read_table": ["crates/table/proofs/Records.antt", "crates/integrity/proofs/Passing.antt"],
    "live_here": [
        "crates/live/proofs/Cases.antt",
        "crates/access/proofs/exget/Proof.antt",
        "crates/write/proofs/excas/Proof.antt",
        "crates/bitfield/proofs/load/Proof.antt",
    ],
}
WORD = re.compile(r"[A-Za-z0-9_]+")
TEXT = re.compile(r'"(?:[^"\\\n]|\\.)*"')
COMMENT = {".antt": "--", ".rt": "//"}


def snake(word):
    if word in OTHERS:
        return OTHERS[word]
    return re.sub(r"(?<=[a-z0-9])([A-Z])", lambda m: "_" + m.group(1).lower(), word)


def is_camel(word):
    return bool(re.match(r"[a-z]", word)) and bool(re.search(r"[A-Z]", word)) and word not in LIBRARY


def ending(path):
    return path[path.rindex("."):]


def code_of(line, mark):
    """A line without its texts and its comment."""
    line = TEXT.sub('""', line)
    at = line.find(mark) if mark else -1
    return line if at < 0 else line[:at]


def with_endings(path, text):
    """The lemmas of LEMMAS with their ending, in a file that uses them."""
    for name, paths in LEMMAS.items():
        if path in paths:
            text = re.sub(r"(?<![\w.'-])" + name + r"(?![\w'-])", name + "_lem", text)
    return text


def files():
    for path in sorted(glob.glob("crates/**/*", recursive=True)):
        if path.endswith((".antt", ".rt")) and "/out/" not in path:
            yield path


def main():
    words = set()
    for path in files():
        for line in open(path, encoding="utf-8"):
            words.update(w for w in WORD.findall(code_of(line, COMMENT[ending(path)])) if is_camel(w))

    def turned(text):
        return WORD.sub(lambda m: snake(m.group()) if m.group() in words else m.group(), text)

    for path in files():
        out = []
        for line in with_endings(path, open(path, encoding="utf-8").read()).splitlines(keepends=True):
            at = 0
            for m in TEXT.finditer(line):
                out.append(turned(line[at:m.start()]))
                out.append(m.group())
                at = m.end()
            out.append(turned(line[at:]))
        open(path, "w", encoding="utf-8").write("".join(out))
    for word in sorted(words):
        print(word, snake(word), file=sys.stdout)


if __name__ == "__main__":
    main()
