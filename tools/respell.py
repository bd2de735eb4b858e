#!/usr/bin/env python3
"""Brings the repository's own definitions and lemmas to snake case; types and modules are in camel case already.

usage: python3 tools/respell.py [--list]     at the top of the repository, once, after the toolchain's own script; --list only prints the names

A name is the repository's own where a file of specs/ or a lemma file of proofs/ writes it and no line imports it from a library. Names
that the check makes (those of goals and of what a goal gives) stay: they stand only in the folders of functions.
Functions of src/ and strings stay. Where two names would fall together, TWINS says what one of them becomes.
"""
import collections
import os
import re
import sys

WORD = re.compile(r"(?<![\w'·])[A-Za-z_][A-Za-z0-9_'₀-₉]*(?:-[A-Za-z0-9_'₀-₉]+)*")
LIBRARY = re.compile(r"\b(?:Rattle\.std|Rattle\.core|lib|mathlib|native|Prim)\.")
# a name that would fall together with another, or with a name of a library
TWINS = {
    "in-round": "in_round_some",
    "left-at": "left_at_is",
    "let-go": "let_go_sound",
    "let-go-field": "let_go_field_sound",
    "let-go-four": "let_go_four_sound",
    "no-free-cell": "no_free_cell_not_damaged",
    "raise-field": "raise_field_sound",
    "root-at": "root_at_is",
    "rootIs": "is_root",
    "seat-at": "seat_at_is",
    "serialIs": "is_serial",
    "slotIs": "is_slot",
}
# the same for names that were in snake case already, by crate
ALSO = {
    ("announcement", "stage_at"): "stage_at_is",
    ("announcement_theory", "stage_at"): "stage_at_is",
    ("desk", "stage_at"): "stage_at_is",
    ("exchange_theory", "no_cell"): "no_cell_not_damaged",
}


def snake(word):
    word = word.replace("-", "_")
    word = re.sub(r"(?<=[a-z0-9₀-₉])(?=[A-Z])", "_", word)
    return word.lower()


def wants(word):
    return "-" in word or bool(re.match(r"[a-z][a-z0-9_'₀-₉]*[A-Z]", word))


def files(root):
    for folder, dirs, names in os.walk(os.path.join(root, "crates")):
        dirs[:] = sorted(d for d in dirs if d != "out")
        for name in sorted(names):
            if name.endswith((".antt", ".rt")):
                yield os.path.join(folder, name)


def is_lemma(path):
    parts = path.split(os.sep)
    return path.endswith(".antt") and parts[-2] in ("specs", "proofs")


def code(path, text):
    """The text in pieces: (is code, piece); comments and strings are no code."""
    comment = r"--(?![-\w>]).*|(?m:^\s*--.*$)" if path.endswith(".antt") else r"//.*"
    out, at = [], 0
    for m in re.finditer(r'"(?:[^"\\]|\\.)*"|' + comment, text):
        out.append((True, text[at:m.start()]))
        out.append((False, m.group(0)))
        at = m.end()
    out.append((True, text[at:]))
    return out


def imported(text):
    names = set()
    for line in text.split("\n"):
        m = re.match(r"\s*(?:pub )?(?:ghost )?use (.*)", line)
        if m and LIBRARY.search(m.group(1)):
            names |= set(WORD.findall(m.group(1)))
    return names


def main():
    root = "."
    texts = {p: open(p, encoding="utf-8").read() for p in files(root)}
    theirs, own, all_words = set(), collections.Counter(), collections.Counter()
    for path, text in texts.items():
        theirs |= imported(text)
        for is_code, piece in code(path, text):
            if is_code:
                for w in WORD.findall(piece):
                    all_words[w] += 1
                    if is_lemma(path) and wants(w):
                        own[w] += 1
    names = {w: TWINS.get(w, snake(w)) for w in own if w not in theirs}
    if "--list" in sys.argv:
        after = collections.defaultdict(list)
        for old, new in names.items():
            after[new].append(old)
        for new, olds in sorted(after.items()):
            note = ""
            if len(olds) > 1:
                note += " FALL TOGETHER " + " ".join(olds)
            if all_words[new]:
                note += f" STANDS {all_words[new]}"
            if new in theirs:
                note += " THEIRS"
            print(" ".join(olds), "->", new + note)
        return
    for path, text in texts.items():
        mine = None
        if not is_lemma(path) and path.endswith(".antt"):
            # in the folder of a function a name is the repository's own where the file imports it
            mine = set()
            for line in text.split("\n"):
                m = re.match(r"(?:pub )?use (Rattle\.\w+\.(?:specs|proofs)\..*)", line)
                if m and not LIBRARY.search(m.group(1)) and not re.search(r"\.(Goals|Given)\b", m.group(1)):
                    mine |= set(WORD.findall(m.group(1)))
        crate = path.split(os.sep)[2]
        def turn(m):
            w = m.group(0)
            if (crate, w) in ALSO and path.endswith(".antt"):
                return ALSO[crate, w]
            if w not in names:
                return w
            if mine is not None and w not in mine:
                return w
            return names[w]
        out = []
        for is_code, piece in code(path, text):
            out.append(WORD.sub(turn, piece) if is_code else piece)
        new = "".join(out)
        if new != text:
            open(path, "w", encoding="utf-8").write(new)

if __name__ == "__main__":
    main()
