#!/usr/bin/env python3
"""Spells the repository's own definitions and lemmas in snake case, as `areaOf` to `area_of`.

usage: tools/spell.py            at the top of the repository: files are rewritten in place
       tools/spell.py --check    writes nothing; prints each name with its new spelling, and names that fall together

It goes by text. What turns: in .antt files each word, in .rt files each word of a clause, a `ghost use` or a comment, in must-fail
edits, and in documents and comments elsewhere each word that some .antt file has. A dash joins two names, and each is spelled by
itself; types, facts, modules and constructors keep their capitals, and names of the library and of src/ stay. A second run changes nothing.
"""

import os
import re
import sys

WORD = re.compile(r"(?<![\w'])[a-z][a-z0-9]*(?:[A-Z][A-Za-z0-9]*)+(?![A-Za-z0-9_])")
# a list function that the library now calls get_or
OWN = {"getD": "get_or"}
# lemmas that would have the new name of the definition that they are about: each gets _lem in these files
LEMMAS = {
    "targets_of": ("log/specs/Targets", "laws/specs/OneStore", "crash/specs/Steps", "crash/specs/Changed"),
    "size_fits": ("crash/specs/Tests", "crash/specs/Changed"),
    "runs_of": ("extents/proofs/Laws",),
    "slots_at": ("filecheck/proofs/Shape",),
    "staged_stores": ("log/specs/View", "laws/specs/OneStore", "crash/specs/Machine"),
    "left_by": ("laws/specs/Programs",),
    "is_name": ("laws/specs/Replace",),
    "found_of": ("lookup/proofs/Laws", "lookup/proofs/look_up_new/Proof", "lookup/proofs/known/Proof", "lookup/proofs/renamed/Proof"),
    "apart_from": ("tree/proofs/Runs",),
}
OTHER = (".md", ".h", ".c", ".cpp", ".rs", ".toml", ".sh", ".txt", ".py")
SKIP = {".git", "out", "target", "tools"}


def files(ends):
    for folder, dirs, names in os.walk("."):
        dirs[:] = sorted(d for d in dirs if d not in SKIP)
        for n in sorted(names):
            if n.endswith(ends):
                yield os.path.join(folder, n)


def read(path):
    with open(path, encoding="utf-8") as f:
        return f.read()


def snake(word):
    if word in OWN:
        return OWN[word]
    return re.sub(r"(?<=[a-z0-9])(?=[A-Z])", "_", word).lower()


def declared():
    """The words of .antt files that turn."""
    found = set()
    for p in files((".antt",)):
        found |= set(WORD.findall(read(p)))
    return found


def turned(text, names):
    return WORD.sub(lambda m: snake(m.group()) if m.group() in names else m.group(), text)


def lemmas(path, text):
    for w, where in LEMMAS.items():
        if path in {f"./crates/{p}.antt" for p in where}:
            text = re.sub(rf"(?<![\w'.-]){w}(?![\w'-])", w + "_lem", text)
    return text


def together(names):
    """Files in which a new spelling stands already, beside the old one."""
    for p in files((".antt", ".rt")):
        text = lemmas(p, read(p))
        for w in sorted(set(WORD.findall(text)) & names):
            if re.search(rf"(?<![\w'-]){re.escape(snake(w))}(?![\w'-])", text):
                yield p, w, snake(w)


def main(argv):
    names = declared()
    if argv == ["--check"]:
        for w in sorted(names):
            print(w, snake(w))
        for p, w, new in together(names):
            print(f"together: {p}: {w} and {new}")
        return 0
    if argv:
        print(__doc__)
        return 2
    if not names:
        print("nothing to do")
        return 0
    changed = 0
    for p in files((".antt", ".rt", ".edit") + OTHER):
        old = read(p)
        new = turned(lemmas(p, old), names)
        if new != old:
            with open(p, "w", encoding="utf-8") as f:
                f.write(new)
            changed += 1
    print(f"{len(names)} names, {changed} files")
    return 0


if __name__ == "__main__":
    raise SystemExit(main(sys.argv[1:]))
