#!/usr/bin/env python3
"""Brings this repository's own definitions, lemmas and their variables to snake case, where port.py left them in another spelling.

usage: respell.py [--said FILE] [FOLDER]

It ran once, right after port.py, at the top of the repository: belowK, below-lq  ->  below_k, below_lq.
Types, modules and the variants of enums keep their spelling, and so do names that a 'use' line brings from the kit, names that Rattle
makes (they are read in proofs/F/Proof.antt, where only names that stand elsewhere are turned) and all names of src/.
Where a definition and a lemma would fall together in one file, the lemma ends in '_holds'.
It goes by spelling and proves nothing. A second run changes nothing.
"""

import collections
import glob
import os
import re
import sys

TOKEN = re.compile(r"--[^\n]*|\"(?:[^\"\\]|\\.)*\"|«[^»]*»|[^\s(){}.;,@\"«»\[\]\\]+")
USE = re.compile(r"^[ ]*(?:pub |unfoldable )*use ([^\s{;]+?)\.\{([^}]*)\}", re.M)
TURNED = re.compile(r"[A-Za-z0-9?'₀-₉]-[A-Za-z0-9]|[a-z0-9][A-Z]")


def read(path):
    with open(path, encoding="utf-8") as it:
        return it.read()


def snake(name):
    out = re.sub(r"([a-z0-9'])([A-Z])", r"\1_\2", name.replace("-", "_"))
    return out if name[0].isupper() else out.lower()


def sources(root):
    for part in ("specs", "proofs"):
        yield from sorted(glob.glob(os.path.join(root, "crates", "*", part, "**", "*.antt"), recursive=True))


def is_walk(path):
    return path.endswith("Proof.antt")


def words(text):
    return [it.group() for it in TOKEN.finditer(text) if not it.group().startswith(("--", '"', "«"))]


def from_kit(text, own):
    """The names that the text's 'use' lines bring from elsewhere."""
    out = set()
    for module, names in USE.findall(text):
        parts = module.split(".")
        if not (parts[0] == "Rattle" and parts[1] in own):
            out |= {it.strip().split(" as ")[0] for it in names.split(",")}
    return out


def names_of(root):
    """Each own name that is to be turned, with its new spelling."""
    own = set(os.listdir(os.path.join(root, "crates")))
    files = {it: words(read(it)) for it in sources(root) if not is_walk(it)}
    kit = set().union(*(from_kit(read(it), own) for it in sources(root)))
    spelled = {it for each in files.values() for it in each}
    turned = {it for it in spelled if it[0].islower() and TURNED.search(it) and it not in kit}
    groups = collections.defaultdict(set)
    for it in turned | {snake(it) for it in turned} & spelled:
        groups[snake(it)].add(it)
    to = {}
    for new, olds in groups.items():
        # The definition, in camel case before, keeps the plain name; what stands beside it in some file is a lemma.
        first = max(olds, key=lambda it: (bool(re.search("[A-Z]", it)), it == new))
        beside = any(len(olds & set(each)) > 1 for each in files.values())
        for old in olds:
            to[old] = new if old == first or not beside else new + "_holds"
    return {old: new for old, new in to.items() if old != new}


def turn(text, to, walk=False):
    def one(it):
        word = it.group()
        if word.startswith(("--", '"', "«")):
            return word
        if walk and text[it.start() - 1 : it.start()] == "." and word in to:
            return snake(word)
        return to.get(word, word)

    return TOKEN.sub(one, text)


def turn_comments(text, to):
    """The names in comments: those in camel case or with a dash that stand for themselves."""
    return re.sub(r"--[^\n]*", lambda it: re.sub(r"[A-Za-z][\w'-]*[\w']", lambda w: to.get(w.group(), w.group()) if re.search("[a-z][A-Z]", w.group()) else w.group(), it.group()), text)


def main(argv):
    root = argv[0] if argv else "."
    to = names_of(root)
    changed = 0
    for path in [*sources(root), *sorted(glob.glob(os.path.join(root, "crates", "*", "src", "**", "*.rt"), recursive=True))]:
        old = read(path)
        new = turn(old, to, is_walk(path))
        if path.endswith(".antt"):
            new = turn_comments(new, to)
        if new != old:
            with open(path, "w", encoding="utf-8") as it:
                it.write(new)
            changed += 1
    print(f"respell: {len(to)} names, {changed} files")
    print("respell: these end in _holds: " + " ".join(sorted(it for it in to if to[it].endswith("_holds"))))
    return 0


if __name__ == "__main__":
    raise SystemExit(main(sys.argv[1:]))
