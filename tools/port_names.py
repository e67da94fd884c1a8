#!/usr/bin/env python3
"""Gives the repository's own names the spelling back that the toolchain's port.py changed: usage: tools/port_names.py LANDED, at the top of a checkout in which
port.py has run over the commit LANDED.

port.py writes some of the repository's definitions and laws with `_` (`kindAt` becomes `kind_at`, `no-more` `no_more`) and leaves others (`kindNumber`, the law
`kind-at`). Here a word with `_` becomes the word that it was in the same file of LANDED: the one spelled so but for `_` that LANDED has there more often. In a file
that LANDED does not have, the one that LANDED has more often in all. A word that stood there with its `_`, as a function's name does, stays. In proofs words of the
library are turned too, which port.py had right; it is statements that are to be compared, and in those there is none."""

import collections
import pathlib
import re
import subprocess
import sys

WORD = re.compile(r"[A-Za-z_][A-Za-z0-9_'′₁₂₃-]*")
ENDINGS = (".antt", ".rt")


def words(text):
    """How often each word stands in a text."""
    return collections.Counter(WORD.findall(text))


def at(landed, path):
    """The text of a file in LANDED."""
    return subprocess.run(["git", "show", f"{landed}:{path}"], capture_output=True, text=True, check=True).stdout


def spellings(word):
    """A word as it may have stood before."""
    camel = re.sub(r"_([a-z0-9])", lambda m: m[1].upper(), word)
    return {camel, word.replace("_", "-")} - {word}


def meant(word, before, now):
    """What the word of a text now was in the text before: the spelling that has become rarer, if the word itself is new there; else the word."""
    rarer = [s for s in spellings(word) if before[s] > now[s]]
    return rarer[0] if len(rarer) == 1 and not before[word] else word


def main(landed):
    paths = subprocess.run(["git", "ls-tree", "-r", "--name-only", landed, "crates"], capture_output=True, text=True, check=True).stdout.split()
    before = {p: words(at(landed, p)) for p in paths if p.endswith(ENDINGS)}
    files = {str(p): p for p in pathlib.Path("crates").rglob("*") if p.suffix in ENDINGS}
    now = {p: words(file.read_text()) for p, file in files.items()}
    everywhere = sum(before.values(), collections.Counter()), sum(now.values(), collections.Counter())
    turned = set()
    for path, file in files.items():
        there = (before[path], now[path]) if path in before else everywhere
        names = {w: meant(w, *there) for w in now[path] if "_" in w}
        turned |= {w for w, old in names.items() if old != w}
        file.write_text(WORD.sub(lambda m: names.get(m[0], m[0]), file.read_text()))
    print(f"{len(turned)} words have the spelling of {landed[:7]} again")


if __name__ == "__main__":
    sys.exit(main(sys.argv[1]) if len(sys.argv) == 2 else __doc__)
