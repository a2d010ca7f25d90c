#!/usr/bin/env python3
"""Turns this repository's own names to today's spelling: words in snake case, types and modules in camel case.

usage: tools/port_names.py    at the top of the repository, once, after the kit's port.py

It rewrites each word in camel case that begins with a small letter, as lastPlace to last_place, in crates/ and in the
documents. Where the new name of a definition is one that stands beside it already, LEMMAS renames that lemma first,
and OTHER gives the definition a name of its own. The crate hex, whose name is that of a library of the kit, becomes
intel_hex; crates.txt loses the libraries that a program no longer names.
"""

import os
import re
import sys

WORD = re.compile(r"(?<![\w'])[A-Za-z_][\w']*")
CAMEL = re.compile(r"^[a-z][a-z0-9_]*[A-Z]")
# words of the kit, and of other languages, that keep their spelling
KEPT = {"getD"}
# a lemma whose name is the new name of the definition that it is about
LEMMAS = {w: w + "_lem" for w in ("full_from", "plain_at", "read_answer", "runs_of", "slots_apart", "told_of")}
LEMMAS["read_count"] = "read_count_lem"
# fields of records are called list_length and store_length
OTHER = {w + "Length": w + "_len" for w in ("list", "marks", "pins", "sets", "store", "work")}
OTHER["atRest"] = "chip_at_rest"


def snake(word):
    return re.sub(r"([A-Z])", lambda m: "_" + m.group(1).lower(), word)


def turned(word, declared):
    if word in OTHER:
        return OTHER[word]
    if CAMEL.match(word) and word not in KEPT and word in declared:
        return snake(word)
    return word


def texts(top, ends):
    for folder, dirs, files in os.walk(top):
        dirs[:] = sorted(d for d in dirs if d not in ("out", ".git"))
        for name in sorted(files):
            if name.endswith(ends):
                yield os.path.join(folder, name)


def rewrite(path, change):
    with open(path, encoding="utf-8") as f:
        text = f.read()
    new = change(text)
    if new != text:
        with open(path, "w", encoding="utf-8") as f:
            f.write(new)


def main():
    if not os.path.isdir("crates"):
        sys.exit("run it at the top of the repository")
    if os.path.isdir("crates/hex"):
        os.rename("crates/hex", "crates/intel_hex")
    rewrite("crates.txt", lambda t: re.sub(r" (io|libc|os)\b", "", re.sub(r"\bhex\b", "intel_hex", t)))
    code = list(texts("crates", (".antt", ".rt", ".edit")))
    words = set()
    for path in code:
        with open(path, encoding="utf-8") as f:
            words.update(w for w in WORD.findall(f.read()) if CAMEL.match(w) and w not in KEPT)
    for path in code:
        lemmas = LEMMAS if path.endswith(".antt") else {}
        rewrite(path, lambda t: WORD.sub(lambda m: turned(lemmas.get(m.group(), m.group()), words), t))
        rewrite(path, lambda t: re.sub(r"\bRattle\.hex\b", "Rattle.intel_hex", re.sub(r"\bhex::(?=call)", "intel_hex::", t)))
    # a word in a document is renamed where the crates have it, within `..` alone
    quoted = re.compile(r"`[^`\n]*`")
    for path in [p for p in ["README.md", *texts("docs", ".md")] if os.path.isfile(p)]:
        within = lambda t: WORD.sub(lambda m: turned(m.group(), words), t)
        rewrite(path, lambda t: quoted.sub(lambda m: within(m.group()), t))


main()
