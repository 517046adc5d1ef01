#!/usr/bin/env python3
"""Turns this repository's own definitions and lemmas to snake case, once: `mostObjects` to `most_objects`, `footprint-law` to `footprint_law`.

usage: python3 tools/respell.py          in the repository, right behind the commit in which the kit's port.py ran
       python3 tools/respell.py --names  prints the old and the new names alone

Renamed are names that specs/*.antt and proofs/*.antt declare, and where they are cited: in clauses, proofs, must-fail edits and
the pages (there between backticks). Functions of src/, exported names, strings and what Rattle generates keep their spelling.
A lemma whose new name a definition has ends in `_lem`.
"""

import collections
import glob
import os
import re
import sys

TOKEN = re.compile(r"[^\s(){}\[\].,;\"`]+")
DECLARED = re.compile(r"^\s*(?:(?:pub|abbrev|unfoldable|pattern)\s+)*([^\s(){}:.;,]+) :(?: |$)")
# Words of a type that the dash or the capital joins.
OLD = re.compile(r"^[a-z][\w'₀-₉]*(?:[-A-Z].*)$")


def definition_files():
    return sorted(glob.glob("crates/*/specs/*.antt") + glob.glob("crates/*/proofs/*.antt"))


def declared():
    """Each declared name with the files that declare it, and the names of record fields among them."""
    names, fields = collections.defaultdict(set), set()
    for path in definition_files():
        inside = None
        for line in open(path, encoding="utf-8"):
            indent = len(line) - len(line.lstrip())
            start = re.match(r"^(\s*)(?:pub )?record ", line)
            if start:
                inside = len(start.group(1))
                continue
            if inside is not None and (not line.strip() or indent <= inside):
                inside = None
            if line.lstrip().startswith(("let ", "λ", "--", "(")):
                continue
            found = DECLARED.match(line)
            if found:
                names[found.group(1)].add(path)
                if inside is not None:
                    fields.add(found.group(1))
    return names, fields


def snake(name):
    out = re.sub(r"(?<=[a-z0-9'])([A-Z])", lambda m: "_" + m.group(1).lower(), name.replace("-", "_"))
    return re.sub(r"_+", "_", out)


def renaming():
    names, fields = declared()
    by_new = collections.defaultdict(list)
    for name in names:
        by_new[snake(name) if OLD.match(name) else name].append(name)
    turned = {}
    for new, olds in by_new.items():
        # The definition keeps the plain name: what specs/ declares stands first, then what had a capital inside.
        olds.sort(key=lambda n: (not any("/specs/" in path for path in names[n]), "-" in n or n == new, n))
        for i, old in enumerate(olds):
            to = new if i == 0 else new + "_lem" * i
            if old != to:
                turned[old] = to
    return turned, fields, {new: olds for new, olds in by_new.items() if len(olds) > 1}


def turn_plain(text, turned):
    return TOKEN.sub(lambda m: turned.get(m.group(0), m.group(0)), text)


def turn_lemmas(text, turned):
    """A file of specs/ or of lemmas: every token; in comments those that cannot be English."""
    out = []
    for line in text.split("\n"):
        code, dashes, comment = re.match(r"^(.*?)(?:(^|(?<=\s))(?=--\s)|$)(.*)$", line).groups() if "-- " in line else (line, None, "")
        out.append(turn_plain(code, turned) + turn_comment(comment, turned))
    return "\n".join(out)


def turn_comment(text, turned):
    camel = {o: n for o, n in turned.items() if "-" not in o}
    text = re.sub(r"`([^`]*)`", lambda m: "`" + turn_plain(m.group(1), turned) + "`", text)
    return TOKEN.sub(lambda m: camel.get(m.group(0), m.group(0)), text)


IMPORT = re.compile(r"^(?:ghost )?use [^\n{]*\{([^}]*)\}", re.M)


def turn_citing(text, turned, fields):
    """A proof of a function or a source: names that it imports, fields, and spellings with a capital inside."""
    cited = set()
    for m in IMPORT.finditer(text):
        cited.update(w.strip().split(" as ")[0] for w in m.group(1).split(","))
    mine = {o: n for o, n in turned.items() if o in cited or o in fields or ("-" not in o and re.search("[A-Z]", o))}

    def one(m):
        before = text[m.start() - 1] if m.start() else ""
        word = m.group(0)
        # Behind a dot stand generated names too.
        if before == "." and word not in fields and not re.search("[A-Z]", word):
            return word
        return mine.get(word, word)

    return TOKEN.sub(one, text)


def main():
    turned, fields, together = renaming()
    if "--names" in sys.argv:
        for old, new in sorted(turned.items()):
            print(old, new)
        for new, olds in sorted(together.items()):
            print("together:", new, *olds)
        return
    definitions = definition_files()
    for path in definitions:
        rewrite(path, lambda t: turn_lemmas(t, turned))
    for path in sorted(glob.glob("crates/*/proofs/**/*.antt", recursive=True) + glob.glob("crates/*/src/*.rt")):
        if path not in definitions:
            rewrite(path, lambda t: turn_citing(t, turned, fields))
    for path in sorted(glob.glob("crates/*/must-fail/*.edit")):
        rewrite(path, lambda t: turn_plain(t, {o: n for o, n in turned.items() if "-" in o or re.search("[A-Z]", o)}))
    known = {turned.get(name, name) for name in declared()[0]} | set(turned.values())

    def in_page(word):
        """Also a name that the kit's script had turned already, and which a page still spells as before."""
        new = snake(word)
        return turned.get(word) or (turned.get(new, new) if OLD.match(word) and new in known else word)

    for path in ["README.md"] + sorted(glob.glob("docs/**/*.md", recursive=True)) + sorted(glob.glob("bench/**/*.md", recursive=True)):
        rewrite(path, lambda t: re.sub(r"`([^`\n]*)`", lambda m: "`" + TOKEN.sub(lambda w: in_page(w.group(0)), m.group(1)) + "`", t))


def rewrite(path, turn):
    if not os.path.exists(path):
        return
    text = open(path, encoding="utf-8").read()
    new = turn(text)
    if new != text:
        open(path, "w", encoding="utf-8").write(new)


if __name__ == "__main__":
    main()
