#!/usr/bin/env python3
"""Counts the places of src/ that docs/DESIGN-PASS.md speaks of, point by point.

    python3 tools/places.py [COMMIT]     the counts, of a commit or of the files as they stand
    python3 tools/places.py -l [COMMIT]  the places too
"""

import re
import subprocess
import sys


def sources(commit):
    """The files of src/ with their text."""
    if commit:
        listed = subprocess.check_output(["git", "ls-tree", "-r", "--name-only", commit, "crates"], text=True).split()
    else:
        listed = subprocess.check_output(["git", "ls-files", "-co", "--exclude-standard", "crates"], text=True).split()
    found = {}
    for path in sorted(listed):
        if "/src/" in path and path.endswith(".rt"):
            if commit:
                found[path] = subprocess.check_output(["git", "show", f"{commit}:{path}"], text=True)
            else:
                found[path] = open(path).read()
    return found


HEAD = re.compile(r"^ *(?:pub(?:\(crate\))? )?fn (\w+)(?:<[^(]*>)?\(", re.M)


def functions(path, text):
    """Each function: its name, parameters, clauses and body."""
    for head in HEAD.finditer(text):
        indent = re.match(r" *", text[head.start():].lstrip("\n")).group(0)
        depth, i = 1, head.end()
        while depth:
            depth += {"(": 1, ")": -1}.get(text[i], 0)
            i += 1
        parameters = re.sub(r"\s+", " ", text[head.end():i - 1]).strip().rstrip(",")
        one_line = re.match(r"[^\n]*\{$", text[i:], re.M)
        start = i + one_line.end() if one_line else text.find(f"\n{indent}{{", i) + 2 + len(indent)
        end = text.find(f"\n{indent}}}", start)
        clauses = "" if one_line else text[i:start]
        yield f"{path.split('/')[1]}::{head.group(1)}", parameters, clauses, text[start:end]


def lines_with(files, pattern):
    """The lines that a pattern finds."""
    return [f"{path}: {line.strip()}" for path, text in files.items() for line in text.splitlines() if re.search(pattern, line)]


def facts(all_functions):
    """What the `requires` of three or more functions say alike."""
    where = {}
    for name, _, clauses, _ in all_functions:
        for clause in re.findall(r"requires(?: \w+)? \{(.*?)\}\n?", clauses):
            for part in clause.split(" × "):
                where.setdefault(part.strip(" ()"), []).append(name)
    return [f"{fact}: {', '.join(names)}" for fact, names in sorted(where.items()) if len(set(names)) >= 3]


def twins(all_functions):
    """Functions whose bodies are alike but for names, numbers and types."""
    where = {}
    for name, parameters, _, body in all_functions:
        if body.count("\n") < 3:
            continue
        seen = {}
        shape = re.sub(r"'[^']+'|\"[^\"]*\"|\w+", lambda m: seen.setdefault(m.group(0), f"t{len(seen)}"), re.sub(r"\s+", " ", body))
        where.setdefault(shape, []).append(name)
    return [", ".join(names) for names in where.values() if len(names) > 1]


def main():
    words = [word for word in sys.argv[1:] if word != "-l"]
    files = sources(words[0] if words else None)
    every = [f for path, text in files.items() for f in functions(path, text)]
    named = {}
    for name, *_ in every:
        named.setdefault(name.split("::")[1], set()).add(name)
    slices = r"&(?:'\w+ )?(?:mut )?\[u(?:8|16|32|64)"
    points = [
        ("1a own enums", lines_with(files, r"^(pub(\(crate\))? )?enum ")),
        ("1b flags in a struct", lines_with(files, r"^ +(pub )?[a-z_]+: bool,")),
        ("1c numbers for kinds and answers", lines_with(files, r"const [A-Z_]+: u(8|64) = (0|1|2|9|20);")),
        ("1d functions whose result is an answer", [f"{n}" for path, text in files.items() for n in re.findall(r"fn (\w+)[^{}]*?-> Answer$", text, re.M)]),
        ("1e results with a number for none", lines_with(files, r"^ *//.*(, or (0|n)\.|standing for none)")),
        ("2a functions of one shape", twins(every)),
        ("2b functions of one name in two programs", sorted(", ".join(sorted(v)) for k, v in named.items() if k != "main" and len([n for n in v if n.split("::")[0] in ("replay", "drill", "mapview")]) > 1)),
        ("3 loops that are no for", lines_with(files, r"^ *(while|loop)\b")),
        ("4a helpers that the library has", [n for n, *_ in every if re.search(r"::(lesser|larger|less|wide|fill|number_of|is_accepted)$", n)]),
        ("4b fields written twice", lines_with(files, r"\b([a-z_]+): \1\b *[,}]")),
        ("4c fields copied to a variable of their name", lines_with(files, r"^ *let ([a-z_]+) = [a-z_.]+\.\1;")),
        ("5a facts in the requires of three functions", facts(every)),
        ("5b functions of six parameters or more", [n for n, p, *_ in every if len(re.findall(r"\w+: ", p)) >= 6]),
        ("6 a slice and a count", [n for n, p, *_ in every if re.search(slices, p) and re.search(r"\b(n|count|old): usize", p)]),
        ("7 flags handed to functions", [f"{n}({p})" for n, p, *_ in every if re.search(r": bool", p)]),
    ]
    for title, places in points:
        print(f"{len(places):5} {title}")
        if "-l" in sys.argv:
            for place in places:
                print(f"          {place}")


main()
