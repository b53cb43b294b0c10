#!/usr/bin/env python3
"""Spells this repository's own names of specs/ and proofs/ in snake case: definitions, lemmas, fields and what they bind.

usage: python3 tools/respell.py [--list] [FOLDER]     once, in a tree that the toolchain's port.py has just brought over

A name that is declared or bound in specs/ or in a file of lemmas of proofs/ and is written in camel case or with dashes gets
underscores: squaredDistance becomes squared_distance. A lemma that would have the name of another word gets the ending _lem. Names
of a library, names that Rattle makes, types, modules, and what stands in src/ outside clauses stay as they are, and so do
comments, but for names between backticks. The pages README.md and docs/*.md are turned where a name stands between backticks.
"""
import collections
import glob
import os
import re
import sys

NAME = r"[A-Za-z0-9_'₀-₉-]+"
TOKEN = re.compile(r"(?<![A-Za-z0-9_'₀-₉-])" + NAME)
DECLARED = re.compile(r"^(?:(?:pub|abbrev|unfoldable|open)\s+)*(" + NAME + r")\s*:(?!=)", re.M)
FIELD = re.compile(r"^\s+(?:(?:pub|abbrev|unfoldable)\s+)*(" + NAME + r")\s+:\s", re.M)
BOUND = re.compile(r"\blet\s+(" + NAME + r")\b|[({](" + NAME + r"(?:\s+" + NAME + r")*)\s+:\s|λ\s+((?:" + NAME + r"\s*)+)\.")
USE = re.compile(r"^(?:ghost |pub )*use ([^\s{;]+)\.\{([^}]*)\}", re.M)


# What would fall together otherwise.
CHOSEN = {
    "recordLength": "record_length_of",
    "tooFar": "is_too_far",
    "only-first": "first_only",
    "only-second": "second_only",
    "record-length": "length_of_record",
    "list-room": "room_in_list",
}


def snake(name):
    return re.sub(r"([a-z0-9])([A-Z])", lambda m: m.group(1) + "_" + m.group(2).lower(), name.replace("-", "_"))


def is_old(name):
    return not name[0].isupper() and not name[0].isdigit() and name.strip("-") == name and snake(name) != name


def bare(text):
    return re.sub(r"--(?=\s).*", "", text)


def split(text, mark):
    """The text as pairs: a piece of code, and the comment that ends its line."""
    for line in text.split("\n"):
        m = re.search(r"(?:^|\s)" + mark + r"(?:\s|$)", line)
        at = m.start() if m else len(line)
        yield line[:at], line[at:]


def turned(code, names):
    return TOKEN.sub(lambda m: names.get(m.group(0), m.group(0)), code)


def in_backticks(text, names):
    return re.sub(r"`[^`\n]*`", lambda m: turned(m.group(0), names), text)


def main():
    words = [w for w in sys.argv[1:] if w != "--list"]
    os.chdir(words[0] if words else os.path.join(os.path.dirname(os.path.abspath(__file__)), ".."))
    crates = sorted(os.listdir("crates"))
    antt = sorted(glob.glob("crates/*/specs/**/*.antt", recursive=True) + glob.glob("crates/*/proofs/**/*.antt", recursive=True))
    lemmas = [f for f in antt if os.path.basename(f) != "Proof.antt"]
    library, own, top = set(), collections.defaultdict(set), set()
    for f in antt:
        with open(f, encoding="utf-8") as file:
            text = bare(file.read())
        for module, imported in USE.findall(text):
            if module.split(".")[0] != "Rattle" or module.split(".")[1] not in crates or re.search(r"\.(Tie|Goals|Given|Statement)$", module):
                library |= {w.strip() for w in imported.split(",")}
    for f in lemmas:
        with open(f, encoding="utf-8") as file:
            text = bare(file.read())
        body = USE.sub("", text)
        for name in DECLARED.findall(body):
            own[name].add(f)
            top.add(name)
        found = FIELD.findall(body)
        for groups in BOUND.findall(body):
            for group in groups:
                found += group.split()
        for name in found:
            own[name].add(f)
    names, taken = {}, {}
    order = sorted((n for n in own if is_old(n) and n not in library), key=lambda n: ("-" in n, n))
    plain = {n for n in own if not is_old(n)}
    for name in order:
        new = CHOSEN.get(name, snake(name))
        if name in top and (new in taken or new in plain or new in library):
            print(f"together: {name} and {taken.get(new, new)}: {name} becomes {new}_lem", file=sys.stderr)
            new += "_lem"
        elif new in taken or new in library:
            print(f"look: {name} and {taken.get(new, new)} are both {new} ({', '.join(sorted(own[name]))})", file=sys.stderr)
        taken[new] = name
        names[name] = new
    if "--list" in sys.argv:
        for name in order:
            print(name, names[name])
        return
    for f in sorted(glob.glob("crates/*/src/**/*.rt", recursive=True)):
        with open(f, encoding="utf-8") as file:
            text = file.read()
        with open(f, "w", encoding="utf-8") as file:
            file.write("\n".join(turned(code, names) + in_backticks(note, names) for code, note in split(text, "//")))
    for f in antt:
        with open(f, encoding="utf-8") as file:
            text = file.read()
        with open(f, "w", encoding="utf-8") as file:
            file.write("\n".join(turned(code, names) + in_backticks(note, names) for code, note in split(text, "--")))
    for f in ["README.md"] + sorted(glob.glob("docs/*.md")):
        with open(f, encoding="utf-8") as file:
            text = file.read()
        with open(f, "w", encoding="utf-8") as file:
            file.write(in_backticks(text, names))


main()
