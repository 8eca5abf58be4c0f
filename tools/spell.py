#!/usr/bin/env python3
"""Brings the repository's own definitions and lemmas to the spelling of today's Rattle, once, behind port.py: words in snake case, and specs/contracts renamed.

usage: python3 tools/spell.py            at the top of the repository

A word that begins with a small letter and has a capital inside is written with `_`, wherever it stands in crates/ outside text in quotes: tokenAt becomes token_at,
length-putAll length-put_all. A dash stays where it joins two names, as in length-encode; where it joins plain words, it is written `_`: table-told is table_told. A lemma
that would then have the name of something else gets `_lem`. Functions of src/, exported C names, text in quotes, inputs and outputs keep their names.
The folder specs/contracts of a crate becomes specs/Clauses, since Rattle now makes a module specs.contracts of its own.
"""
import os
import re
import subprocess
import sys

CAMEL = re.compile(r"(?<![A-Za-z0-9_'\u00b7])[a-z][a-z0-9]*(?:[A-Z][a-z0-9]*)+(?![A-Za-z0-9_'])")
COMMENT = re.compile(r"--.*$", re.M)
QUOTED = re.compile(r'"(?:[^"\\\n]|\\.)*"')
# parts of patterns and of texts that stand in comments and look like words of two parts
NO_NAMES = {"ddThh", "mmThh", "aA", "aB", "aC", "xA", "gcA", "aT1"}


def files(*endings):
    for folder, dirs, names in os.walk("crates"):
        dirs[:] = sorted(d for d in dirs if d not in ("out", "data"))
        for name in sorted(names):
            if name.endswith(endings):
                yield os.path.join(folder, name)


def read(path):
    with open(path, encoding="utf-8") as f:
        return f.read()


def write(path, text):
    with open(path, "w", encoding="utf-8") as f:
        f.write(text)


def snake(word):
    return re.sub(r"(?<=[a-z0-9])([A-Z])", lambda m: "_" + m.group(1).lower(), word)


def names():
    """The words of two parts that the definitions and proofs use."""
    found = set()
    for path in files(".antt"):
        found |= set(CAMEL.findall(QUOTED.sub('""', COMMENT.sub("", read(path)))))
    return found - NO_NAMES


def spelled(text, known):
    """A text with the known words respelled, but for what stands in quotes on one line."""
    turn = lambda part: CAMEL.sub(lambda m: snake(m.group()) if m.group() in known else m.group(), part)
    out, at = [], 0
    for m in QUOTED.finditer(text):
        out += [turn(text[at : m.start()]), m.group()]
        at = m.end()
    return "".join(out + [turn(text[at:])])


# words of the library that a lemma's name may join by a dash to a definition of the repository
LISTS = {"append", "drop", "get_or", "length", "map", "replicate", "reverse", "set", "sets", "take"}
# plain words that are names of definitions too
PLAIN = {"at", "behind", "by", "first", "gave", "gives", "got", "in", "is", "last", "left", "next", "of", "on", "one", "past", "read", "rest", "right", "same", "told", "under", "up"}
WORD = r"[a-z][\w']*"
DASHED = rf"{WORD}(?:-[\w']+)+"
DECLARED = re.compile(rf"(?m)^[ ]*(?:pub |abbrev |unfoldable |ruleset )*({WORD}(?:-[\w']+)*)(?= :(?!:)| =)")
DEFINED = re.compile(rf"(?m)^(?:pub |abbrev |unfoldable )*({WORD})(?= :(?!:))")
TOKEN = re.compile(rf"(?<![\w'\u00b7-]){DASHED}(?![\w'-])")


def of_a_function(path):
    """Whether a file answers the goals of a function, which have names of Rattle's own."""
    return re.search(r"/proofs/.+/", path) is not None and os.path.basename(path) in ("Proof.antt", "Answers.antt", "Invariants.antt")


def of_the_library():
    """The names that use lines bring from the logic and from std."""
    crates, brought = set(os.listdir("crates")), set()
    for path in files(".antt", ".rt"):
        for module, names in re.findall(r"(?m)^[ ]*(?:ghost )?use ([^\s{;]+)\.\{([^}]*)\}", read(path)):
            parts = module.split(".")
            if parts[0] != "Rattle" or parts[1] not in crates:
                brought |= {name.split(" as ")[0].strip() for name in names.split(",")}
    return brought


def dashes():
    """The names with a dash between plain words, and what is written for each, but for those that the library has too."""
    declared, defined, brought = set(), set(LISTS), of_the_library()
    for path in files(".antt"):
        if not of_a_function(path):
            text = QUOTED.sub('""', COMMENT.sub("", read(path)))
            declared |= set(DECLARED.findall(text))
            if "/specs/" in path:
                defined |= set(DEFINED.findall(text))
    turn = {}
    for name in sorted(n for n in declared - brought if "-" in n):
        parts = name.split("-")
        new = parts[0]
        for before, part in zip(parts, parts[1:]):
            new += ("-" if {before, part} <= defined - PLAIN else "_") + part
        if new != name:
            turn[name] = new + "_lem" if new in declared | brought else new
    return turn


def undashed(path, text, turn):
    """A text with those names respelled; in the files of a function not behind a dot, where names are Rattle's, but for fields of the definitions."""
    def one(m):
        if m.group() not in turn:
            return m.group()
        behind_a_dot = m.start() > 0 and text[m.start() - 1] == "."
        return m.group() if behind_a_dot and of_a_function(path) and m.group() not in FIELDS else turn[m.group()]
    return TOKEN.sub(one, text)


# fields of definitions with a dash, which files of functions may name
FIELDS = {"first-opened", "second-opened", "second-passes"}


def turned(text):
    """An edit's text, which port.py leaves: what it turns in the files that the edit speaks of, by rules that need no context."""
    text = CAMEL.sub(lambda m: m.group() if m.group() in NO_NAMES else snake(m.group()), re.sub(r"(?<![\w'])getD(?![\w'])", "get_or", text))
    text = re.sub(r"(?<=[\w')]) \.(?=[a-z])", ".", text)
    return re.sub(r"(?<=[ (])\(([\w']+(?:\.[\w']+)+)\)", r"\1", text)


def main():
    if not os.path.isdir("crates"):
        sys.exit("spell: run it at the top of the repository")
    known = names()
    for path in files(".antt", ".rt", ".edit"):
        text = read(path)
        new = turned(text) if path.endswith(".edit") else spelled(text, known)
        new = re.sub(r"\.specs\.contracts\.(?!reader|Token)", ".specs.Clauses.", new).replace("specs/contracts/", "specs/Clauses/")
        if path.endswith("specs/Lib.antt"):
            new = re.sub(r"(?m)^pub mod contracts$", "pub mod Clauses", new)
        if new != text:
            write(path, new)
    turn = dashes()
    for path in files(".antt", ".rt", ".edit"):
        text = read(path)
        new = undashed(path, text, turn)
        if new != text:
            write(path, new)
    for crate in sorted(os.listdir("crates")):
        specs = os.path.join("crates", crate, "specs")
        for old, new in (("contracts.antt", "Clauses.antt"), ("contracts", "Clauses")):
            if os.path.exists(os.path.join(specs, old)):
                subprocess.run(["git", "mv", os.path.join(specs, old), os.path.join(specs, new)], check=True)
    print(f"spell: {len(known)} words, {len(turn)} names with a dash")


if __name__ == "__main__":
    main()
