#!/usr/bin/env python3
"""Respells this repository's own names in specs/ and proofs/: words that were joined by hyphens are joined by underscores.

usage: python3 tools/spelling.py [--list]     at the top of the repository, after the kit's port.py; --list only prints the names

Own names are those that specs/ and proofs/ define: definitions, lemmas, fields, constructors, labels of clauses and local names.
Names of the kit's libraries and the names that the check makes (goals, steps) keep their spelling.
"""

import os
import re
import sys

NAME = re.compile(r"(?<![\w'?·-])[^\W\d][\w'?]*(?:-[\w'?]+)+(?![\w'?·-])")
HEAD = re.compile(r"^\s*(?:(?:abbrev|unfoldable|pub|data|record|ruleset)\s+)*([^\W\d][\w'?]*(?:-[\w'?]+)+)\s*(?:\(|\{|:)")
LET = re.compile(r"\blet\s+([^\W\d][\w'?]*(?:-[\w'?]+)+)\s*(?::|=)")
FIELD_NAMES = re.compile(r"(?:^|[{;])\s*(?:pub\s+)?([^\W\d][\w'?]*(?:-[\w'?]+)+)\s*:")
IMPORT = re.compile(r"^(?:ghost )?(?:pub )?use ([\w.·']+)\.\{(.*)\};?$", re.M)
GOAL = re.compile(r"^\s*(?:abbrev\s+)?(?:pub\s+)?([^\W\d][\w'?]*(?:-[\w'?]+)+)\s*:\s*goal\.", re.M)
# text that keeps its spelling in a source file: strings and comments
PLAIN = re.compile(r'"(?:[^"\\]|\\.)*"|//[^\n]*')


def crates():
    return sorted(c for c in os.listdir("crates") if os.path.isdir(os.path.join("crates", c, "src")))


def files(end):
    for c in crates():
        for folder, dirs, names in os.walk(os.path.join("crates", c)):
            dirs[:] = sorted(d for d in dirs if d != "out")
            for n in sorted(names):
                if n.endswith(end):
                    yield os.path.join(folder, n)


def read(path):
    with open(path, encoding="utf-8") as f:
        return f.read()


def of_a_function(path):
    """Whether the file answers the goals of a function: proofs/F/Answers.antt, and not proofs/Lemmas.antt."""
    parts = path.split(os.sep)
    return parts[2] == "proofs" and len(parts) > 4


def own_module(path, names):
    first = path.split(".")
    return first[0] == "Rattle" and len(first) > 1 and first[1] in names


def foreign(text, names):
    """The names that a file takes from the kit's libraries."""
    found = set()
    for module, items in IMPORT.findall(text):
        if not own_module(module, names):
            found |= {i.split(" as ")[0].strip() for i in items.split(",")}
    return found


def defined():
    names = set()
    for path in files(".antt"):
        text = read(path)
        made = set(GOAL.findall(text)) if of_a_function(path) else set()
        for line in text.split("\n"):
            if line.lstrip().startswith("--"):
                continue
            head = HEAD.match(line)
            found = {head.group(1)} if head else set()
            found |= set(LET.findall(line)) | (set() if of_a_function(path) else set(FIELD_NAMES.findall(line)))
            names |= found - made
    return names


def respelled(name):
    return name.replace("-", "_")


def turned(text, own, kept):
    return NAME.sub(lambda m: respelled(m.group()) if m.group() in own and m.group() not in kept else m.group(), text)


def turned_source(text, own):
    """A source file: names in clauses, and not in strings or comments."""
    out, at = [], 0
    for m in PLAIN.finditer(text):
        out += [turned(text[at:m.start()], own, set()), m.group()]
        at = m.end()
    return "".join(out + [turned(text[at:], own, set())])


def collisions(own):
    """Own names that fall together with a name that stands already, by the files where both stand."""
    new = {respelled(n): n for n in own}
    found = []
    for end in (".antt", ".rt"):
        for path in files(end):
            words = set(re.findall(r"[^\W\d][\w'?-]*", read(path)))
            found += [(path, n) for w, n in new.items() if w in words and n in words]
    return found


def main(argv):
    names = set(crates())
    own = defined()
    if len({respelled(n) for n in own}) < len(own):
        raise SystemExit("two own names fall together: " + str(sorted(own)))
    if argv == ["--list"]:
        print("\n".join(sorted(own)))
        for path, name in collisions(own):
            print(f"look: {path}: {name} and {respelled(name)}")
        return
    for path in files(".antt"):
        text = read(path)
        made = set(GOAL.findall(text)) | foreign(text, names)
        new = turned(text, own, made)
        if new != text:
            with open(path, "w", encoding="utf-8") as f:
                f.write(new)
    for path in files(".rt"):
        text = read(path)
        new = turned_source(text, own)
        if new != text:
            with open(path, "w", encoding="utf-8") as f:
                f.write(new)


if __name__ == "__main__":
    main(sys.argv[1:])
