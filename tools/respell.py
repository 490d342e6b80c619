#!/usr/bin/env python3
"""Spells this repository's own definitions and lemmas as today's Rattle does: words in snake case, types and modules in camel case.

usage: python3 tools/respell.py          at the top of the repository, once, after port.py of the kit
       python3 tools/respell.py --plan   the names only, old and new, and those that would fall together

It renames what the files of specs/ and the lemma files of proofs/ declare (no functions, fields or types of src/), wherever the name stands: in .antt files,
in the clauses of .rt files and in must-fail edits. Where a lemma would have its
definition's name, the lemma gets `_lem`.
"""

import os
import re
import sys

WORD = r"[^\s(){}.;,@\"«»`]+"
TOKEN = re.compile(WORD)
DECLARED = re.compile(r"^ *(?:(?:unfoldable|abbrev|mutual|pub|private) )*(?:(data|record|module) )?(" + WORD + r")(?: [({].*[)}])? : ")

# Constructors, several of which are declared on one line.
CONSTRUCTORS = "docId noIf tooMany openTag overCharged nameTwice numberTwice openBlocks currentRegion isOne inInitial".split()

# Facts that were spelled as words.
FACTS = {
    "events-at": "EventsAt",
}


def texts(root, endings):
    for folder, dirs, files in os.walk(os.path.join(root, "crates")):
        dirs[:] = sorted(d for d in dirs if d != "out")
        for name in sorted(files):
            if name.endswith(endings):
                yield os.path.join(folder, name)


def read(path):
    with open(path, encoding="utf-8") as f:
        return f.read()


def is_walk(path):
    """Whether a file is the proof of a function, whose names Rattle gives."""
    return os.path.basename(path) == "Proof.antt"


def declared(root):
    names = set(CONSTRUCTORS)
    for path in texts(root, (".antt",)):
        if is_walk(path):
            continue
        for line in read(path).splitlines():
            if line.lstrip().startswith(("--", "use ", "let ", "λ ")):
                continue
            m = DECLARED.match(line)
            if m and m.group(1) != "module":
                names.add(m.group(2))
    return names


def snake(part):
    if part == "getD":
        return "get_or"
    if part[:1].isupper() or not re.search(r"[a-z0-9][A-Z]", part):
        return part
    return re.sub(r"(?<=[a-z0-9])([A-Z]+)", lambda m: "_" + m.group(1).lower(), part)


def respelled(name):
    if name in FACTS:
        return FACTS[name]
    if name[:1].isupper() or not re.search(r"[a-zA-Z]", name):
        parts = name.split("-")
        return "-".join(parts[:1] + [snake(p) for p in parts[1:]])
    parts = name.split("-")
    plain = all(re.fullmatch(r"[a-z0-9_'₀-₉]+", p) for p in parts)
    return ("_" if plain else "-").join(snake(p) for p in parts)


def spelling(root):
    """The new name of each old one. Where a lemma would have its definition's name, the lemma gets `_lem`."""
    names = declared(root)
    new = {n: respelled(n) for n in names if respelled(n) != n}
    together = {}
    for old, name in new.items():
        together.setdefault(name, []).append(old)
    for name, olds in together.items():
        words = [o for o in olds if is_camel(o)]
        lemmas = [o for o in olds if not is_camel(o)]
        if len(olds) > 1 or (lemmas and name in names):
            for o in lemmas:
                new[o] = name + "_lem"
        if words and name in names:
            new[name] = name + "_lem"
    return new


def is_camel(name):
    return bool(re.search(r"[a-z0-9][A-Z]", name))


def aliases(text):
    """The modules of this repository that a file calls by a name of its own, and those whose whole path is written."""
    return set(re.findall(r"^use Rattle\.\w+\.(?:specs|proofs)\.\S+ as (\S+)$", text, re.M))


def turn(text, new, in_source):
    known = aliases(text)

    def one(m):
        word = m.group(0)
        at = m.start()
        if word not in new:
            return word
        if in_source and not is_camel(word) and "-" not in word:
            return word
        if at and text[at - 1] == ".":
            head = re.search(r"(" + WORD + r")\.$", text[max(0, at - 200) : at])
            if is_camel(word) or (head and head.group(1) in known):
                return new[word]
            return word
        return new[word]

    return TOKEN.sub(one, text)


def main():
    root = os.getcwd()
    new = spelling(root)
    if "--plan" in sys.argv:
        for old in sorted(new):
            print(old, new[old])
        check(root, new)
        return
    now = {new.get(n, n) for n in declared(root)}
    for path in texts(root, (".antt", ".rt", ".edit")):
        text = read(path)
        turned = turn(text, new, path.endswith(".rt") or "file: src/" in text)
        if path.endswith(".edit"):
            turned = tight(by_now(turned.replace("′", "'").replace("getD", "get_or"), now))
        if turned != text:
            write(path, turned)
    for path in pages(root):
        text = read(path)
        turned = re.sub(r"`[^`\n]+`", lambda m: "`" + by_now(turn(m.group(0)[1:-1], new, True), now) + "`", text)
        if turned != text:
            write(path, turned)


def by_now(text, now):
    """The names that port.py had turned before: it leaves edits and documents as they are."""
    return TOKEN.sub(lambda m: snake(m.group(0)) if snake(m.group(0)) in now else m.group(0), text)


def tight(text):
    """A projection is written tight, in edits too."""
    text = re.sub(r"\(([^\s()]+) \.([^\s()]+)\)", r"\1.\2", text)
    return re.sub(r"([^\s()]) \.(?=[a-z0-9])", r"\1.", text)


def write(path, text):
    with open(path, "w", encoding="utf-8") as f:
        f.write(text)


def pages(root):
    """The documents, in which names stand between backticks."""
    yield os.path.join(root, "README.md")
    for name in sorted(os.listdir(os.path.join(root, "docs"))):
        if name.endswith(".md"):
            yield os.path.join(root, "docs", name)


def check(root, new):
    """Says where a new name stands already in a file that gets it."""
    olds = set(new)
    for path in texts(root, (".antt", ".rt")):
        text = read(path)
        tokens = {}
        for m in TOKEN.finditer(text):
            if not (m.start() and text[m.start() - 1] == "."):
                tokens.setdefault(m.group(0), m.start())
        for old in sorted(set(tokens) & olds):
            name = new[old]
            if name in tokens and name not in olds:
                print("stands:", path, old, name)
            if path.endswith(".rt") and "-" not in old and not is_camel(old):
                print("source:", path, old)


if __name__ == "__main__":
    main()
