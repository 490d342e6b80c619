#!/usr/bin/env python3
"""Counts the places of docs/DESIGN-PASS.md in crates/*/src: `python3 tools/places.py [--list] [POINT ..]`.

It goes by text: a place is what a pattern finds, and the page says what became of it.
"""
import collections
import glob
import os
import re
import sys

ROOT = os.path.join(os.path.dirname(os.path.abspath(__file__)), "..")
NUMBER = r"(?:u8|u16|u32|u64|usize)"
CODE_NAMES = r"(?:kind|tag|list|which|mode|code|refusal|no|shape|parent|moves)"
FLAG_NAMES = r"(?:ok|met|ended|failed|refusal|number|no|next)"


def sources():
    for path in sorted(glob.glob(f"{ROOT}/crates/*/src/*.rt")):
        with open(path, encoding="utf-8") as it:
            yield os.path.relpath(path, f"{ROOT}/crates"), it.read()


def blocks(text, head):
    """Items that begin with `head` at the start of a line, up to the brace that closes them: (line, text)."""
    for m in re.finditer(head, text, re.M):
        start, depth, i, seen, inner = m.start(), 0, m.start(), False, 0
        while i < len(text):
            if text[i] == "{":
                depth, seen = depth + 1, True
            elif text[i] == "}":
                depth -= 1
                if seen and depth == 0 and re.match(r"\}\s*\n", text[i:] + "\n"):
                    rest = text[i + 1:].lstrip(" \n")
                    if not re.match(r"(ensures|requires|\{|where)", rest):
                        break
            elif text[i] in "[(" or text[i] in "])":
                inner += 1 if text[i] in "[(" else -1
            elif text[i] == ";" and not seen and not inner:
                break
            i += 1
        yield text.count("\n", 0, start) + 1, text[start:i + 1]


def functions(text):
    for line, whole in blocks(text, r"^ *(?:pub )?(?:const )?fn [a-z_0-9]+"):
        name = re.search(r"fn ([a-z_0-9]+)", whole)[1]
        if whole.endswith(";"):
            continue
        depth, i = 0, len(whole) - 1
        while i >= 0:
            depth += (whole[i] == "}") - (whole[i] == "{")
            if depth == 0:
                break
            i -= 1
        yield line, name, whole[:i], whole[i + 1:-1]


def parameters(head):
    m = re.search(r"fn [a-z_0-9]+(?:<[^(]*>)?\((.*?)\)\s*(?:->|\n|requires|ensures|where|$)", head, re.S)
    return [p.strip() for p in re.split(r",(?![^\[<]*[\]>])", m[1]) if p.strip()] if m else []


def point_1(path, text):
    for line, whole in blocks(text, r"^(?:pub )?struct [A-Za-z]+ \{\}"):
        name = re.search(r"struct (\w+)", whole)[1]
        if re.search(rf"impl {name} \{{\s*(?:///.*\n\s*)?pub const \w+: {NUMBER} = \d+;", text):
            yield line, f"numbers for kinds: {name}"
    for m in re.finditer(rf"(?:^(?:///? .*\n)*(?:pub )?const \w+: {NUMBER} = \d+;\n\n?)+", text, re.M):
        if m[0].count("const ") > 1:
            name = re.search(r"const (\w+)", m[0])[1]
            yield text.count("\n", 0, m.start()) + 1, f"numbers for kinds: {name} .."
    for line, whole in blocks(text, r"^(?:pub )?struct [A-Za-z]+"):
        fields = re.findall(rf"^    (?:pub )?({FLAG_NAMES}): (?:bool|u32)", whole, re.M)
        codes = re.findall(rf"^    (?:pub )?({CODE_NAMES}): {NUMBER}", whole, re.M)
        if fields or codes:
            name = re.search(r"struct (\w+)", whole)[1]
            yield line, f"struct {name}: {', '.join(dict.fromkeys(fields + codes))}"
    for line, name, head, body in functions(text):
        codes = [p.split(":")[0] for p in parameters(head) if re.fullmatch(rf"{CODE_NAMES}: {NUMBER}", p)]
        if codes:
            yield line, f"fn {name} takes {', '.join(codes)}"
        if re.search(rf"-> {NUMBER}\b", head) and len(re.findall(r"return \d+;", body)) >= 2:
            yield line, f"fn {name} answers with numbers"


SHAPES = collections.defaultdict(list)


def shape(head, body):
    text = re.sub(r"//.*", "", " ".join(parameters(head)) + " | " + body)
    text = re.sub(r"\b(let|mut|if|else|while|for|in|return|match|as|true|false|break)\b", r"@\1", text)
    text = re.sub(r'b?"[^"]*"', "S", text)
    text = re.sub(r"\b\d[\d_]*\b", "N", text)
    text = re.sub(r"(?<!@)\b[A-Za-z_]\w*(?:::\w+)*", "x", text)
    return re.sub(r"\s+", "", text)


def point_2(path, text):
    for line, name, head, body in functions(text):
        if len(re.findall(r"\w+", body)) >= 5:
            SHAPES[shape(head, body)].append((path, line, name))
    return ()


def twins():
    for group in SHAPES.values():
        if len(group) > 1:
            names = ", ".join(name for _, _, name in group)
            for path, line, name in group:
                yield path, line, f"{name}, of {names}"


def point_3(path, text):
    for m in re.finditer(r"^ *while (?!let ).*", text, re.M):
        yield text.count("\n", 0, m.start()) + 1, m[0].strip()


def point_4(path, text):
    for line, name, head, body in functions(text):
        if re.fullmatch(rf"\s*\(?\(?\w+(?: [%/] \d+)?\)? as {NUMBER}\s*", body):
            yield line, f"conversion: {name}"
        elif re.match(r"(same|same_lowered|lower|is_same|one_if|one|first|first_of|first_nonzero|or_else)$", name):
            yield line, f"equality, choice or case by hand: {name}"
        elif re.match(r"(digit|digit_count|put_digits|put_number|put_byte|put_bytes|put_escape|put_escaped|put_escapes|byte)$", name):
            yield line, f"printing or copying by hand: {name}"


FACTS = collections.defaultdict(list)


def point_5(path, text):
    for line, name, head, body in functions(text):
        many = parameters(head)
        if len(many) >= 6:
            yield line, f"fn {name}: {len(many)} parameters"
        for clause in re.findall(r"^\s+requires (?:\w+ )?\{ (.*) \}\s*$", head, re.M):
            for fact in clause.split(" × "):
                fact = re.sub(r"\b(?:q|x|w|h|v)\b", "v", fact.strip(" ()"))
                FACTS[fact].append((path, line, name))


def facts():
    for fact, where in FACTS.items():
        if len({(p, n) for p, _, n in where}) >= 3:
            for path, line, name in where:
                yield path, line, f"{name} requires {fact[:70]}"


def point_6(path, text):
    for line, whole in blocks(text, r"^(?:pub )?struct [A-Za-z]+"):
        widths = re.findall(r"^    (?:pub )?\w+: \[\w+; ([\w:]+)\]", whole, re.M)
        if len(widths) > 1:
            name = re.search(r"struct (\w+)", whole)[1]
            yield line, f"parallel arrays: {name}"
    for m in re.finditer(r"const (\w+): \[\[u8; \d+\]; \d+\]", text):
        yield text.count("\n", 0, m.start()) + 1, f"table of numbers: {m[1]}"
    for line, name, head, body in functions(text):
        many = parameters(head)
        for a, b in zip(many, many[1:]):
            if re.search(r": &(?:mut )?\[", a) and re.fullmatch(r"(?:n|at|count|used|pos|held|len|done|off|from): usize", b):
                yield line, f"fn {name}: {a.split(':')[0]} and {b.split(':')[0]}"
                break


def point_7(path, text):
    for line, name, head, body in functions(text):
        switch = [p for p in parameters(head) if re.fullmatch(r"(?:which|events|spaces?|asked|word|white|words): (?:bool|u32)", p)]
        if switch:
            yield line, f"fn {name}: {switch[0]}"
        elif len(re.findall(r"if (?:which|kind) == ", body)) >= 3:
            yield line, f"fn {name}: a step by number"


POINTS = {"1": point_1, "2": point_2, "3": point_3, "4": point_4, "5": point_5, "6": point_6, "7": point_7}


def main():
    asked = [a for a in sys.argv[1:] if a in POINTS] or list(POINTS)
    found = collections.defaultdict(list)
    for path, text in sources():
        for point in asked:
            found[point] += [(path, *place) for place in POINTS[point](path, text)]
    if "2" in asked:
        found["2"] += sorted(twins())
    if "5" in asked:
        found["5"] += sorted(facts())
    for point in asked:
        print(f"point {point}: {len(found[point])}")
        if "--list" in sys.argv:
            for path, line, what in found[point]:
                print(f"  {path}:{line}: {what}")
    answers = sum(len(re.findall(r"^(?:pub )?[\w-]+ : goal\.", open(p, encoding="utf-8").read(), re.M)) for p in glob.glob(f"{ROOT}/crates/*/proofs/**/Answers.antt", recursive=True))
    if len(asked) == len(POINTS):
        print(f"point 8: {answers} answers")


main()
