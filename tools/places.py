#!/usr/bin/env python3
"""Lists what a form of today's Rattle might replace, by text alone: places.py [FOLDER]

It prints, for each of eight points, file:line and what stands there, and at the end how many lines
each point has. A line is a candidate: whether it is a place, a reader says (docs/DESIGN-PASS.md)."""

import collections
import difflib
import glob
import os
import re
import sys

TOP = sys.argv[1] if len(sys.argv) > 1 else "."
FOUND = collections.OrderedDict((n, []) for n in range(1, 9))


def sources():
    for path in sorted(glob.glob(os.path.join(TOP, "crates/*/src/**/*.rt"), recursive=True)):
        with open(path) as file:
            yield os.path.relpath(path, TOP), file.read()


def line_of(text, at):
    return text.count("\n", 0, at) + 1


def closing(text, at):
    """Where the brace that opens at `at` is closed."""
    deep = 0
    for i in range(at, len(text)):
        deep += (text[i] == "{") - (text[i] == "}")
        if deep == 0:
            return i
    return len(text)


def functions(text):
    """Each function: its name, where it stands, its head and its body."""
    for m in re.finditer(r"^ *(?:pub(?:\(crate\))? )?(?:const )?fn (\w+)", text, re.M):
        i, deep = m.end(), 0
        while i < len(text) and not (text[i] == ";" and deep == 0):
            if text[i] in "([":
                deep += 1
            elif text[i] in ")]":
                deep -= 1
            elif text[i] == "{" and deep == 0:
                before = text[m.end():i].rstrip().split("\n")[-1]
                if not re.match(r"\s*(requires|ensures)\*? ?\w*$", before):
                    break
                i = closing(text, i)
            i += 1
        if i < len(text) and text[i] == "{":
            yield m[1], m.start(), text[m.start():i], text[i:closing(text, i) + 1]


def shape(head, body):
    """A function with its names, numbers and types taken out."""
    code = re.sub(r"//.*", "", head + body)
    code = re.sub(r"^ *(requires|ensures).*$", "", code, flags=re.M)
    code = re.sub(r"\b(?!fn|for|in|if|else|match|let|return|mut|Some|None|Ok|Err)[A-Za-z_]\w*\b", "x", code)
    return re.sub(r"\d[\d_]*", "0", re.sub(r"\s+", " ", code))


def report(point, path, line, what):
    FOUND[point].append((path, line, re.sub(r"\s+", " ", what.strip())[:150]))


# What a line of code shows alone: its point, and the pattern with the part that is printed.
SHOWN = [
    # numbers named as kinds
    (1, r"\b((?:code|kind|spacing|sort|pair|number): (?:u8|u16|u32|usize))\b"),
    # index loops
    (3, r"\b(for \w+ in [^{]*\.\.[^{]*|while [^{]*|loop )\{"),
    # impls of std's traits, orders spelt out, casts
    (4, r"^(impl[^\n]*\b(?:Fault|From<\w+>|TryFrom<\S+>|fmt::Display|PartialEq|Ord|Into<\w+>) for \w+)"),
    (4, r"([^\n]*(?:== \w+\.\w+ &&|\w+\.\w+ < \w+\.\w+ *\n? *\|\|)[^\n]*)"),
    (4, r"([^\n]*\bas (?:u8|u16|u32|usize|i16)\b[^\n]*)"),
    # arrays, counts beside
    (6, r"([^\n]*\[[\w:{} ,]*; *[\w]+\][^\n]*)"),
    (6, r"^( *(?:pub )?(?:len|count): usize,?)$"),
    # pointers to functions
    (7, r"(\bfn\(|&dyn |Box<dyn)"),
]


def shown(path, code):
    for point, pattern in SHOWN:
        for m in re.finditer(pattern, code, re.M):
            report(point, path, line_of(code, m.start(1)), m[1])


def blocks(pattern, code):
    """Each match of a head that ends in a brace, with what stands in the braces."""
    for m in re.finditer(pattern, code):
        yield m, code[m.end():closing(code, m.end() - 1)]


def choices(path, code):
    """Enums of two cases, and matches whose arms only call."""
    for m, inner in blocks(r"enum (\w+)[^{]*\{", code):
        cases = re.findall(r"^ {4}\w+", inner, re.M)
        if len(cases) == 2:
            report(1, path, line_of(code, m.start()), f"enum {m[1]}: {' | '.join(c.strip() for c in cases)}")
    for m, inner in blocks(r"match [^{]*\{", code):
        calls = re.findall(r"=> [\w.:]+\([^()]*(?:\([^()]*\))*[^()]*\)\??,", inner)
        made = re.search(r"=> (Ok|Err|Some|Report::new|write!)\(", inner)
        if len(calls) >= 2 and len(calls) == inner.count("=>") and not made:
            report(7, path, line_of(code, m.start()), m[0] + f" {len(calls)} calls")


def facts_of(head):
    """The facts of a function's clauses, with its names and numbers taken out."""
    for c in re.finditer(r"(requires|ensures)\s*\w*\s*\{", head):
        fact = head[c.end():closing(head, c.end() - 1)].strip()
        fact = re.sub(r"\b(self|book|window|counts|words|line)\b", "x", re.sub(r"\.(now|old|new|entry)\b", "", fact))
        for part in re.split(r" × ", re.sub(r"\d+", "0", fact)):
            yield part.strip("() ")


def parameters(head):
    """Each two parameters of a function."""
    names = re.findall(r"\b(\w+): ", head.split("requires")[0].split("ensures")[0].split("->")[0])
    return [(a, b) for i, a in enumerate(names) for b in names[i + 1:]]


def often(groups, told):
    """What stands in three functions or more."""
    for key, where in groups.items():
        if len(where) >= 3:
            report(5, where[0][0], where[0][1], told(key, where))


def alike(shapes):
    """Functions of one shape."""
    for i, (name, path, line, one) in enumerate(shapes):
        for other, there, at, two in shapes[i + 1:]:
            if len(one) > 60 and abs(len(one) - len(two)) < 40 and difflib.SequenceMatcher(None, one, two).ratio() > 0.93:
                report(2, path, line, f"{name} and {other} ({there}:{at})")


def main():
    facts, pairs, shapes = collections.defaultdict(list), collections.defaultdict(list), []
    for path, text in sources():
        code = re.sub(r"//[^\n]*", lambda m: " " * len(m[0]), text)
        shown(path, code)
        choices(path, code)
        crate = path.split("/")[1]
        for name, at, head, body in functions(code):
            place = (path, line_of(code, at), name)
            for fact in facts_of(head):
                if len(fact) > 3:
                    facts[(crate, fact)].append(place)
            for pair in parameters(head):
                pairs[(crate, *pair)].append(place)
            shapes.append((name, *place[:2], shape(head, body)))
    often(facts, lambda key, where: f"fact in {len(where)} functions: {key[1]}")
    often(pairs, lambda key, where: f"{key[1]} with {key[2]} in {len(where)}: {', '.join(w[2] for w in where)}")
    alike(shapes)
    for path in sorted(glob.glob(os.path.join(TOP, "crates/*/proofs/**/*.antt"), recursive=True)):
        with open(path) as file:
            report(8, os.path.relpath(path, TOP), 1, f"{len(file.readlines())} lines")
    for point, places in FOUND.items():
        for path, line, what in places:
            print(f"{point} {path}:{line}: {what}")
    print("; ".join(f"{point}: {len(places)}" for point, places in FOUND.items()))


main()
