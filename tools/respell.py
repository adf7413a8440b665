#!/usr/bin/env python3
"""Respells this repository's own names for today's Rattle: words of specs/ and proofs/ in snake case, types in camel case.

    python3 tools/respell.py [--try]

Run once, at the top, after the kit's own script. It goes by the names that the repository itself defines in its .antt files and in
ghost items of its .rt files; names that come from the kit, and the goals that the check names, stay as they are. Strings keep their
text, and so do functions of src/, which have no hyphen. With --try it writes nothing, and lists the names that would fall together."""
import glob
import re
import sys

TOKEN = re.compile(r"[^\s(){}\[\];,.`\"|]+")
NAME = re.compile(r"^(?:[^\W\d][\w']*(?:-[\w']+)+|[A-Z][a-z]\w*_[\w']*)$")


def read(path):
    with open(path, encoding="utf-8") as f:
        return f.read()


def paths():
    antt = sorted(glob.glob("crates/*/specs/**/*.antt", recursive=True) + glob.glob("crates/*/proofs/**/*.antt", recursive=True))
    rt = sorted(glob.glob("crates/*/src/**/*.rt", recursive=True))
    edits = sorted(glob.glob("crates/*/must-fail/*.edit"))
    pages = sorted(set(glob.glob("docs/*.md") + glob.glob("*.md") + glob.glob("host/*.md")) - {"docs/PORT.md"})
    return antt, rt, edits, pages


def bare(text):
    """The text without comments, and without its use lines; the names that the use lines take from the kit."""
    text = re.sub(r"--.*", "", text)
    taken = set()

    def use(m):
        module = m.group(2)
        own = re.match(r"Rattle\.(\w+)", module)
        if not own or own.group(1) not in OWN or re.search(r"\.(Goals|Given)$", module):
            taken.update(TOKEN.findall(m.group(3) or ""))
        return "\n"

    text = re.sub(r"(?m)^[ \t]*(ghost )?(?:pub )?use\s+([\w.'+]+?)(?:\.\{([^}]*)\})?(?:\s+as\s+\w+)?\s*;?[ \t]*$", use, text)
    return text, taken


def defined(path, text):
    """The names that an .antt file defines: signatures, also of fields and constructors, and records."""
    names = set()
    answers = re.search(r"/proofs/.*/(Answers|Invariants|Proof|Choices|Needs)\.antt$", path)
    for m in re.finditer(r"(?m)^[ \t]*(?:(?:pub|abbrev|unfoldable|record|data|mutual)\s+)*((?:[^\s(){};,.:]+[ \t]+)+):(?=[\s(])([^\n]*)", text):
        if answers and re.match(r"\s*(goal|given|needs|search|choices)\.", m.group(2)):
            continue
        names.update(m.group(1).split())
    for m in re.finditer(r"(?m)^[ \t]*(?:pub[ \t]+)?(?:record|data)[ \t]+([^\s(){};,.:]+)", text):
        names.add(m.group(1))
    return {n for n in names if NAME.match(n)}


def respelled(name):
    words = re.split("[-_]", name) if name[0].isupper() else name.split("-")
    if name[0].isupper():
        return "".join(w[0].upper() + w[1:] for w in words)
    return "_".join(words)


OWN = {p.split("/")[1] for p in glob.glob("crates/*/src")}


def table():
    antt, rt, edits, pages = paths()
    names, taken = set(), set()
    for path in antt:
        whole = read(path)
        text, got = bare(whole)
        taken |= got
        names |= defined(path, text)
        for m in re.finditer(r"\bas ([^\s(){};,.:]+)", whole):
            if NAME.match(m.group(1)):
                names.add(m.group(1))
    for path in rt:
        text = read(path)
        _, got = bare(text)
        taken |= got
        for m in re.finditer(r"\bghost\s+([^\s:;{}]+)\s*[:=]", text):
            if NAME.match(m.group(1)):
                names.add(m.group(1))
        for m in re.finditer(r"\b(?:ensures|requires)\s+([^\s{}]+)\s*\{", text):
            if NAME.match(m.group(1)):
                names.add(m.group(1))
    both = sorted(names & taken)
    return {n: respelled(n) for n in sorted(names - taken)}, both


def turn(text, names):
    return TOKEN.sub(lambda m: names.get(m.group(0), m.group(0)), text)


def turn_code(text, names):
    parts = re.split(r'("(?:[^"\\\n]|\\.)*")', text)
    return "".join(p if i % 2 else turn(p, names) for i, p in enumerate(parts))


def turn_page(text, known):
    """Names between backticks, also those that the kit's script respelled."""
    def one(m):
        new = respelled(m.group(0)) if NAME.match(m.group(0)) else m.group(0)
        return new if new in known else m.group(0)

    return re.sub(r"`[^`\n]*`", lambda m: TOKEN.sub(one, m.group(0)), text)


def main():
    trying = "--try" in sys.argv
    names, both = table()
    antt, rt, edits, pages = paths()
    if both:
        print("own names that the kit has too, left as they are:", *both)
    if trying:
        here = set()
        for path in antt + rt:
            here |= set(TOKEN.findall(read(path)))
        for old, new in names.items():
            if new in here:
                print("falls together:", old, "->", new)
        back = {}
        for old, new in names.items():
            back.setdefault(new, []).append(old)
        for new, olds in back.items():
            if len(olds) > 1:
                print("two become one:", *olds, "->", new)
        print(len(names), "names")
        return
    for path in antt:
        text = read(path)
        new = turn_code(text, names)
        if new != text:
            open(path, "w", encoding="utf-8").write(new)
    for path in rt + edits:
        text = read(path)
        new = turn_code(text, names)
        if new != text:
            open(path, "w", encoding="utf-8").write(new)
    known = set()
    for path in antt:
        known |= set(TOKEN.findall(read(path)))
    for path in pages:
        text = read(path)
        new = turn_page(text, known)
        if new != text:
            open(path, "w", encoding="utf-8").write(new)
    print(len(names), "names respelled")


main()
