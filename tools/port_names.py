#!/usr/bin/env python3
"""Brings the repository's own names to snake case: a dash in a definition, a lemma, a field or a variable of ours becomes `_`.

usage: python3 tools/port_names.py [TOP]     once, after the toolchain's own script for older repositories; files are rewritten in place
       python3 tools/port_names.py --report [TOP]     says which names it would turn, and which would fall together; writes nothing

A name of the standard library, or one that the toolchain makes (a goal, a step of a function), keeps its dash.
"""

import os
import re
import sys

NAME = r"[A-Za-z_≢≤≡ℕℤ][\w≢≤≡ℕℤ₂']*"
DASHED = re.compile(r"(?<![\w≢≤≡ℕℤ₂'◌+*-])(" + NAME + r"(?:-[\w≢≤≡₂'*]+)+)(?![\w≢≤≡₂'◌+*-])")
WORD = re.compile(r"[\w≢≤≡ℕℤ₂'-]+")
USE = re.compile(r"^\s*(?:ghost )?(?:pub )?use ([\w.+]+)\.\{([^}]*)\}", re.M)


def files(top):
    for folder, dirs, names in os.walk(os.path.join(top, "crates")):
        dirs[:] = sorted(d for d in dirs if d not in ("out", "target", "must-fail"))
        for name in sorted(names):
            if name.endswith((".antt", ".rt")):
                yield os.path.join(folder, name)


def parts(listed):
    """The names of an import's list, `a as b` as both."""
    return [w for item in listed.split(",") for w in item.replace(" as ", " ").split()]


def is_goal_file(path):
    return os.path.basename(path) in ("Answers.antt", "Invariants.antt", "Proof.antt")


def kept_in(path, text):
    """Names that are not ours in this file: of the library, and of what the toolchain makes."""
    kept = set()
    for where, listed in USE.findall(text):
        of_library = where.startswith("Rattle.std") or not where.startswith("Rattle.")
        if of_library or re.search(r"\.(Goals|Given|Tie)$", where):
            kept.update(parts(listed))
    if is_goal_file(path):
        kept.update(re.findall(r":\s*goal\.([\w'-]+)", text))
    return kept


def declared(path, text):
    """Names that this file declares: definitions, lemmas, fields, constructors."""
    if not path.endswith(".antt"):
        return set()
    found = set()
    for line in text.split("\n"):
        m = re.match(r"\s*(?:(?:abbrev|unfoldable|pub|data|record)\s+)*(" + NAME + r"(?:-[\w≢≤≡₂'*]+)*)\s*:(?!:)", line)
        if m and not re.match(r"\s*let\b", line):
            found.add(m.group(1))
    return found - kept_in(path, text)


def turn(name):
    return name.replace("-", "_")


def turned(path, text, ours):
    """The text with our names turned."""
    kept = kept_in(path, text)

    def one(m):
        name = m.group(1)
        if name in kept:
            return name
        behind = text[m.start() - 1] if m.start() else " "
        if behind == "." and name not in ours:
            return name
        if path.endswith(".rt") and name not in ours:
            return name
        return turn(name)

    if path.endswith(".antt"):
        # a comment's words keep their dashes, but for our names
        out, at = [], 0
        for m in DASHED.finditer(text):
            start = text.rfind("\n", 0, m.start()) + 1
            comment = "--" in text[start : m.start()]
            out.append(text[at : m.start()])
            out.append(m.group(1) if comment and m.group(1) not in ours else one(m))
            at = m.end()
        return "".join(out) + text[at:]
    out, at = [], 0
    for m in DASHED.finditer(text):
        start = text.rfind("\n", 0, m.start()) + 1
        comment = text[start : m.start()].lstrip().startswith("//")
        out.append(text[at : m.start()])
        out.append(m.group(1) if comment else one(m))
        at = m.end()
    return "".join(out) + text[at:]


def main():
    words = sys.argv[1:]
    report = "--report" in words
    rest = [w for w in words if w != "--report"]
    top = rest[0] if rest else "."
    texts = {p: open(p, encoding="utf-8").read() for p in files(top)}
    ours = set()
    for p, t in texts.items():
        ours |= {n for n in declared(p, t) if "-" in n}
    together = set()
    for p, t in texts.items():
        new = turned(p, t, ours)
        was, now = set(WORD.findall(t)), set(WORD.findall(new))
        for name in was - now:
            if turn(name) in was:
                together.add((os.path.relpath(p, top), name))
        if not report and new != t:
            with open(p, "w", encoding="utf-8") as f:
                f.write(new)
    for p in [os.path.join(top, "README.md")] + sorted(os.path.join(top, "docs", n) for n in os.listdir(os.path.join(top, "docs")) if n.endswith(".md")):
        with open(p, encoding="utf-8") as f:
            old = f.read()
        new = re.sub(r"`[^`\n]+`", lambda m: DASHED.sub(lambda w: turn(w.group(1)) if w.group(1) in ours else w.group(1), m.group(0)), old)
        if not report and new != old:
            with open(p, "w", encoding="utf-8") as f:
                f.write(new)
    for p, name in sorted(together):
        print(f"falls together: {p}: {name} and {turn(name)}")
    print(f"{len(ours)} names of ours had a dash" + (": " + " ".join(sorted(ours)) if report else ""))


main()
