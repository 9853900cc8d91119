#!/usr/bin/env python3
"""Brings the repository's own definitions and lemmas to one spelling: words in snake case, facts and types in camel case.

    tools/spell.py [--show]

Reads every declaration in specs/ and proofs/ (but not the answers to goals, whose names are made by the check), and respells its name
where it stands: in definitions, proofs and clauses, and within backticks in comments and documents. Functions of src/, strings, inputs
and outputs keep their names. Stops, and writes nothing, where two names would fall together. With --show it only prints the names.
"""

import os
import re
import sys

DECLARED = re.compile(r"^[ ]*(?:(?:abbrev|unfoldable|pub|data|record|ruleset) )*([^\s:(){}.,;λ→|=]+)(?= *(?::|\{|\(.*:))(.*)$", re.M)
NAME = r"\w'·\-"
# names that would fall together with another
APART = {
    "number-of": "number_refused",
    "kind-of": "kind_of_term",
    "fault-of": "fault_in",
    "is-suspension": "is_suspension_term",
    "of-term": "of_word_in_term",
    "Opens-exactly": "EveryOpenIsExact",
    "Resumptions-on-path": "EveryResumptionOnPath",
}
# an operator's words, and names that an import gives
OTHERS = {"steps-to": "steps_to", "one-more-row": "one_more_row", "pathOf": "path_of"}


def files(*ends):
    for top in ("crates", "docs"):
        for folder, dirs, names in os.walk(top):
            dirs[:] = sorted(d for d in dirs if d not in ("out", ".git"))
            for name in sorted(names):
                if name.endswith(ends):
                    yield os.path.join(folder, name)
    if ".md" in ends:
        yield "README.md"


def read(path):
    with open(path, encoding="utf-8") as f:
        return f.read()


def respelled(name):
    if name in APART:
        return APART[name]
    words = [re.sub(r"(?<=[a-z0-9])([A-Z])", r"_\1", w).lower() if w[:1].islower() else w for w in name.split("-")]
    if name[:1].isupper():
        return "".join(w[:1].upper() + w[1:] for w in words)
    return "_".join(words)


def declared():
    names = set()
    for path in files(".antt"):
        for found in DECLARED.finditer(re.sub(r"--.*", "", read(path))):
            name, rest = found.group(1), found.group(2)
            if re.search(r":\s*goal\.", rest) or re.match(r"\s*:\s*goal\.", rest):
                continue
            names.add(name)
    return names


def main():
    names = declared()
    new = {n: respelled(n) for n in names if respelled(n) != n and re.match(r"[A-Za-z]", n)} | OTHERS
    if "--show" in sys.argv:
        for n in sorted(new):
            print(n, new[n])
        return 0
    together = {}
    for n in names:
        together.setdefault(new.get(n, n), []).append(n)
    bad = sorted(sorted(ns) for ns in together.values() if len(ns) > 1)
    if bad:
        print("these fall together:", bad)
        return 1
    token = re.compile(rf"(?<![{NAME}])(?:{'|'.join(re.escape(n) for n in sorted(new, key=len, reverse=True))})(?![{NAME}])")

    def turn(text, answers=False):
        def one(m):
            # in an answer the first name after the record of what is known is the name of a step, which the check makes
            if answers and re.search(r"(?<![\w.'-])[cwl]\.$", text[: m.start()]):
                return m.group(0)
            return new[m.group(0)]

        return token.sub(one, text)

    def in_ticks(text):
        return re.sub(r"`[^`\n]*`", lambda m: turn(m.group(0)), text)

    def code(text, comment, answers):
        out = []
        for line in text.split("\n"):
            at = re.search(rf"(?:^|\s){comment}", line)
            at = at.start() if at else len(line)
            parts = re.split(r'("(?:[^"\\]|\\.)*")', line[:at])
            out.append("".join(p if p.startswith('"') else turn(p, answers) for p in parts) + in_ticks(line[at:]))
        return "\n".join(out)

    for path in files(".antt", ".rt", ".md"):
        old = read(path)
        answers = os.path.basename(path) in ("Answers.antt", "Invariants.antt")
        text = in_ticks(old) if path.endswith(".md") else code(old, "--" if path.endswith(".antt") else "//", answers)
        if text != old:
            with open(path, "w", encoding="utf-8") as f:
                f.write(text)
    return 0


if __name__ == "__main__":
    raise SystemExit(main())
