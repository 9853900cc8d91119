#!/usr/bin/env python3
"""Counts the places in crates/*/src that read like the older language, by kind.

    tools/places.py [-l] [ROOT]

ROOT is a checkout (this one, if it is left out). -l lists each place. A place is a line that matches one of a kind's patterns; kind 5
counts clauses that stand, with their names set aside, in the contracts of three or more functions, and parameters that three or more
functions take together. The crate of tests is left out, since its values are data.
"""
import collections
import glob
import re
import sys

KINDS = {
    "1 numbers for kinds, faults and states": [
        r"kind_number\((?!word: u32\))", r"\bkind\(\)\.number\(\)", r"\bk(ind)? == \d+", r"\bk(ind)? < \d+", r"^\s+\d+(\.\.=\d+)? => (of::|with\(|Layer::)",
        r"has_kind\(\w+, \w+, \d+\)", r"\b(crate\)|pub) number: u8\b", r"\bwanted: u8\b", r"\(fn|fn number_at", r"number: \d \}", r"check_entry(_with)?\(.*, \d\)",
        r"(accept|row|yields) ?(==|!=|\()? ?[01]\b(?=[,);} ])",
    ],
    "1 answers that are a flag, a sentinel or an Option in place of a Result": [
        r"-> Option<Fault>", r"-> \(u16, Option", r"-> Option<Result<", r"-> Option<\(\)>", r"fn (push|enter|deliver)\(.*-> bool", r"out\.len\(\) \+ 1", r"^\s*NoRow,",
    ],
    "1 Options and Results taken apart by hand": [
        r"^\s*None => (None|false|return None|return false)\b", r"^\s*None => \w+,$", r"Err\(\w+\) => (return )?Err\(\w+\)", r"None => (return )?Ok\(None\)",
        r"if let Err\(\w+\) = ", r"if let Some\(fault\) = ",
    ],
    "3 loops that count by hand": [r"^\s*while (?!let)", r"^\s*loop\b", r"^\s*for \w+ in [\w.]+\.\.[\w.]+\.len\(\)", r"^\s*while let .*(next_word|top)\(\)"],
    "4 conversions and printing by hand": [
        r"fn (number|of_number|reason|layer_name|write_words|write_fault|row_name)\(", r"fn (build|read)\((self|word)", r"fn of\(state",
        r"fn is_(zero_frame|no_judgement|same)\(", r"\{ 1 \} else \{ 0 \}", r"let name = match state", r"let none = Judged",
    ],
    "6 tables by number, buffers with a length or a place beside them": [
        r"const \w+: \[u8; 15\]", r"^\s+(at|len): usize,$", r"out: &mut \[u32\], at: usize", r"^\s+fourth: Judged|^\s+pub fourth: Judged",
        r"pub const [A-Z_]+: u32 = ",
    ],
    "7 switches by number": [r"match k \{|match kind_number\(|match (operation|base) \{"],
}


SEARCH = re.compile(r"for [^\n]*\{\n(?:\s*let [^\n]*\n)?\s*if [^\n]*\{\n\s*return (?:true|false)|\n\s*return Some\(variable")


def functions(text):
    """(name, parameters, clauses) of each function."""
    found = []
    for m in re.finditer(r"\bfn (\w+)(<[^(]*>)?\(", text):
        depth, i = 1, m.end()
        while depth:
            depth += {"(": 1, ")": -1}.get(text[i], 0)
            i += 1
        parameters = re.sub(r"\s+", " ", text[m.end():i - 1])
        head = []
        for line in text[i:].splitlines():
            if line.strip() in ("{", "{}") or line.endswith(" {") and "ensures" not in line and "requires" not in line:
                break
            head.append(line)
            if line.endswith(";"):
                break
        found.append((m[1], parameters, "\n".join(head).rstrip(";")))
    return found


def repeated(files):
    clauses, groups = collections.Counter(), collections.Counter()
    for path, text in files:
        for name, parameters, head in functions(text):
            mine = {re.sub(r"\s+", " ", re.sub(r"^(requires|ensures) ?\w* ?", r"\1 ", c)).strip() for c in re.findall(r"(?:requires|ensures)\b[^\n]*", head)}
            for c in mine:
                clauses[c] += 1
            names = [p.split(":")[0].strip() for p in parameters.split(",") if ":" in p and "self" not in p]
            for a, b in zip(names, names[1:]):
                groups[a + ", " + b] += 1
    return {c: n for c, n in clauses.items() if n >= 3}, {g: n for g, n in groups.items() if n >= 3}


def main():
    args = [a for a in sys.argv[1:] if a != "-l"]
    listed, root = "-l" in sys.argv[1:], args[0] if args else "."
    paths = sorted(p for p in glob.glob(root + "/crates/*/src/**/*.rt", recursive=True) if "/examples/" not in p)
    files = [(p[len(root) + 1:], open(p).read()) for p in paths]
    for kind, patterns in KINDS.items():
        if not patterns:
            continue
        hits = []
        for path, text in files:
            for n, line in enumerate(text.splitlines(), 1):
                code = line.split("//")[0]
                if "ensures" in code or "requires" in code or "ghost" in code:
                    continue
                if any(re.search(p, code) for p in patterns):
                    hits.append(f"{path}:{n}: {line.strip()}")
        print(f"{kind}: {len(hits)}")
        if listed:
            print("".join(f"    {h}\n" for h in hits), end="")
    found = [f"{path}:{text.count(chr(10), 0, m.start()) + 1}" for path, text in files for m in SEARCH.finditer(text)]
    print(f"3 searches and tests of all as loops: {len(found)}")
    if listed:
        print("".join(f"    {f}\n" for f in found), end="")
    kept = sum(len(re.findall(r"^\s*// Kept:", text, re.M)) for _, text in files)
    clauses, groups = repeated(files)
    print(f"5 clauses in three or more functions: {len(clauses)} clauses, {sum(clauses.values())} places")
    if listed:
        print("".join(f"    {n} {c}\n" for c, n in sorted(clauses.items(), key=lambda x: -x[1])), end="")
    print(f"lines that give the reason of a place that stays: {kept}")
    print(f"5 neighbouring parameters in three or more functions: {len(groups)} pairs, {sum(groups.values())} places")
    if listed:
        print("".join(f"    {n} {g}\n" for g, n in sorted(groups.items(), key=lambda x: -x[1])), end="")


main()
