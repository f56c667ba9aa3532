#!/usr/bin/env python3
"""Lists the places in crates/*/src that may be written plainer, by the points of docs/DESIGN-PASS.md.

  tools/places.py [POINT ..] [--list]    counts them in the tree that it stands in; --list prints each place

1  own enums; Option and Result taken apart by hand where a method passes them on; flags; number codes
2  functions of at least five lines that are alike but for names and types
3  loops over a range, by `while`, or over an enumeration that is only read
4  equality, order, conversion and printing by hand
5  clauses that stand in three contracts or more, and a parameter that three functions or more take with another and never without
6  arrays side by side in a struct, and a length beside a buffer
7  a match or an if that picks the step to run
8  lines of proof
"""
import difflib
import itertools
import pathlib
import re
import sys

TOP = pathlib.Path(__file__).resolve().parent.parent
FILES = sorted(TOP.glob("crates/*/src/**/*.rt"))
PATTERNS = {
    1: [
        r"^\s*(pub(\(crate\))? )?enum ",
        r"None => None|None => false|None => 0\b|None => Err|Err\(_\) =>|Ok\(\w+\) => Ok|let (Some|Ok)\(\w+\) = [^;]* else \{",
        r"^\s*(pub(\(crate\))? )?\w+: \[?bool\b",
        r"\) -> (u8|u16)$|\{ None \} else \{ Some",
    ],
    3: [r"^\s*for \w+ in [^{]*\.\.[^{]*\{", r"^\s*while (?!let)", r"^\s*for \(\w+, \w+\) in .*\.iter\(\)\.enumerate\(\) \{"],
    4: [
        r"^\s*(pub(\(crate\))? )?fn (same\w*|equal|lower|precedes|compare|is_before|named|name|tell_\w+|narrowed|on_line|number\(self\)|is\(|parts\()",
        r"[\w)\]] as (usize|u64|u32|u16|u8)\b",
    ],
    6: [r"^\s*(pub(\(crate\))? )?\w+: (\[[^;]+; \d+\]|&'a (mut )?\[.*\]),$", r"^\s*(pub(\(crate\))? )?(many|len|at): usize,"],
    7: [r"^\s*match (call|self|rule|key) \{", r"^\s*(\} else )?if (names_\w+|same\(|let Some\(value\) = \w+_value)"],
}


def place(path, line):
    return f"{path.relative_to(TOP)}:{line}"


def functions(path):
    """Each function of a file: its line, its name and parameters, its clauses, and its body's words."""
    text = path.read_text()
    for m in re.finditer(r"^( *)(?:pub(?:\(crate\))? )?(?:final )?fn (\w+)", text, re.M):
        end = text.find("\n" + m.group(1) + "}", m.end())
        if end < 0 or re.search(r";$", text[m.end():end].split("{")[0], re.M):
            continue
        whole = text[m.start():end]
        clauses = re.findall(r"^\s*(?:requires|ensures)(?: \w+)? \{ (.*) \}$", whole, re.M)
        head = whole.split("\n    requires")[0].split("\n    ensures")[0].split("{")[0]
        params = re.findall(r"[(,]\s*(?:mut )?(\w+): ([^,()]+)", head.split("->")[0])
        code = re.sub(r"^\s*(?:requires|ensures).*$|//.*$", "", whole, flags=re.M)
        yield text.count("\n", 0, m.start()) + 1, m.group(2), params, clauses, re.findall(r"\w+|[^\w\s]", code)


def found(point):
    if point in PATTERNS:
        for path in FILES:
            for n, line in enumerate(path.read_text().split("\n"), 1):
                if any(re.search(p, line) for p in PATTERNS[point]) and not line.lstrip().startswith("//"):
                    yield place(path, n), line.strip()
    elif point == 2:
        known = [(place(p, f[0]), f[1], f[4]) for p in FILES for f in functions(p) if len(f[4]) >= 25 and "_tests" not in str(p)]
        for (a, na, wa), (b, nb, wb) in itertools.combinations(known, 2):
            if min(len(wa), len(wb)) / max(len(wa), len(wb)) > 0.8:
                s = difflib.SequenceMatcher(None, wa, wb, autojunk=False)
                if s.quick_ratio() > 0.85 and s.ratio() > 0.85:
                    yield a, f"{na} is like {nb} at {b}"
    elif point == 5:
        clauses, takers = {}, {}
        for path in FILES:
            for line, _, params, said, _ in functions(path):
                for c in said:
                    clauses.setdefault(c, []).append(place(path, line))
                for name, _ in params:
                    takers.setdefault((path.parts[-3], name), []).append(place(path, line))
        for c, at in sorted(clauses.items(), key=lambda x: -len(x[1])):
            if len(at) >= 3:
                yield at[0], f"{len(at)} contracts: {c}"
        for ((crate, a), at), ((other, b), too) in itertools.permutations(sorted(takers.items()), 2):
            if crate == other and len(at) >= 3 and set(at) <= set(too) and (a < b or len(too) > len(at)):
                yield at[0], f"{len(at)} functions that take {a} take {b}"
    elif point == 8:
        for crate in sorted(TOP.glob("crates/*/proofs")):
            lines = sum(len(p.read_text().split("\n")) - 1 for p in crate.glob("**/*.antt"))
            yield str(crate.relative_to(TOP)), f"{lines} lines"


def main():
    points = [int(a) for a in sys.argv[1:] if a.isdigit()] or range(1, 9)
    for point in points:
        at = list(found(point))
        if point == 8:
            print(f"8: {sum(int(t.split()[0]) for _, t in at)} lines of proof")
        else:
            print(f"{point}: {len(at)}")
        if "--list" in sys.argv:
            for where, what in at:
                print(f"   {where}: {what}")


main()
