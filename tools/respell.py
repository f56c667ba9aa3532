#!/usr/bin/env python3
"""Respells the names that this repository's own specifications and proofs declare: words in snake case, types and facts
in camel case. Run once, at the top, after the kit's port.py: tools/respell.py

A name is this repository's own where a file of specs/ or proofs/ declares it; names that the kit or the check makes keep
their dashes. Strings and comments stay, but for a name in backquotes.
"""

import os
import re
import sys

NAME = r"[A-Za-z][\w']*(?:-[\w']+)+"
DECLARED = re.compile(r"\s*(?:abbrev |unfoldable )?(?:pub )?(" + NAME + r") :(?!:)\s*(.*)")
SHAPED = re.compile(r"\s*(?:pub )?(?:record|data) (" + NAME + r")(?![\w'-])")
LOCAL = re.compile(r"(?:\blet |\bas |λ )(" + NAME + r")(?= =| :|[},.])")
TOKEN = re.compile(r"(?<![\w'\-◌])(" + NAME + r")(?![\w'◌]|-\w)")
SKIPPED = re.compile(r'"(?:[^"\\\n]|\\.)*"')
GENERATED = re.compile(r"(?:^|[^\w.])(?:c|goal)\.$")


def files(root):
    for folder, dirs, names in os.walk(os.path.join(root, "crates")):
        dirs[:] = sorted(d for d in dirs if d != "out")
        for name in sorted(names):
            if name.endswith((".rt", ".antt")):
                yield os.path.join(folder, name)


def read(path):
    with open(path, encoding="utf-8") as f:
        return f.read()


def functions(root):
    """The names of the functions in src/."""
    found = set()
    for path in files(root):
        if path.endswith(".rt"):
            found |= set(re.findall(r"\bfn (\w+)", read(path)))
    return found


def respelled(name, lemma, taken):
    parts = name.split("-")
    if name[0].isupper():
        return "".join(p[:1].upper() + p[1:] for p in parts)
    new = "_".join(parts)
    # a lemma beside a function of its name says that it is the lemma
    return new + "_lem" if lemma and new in taken else new


def declared(root):
    """Own names with a dash, and whether each is declared in proofs/ alone."""
    own = {}
    for path in files(root):
        if not path.endswith(".antt"):
            continue
        for line in read(path).split("\n"):
            m = DECLARED.match(line)
            if m and not m.group(2).startswith("goal."):
                own[m.group(1)] = own.get(m.group(1), True) and "/proofs/" in path
            m = SHAPED.match(line)
            if m:
                own[m.group(1)] = False
    return own


def turn_code(text, names):
    """A stretch of a file without strings and comments."""

    def put(m):
        if m.group(1) not in names or GENERATED.search(text[: m.start()]):
            return m.group(0)
        line = text[text.rfind("\n", 0, m.start()) + 1 :]
        if re.match(r"(?:abbrev )?(?:pub )?" + re.escape(m.group(1)) + r" : goal\.", line):
            return m.group(0)
        return names[m.group(1)]

    return TOKEN.sub(put, text)


def turn_line(line, names, comment):
    at = line.find(comment)
    code, note = (line, "") if at < 0 else (line[:at], line[at:])
    note = re.sub("`" + NAME + "`", lambda m: "`" + names.get(m.group(0)[1:-1], m.group(0)[1:-1]) + "`", note)
    out, last = [], 0
    for m in SKIPPED.finditer(code):
        out += [turn_code(code[last : m.start()], names), m.group(0)]
        last = m.end()
    return "".join(out) + turn_code(code[last:], names) + note


def main():
    root = os.getcwd()
    taken = functions(root)
    names = {name: respelled(name, lemma, taken) for name, lemma in declared(root).items()}
    together = {}
    for old, new in names.items():
        together.setdefault(new, []).append(old)
    for new, olds in together.items():
        if len(olds) > 1:
            print("fall together: " + ", ".join(olds))
            return 1
    for path in files(root):
        text = read(path)
        comment = "--" if path.endswith(".antt") else "//"
        here = names | {name: respelled(name, False, taken) for name in LOCAL.findall(text)}
        turned = "\n".join(turn_line(line, here, comment) for line in text.split("\n"))
        if turned != text:
            with open(path, "w", encoding="utf-8") as f:
                f.write(turned)
    print(f"{len(names)} names")
    return 0


if __name__ == "__main__":
    sys.exit(main())
