#!/usr/bin/env python3
"""Brings this repository's own names in specs/ and proofs/ to Rattle's spelling: definitions, lemmas, fields, constructors and local names in
snake case, types in camel case. It goes by text: a name with a dash is ours where a file of specs/ or proofs/ declares or binds it; the names of
std and of goals keep their dashes.

usage: python3 tools/respell.py [--list]      at the top, after the port's scripts; --list prints what would be renamed, and changes nothing
"""

import os
import re
import sys

NAME = r"[A-Za-z][A-Za-z0-9'ℤℕ₁₂]*(?:[-_][A-Za-z0-9'ℤℕ₁₂]+)*"
DASHED = re.compile(r"(?<![\w'◌+«-])([A-Za-z][\w']*(?:-[\w']+)+)(?![\w'◌+»-])")
DECLARED = re.compile(r"^\s*(?:(?:pub|abbrev|unfoldable|opaque|data|record|module|private)\s+)*(" + NAME + r")\s*(?:[({].*)?:", re.M)
RECORD = re.compile(r"^\s*(?:pub\s+)?(?:abbrev\s+)?(?:pub\s+)?(?:record|data|module|ruleset)\s+(" + NAME + r")", re.M)
BINDER = re.compile(r"[({]\s*((?:" + NAME + r"\s+)*" + NAME + r")\s*:(?!:)")
LAMBDA = re.compile(r"λ\s+([^.]*?)\.(?=\s|$)", re.M)
LET = re.compile(r"\blet\s+([^=:]*?)\s*[=:]")
ALIAS = re.compile(r"\bas\s+(" + NAME + r")\s*[,}]")
ARM = re.compile(r"(?:\||\[)\s*([^|\[\]↦]*?)\s*↦")
CODE = re.compile(r"```.*?```|`[^`\n]+`|(?m:^    .*$)", re.S)
GOAL = re.compile(r"^\s*(?:abbrev\s+)?pub\s+(\S+)\s*:\s*goal\.\1\s*$", re.M)


def texts(ends):
    for top, dirs, files in os.walk("crates"):
        dirs[:] = sorted(d for d in dirs if d != "out")
        for f in sorted(files):
            if f.endswith(ends):
                path = os.path.join(top, f)
                with open(path, encoding="utf-8") as it:
                    yield path, it.read()


def no_comments(text):
    return re.sub(r"--.*", "", text)


def dashed(words):
    return {w for w in re.findall(DASHED, words)}


def own_names():
    own, goals = set(), set()
    for path, text in texts(".antt"):
        text = no_comments(text)
        for pattern in (DECLARED, RECORD, ALIAS):
            own |= {n for n in re.findall(pattern, text) if "-" in n}
        for pattern in (BINDER, LAMBDA, LET):
            for words in re.findall(pattern, text):
                own |= dashed(words)
        # the variables of a clause's left side
        for line in text.splitlines():
            m = re.match(r"^\s*(" + NAME + r")((?:\s+[^=:]*?)?)\s+=(?:\s|$)", line)
            if m and "let" not in line.split("=")[0]:
                own |= dashed(m[2])
        for words in re.findall(ARM, text):
            parts = words.split()
            own |= dashed(" ".join(parts[1:]))
        goals |= set(re.findall(GOAL, text))
    return own - goals, goals


# names that a new dash would not mend
OTHERS = {
    "two's-complement": "twos_complement",
    "leZ-true": "int_le_true",
    "leZ-false": "int_le_false",
    "leZ-from": "int_le_from",
    "leZ-over": "int_le_over",
    "getD-all-false": "get_or_all_false",
}


def write(path, old, new):
    if new != old:
        with open(path, "w", encoding="utf-8") as it:
            it.write(new)


def respelled(name):
    if name in OTHERS:
        return OTHERS[name]
    if name[0].isupper():
        return "".join(part[0].upper() + part[1:] for part in name.split("-"))
    return name.replace("-", "_")


def main():
    own, goals = own_names()
    if "--list" in sys.argv:
        print(len(own), "names")
        print(" ".join(sorted(own)))
        words = set()
        for path, text in texts((".antt", ".rt")):
            words |= set(re.findall(r"[A-Za-z][\w']*", text))
        print("fall together:", " ".join(sorted(n for n in own if respelled(n) in words)))
        return
    turn = {n: respelled(n) for n in own}

    def turned(m):
        return turn.get(m[1], m[1])

    for path, text in texts((".antt", ".rt")):
        lines = []
        for line in text.split("\n"):
            if path.endswith(".rt") or "--" in line:
                mark = "//" if path.endswith(".rt") else "--"
                code, sep, rest = line.partition(mark)
            else:
                code, sep, rest = line, "", ""
            if path.endswith(".rt") and '"' in code:
                lines.append(line)
                continue
            lines.append(re.sub(DASHED, turned, code) + sep + rest)
        write(path, text, "\n".join(lines))
    for path in ["README.md"] + sorted(os.path.join("docs", f) for f in os.listdir("docs") if f.endswith(".md")):
        with open(path, encoding="utf-8") as it:
            text = it.read()
        write(path, text, re.sub(CODE, lambda m: re.sub(DASHED, turned, m[0]), text))


main()
