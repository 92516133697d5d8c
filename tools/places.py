#!/usr/bin/env python3
"""Counts, in the sources of a commit, the places that docs/DESIGN-PASS.md tells of.

    python3 tools/places.py [COMMIT] [-v]

COMMIT is HEAD where it is left out. -v lists each place. What a pattern finds is where to look, and not yet what is to be changed:
docs/DESIGN-PASS.md says what each place was.
"""
import re
import subprocess
import sys

# point, what, the pattern of a line
PATTERNS = [
    ("1a", "enums", r"^(pub(\(crate\))? )?enum \w+"),
    ("1b", "arms and elses that end in unreachable()", r"unreachable\(\)"),
    ("1c", "an Option or a Result taken apart by hand to make another", r"(None|Err\(_\)|Err\(fault\)|Some\(refusal\)) => (return )?(Err|Ok|Some|None)\b|=> return Err\(|is_err\(\) \{|let (Ok|Some)\(\w+\) = .* else \{$"),
    ("1d", "flags: fields and parameters of type bool", r"\b[a-z_]+: (\[)?bool\b"),
    ("1e", "numbers for cases, and for kinds", r"=> [0-9]+,$|const [A-Z_]+: u(8|64) = [0-9]+;"),
    ("1f", "a reason to refuse as an Option", r"Option<\w*(Refusal|Fault)>"),
    ("2a", "functions", r"^\s*(pub(\(crate\))? )?(const )?(extern \"C\" )?fn \w+"),
    ("2b", "types", r"^(pub(\(crate\))? )?(struct|enum) \w+"),
    ("3a", "for over numbers", r"^\s*for [^{]* in [^{]*\.\.[^{]*\{"),
    ("3b", "for with enumerate", r"^\s*for .*\.enumerate\(\)"),
    ("3c", "while", r"^\s*while "),
    ("4a", "equality by hand", r"fn (is_)?same|\.low == .*\.high =="),
    ("4b", "conversions by hand", r"fn (of|from|into|to)_\w+|fn \w+_of\(|fn row\("),
    ("4c", "printing by hand", r"fn (put|write|words|mark_end|digit)\w*"),
    ("4d", "impls of From, TryFrom, Display, Error, Default", r"^impl.*\b(From|TryFrom|Display|Error|Default)\b.* for "),
    ("5a", "a coordinate or distances in a clause", r"^\s*requires .*(is_coordinate|are_distances)"),
    ("5b", "a chained or queued table in a clause", r"^\s*(requires|ensures) .*\b(Chained|Queued)\b"),
    ("5c", "a tube in a clause", r"^\s*(requires|ensures) .*is_tube"),
    ("5d", "cells, allowance and charged together", r"^\s*charged(,|: .*,|: u64.*)$"),
    ("5e", "sizes beside what they are the sizes of", r"fn \w+.*sizes: Sizes|^\s+sizes: Sizes,$"),
    ("6a", "arrays of a fixed length", r"\[[\w: ]+; ?[A-Z0-9_]+\]"),
    ("6b", "a count or a length beside a table", r"^\s*(pub )?(count|len): usize,"),
    ("7", "closures, dyn, plans", r"\bdyn\b|\bFn(Once|Mut)?\b|enum Plan|match plan"),
]


def lines(commit):
    found = subprocess.run(["git", "grep", "-n", "", commit, "--", "crates/*/src/*.rt"], capture_output=True, text=True, check=True).stdout
    for line in found.splitlines():
        _, path, number, text = line.split(":", 3)
        if not re.match(r"\s*//|ghost use|use ", text):
            yield path, number, text


def main():
    args = [a for a in sys.argv[1:] if a != "-v"]
    sources = list(lines(args[0] if args else "HEAD"))
    for point, what, pattern in PATTERNS:
        places = [(p, n, t) for p, n, t in sources if re.search(pattern, t)]
        in_tests = sum("/tests" in p or p.split("/")[1] == "trials" for p, _, _ in places)
        print(f"{point:3} {len(places):4} ({in_tests:3} in tests)  {what}")
        if "-v" in sys.argv:
            for path, number, text in places:
                print(f"        {path}:{number}: {text.strip()}")


main()
