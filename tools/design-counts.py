#!/usr/bin/env python3
"""Lists the places in src/ that docs/DESIGN-PASS.md counts, point by point: `tools/design-counts.py` counts, `-v` shows each place."""
import pathlib
import re
import sys

# What is looked for on a line of src/, for each point.
LINES = {
    "1 enums of the repository's own": r"^\s*(pub )?enum ",
    "1 a flag or a number beside values": r"^\s*(pub )?(refusal: u32|found: bool|four: bool|some: bool|ends: bool),",
    "1 numbers for refusals and for nothing": r"return ((files::|stuck::)?refused\()?[0-9]+\)?;|(refusal|first|second|no) != 0|refusal: [0-9]+,|NO_BYTE",
    "2 choices of a buffer's length": r"\b(most|count|len\(\)|len\(\) / 5|node_count\(\)) <= ([0-9]{2,}|8) \{$",
    "3 loops": r"^\s*('\w+: )?(for|while|loop)\b",
    "3 of these, over a range of numbers": r"^\s*for .* in \(?[a-z0-9_]+\.\.",
    "4 conversions, equality, order and printing by hand":
        r"fn (entry_of|line_of|is_always|way_number|way_of|kind_of|larger|greater|lesser|wide|byte_of|sign_of|copy|fill|repeat|put|same_words"
        r"|number_at|sign|byte|form|text|bytes|show_way|show_pair|put_kind|put_decimal|digits)\b",
    "6 arrays of a fixed length": r"; ([0-9_]+|[A-Z]+)\]",
    "7 flags and numbers that say which step to run": r"^\s*(lamp|closed|some): bool,|lamp: bool,|match kind \{|\bsite: u8|\bhalf: usize",
}


def main():
    shown = "-v" in sys.argv
    files = sorted(pathlib.Path("crates").glob("*/src/**/*.rt"))
    for name, pattern in LINES.items():
        places = [(f, i, line.strip()) for f in files for i, line in enumerate(f.read_text().splitlines(), 1)
                  if re.search(pattern, line) and not line.strip().startswith("//")]
        show(name, places, shown)
    places = []
    for f in files:
        for m in re.finditer(r"\bfn (\w+)(<[^(]*>)?\(([^)]*)\)", f.read_text()):
            count = len([p for p in m.group(3).split(",") if p.strip()])
            if 5 <= count:
                places.append((f, 0, f"{m.group(1)}: {count} parameters"))
    show("5 functions of five or more parameters", places, shown)
    answers = sorted(pathlib.Path("crates").glob("*/proofs/**/Answers.antt"))
    text = "".join(f.read_text() for f in answers)
    print(f"8 answers: {len(re.findall(r'^pub .* : goal[.]', text, re.M))} in {len(answers)} files, {len(text.splitlines())} lines")
    lemmas = [f for f in pathlib.Path("crates").glob("*/proofs/**/*.antt") if f.name not in ("Answers.antt", "Invariants.antt")]
    print(f"8 lemmas and what proves the theorems: {sum(len(f.read_text().splitlines()) for f in lemmas)} lines")


def show(name, places, shown):
    print(f"{name}: {len(places)}")
    if shown:
        for f, i, line in places:
            print(f"    {f}:{i}: {line}" if i else f"    {f}: {line}")


main()
