#!/usr/bin/env python3
"""Loops of src/ that count an index by hand: a `while` whose body steps a variable by one, unconditionally (`x += 1`, `x -= 1`, `x = x + 1`,
`x = x - 1` at its top level), that its test names. Prints each place and how many there are. What stands in a `loop` it does not see.

usage: loops.py     at the top of the repository
"""
import glob
import re

places = 0
for file in sorted(glob.glob("crates/*/src/*.rt")):
    lines = open(file).read().split("\n")
    for i, line in enumerate(lines):
        loop = re.match(r"(\s*)while (.*) \{$", line)
        if not loop:
            continue
        margin = len(loop.group(1))
        end = next(j for j in range(i + 1, len(lines)) if lines[j].startswith(" " * margin + "}"))
        step = r" {%d}(\w+) (?:\+= 1|-= 1|= \1 \+ 1|= \1 - 1);$" % (margin + 4)
        stepped = {m.group(1) for m in (re.match(step, body) for body in lines[i + 1 : end]) if m}
        if any(re.search(r"\b%s\b" % name, loop.group(2)) for name in stepped):
            places += 1
            print(f"{file}:{i + 1}: {line.strip()}")
print(places, "places")
