#!/usr/bin/env python3
"""Brings the repository's own definitions and lemmas to today's spelling, after port.py: words in snake case.

usage: python3 tools/respell.py [--check]      at the top of the repository

A name that this repository declares in an .antt file and that begins with a small letter is written with `_` in place of a dash and of a
change to capitals: `recordOf` is `record_of`, `terms-le` is `terms_le`. Names of types, names with an operator in them, functions of
src/, and names that come from the library keep their spelling. It rewrites .antt files, .rt files, must-fail edits, and backticked names in
README.md and docs/*.md. Where a new name is taken already it stops and writes nothing. It says each new spelling with --check.
"""
import glob
import os
import re
import sys

W = r"[^\s(){}.;,@\"«»\[\]\\`]+"
TOKEN = re.compile(W)
PLAIN = re.compile(r"[a-z][A-Za-z0-9_'-]*\Z")
OWN_USE = re.compile(r"^\s*(?:pub |ghost |pub ghost )*use\s+(\S+?)\.\{([^}]*)\}", re.M)
DECLARED = re.compile(r"^\s*(?:(?:abbrev|unfoldable|pub|mutual|data|record)\s+)*(" + W + r"(?:\s+" + W + r")*)\s+:\s", re.M)
BINDER = re.compile(r"[({]((?:" + W + r"\s+)*" + W + r")\s+:\s")
LOCAL = re.compile(r"\blet\s+(" + W + r")\s+[:=]")
LAMBDA = re.compile(r"λ((?:\s+" + W + r")+)\.")
# Where the rule would give a name that stands already, or give two the same: what is written.
BY_HAND = {
    "bucketOf": "name_bucket", "classOf": "class_number", "endTag": "end_tag_state", "rowAdds": "row_addition", "sameBytes": "are_same_bytes",
    "standsAt": "part_stands_at", "stopOf": "stop_number", "textAt": "is_text_at", "fromRow": "forest_from_row", "noRoom": "without_room",
    "a-context": "a_context_value", "a-sequence": "a_sequence_value", "kind-of": "kind_of_code", "of_function": "of_function_pair",
    "after_Less": "after_less_sign", "cut-in": "cut_in_lem", "name-at": "name_at_lem", "value-at": "value_at_lem",
}
# Names of fields and of functions of src/ that may be spelled alike, since they never stand in one scope.
ALIKE = set(
    "list-after list-end list-judged context-fits sequence-fits learn-names document-part stop-at constraint-length pattern-length"
    " expression-length pattern-size expression-size expression-name expression-kind out-label out-size".split()
)
RESERVED = {"record", "ruleset", "data", "open", "ground", "assumption", "as", "in", "elim", "use", "let", "where", "mod"}


def snake(name):
    if name in BY_HAND:
        return BY_HAND[name]
    if not PLAIN.match(name) or not re.search(r"[A-Z-]", name):
        return name
    # A type's or a library word's part keeps its capital behind a dash: `All-append`.
    name = re.sub(r"(?<=[a-z0-9])([A-Z])", lambda m: "_" + m[1].lower(), name)
    name = name.replace("-", "_")
    return re.sub(r"_([A-Z])(?=[_a-z0-9']|\Z)", lambda m: "_" + m[1].lower(), name)


def read(path):
    with open(path, encoding="utf-8", newline="") as f:
        return f.read()


def uncommented(text, mark):
    return re.sub(r"(?<!\S)" + mark + r".*", "", text)


def main(argv):
    check = "--check" in argv
    antt = sorted(p for p in glob.glob("crates/*/specs/**/*.antt", recursive=True) + glob.glob("crates/*/proofs/**/*.antt", recursive=True))
    rt = sorted(glob.glob("crates/*/src/**/*.rt", recursive=True))
    edits = sorted(glob.glob("crates/*/must-fail/*.edit"))
    crates = {p.split("/")[1] for p in antt + rt}
    declared, theirs, every = set(), {}, set()
    for p in antt + rt:
        text = uncommented(read(p), "--" if p.endswith(".antt") else "//")
        for path, names in OWN_USE.findall(text):
            own = path.split(".")[0] == "Rattle" and path.split(".")[1] in crates
            if not own:
                for n in TOKEN.findall(names):
                    theirs.setdefault(n, set()).add(p)
        if not p.endswith(".antt"):
            continue
        every |= set(TOKEN.findall(text))
        for pattern in (DECLARED, BINDER, LOCAL, LAMBDA):
            for group in pattern.findall(text):
                declared |= {t for t in TOKEN.findall(group)}
        # a clause's left side binds variables
        for line in text.split("\n"):
            m = re.match(r"\s*(\S.*?)\s=(\s|$)", line)
            if m and not line.strip().startswith(("let ", "--")):
                declared |= set(TOKEN.findall(m[1]))
    turned = {n: snake(n) for n in declared if snake(n) != n and n not in theirs}
    # A lemma that would have its function's name gets `_lem`.
    short = {m: n for n, m in turned.items() if re.search(r"[A-Z]", n)}
    for n, m in turned.items():
        if "-" in n and n not in ALIKE and n not in BY_HAND and m in short and short[m] != n:
            turned[n] = m + "_lem"
    bad = []
    back = {}
    for n, m in sorted(turned.items()):
        back.setdefault(m, []).append(n)
        if m in RESERVED:
            bad.append(f"reserved: {n} -> {m}")
    for m, ns in back.items():
        ns = [n for n in ns if n not in ALIKE]
        if len(ns) > 1 or ns and (m in every and m not in turned or m in theirs):
            bad.append(f"falls together: {' '.join(ns)} -> {m}" + (" (stands already)" if m in every or m in theirs else ""))
    both = sorted(n for n in declared if n in theirs and snake(n) != n)
    if check:
        for n, m in sorted(turned.items()):
            print(n, m)
        for n in both:
            print("kept, the library's too:", n, *sorted(theirs[n])[:3])
    if bad:
        print("\n".join(bad))
        return 1
    if check:
        return 0

    def turn(text, only=None):
        def one(m):
            return turned.get(m[0], m[0])
        return TOKEN.sub(one, text)

    def code(path, mark):
        text = read(path)
        lines = []
        for line in text.split("\n"):
            m = re.match(r"(.*?)((?<!\S)" + mark + r".*)?\Z", line)
            body, comment = m[1], m[2] or ""
            # In a comment only names that no English word could be.
            comment = TOKEN.sub(lambda t: turned.get(t[0], t[0]) if re.search(r"[A-Z]", t[0][1:]) else t[0], comment)
            lines.append(turn(body) + comment)
        new = "\n".join(lines)
        if new != text:
            with open(path, "w", encoding="utf-8", newline="") as f:
                f.write(new)

    for p in antt:
        code(p, "--")
    for p in rt:
        code(p, "//")
    for p in edits:
        code(p, "//")
    names = every - set(turned) | set(turned.values())

    def named(t):
        n = t[0]
        return turned.get(n) or (snake(n) if n not in every and snake(n) in names else n)

    for p in ["README.md", *sorted(glob.glob("docs/*.md"))]:
        if p == "docs/PORT.md" or not os.path.exists(p):
            continue
        text = read(p)
        new = re.sub(r"`[^`\n]*`", lambda m: TOKEN.sub(named, m[0]), text)
        if new != text:
            with open(p, "w", encoding="utf-8", newline="") as f:
                f.write(new)
    return 0


if __name__ == "__main__":
    sys.exit(main(sys.argv[1:]))
