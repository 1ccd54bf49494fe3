#!/usr/bin/env python3
"""Turns the names that Rattle makes in proofs/F/Proof.antt, which an older Rattle counted, to those of today: `if2` is `if-rows-gt2048`.

usage: turn_proofs.py NAMES [CRATE..]     at the top of the repository

NAMES is the folder that `rt names NAMES` wrote for the sources as they stand. Each need of a proof is found by its place in `tie.spec`, each
field of its argument by the place that the need is asked at. What it cannot follow it says in a line 'look:'. It runs once.
"""
import glob
import json
import os
import re
import sys

W = r"[^\s(){}.;,@\"«»\[\]\\`]+"
plain = lambda it: re.sub("[-_·]", "", re.sub("_lem$", "", it)).lower()


class Names:
    def __init__(self, of):
        self.needs = of["needs"]
        self.asked = [it[0] for it in of["asked_at"]]
        self.loops = of["loops"]
        self.changed = of["changed"]
        self.places = {}
        self.new_place = {}
        self.arms = {}
        for it, new, arm in zip(of["places"], of["places_by_name"], of["arms"]):
            self.places.setdefault(it[0], it)
            self.new_place[it[0]] = new
            self.arms[it[0]] = arm
        self.by_plain = {plain(k): k for k in self.places}

    def up(self, place, n):
        for _ in range(n):
            place = self.places[place][1]
            while place is not None and place.endswith("-unread"):
                place = self.places[place][1]
            if place is None:
                return None
        return place

    def steps(self, place, to):
        """How many times `before` leads from the place up to the other, today: an arm is one record for several places."""
        n = 0
        while place != to:
            place = self.up(place, self.arms[place][1] if self.arms.get(place) else 1)
            n += 1
            if place is None:
                return None
        return n

    def arm(self, place, words):
        """The new path for the old words at the place, in the record of an arm."""
        it = self.arms.get(place)
        best = None
        for new, old, path in it[2] if it else []:
            if plain(old) == plain(words[0]) and words[1 : 1 + len(path)] == path and (best is None or len(path) > best[1]):
                best = ([it[0]] + ([] if new.endswith("-own") else [new]) + words[1 + len(path) :], len(path))
        return best and best[0]

    def field(self, place, word):
        """The new name of the field at the place, by the old word."""
        if place is None:
            return None
        old, new = self.places[place][2]
        # An older Rattle had a field `good` of its own, so that a callee of that name was `good2`.
        if old and (plain(old) == plain(word) or old in ("good", "fits", "left", "taken", "given", "kept", "pre", "is") and plain(word) == plain(old) + "2"):
            return new
        return None


def blocks(text):
    """The text's declarations: runs of lines that begin at column 0, with the indented lines below them."""
    out = []
    name = None
    for line in text.split("\n"):
        s = re.match(r"(?:(?:abbrev|pub|unfoldable) )*(" + W + r") : ", line)
        if s:
            name = s[1]
        elif name and out and re.match(re.escape(name) + r"(?= |\Z)", line):
            out[-1].append(line)
            continue
        if out and (line.startswith((" ", "\t")) or not line.strip()):
            out[-1].append(line)
        elif out and line.startswith("unfolding"):
            out[-1].append(line)
        else:
            out.append([line])
    return ["\n".join(b) for b in out]


CHAIN = re.compile(r"(?<![\w.'\0-])(" + W.replace("[^", "[^\0") + r"|\(" + W.replace("[^", "[^\0") + r" " + W.replace("[^", "[^\0") + r"\))((?:\." + W.replace("[^", "[^\0") + r")+)")


class Turn:
    def __init__(self, names, text, path):
        self.n, self.text, self.path = names, text, path
        self.results = {}
        self.takes = {}
        self.looks = []

    def look(self, what):
        self.looks.append(f"look: {self.path}: {what}")

    def place_of(self, word):
        return self.n.by_plain.get(plain(word))

    def chain(self, place, words):
        """Turns the words of a path from the place. Gives the new words and the place where it ends, if it is one."""
        ups = 0
        out = []
        i = 0
        while i < len(words) and words[i] == "before":
            i += 1
        at = self.n.up(place, i)
        out = ["before"] * i
        if i == len(words):
            n = at and self.n.steps(place, at)
            if n is None:
                self.look(f"no way from {place} up {i}")
                return out, at
            return ["before"] * n, at
        word = words[i]
        p = at if at is not None else place
        if at is None:
            self.look(f"no place {place} up {i} for {word}")
        # An arm that was reached by then has taken in what led to it.
        q, passed = place, []
        while q is not None:
            passed.append(q)
            q = self.n.places[q][1]
        for q in passed:
            arm = self.n.arm(q, words[i:])
            if arm and (q == p or q in passed and self.n.places[q][1] is not None and p in passed and passed.index(q) <= passed.index(p) <= passed.index(q) + self.n.arms[q][1] - 1):
                return arm, None
        # Where the older count of steps differs from today's, the nearest place that has the field.
        has = [k for k, it in enumerate(passed) if self.n.field(it, word) is not None]
        near = passed.index(p) if p in passed else 0
        p = passed[min(has, key=lambda k: abs(k - near))] if has else None
        if p is not None:
            # Today a record has the fields of those before it.
            return [self.n.field(p, word)] + words[i + 1 :], None
        if plain(word) in ("args", "requires", "ranges", "wellformed", "lifetimes", "pre", "known", "typeinv"):
            return [{"wellformed": "well_formed"}.get(plain(word), word)] + words[i + 1 :], None
        self.look(f"no field {word} at {at} (below {place})")
        return words, None

    def body(self, text, scope):
        scope = dict(scope)
        # let-bound places
        for m in re.finditer(r"\blet (" + W + r") = (" + W + r")((?:\.before)*) in\b", text):
            if m[2] in scope:
                scope[m[1]] = self.n.up(scope[m[2]], m[3].count(".before"))
        for m in re.finditer(r"\blet (" + W + r") = (" + W + r") (" + W + r")((?:\.before)*) in\b", text):
            if m[2] in self.results and (m[3] in scope):
                scope[m[1]] = self.results[m[2]]

        def one(m):
            head, words = m[1], m[2][1:].split(".")
            if head.startswith("("):
                f = head[1:-1].split(" ")[0]
                place = self.results.get(f)
            else:
                place = scope.get(head)
            if place is None:
                return m[0]
            new, _ = self.chain(place, words)
            return head + "." + ".".join(new)

        # An argument of a helper that takes the record of a place: so many steps up.
        def given(m):
            place, to = scope.get(m[2]), self.takes.get(m[1])
            if place is None or to is None:
                return m[0]
            n = self.n.steps(place, to)
            if n is None:
                self.look(f"no way from {place} to {to}")
                return m[0]
            return m[1] + " " + m[2] + "\0" + ".before" * n

        helpers = "|".join(re.escape(it) for it in sorted(self.takes, key=len, reverse=True))
        if helpers:
            text = re.sub(r"(?<![\w.'-])(" + helpers + r") (" + W + r")((?:\.before)*)(?![\w.'-])", given, text)
        text = CHAIN.sub(one, text).replace("\0", "")
        # ((helper c.before).x): an argument in the parentheses with a path
        def two(m):
            place = self.results.get(m[1])
            if place is None or re.match(W + r"\Z", m[2]):
                return m[0]
            new, _ = self.chain(place, m[3][1:].split("."))
            return "(" + m[1] + " " + m[2] + ")." + ".".join(new)

        return re.sub(r"\((" + W + r") ([^()]*)\)((?:\." + W + r")+)", two, text)

    def typed(self, text):
        """Turns `tie.X` of a type."""

        def one(m):
            word = m[1]
            if word.startswith("Need-"):
                return m[0]
            for kind in ("invariant", "decreases"):
                k = re.match(kind + r"[-_]loop[-_]?(\d*)\Z", word)
                if k:
                    i = int(k[1] or 1) - 1
                    if i < len(self.n.loops):
                        return f"tie.{kind}-{self.n.loops[i][0][1]}"
            p = self.place_of(word)
            if p is not None:
                return "tie." + self.n.new_place[p]
            return m[0]

        return re.sub(r"\btie\.(" + W + ")", one, text)

    def run(self):
        parts = blocks(self.text)
        m = re.search(r"tie\.spec((?:.|\n)*?)\)\s*\Z", self.text.rstrip())
        if not m:
            self.look("no tie.spec")
            return self.text
        order = m[1].split()
        count = len(self.n.loops)
        rest = order
        needs = {}
        loops = order[: 2 * count]
        rest = order[2 * count :]
        if any(not re.match(r"[\w₀-₉'·-]+\Z", it) for it in rest):
            self.look(f"the arguments of tie.spec are no names: {rest}")
        if len(rest) != len(self.n.needs):
            self.look(f"tie.spec has {len(rest)} needs and today {len(self.n.needs)}: {[a for a, b in self.n.needs]} beside {rest}")
        for name, need, asked in zip(rest, self.n.needs, self.n.asked):
            needs.setdefault(name, (need[1], asked))
        # helpers with places
        for b in parts:
            s = re.match(r"(?:(?:abbrev|pub|unfoldable) )*(" + W + r") : (.*)", b)
            if s:
                r = re.search(r"→ tie\.(" + W + r")(?: \S+)*\s*\Z", s[2].split("\n")[0])
                if r and not r[1].startswith("Need"):
                    p = self.place_of(r[1])
                    if p:
                        self.results[s[1]] = p
            q = s and re.match(r"[({](?:" + W + r") : tie\.(" + W + r")|tie\.(" + W + r")[^→]*→", s[2])
            if q and not (q[1] or q[2]).startswith("Need") and self.place_of(q[1] or q[2]):
                self.takes[s[1]] = self.place_of(q[1] or q[2])
        out = []
        for b in parts:
            s = re.match(r"((?:(?:abbrev|pub|unfoldable) )*)(" + W + r") : ((?:.|\n)*)", b)
            if not s:
                out.append(b)
                continue
            name = s[2]
            if name in needs and re.search(r"tie\.Need-", b):
                new, asked = needs[name]
                b = re.sub(r"tie\.Need-" + W, "tie.Need-" + new, b, count=1)
                lines = b.split("\n")
                for i, l in enumerate(lines):
                    a = re.match(re.escape(name) + r" (" + W + r")((?: " + W + r")*) =", l)
                    if a:
                        head, tail = lines[: i], lines[i:]
                        b = "\n".join(head + [self.body("\n".join(tail), {a[1]: asked})])
                        break
                else:
                    self.look(f"{name}: no clause")
            else:
                scope = {}
                for q in re.finditer(r"[({](" + W + r"(?: " + W + r")*) : tie\.(" + W + r")", b):
                    for v in q[1].split():
                        if self.place_of(q[2]):
                            scope[v] = self.place_of(q[2])
                # abbrev f : tie.A → ..; f x = ..
                q = re.match(r"(?:(?:abbrev|pub|unfoldable) )*" + re.escape(name) + r" : ((?:tie\." + W + r"(?: [a-z]\S*)* → )+)", b)
                if q:
                    kinds = re.findall(r"tie\.(" + W + r")", q[1])
                    a = re.search(r"^" + re.escape(name) + r"((?: " + W + r")+) =", b, re.M)
                    if a:
                        for v, k in zip(a[1].split(), kinds):
                            if self.place_of(k):
                                scope[v] = self.place_of(k)
                if scope:
                    head, sep, tail = b.partition("\n")
                    b = self.body(b, scope)
            out.append(self.typed(b))
        new = "\n".join(out)
        # `.true` of `!x` says today what `.false` of x says.
        new = re.sub(r"\(not-(?:true|false) \S+ (\S+\.(?:true|false|left|taken))\)", lambda m: m[0] if "if-not-p." in m[1] else m[1], new)
        return new


def cycle(j, key, text, path):
    """The proof of functions that call each other: a part for each, with names of its own that begin with the function's."""
    looks = []
    for k in [k for k in j if k.startswith(key + "-")]:
        part = k[len(key) + 1 :]
        n = Names(j[k])
        turn = Turn(n, text, path)
        # a need: `part_x t` in the list of the part's `spec`
        m = re.search(re.escape(part) + r"-lts\.spec((?:.|\n)*?)(?=-lts\.spec|\Z)", text)
        order = re.findall(r"\(" + part + r"_(\S+) t\)", m[1]) if m else []
        order = [it for it in order if it not in ("claims", "at")]
        if len(order) != len(n.needs):
            looks.append(f"look: {path}: {part} has {len(order)} needs and today {len(n.needs)}: {[a for a, b in n.needs]} beside {order}")
        needs = {part + "_" + o: (need[1], asked) for o, need, asked in zip(order, n.needs, n.asked)}
        parts = blocks(text)
        kind = re.compile(re.escape(part) + r"-lts\.(" + W + ")")
        for b in parts:
            s = re.match(r"(" + W + r") : \(t : ℕ\) \((" + W + r") : " + re.escape(part) + r"-lts\.(" + W + r")", b)
            if s and turn.place_of(s[3]):
                turn.takes[s[1] + " t"] = turn.place_of(s[3])
        out = []
        for b in parts:
            s = re.match(r"(?:(?:abbrev|pub) )*(" + W + r") : ((?:.|\n)*)", b)
            if not s or not kind.search(b):
                out.append(b)
                continue
            scope = {}
            if s[1] in needs and "-lts.Need-" in b:
                new, asked = needs[s[1]]
                b = re.sub(r"-lts\.Need-" + W, "-lts.Need-" + new, b, count=1)
                scope["c"] = asked
            for q in re.finditer(r"\((" + W + r") : " + re.escape(part) + r"-lts\.(" + W + r")", b):
                if turn.place_of(q[2]):
                    scope[q[1]] = turn.place_of(q[2])

            def given(m):
                place, to = scope.get(m[3]), turn.takes.get(m[1] + " t")
                if place is None or to is None:
                    return m[0]
                up = n.steps(place, to)
                if up is None:
                    looks.append(f"look: {path}: no way from {place} to {to}")
                    return m[0]
                return m[1] + " t " + m[3] + "\0" + ".before" * up

            b = re.sub(r"(?<![\w.'-])(" + W + r") (t) (" + W + r")((?:\.before)*)(?![\w.'-])", given, b)
            b = turn.body(b, scope).replace("\0", "")

            def typed(m):
                for word in ("invariant", "decreases"):
                    if re.match(word + r"[-_]loop\Z", m[1]):
                        return f"{part}-lts.{word}-{n.loops[0][0][1]}"
                at = turn.place_of(m[1]) if not m[1].startswith("Need-") else None
                return f"{part}-lts." + (n.new_place[at] if at else m[1])

            out.append(kind.sub(typed, b))
        text = "\n".join(out)
        looks += turn.looks
    for l in looks:
        print(l)
    return text


def main(argv):
    names, crates = argv[0], argv[1:]
    crates = crates or sorted(os.listdir("crates"))
    for c in crates:
        p = os.path.join(names, "crates", c, "names.json")
        if not os.path.exists(p):
            continue
        with open(p) as f:
            j = json.load(f)
        for path in sorted(glob.glob(f"crates/{c}/proofs/**/Proof.antt", recursive=True)):
            inner = os.path.relpath(os.path.dirname(path), f"crates/{c}/proofs").replace("/", ".")
            key = f"Rattle-{c}-proofs.{inner}.Lts"
            if any(k.startswith(key + "-") for k in j):
                with open(path) as f:
                    text = f.read()
                with open(path, "w") as f:
                    f.write(cycle(j, key, text, path))
                continue
            if key not in j:
                print(f"look: {path}: no names under {key}")
                continue
            with open(path) as f:
                text = f.read()
            turn = Turn(Names(j[key]), text, path)
            new = turn.run()
            for l in turn.looks:
                print(l)
            if new != text:
                with open(path, "w") as f:
                    f.write(new)


main(sys.argv[1:])
