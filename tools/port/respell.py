#!/usr/bin/env python3
"""Brings this repository's own names of antt to the spelling of today's Rattle.

usage: python3 tools/port/respell.py [--check] [FOLDER]

FOLDER has crates/; without it, it is the repository that the script lies in. Run once, right after port.py. Functions of src/, exported C names,
inputs and outputs are left alone: only names that a file of specs/ or proofs/ defines are turned, where they stand as whole words in .rt and
.antt files. It doesn't tell strings from code; the one string that it turned, in the test program, was put back by hand.

- A definition, a field, a constructor: snake case, `left-in` to `left_in`; with a capital, camel case, `Goes-to` to `GoesTo`.
- A lemma, a definition of proofs/: a dash stays only between two names or at an operator, as in `bind-expand` and `length-++`.
- Where two names would fall together, the lemma gets `_lem`.
"""
import os
import re
import sys

OPERATOR = re.compile(r"[^\w'-]")
DEFINITION = re.compile(r"^(?:  )?(?:abbrev |unfoldable |ruleset )?(?:pub )?(?:abbrev |unfoldable )?(?:pub )?(?:record |data )?([^\s:(){}.;,«»]+) (?::|\()")
FIELD = re.compile(r"^ +(?:pub )?([^\s:(){}.;,«»]+) :")
KINDS = re.compile(r"^ *(?:pub )?(?:abbrev )?(?:pub )?(data|record) ([^\s:(){}]+)")
WORD = re.compile(r"[^\s(){}.;,@\"«»`\[\]\\]+")
NAMED = re.compile(r"^\s*(?:ghost )?(?:unfoldable )?(?:pub )?use ([^\s{;]+)(?:\{([^}]*)\})?", re.M)
PLAIN = set("length take drop map append set get get_or sum filter reverse replicate concat all any not and or zero suc min max fst snd".split())


def files(root, ends):
    for folder, dirs, names in os.walk(os.path.join(root, "crates")):
        dirs[:] = sorted(d for d in dirs if d != "out")
        for f in sorted(names):
            if f.endswith(ends):
                yield os.path.join(folder, f)


def snake(name):
    if name[0].isupper():
        parts = name.split("-")
        return parts[0] + "".join(p[:1].upper() + p[1:] for p in parts[1:])
    return name.replace("-", "_")


def groups(parts, known):
    """The parts joined into the longest known names, from the left."""
    out, at = [], 0
    while at < len(parts):
        for to in range(len(parts), at, -1):
            it = "_".join(parts[at:to])
            if it in known or to == at + 1:
                out.append(it)
                at = to
                break
    return out


def lemma(name, known):
    """A lemma's name: a dash between two known names, or beside an operator; else an underscore."""
    gs = groups(name.split("-"), known)
    text = gs[0]
    for left, right in zip(gs, gs[1:]):
        named = all(g in known or OPERATOR.search(g) for g in (left, right))
        text += ("-" if named or OPERATOR.search(left) or OPERATOR.search(right) else "_") + right
    return snake(name) if name[0].isupper() and not OPERATOR.search(name) else text


def read(path):
    with open(path, encoding="utf-8") as f:
        return f.read()


def local(path):
    """Whether a file belongs to the proof of one function."""
    return os.path.basename(path) in ("Proof.antt", "Answers.antt", "Invariants.antt")


def survey(root):
    specs, lemmas, fields, locals_ = set(), set(), set(), {}
    for p in files(root, ".antt"):
        kind = None
        for line in read(p).split("\n"):
            k = KINDS.match(line)
            if k:
                kind = k[1]
                name = k[2]
                (specs if "/specs/" in p else lemmas).add(name)
                continue
            if line and not line[0].isspace():
                kind = None
            d = DEFINITION.match(line)
            f = FIELD.match(line)
            if kind and f:
                fields.add(f[1])
            elif d and not line.startswith((" ", "use ", "--")):
                if local(p):
                    locals_.setdefault(p, set()).add(d[1])
                else:
                    (specs if "/specs/" in p else lemmas).add(d[1])
            elif d and line.startswith("  ") and not line.startswith("   "):
                (specs if "/specs/" in p else lemmas).add(d[1])
    return specs, lemmas, fields, locals_


def main(argv):
    check = "--check" in argv
    rest = [a for a in argv if a != "--check"]
    root = rest[0] if rest else os.path.join(os.path.dirname(os.path.realpath(__file__)), "..", "..")
    specs, lemmas, fields, locals_ = survey(root)
    known = {snake(n) for n in specs} | PLAIN
    turned = {}
    for n in sorted(specs | fields):
        if "-" in n and not OPERATOR.search(n):
            turned[n] = snake(n)
    taken = {turned.get(n, n) for n in specs}
    for n in sorted(lemmas):
        if "-" not in n or n in turned:
            continue
        to = lemma(n, known)
        if to != n:
            if to in taken:
                to += "_lem"
            turned[n] = to
    by_new = {}
    for n in specs | lemmas:
        by_new.setdefault(turned.get(n, n), set()).add(n)
    for new, olds in sorted(by_new.items()):
        if len(olds) > 1:
            print(f"falls together: {new}: {sorted(olds)}")
    count = 0
    for p in files(root, (".antt", ".rt")):
        text = read(p)
        foreign = set()
        for m in NAMED.finditer(text):
            if not m[1].startswith("Rattle.") or m[1].startswith(("Rattle.std.", "Rattle.core.", "Rattle.io.")) or re.match(r"Rattle\.\w+\.proofs\..*\.(Tie|Lts|Reads|Statement|Code)\b", m[1]):
                foreign |= {n.strip().split(" as ")[-1] for n in (m[2] or "").split(",")}
        mine = dict(turned)
        for n in locals_.get(p, ()):
            if "-" in n and not OPERATOR.search(n):
                mine[n] = n if n.startswith(("invariant-", "decreases-")) else snake(n)
        out = []
        for line in text.split("\n"):
            def turn(m):
                w = m[0]
                if "-" not in w or w not in mine or w in foreign:
                    return w
                before = line[: m.start()]
                if before.endswith((".«", "tie.", "lts.", "reads.", "goal.")):
                    return w
                return mine[w]

            out.append(line if line.startswith("//") or line.lstrip().startswith(("//", "--")) else WORD.sub(turn, line))
        new = "\n".join(out)
        if new != text:
            count += 1
            if not check:
                with open(p, "w", encoding="utf-8") as f:
                    f.write(new)
    print(f"{len(turned)} names, {count} files")


if __name__ == "__main__":
    main(sys.argv[1:])
