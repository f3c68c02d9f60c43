#!/usr/bin/env python3
"""Gives names to the places that a long chain of `before` leads to, and breaks long lines of proofs.

usage: python3 tools/port/name_places.py NAMES CRATE

NAMES is as for follow_names.py, which this follows. A helper goes three places back at the most, as tools/tests/proofs.rs wants it.
"""
import json
import os
import re
import sys

from follow_names import Function, WORD, chunks, closing, segments

MOST = 3
WIDEST = 200


def helper_name(place):
    return "to_" + (place[0].lower() + place[1:]).replace("-", "_")


class Namer:
    def __init__(self, f, taken):
        self.f, self.taken, self.made, self.env = f, taken, {}, {}

    def helper(self, here, there):
        if (here, there) not in self.made:
            name = helper_name(there)
            if name in self.taken or name in self.made.values():
                name += "_from_" + (here[0].lower() + here[1:]).replace("-", "_")
            self.made[here, there] = name
        return self.made[here, there]

    def chain(self, var, n):
        line = self.f.line(self.env[var])
        if n >= len(line):
            return None
        rest = n % MOST if n % MOST else 0
        text, at = var + ".before" * rest, rest
        while at < n:
            name = self.helper(line[at], line[at + MOST])
            text, at = f"{name} {text}" if text == var or not text.startswith("to_") else f"{name} ({text})", at + MOST
        return f"({text})"

    def turn(self, text):
        out, at = [], 0
        while at < len(text):
            b = re.compile(r"λ ([^.()]+)\. ").match(text, at)
            if b and set(b[1].split()) & set(self.env):
                stop, depth = b.end(), 0
                while stop < len(text):
                    if text[stop] in "([{":
                        depth += 1
                    elif text[stop] in ")]}":
                        depth -= 1
                        if depth < 0:
                            break
                    stop += 1
                kept = dict(self.env)
                for n in b[1].split():
                    self.env.pop(n, None)
                out.append(b[0] + self.turn(text[b.end() : stop]))
                self.env, at = kept, stop
                continue
            m = WORD.match(text, at)
            if not m:
                out.append(text[at])
                at += 1
                continue
            w = m[0]
            if w == "let":
                b = re.compile(r"let\s+([^\s:()]+)\s*=\s*([^\s.()]+)((?:\.before)*)\s+in\b").match(text, at)
                if b and b[2] in self.env:
                    line = self.f.line(self.env[b[2]])
                    n = len(b[3]) // len(".before")
                    if n < len(line):
                        self.env[b[1]] = line[n]
                        if n <= MOST:
                            out.append(b[0])
                            at = b.end()
                            continue
            if w in self.env and not (at and text[at - 1] == "."):
                segs, to = segments(text, m.end())
                n = 0
                while n < len(segs) and segs[n] == "before":
                    n += 1
                if n and segs[n:]:
                    out.append(".".join([w] + segs[n:]))
                elif n > MOST:
                    out.append(self.chain(w, n) or text[at:to])
                else:
                    out.append(text[at:to])
                at = to
                continue
            out.append(w)
            at = m.end()
        return "".join(out)


def broken(line):
    """A long line in two or more, broken at a blank outside brackets if there is one, else at the last blank that fits."""
    if len(line) <= WIDEST or line.startswith(("use ", "--")):
        return [line]
    indent = len(line) - len(line.lstrip())
    depth, best = 0, None
    for i, ch in enumerate(line[: WIDEST - 4]):
        if ch in "([{":
            depth += 1
        elif ch in ")]}":
            depth -= 1
        elif ch == " " and i > indent + 20:
            # not behind what has to stand beside its argument
            if line[i + 1 : i + 2] in "=∙":
                continue
            if best is None or depth <= best[0]:
                best = (depth, i)
    if not best:
        return [line]
    i = best[1]
    return [line[:i]] + broken(" " * (indent + (0 if indent else 4) + (4 if indent and best[0] else 0)) + line[i + 1 :])


def rewrite(path, entry):
    text = open(path, encoding="utf-8").read()
    chains = re.search(r"(?:\.before){4,}", text)
    if not chains and all(len(l) <= WIDEST for l in text.split("\n")):
        return
    if chains:
        f = Function(entry)
        parts = chunks(text)
        names = {n for n, _ in parts if n}
        namer = Namer(f, names)
        args = re.search(r"tie\.Need-\S+((?: [^\s→()]+)*)\n", text)[1]
        out, first = [], None
        for name, lines in parts:
            chunk = "\n".join(lines)
            namer.env = {}
            t = re.match(rf"(?:abbrev |pub )*{re.escape(name or '?')} :\s+tie\.Need-(\S+)", chunk)
            l = re.match(rf"(?:abbrev |pub )*{re.escape(name or '?')} :\s+(?:\(([^\s:()]+) : tie\.([^\s)→]+)[^)]*\)|tie\.([^\s→]+)[^→\n]*→)", chunk) if not t else None
            v = re.search(rf"^{re.escape(name or '?')} (?!:)([^\s=:]+)", chunk, re.M)
            if t and v and t[1] in f.at:
                namer.env[v[1]] = f.at[t[1]][1]
            elif l:
                for w in {l[1], v[1] if v else None} - {None}:
                    namer.env[w] = l[2] or l[3]
            if first is None and name and (t or l):
                first = len(out)
            out.append(namer.turn(chunk) if namer.env and not chunk.startswith(("--", "use ")) else chunk)
        made = [f"abbrev {n} : tie.{a}{args} → tie.{b}{args}\n{n} c = c" + ".before" * MOST + "\n" for (a, b), n in namer.made.items()]
        if made:
            while first and out[first - 1].startswith("--"):
                first -= 1
            out[first:first] = ["-- places in the code, each from a later one"] + made
        text = "\n".join(out)
    text = "\n".join(x for l in text.split("\n") for x in broken(l))
    left = len(re.findall(r"(?:\.before){4,}", text))
    if left:
        print(f"{path}: {left} chains left")
    open(path, "w", encoding="utf-8").write(text)


def main(argv):
    names, crate = argv
    d = json.load(open(names))
    for k, entry in sorted(d.items()):
        if k.startswith("Rattle-") and k.endswith(".Lts"):
            rel = k[: -len(".Lts")].split("-proofs.", 1)[1].replace(".", "/")
            path = os.path.join(crate, "proofs", rel, "Proof.antt")
            if os.path.exists(path):
                rewrite(path, entry)


if __name__ == "__main__":
    main(sys.argv[1:])
