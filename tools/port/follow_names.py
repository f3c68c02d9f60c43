#!/usr/bin/env python3
"""Brings the proofs of functions to the names that today's Rattle gives to goals, places and steps.

usage: python3 tools/port/follow_names.py NAMES CRATE

NAMES is the file names.json of `rt check --generated FOLDER --old-names` in the crate's folder. Each proofs/F/Proof.antt of the crate is
rewritten in place. What is known at a place is a field of it, however far out it was learnt, so the chains of `before` and the helpers that
stood for them go; where a lemma takes a place, the chain is counted anew.
"""
import difflib
import json
import os
import re
import sys

WORD = re.compile(r"[^\s(){}.;,@\"«»`\[\]\\]+")
SPEC = re.compile(r"tie\.spec((?:\s+[^\s()]+)+)")
RENAMED = {"pre": "requires", "inv": "invariant", "taken": "true", "left": "false", "last": "new", "kept": "auto", "good": "type_inv"}


def plain(name):
    return re.sub(r"^(overflow|bounds|offset_bounds|slice_bounds|nonzero)_", "", name.replace("-", "_"))


def key(name):
    return name.replace("-", "_")


class Function:
    def __init__(self, entry):
        self.e = entry
        self.new = {}  # an old place, today's name
        self.parent = {}  # an old place, the old one in front of it
        self.fields = {}  # an old step, today's
        self.callee = {}
        self.clauses = {}
        self.nots = ["?"]
        self.loops = {n: names for (o, n), names in entry["loops"]}
        self.arms = []  # (today's place, arm's field, old step, old path, new field)
        self.ups = {}  # today's place, the one in front of it
        for i, ((old, parent, (fold, fnew), callee, *more), new) in enumerate(zip(entry["places"], entry["places_by_name"])):
            k = key(old)
            self.new[k] = new
            self.parent[k] = key(parent) if parent else None
            if fold:
                self.fields.setdefault(key(fold), fnew)
                if callee:
                    self.callee[key(fold)] = callee
            if i < len(entry["arms"]) and entry["arms"][i]:
                arm, n, pairs = entry["arms"][i]
                field = new[0].lower() + new[1:]
                for to, step, path in pairs:
                    self.arms.append((new, field, key(step), path, to))
        # today's chain: an arm stands right behind the place in front of its match
        armed = {entry["places_by_name"][i]: (a[0], a[1]) for i, a in enumerate(entry["arms"]) if a}
        for k, new in self.new.items():
            up = self.parent[k]
            if new in armed and armed[new][1] > 1:
                while up and self.new[up] in armed and armed[self.new[up]][0] == armed[new][0] and armed[self.new[up]][1] < armed[new][1]:
                    up = self.parent[up]
            self.ups[new] = self.new[up] if up else None
        # an arm's place with all that its pattern binds; an arm for two variants has two such places
        last, run = {}, []
        for new in entry["places_by_name"]:
            if new not in armed or armed[new][1] == 1:
                run = []
            if new in armed:
                run.append(new)
                for it in run:
                    last[it] = new
        self.final = {k: last.get(new, new) for k, new in self.new.items()}
        self.arms = [(new, armed[new][0] if last[new] == new else field, step, path, to) for new, field, step, path, to in self.arms]
        self.at = {}
        for (nold, nnew), (pold, pnew) in zip(entry["needs"], entry["asked_at"]):
            self.at[nnew] = (key(pold), pnew)

    def above(self, old, n):
        while n and old:
            old = self.parent.get(old)
            n -= 1
        return old

    def line(self, new):
        out = []
        while new:
            out.append(new)
            new = self.ups.get(new)
        return out

    def steps(self, here, there):
        """How many `before` lead from one of today's places to another, or None."""
        line = self.line(here)
        return line.index(there) if there in line else None


def chunks(text):
    out = []
    for line in text.split("\n"):
        if line and not line[0].isspace() and not line.startswith("--") and not line.startswith(("unfolding", ")")):
            m = re.match(r"(?:abbrev |pub |unfoldable |mutual )*([^\s:({]+)", line)
            name = m[1] if m else None
            if out and out[-1][0] == name:
                out[-1][1].append(line)
                continue
            out.append((name, [line]))
        elif line.startswith("--") or not out:
            out.append((None, [line]))
        else:
            out[-1][1].append(line)
    return out


def closing(text, at):
    depth = 0
    for i in range(at, len(text)):
        if text[i] in "([{":
            depth += 1
        elif text[i] in ")]}":
            depth -= 1
            if depth == 0:
                return i
    return -1


def segments(text, at):
    """The fields that follow at a place of the text, and where they end."""
    out = []
    while at < len(text) and text[at] == ".":
        m = WORD.match(text, at + 1)
        if not m:
            break
        out.append(m[0])
        at = m.end()
    return out, at


class Turner:
    def __init__(self, f, helpers, lemmas, local, heads, say):
        self.f, self.helpers, self.lemmas, self.local, self.heads, self.say = f, helpers, lemmas, local, heads, say
        self.env = {}
        self.aside = {}

    def resolve(self, text):
        """(variable, old place) if the text is nothing but a place."""
        text = text.strip()
        if not text:
            return None
        if text[0] == "(":
            end = closing(text, 0)
            if end < 0:
                return None
            segs, at = segments(text, end + 1)
            if at != len(text) or any(s != "before" for s in segs):
                return None
            got = self.resolve(text[1:end])
            return got and (got[0], self.f.above(got[1], len(segs)))
        m = WORD.match(text)
        if not m:
            return None
        w = m[0]
        if w in self.env:
            segs, at = segments(text, m.end())
            if at != len(text) or any(s != "before" for s in segs):
                return None
            return w, self.f.above(self.env[w][0], len(segs))
        if w in self.helpers:
            got = self.resolve(text[m.end():])
            return got and (got[0], self.helpers[w][1])
        return None

    def remember(self, name, text):
        """A name for what is known at a place."""
        base, at = None, 0
        if text.startswith("("):
            end = closing(text, 0)
            got = self.resolve(text[: end + 1]) if end > 0 else None
            base, at = got and got[0], end + 1
        else:
            m = WORD.match(text)
            if m and m[0] in self.env:
                base, at = m[0], m.end()
            elif m and m[0] in self.aside:
                segs, at = segments(text, m.end())
                if at == len(text):
                    self.aside[name] = (self.aside[m[0]][0], self.aside[m[0]][1] + segs)
                return
        if base:
            segs, end = segments(text, at)
            while segs and segs[0] == "before":
                segs = segs[1:]
            if end == len(text) and segs:
                self.aside[name] = (base, segs)

    def path(self, var, segs):
        f = self.f
        here = self.env[var][1]
        k, rest = key(segs[0]), segs[1:]
        k = "fits" if k == "fits2" and k not in f.fields else k
        line = f.line(here)
        best = None
        for place, field, step, p, to in f.arms:
            if place in line and step == k and rest[: len(p)] == p:
                rank = (-line.index(place), len(p))
                if best is None or rank[1] > best[0][1] or (rank[1] == best[0][1] and -rank[0] < -best[0][0]):
                    best = (rank, [field, to] + rest[len(p):])
        if best:
            segs = best[1]
        else:
            if k == "fits2" and k not in f.fields:
                k = "fits"
            if k not in f.fields and k.lower() in f.fields:
                k = k.lower()
            if k in f.callee and rest[:1] in (["kept"], ["auto"], ["last"], ["new"]):
                i, n = 1, 0
                while i < len(rest) and rest[i] == "1":
                    n, i = n + 1, i + 1
                names = f.e["params"].get(f.callee[k], [])
                if i < len(rest) and rest[i] == "0" and n < len(names):
                    rest = [RENAMED.get(rest[0], rest[0]), names[n]] + rest[i + 1:]
            if k == "args":
                return ".".join([var] + segs)
            first = f.fields.get(k) or {"good": "well_formed", "fits": "ranges"}.get(segs[0]) or RENAMED.get(segs[0], segs[0])
            if rest and k in f.fields:
                loop = first in f.loops
                tells = ("inv",) if loop else ("taken", "left") if first.startswith(("if-", "in")) or first.endswith("-test") else ("last", "kept", "good")
                if loop and rest[0] == "auto" and "kept" in f.loops[first]:
                    rest = ["kept"] + rest[1:]
                if rest[0] in tells:
                    rest = [RENAMED[rest[0]]] + rest[1:]
            segs = [first] + rest
        out = ".".join([var] + segs)
        test = None if re.search(r"\.if-not-(%s)(-\d+)?\.(true|false)$" % "|".join(map(re.escape, f.nots)), out) else re.fullmatch(r"[^.]+\.if-not-([^.]+)\.(true|false)", out)
        return f"⟦{out}⟧" if test else out

    def chain(self, var, old):
        """A place as an argument."""
        here = self.env[var][1]
        for there in (self.f.new.get(old), self.f.final.get(old)):
            n = self.f.steps(here, there)
            if n is not None:
                return var + ".before" * n
        return var

    def turn(self, text):
        out, at = [], 0
        while at < len(text):
            ch = text[at]
            if ch == "(":
                end = closing(text, at)
                if end > 0:
                    got = self.resolve(text[at : end + 1])
                    if got:
                        segs, to = segments(text, end + 1)
                        n = 0
                        while n < len(segs) and segs[n] == "before":
                            n += 1
                        old = self.f.above(got[1], n)
                        out.append(self.path(got[0], segs[n:]) if segs[n:] else self.argument(got[0], old, text, to))
                        at = to
                        continue
            b = re.compile(r"λ ([^.()]+)\. ").match(text, at)
            if b and set(b[1].split()) & set(self.env):
                stop, depth = b.end(), 0
                while stop < len(text):
                    if text[stop] in "([{":
                        depth += 1
                    elif text[stop] in ")]}":
                        depth -= 1
                        if depth < 0:
                            break
                    stop += 1
                kept = dict(self.env)
                for n in b[1].split():
                    self.env.pop(n, None)
                out.append(b[0] + self.turn(text[b.end() : stop]))
                self.env = kept
                at = stop
                continue
            m = WORD.match(text, at)
            if not m:
                out.append(ch)
                at += 1
                continue
            w = m[0]
            if at and text[at - 1] == ".":
                prev = text[:at]
                if prev.endswith("tie."):
                    w = self.tie(w)
                else:
                    w = RENAMED.get(w, w) if w in ("pre", "inv") else w
                out.append(w)
                at = m.end()
                continue
            if w == "let":
                b = re.match(r"let\s+([^\s:()]+)\s*=\s*", text[at:])
                if b:
                    stop = self.end_of_binding(text, at + b.end())
                    got = self.resolve(text[at + b.end() : stop]) if stop else None
                    self.aside.pop(b[1], None)
                    if not got and stop:
                        self.remember(b[1], text[at + b.end() : stop].strip())
                        front = self.aside.get(b[1])
                        if front and any(step == key(front[1][0]) and front[1][1:] == p[: len(front[1]) - 1] != p for _, _, step, p, _ in self.f.arms):
                            # a part of what an arm tells: its uses name the whole
                            at = stop + 2
                            while text[at].isspace():
                                at += 1
                            continue
                    if got:
                        self.env[b[1]] = (got[1], self.env[got[0]][1])
                        out.append(f"let {b[1]} = {got[0]} ")
                        at = stop
                        continue
            if w in self.aside:
                segs, to = segments(text, m.end())
                var, front = self.aside[w]
                if segs and var in self.env:
                    short, whole = self.path(var, front), self.path(var, front + segs)
                    out.append(w + whole[len(short):] if whole.startswith(short + ".") else whole)
                    at = to
                    continue
            if w in self.env:
                segs, to = segments(text, m.end())
                n = 0
                while n < len(segs) and segs[n] == "before":
                    n += 1
                old = self.f.above(self.env[w][0], n)
                out.append(self.path(w, segs[n:]) if segs[n:] else self.argument(w, old, text, to))
                at = to
                continue
            if w in self.lemmas:
                out.append(w)
                at = m.end()
                to = at
                while to < len(text) and text[to].isspace():
                    to += 1
                if to < len(text) and text[to] == "(":
                    e = closing(text, to) + 1
                    _, e = segments(text, e)
                else:
                    a = WORD.match(text, to)
                    _, e = segments(text, a.end()) if a else (None, to)
                got = self.resolve(text[to:e])
                there = self.f.final.get(self.lemmas[w])
                if got and there:
                    n = self.f.steps(self.env[got[0]][1], there)
                    if n is not None:
                        out.append(text[at:to] + got[0] + ".before" * n)
                        at = e
                continue
            if w in self.helpers:
                rest = text[m.end():]
                sp = len(rest) - len(rest.lstrip())
                to = m.end() + sp
                if to < len(text) and text[to] == "(":
                    e = closing(text, to) + 1
                    _, e = segments(text, e)
                else:
                    a = WORD.match(text, to)
                    _, e = segments(text, a.end()) if a else (None, to)
                got = self.resolve(text[at:e])
                if got:
                    out.append(self.argument(got[0], got[1], text, e))
                    at = e
                    continue
            named = re.match(r" =\s", text[m.end() : m.end() + 3]) and at and text[at - 1] != "\n"
            out.append(w if named else self.heads.get(w) or self.local.get(w, w))
            at = m.end()
        return "".join(out)

    def argument(self, var, old, text, to):
        c = self.chain(var, old)
        return c

    def end_of_binding(self, text, at):
        depth, i = 0, at
        while i < len(text):
            if text[i] in "([{":
                depth += 1
            elif text[i] in ")]}":
                depth -= 1
                if depth < 0:
                    return None
            elif depth == 0 and re.match(r"\s(in|∵)\s", text[i : i + 4]):
                return i + 1
            elif depth == 0 and re.match(r"\slet\s", text[i : i + 5]):
                return None
            i += 1
        return None

    def tie(self, w):
        if w.startswith("Need-"):
            return "Need-" + self.needs.get(w[5:], w[5:])
        if plain(w) in self.heads_by:
            return self.heads_by[plain(w)]
        return self.f.final.get(key(w), w)


def drop_not(text):
    """The law that a negation's test is told by, where today's names tell the test without the negation."""
    out, at = [], 0
    while True:
        m = re.compile(r"(?<![\w-])not[-_](true|false) ").search(text, at)
        if not m:
            return "".join(out) + text[at:]
        spans, i = [], m.end()
        for _ in range(2):
            while i < len(text) and text[i].isspace():
                i += 1
            start = i
            if i < len(text) and text[i] == "(":
                i = closing(text, i) + 1
                _, i = segments(text, i)
            else:
                w = WORD.match(text, i)
                if not w:
                    break
                _, i = segments(text, w.end())
            spans.append((start, i))
        second = text[spans[1][0] : spans[1][1]] if len(spans) == 2 else ""
        inner = second[1:-1] if second.startswith("(") and closing(second, 0) == len(second) - 1 else second
        if re.fullmatch(r"⟦[^⟧]*⟧", inner):
            out.append(text[at : m.start()] + inner[1:-1])
            at = spans[1][1]
        else:
            out.append(text[at : m.end()])
            at = m.end()


def bring(text, module, name):
    """The text with a name of a module brought in."""
    if re.search(rf"^use [^\n]*[{{ ,]{re.escape(name)}[}},]", text, re.M):
        return text
    m = re.search(rf"^use {re.escape(module)}\.{{([^}}]*)}}", text, re.M)
    if m:
        return text[: m.end() - 1] + ", " + name + text[m.end() - 1 :]
    return re.sub(r"^use ", f"use {module}.{{{name}}}\nuse ", text, count=1, flags=re.M)


def align(ours, news):
    """Pairs our needs with those of today, in order: equal names first, then by place in a run of the same length."""
    a = [plain(n) for n in ours]
    b = [plain(o) for o, _ in news]
    if len(a) == len(b):
        return {i: i for i in range(len(a))}
    pairs = {}
    for tag, i1, i2, j1, j2 in difflib.SequenceMatcher(None, a, b, autojunk=False).get_opcodes():
        if tag == "equal" or (tag == "replace" and i2 - i1 == j2 - j1):
            for k in range(i2 - i1):
                pairs[i1 + k] = j1 + k
    return pairs


def rewrite(path, entry, say, nots):
    text = open(path, encoding="utf-8").read()
    m = SPEC.search(text)
    if not m:
        say(f"{path}: no tie.spec")
        return
    f = Function(entry)
    f.nots += nots
    heads = {}
    for (o, n), _ in entry["loops"]:
        heads[f"invariant_{o}".replace("-", "_")] = f"invariant-{n}"
        heads[f"decreases_{o}".replace("-", "_")] = f"decreases-{n}"
    names = m[1].split()
    parts = chunks(text)
    typed = {}
    for name, lines in parts:
        t = re.search(r"tie\.Need-([^\s()]+)", re.split(r"\n\S", "\n".join(lines), 1)[0]) if name else None
        if t and name not in typed:
            typed[name] = t[1]
    ours = [n for n in names if n in typed]
    frames = [n for n in names if n not in typed]
    news = entry["needs"]
    pairs = align([typed[n] for n in ours], news)
    local = {n: news[pairs[i]][1] for i, n in enumerate(ours) if i in pairs}
    others = {n for n, _ in parts if n and n not in typed}
    local = {o: (n if n not in others else n + "'") for o, n in local.items()}
    dropped = [n for i, n in enumerate(ours) if i not in pairs]
    needs = {typed[n]: news[pairs[i]][1] for i, n in enumerate(ours) if i in pairs}
    helpers, lemmas = {}, {}
    place = r"tie\.([^\s()→]+)(?: [^\s()→]+)*"
    for name, lines in parts:
        if not name or name in typed:
            continue
        sig = "\n".join(lines)
        h = re.match(rf"(?:abbrev )?(?:pub )?{re.escape(name)} :\s+{place}\s+→\s+{place}\n", sig)
        if h:
            helpers[name] = (key(h[1]), key(h[2]))
            continue
        g = re.match(rf"(?:abbrev )?(?:pub )?{re.escape(name)} :\s+(?:\(([^\s:()]+) : {place}\)|{place}\s+→)", sig)
        if g:
            lemmas[name] = key(g[2] or g[3])
    got = {news[pairs[i]][1]: local[n] for i, n in enumerate(ours) if i in pairs}
    fresh = [n for _, n in news if n not in got]
    out = []
    for name, lines in parts:
        chunk = "\n".join(lines)
        if name in dropped:
            say(f"{path}: dropped {name} : {typed[name]}")
            continue
        if name in helpers:
            if out and out[-1].startswith("-- ") and "place" in out[-1]:
                out.pop()
            continue
        t = Turner(f, helpers, lemmas, local, {}, say)
        t.needs, t.heads_by = needs, heads
        t.heads = {n: heads[plain(n)] for n in frames if plain(n) in heads}
        if name in typed:
            old = f.at.get(local.get(name))
            v = re.search(rf"^{re.escape(name)} (?!:)([^\s=]+)", chunk, re.M)
            if v and old:
                t.env[v[1]] = old
        elif name in lemmas:
            old = lemmas[name]
            if old in f.new:
                g = re.search(rf"\(([^\s:()]+) : tie\.", chunk)
                v = re.search(rf"^{re.escape(name)} (?!:)([^\s=]+)(?: [^=:\n]*)?=", chunk, re.M)
                for w in {g[1] if g else None, v[1] if v else None} - {None}:
                    t.env[w] = (old, f.final[old])
        # the signature and the clauses, but no comment or import
        out.append(chunk if chunk.startswith(("--", "use ")) else t.turn(chunk))
    body = drop_not("\n".join(out))
    if "⟦" in body:
        body = re.sub(r"\(⟦([^⟧]*)⟧\)|⟦([^⟧]*)⟧", lambda m: f"(ap not {m[1] or m[2]})", body)
        body = bring(body, "mathlib.Core.Path", "ap")
        body = bring(body, "mathlib.Core.Bool", "not")
    order = [heads.get(plain(n), n) for n in frames] + [got.get(n, n) for _, n in news]
    args = "".join(" " + heads.get(plain(n), n) for n in frames)
    if fresh:
        say(f"{path}: new {fresh}")
        add = "".join(f"{n} : tie.Need-{n}{args}\n{n} c = search rules\n\n" for n in fresh)
        at = body.rfind("\npub ")
        body = body[: at + 1] + add + body[at + 1 :]
        if not re.search(r"[{ ,]rules[},]", body.split("tie as tie")[0]):
            body = body.replace("\nuse ", "\nuse borrow.Author.Rules.{rules}\nuse ", 1)
    body = SPEC.sub(lambda _: "tie.spec\n    " + "\n    ".join(order), body)
    open(path, "w", encoding="utf-8").write(body)


def main(argv):
    names, crate = argv
    d = json.load(open(names))
    # a negation of what is no call's result keeps its `not`
    nots = []
    for folder, _, files in os.walk(os.path.join(crate, "src")):
        for x in files:
            nots += re.findall(r"if !([a-z_0-9]+)\.[a-z_0-9.]* \{", open(os.path.join(folder, x), encoding="utf-8").read())
    for k, entry in sorted(d.items()):
        if not k.startswith("Rattle-") or not k.endswith(".Lts"):
            continue
        rel = k[: -len(".Lts")].split("-proofs.", 1)[1].replace(".", "/")
        path = os.path.join(crate, "proofs", rel, "Proof.antt")
        if os.path.exists(path):
            rewrite(path, entry, print, nots)


if __name__ == "__main__":
    main(sys.argv[1:])
