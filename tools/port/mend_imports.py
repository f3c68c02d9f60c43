#!/usr/bin/env python3
"""Names that a script turned where they are defined and not where they are used: each import of an own module is held to what that defines."""
import os
import re
import sys

import respell

ROOT = os.path.join(os.path.dirname(os.path.realpath(__file__)), "..", "..")
USE = re.compile(r"use (Rattle\.(\w+)\.(specs|proofs)((?:\.[\w+-]+)*))\.\{([^}]*)\}")


def defined(path):
    out = set()
    for line in respell.read(path).split("\n"):
        d = respell.DEFINITION.match(line)
        k = respell.KINDS.match(line)
        if k:
            out.add(k[2])
        if d:
            out.add(d[1])
        c = re.match(r"  (?:pub )?([^\s:(){}]+)", line)
        if c:
            out.add(c[1])
        u = re.match(r"pub use [^{]*\{([^}]*)\}", line)
        if u:
            out |= {n.strip().split(" as ")[-1] for n in u[1].split(",")}
    return out


def main():
    known = {}
    for p in respell.files(ROOT, (".antt", ".rt")):
        text = respell.read(p)
        turns = {}
        for m in USE.finditer(text):
            f = os.path.join(ROOT, "crates", m[2], m[3], *m[4].strip(".").split(".")) + ".antt"
            if not os.path.exists(f):
                continue
            if f not in known:
                known[f] = defined(f)
            for n in m[5].split(","):
                n = n.strip().split(" as ")[0]
                if n and n not in known[f]:
                    for to in (n.replace("-", "_"), n.replace("_", "-"), respell.snake(n), n + "_lem", n.replace("-", "_") + "_lem"):
                        if to in known[f]:
                            turns[n] = to
                            break
                    else:
                        near = [k for k in known[f] if k.replace("-", "_") == n.replace("-", "_")]
                        if len(near) == 1:
                            turns[n] = near[0]
                        else:
                            print(f"{p}: {n} of {m[1]}")
        if turns:
            print(os.path.relpath(p, ROOT), turns)
            new = "\n".join(respell.WORD.sub(lambda w: turns.get(w[0], w[0]) if not (w.start() and w.string[w.start() - 1] == "." and not w.string[: w.start()].endswith(".{")) else w[0], line) for line in text.split("\n"))
            with open(p, "w", encoding="utf-8") as f:
                f.write(new)


main()
