#!/usr/bin/env python3
"""Gives the definitions and lemmas of specs/ and proofs/ the spelling of today's Rattle: words in snake case.

usage: tools/respell.py [--check]

It goes over crates/ once, after the kit's own script port.py. A name of an .antt file in lower camel case, as
`writeBufctl` or `endOf-append`, becomes `write_bufctl` or `end_of-append`, in every .antt and .rt file.
A function of src/ keeps its name. Where a lemma has the new name of a definition already, the lemma gets `_lem` behind it, and the
proof of a function `f`, which a file proofs/../f/Proof.antt declares as `f-spec`, is `f_spec`. --check writes nothing and lists the
names that would turn.
"""

import os
import re
import sys

CRATES = os.path.join(os.path.dirname(os.path.dirname(os.path.realpath(__file__))), "crates")
DECLARED = re.compile(r"^\s*(?:(?:abbrev|unfoldable|pub|data|record)\s+)*([^\s:()\[\]{}|]+)\s*:\s", re.M)
TOKEN = re.compile(r"[A-Za-z0-9_'\u2080-\u2089-]+")
CAMEL = re.compile(r"(?<=[a-z0-9])([A-Z])")


def files(*endings):
    for folder, dirs, names in os.walk(CRATES):
        dirs[:] = sorted(d for d in dirs if d != "out")
        for name in sorted(names):
            if name.endswith(endings):
                yield os.path.join(folder, name)


def read(path):
    with open(path, encoding="utf-8") as f:
        return f.read()


def snake(name):
    """`writeBufctl` as `write_bufctl`; a type inside a lemma's name, as in `IsFree-taken`, keeps its capital."""
    return "-".join(CAMEL.sub(lambda m: "_" + m[1].lower(), part) if part[:1].islower() else part for part in name.split("-"))


def table():
    declared = {}
    for path in files(".antt"):
        for name in DECLARED.findall(read(path)):
            declared.setdefault(name, set()).add(path)
    used = {name for path in files(".antt") for name in TOKEN.findall(read(path))}
    turned = {name: snake(name) for name in used | set(declared) if name[:1].islower() and snake(name) != name}
    for name in set(turned.values()) & set(declared):
        turned[name] = name + "_lem"
    if len(set(turned.values())) != len(turned) or set(turned.values()) & (set(declared) - set(turned)):
        sys.exit("two names fall together: " + ", ".join(sorted(turned)))
    return turned


def may(word, path):
    """A lemma that gets `_lem` may have the name of a function of src/, which is a field or a module in a proof."""
    return CAMEL.search(word[0]) or (path.endswith(".antt") and word.string[word.start() - 1] != ".")


def main(argv):
    if argv not in ([], ["--check"]):
        print(__doc__)
        return 2
    turned = table()
    if argv:
        for name in sorted(turned):
            print(name, turned[name])
        return 0
    for path in files(".antt", ".rt"):
        old = read(path)
        new = TOKEN.sub(lambda m: turned[m[0]] if m[0] in turned and may(m, path) else m[0], old)
        if path.endswith("Proof.antt"):
            f = os.path.basename(os.path.dirname(path))
            new = re.sub(r"(?<![\w-])" + f.replace("_", "[-_]") + r"-spec(?![\w-])", f + "_spec", new)
        if new != old:
            with open(path, "w", encoding="utf-8") as out:
                out.write(new)
    return 0


if __name__ == "__main__":
    raise SystemExit(main(sys.argv[1:]))
