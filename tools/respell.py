#!/usr/bin/env python3
"""Brings the definitions and lemmas of crates/*/specs and crates/*/proofs to the spelling of the language.

usage: python3 tools/respell.py [--list]     at the top of the repository, once, right after the kit's port.py

Types and facts are in upper camel case (`Last-within` becomes `LastWithin`), all else in snake case
(`begun-at`, `bodyAt` become `begun_at`, `body_at`). In the name of a lemma a dash stays between two parts that are
names themselves (`covers-true`), and a lemma that would have the name of a definition beside it gets `_lem`.
Functions of src/, names that the compiler makes (goals, invariants), strings and the names of the library keep their
spelling. --list writes nothing and prints old and new names, and names that fall together.
"""

import glob
import re
import sys

WORD = r"[\w'-]+"
SIGNED = re.compile(r"^(\s*)((?:(?:abbrev|unfoldable|opaque|pub|data|record|module)\s+)*)([^\s(){}:]+)((?:\s+[({][^:]*:.*?[)}])*)\s+:\s+(.*)$")
MADE = re.compile(r"^(returns|loop-|invariant-|decreases-|overflow[-_]|bounds-|slice[-_]bounds|.*-requires)")
# names with a part that was a name of the library
GIVEN = {"at-getD": "at-get_or", "getD-nth": "get_or-nth"}
# names of the library that a lemma's name may join
LIBRARY = {"true", "false", "length", "append", "take", "drop", "map", "set", "get_or", "join", "filter", "remove", "free"}


def texts():
    for pattern in ("crates/*/specs/**/*.antt", "crates/*/proofs/**/*.antt", "crates/*/src/**/*.rt"):
        for p in sorted(glob.glob(pattern, recursive=True)):
            yield p, open(p, encoding="utf-8").read()


def defined(path, text):
    """The names that a file defines: (name, whether it is a type, whether it is a lemma)."""
    if path.endswith(".rt"):
        return
    proofs = "/proofs/" in path
    for line in text.split("\n"):
        m = SIGNED.match(line)
        if not m or line.lstrip().startswith("--"):
            continue
        indent, words, name, _, result = m.groups()
        if re.match(r"goal\.|given\.|need\.", result) or "◌" in name or "·" in name:
            continue
        kind = "data" in words.split() or "record" in words.split() or bool(re.search(r"(^|→ )Type( \d+| \{.*\})?( where)?$", result))
        # a line of a let is no definition, but its name is turned alike, as its uses are
        yield name, kind, proofs


def camel(name):
    parts = re.split(r"[-_]", name)
    return "".join(p[:1].upper() + p[1:] for p in parts)


def snake(name):
    name = re.sub(r"(?<=[a-z0-9])([A-Z])", lambda m: "_" + m.group(1).lower(), name)
    return name


def lemma(name, known):
    """A dash where all parts are names, and else `_`."""
    parts = snake(name).split("-")
    groups, i = [], 0
    while i < len(parts):
        for j in range(len(parts), i, -1):
            word = "_".join(parts[i:j])
            if word in known:
                break
        else:
            return "_".join(parts)
        groups.append(word)
        i = j
    return "-".join(groups)


def beside(found, turned):
    """The lemmas that would have the name of a definition that stands in a file with them."""
    lemmas = set()
    for p, t in texts():
        words = set(re.findall(rf"(?<![\w'-])({WORD})(?![\w'-])", t)) & set(found)
        definitions = {turned.get(w, w) for w in words if not found[w][1]}
        lemmas |= {w for w in words if found[w][1] and turned.get(w, w) in definitions}
    return lemmas


def names():
    found = {}
    for p, t in texts():
        for name, kind, proofs in defined(p, t):
            old = found.get(name)
            found[name] = (kind or bool(old and old[0]), proofs and (old is None or old[1]))
    turned = {}
    for name, (kind, proofs) in found.items():
        if not re.search(r"-|[a-z][A-Z]", name) and not (kind and name[:1].islower()):
            continue
        if MADE.match(name):
            continue
        if kind or name[:1].isupper():
            turned[name] = camel(name)
    known = LIBRARY | {snake(n).replace("-", "_") for n, (kind, proofs) in found.items() if not proofs and n not in turned}
    for name, (kind, proofs) in found.items():
        if name in turned or MADE.match(name) or not re.search(r"-|[a-z][A-Z]", name):
            continue
        turned[name] = GIVEN.get(name) or (lemma(name, known) if proofs else snake(name).replace("-", "_"))
    for name in beside(found, turned):
        turned[name] = turned.get(name, name) + "_lem"
    return {a: b for a, b in turned.items() if a != b}


def respelled(text, turned):
    return re.sub(rf"(?<![\w'-])({WORD})(?![\w'-])", lambda m: turned.get(m.group(1), m.group(1)), text)


def together(turned):
    for p, t in texts():
        seen = {}
        for w in set(re.findall(rf"(?<![\w'-])({WORD})(?![\w'-])", t)):
            seen.setdefault(turned.get(w, w), set()).add(w)
        for new, olds in sorted(seen.items()):
            if len(olds) > 1:
                yield p, new, sorted(olds)


def main(argv):
    turned = names()
    for p, new, olds in together(turned):
        print(f"look: {p}: {' and '.join(olds)} are both {new}")
    if "--list" in argv:
        for a, b in sorted(turned.items()):
            print(f"{a} {b}")
        return 0
    for p, t in texts():
        new = "\n".join(l if re.match(r"\s*(//|--)", l) else respelled(l, turned) for l in t.split("\n"))
        if new != t:
            open(p, "w", encoding="utf-8").write(new)
    print(f"{len(turned)} names respelled")
    return 0


if __name__ == "__main__":
    raise SystemExit(main(sys.argv[1:]))
