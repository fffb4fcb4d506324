#!/usr/bin/env python3
"""Lists the places in the sources where an older form of code may stand, a kind of form at a time.

usage: python3 tools/places.py [FORM ..]     at the top of the repository; FORM is one of the names below, else all

  codes       enums and structs shaped like an Option or a Result, flags, numbers in place of kinds or of none
  twins       functions that are alike but for names, literals and types
  loops       loops, each with what it goes over
  by_hand     equality, conversion, blank values and printing in functions of their own
  repeated    clauses that three or more functions share, and parameters that three or more functions take together
  buffers     arrays and slices in structs, with what counts beside them
  steps       one-method traits, and structs and enums that stand for what to do
  proofs      lines of answers, invariants and lemmas

What it prints is what is to be read, and not yet a verdict.
"""

import difflib
import glob
import re
import sys

FILES = sorted(glob.glob("crates/*/src/**/*.rt", recursive=True))
TEXT = {f: open(f).read() for f in FILES}


def lines_with(pattern):
    found = []
    for f in FILES:
        for n, line in enumerate(TEXT[f].split("\n"), 1):
            if re.search(pattern, line) and not line.lstrip().startswith("ghost use"):
                found.append((f, n, line.strip()))
    return found


def body_from(text, start):
    """The text from the brace at or after `start` to the one that closes it."""
    depth, i = 0, text.index("{", start)
    for j in range(i, len(text)):
        depth += {"{": 1, "}": -1}.get(text[j], 0)
        if depth == 0:
            return text[i : j + 1]
    return text[i:]


def line_of(text, at):
    return text.count("\n", 0, at) + 1


def items(word):
    for f in FILES:
        for m in re.finditer(r"^(?:pub(?:\(crate\))? )?%s (\w+)[^;{]*\{" % word, TEXT[f], re.M):
            yield f, line_of(TEXT[f], m.start()), m.group(1), body_from(TEXT[f], m.start())


def functions():
    """File, line, name, parameters, clauses, body."""
    for f in FILES:
        for m in re.finditer(r"^ *(?:pub(?:\(crate\))? )?(?:const )?fn (\w+)", TEXT[f], re.M):
            rest = TEXT[f][m.start() :]
            head = re.match(r"(?s)(.*?)\n? *(?=(?:requires|ensures|where|\{|;))", rest).group(1)
            clauses, at = [], len(head)
            while True:
                c = re.match(r"\s*(requires|ensures)( \w+)? (?=\{)", rest[at:])
                if not c:
                    break
                text = body_from(rest, at + c.end())
                clauses.append((c.group(1), " ".join(text[1:-1].split())))
                at += c.end() + len(text)
            after = rest[at:].lstrip()
            body = body_from(rest, at) if after.startswith("{") else ""
            params = re.findall(r"(\w+): ([^,()]+(?:\([^)]*\))?)", head)
            yield f, line_of(TEXT[f], m.start()), m.group(1), params, clauses, body


def codes():
    found = []
    for f, n, name, body in items("enum"):
        variants = re.findall(r"^    (\w+)(\s*[({=]|,)", body, re.M)
        carrying = [v for v, k in variants if k.strip()[:1] in "({" and k.strip()]
        if len(variants) == 2 and carrying:
            found.append((f, n, f"enum {name}: two cases, {len(carrying)} with a value"))
        if any(v in ("Fault", "Err", "None") for v, _ in variants):
            found.append((f, n, f"enum {name}: a case for a fault or for none"))
    for f, n, name, body in items("struct"):
        fields = re.findall(r"^    (?:pub(?:\(crate\))? )?(\w+): ([^\n]+),$", body, re.M)
        if len(fields) == 1 and fields[0][1].startswith("Option<"):
            found.append((f, n, f"struct {name}: an Option alone"))
    found += lines_with(r"\bfn [^{]*&mut [^{]*-> bool")
    found += lines_with(r"\bfn \w+[^{]*-> u8\b")
    found += lines_with(r"\b(mark|number|kind): u8")
    found += lines_with(r"//.*\b0 (while|where) (it has|there is) none")
    return found


def twins():
    def plain(body):
        body = re.sub(r'"[^"]*"|b?\'[^\']*\'|\b\d[\d_]*\b', "0", body)
        return re.findall(r"\w+|[^\w\s]", body)

    fs = [x for x in functions() if x[5].count("\n") >= 3]
    found = []
    for i, a in enumerate(fs):
        for b in fs[i + 1 :]:
            one, two = plain(a[5]), plain(b[5])
            if len(one) < 12 or abs(len(one) - len(two)) > 12:
                continue
            if difflib.SequenceMatcher(None, one, two, autojunk=False).ratio() >= 0.8:
                found.append((a[0], a[1], f"fn {a[2]}  like fn {b[2]} ({b[0]}:{b[1]})"))
    return found


def loops():
    return lines_with(r"^\s*(for|while|loop)\b.*\{$")


def by_hand():
    found = lines_with(r"\bfn (\w*_?word|of|plain|blank\(\) -> Draft|is_blank\(draft|\w+_line|\w+_named|\w*_text|two_entries|bound|draft_at|add_(line|entry|entries|clock|lines))\b")
    return found + lines_with(r"\bfn (number|mark|kind)\(&?self\)")


def repeated():
    seen, together = {}, {}
    for f, n, name, params, clauses, _ in functions():
        for kind, text in clauses:
            seen.setdefault((f.split("/")[1], kind, text), []).append(f"{name} ({f}:{n})")
        names = sorted(set(f"{p}: {' '.join(t.split())}" for p, t in params))
        for i in range(len(names)):
            for j in range(i + 1, len(names)):
                together.setdefault((f.split("/")[1], names[i], names[j]), []).append(name)
    found = []
    for (crate, kind, text), where in seen.items():
        if len(where) >= 3:
            found.append((crate, len(where), f"{kind} {{ {text} }}: {', '.join(where)}"))
    for (crate, a, b), where in together.items():
        if len(where) >= 3:
            found.append((crate, len(where), f"({a}, {b}): {', '.join(where)}"))
    return found


def buffers():
    return lines_with(r"^    (pub(\(crate\))? )?\w+: (&'a (mut )?\[|\[\w+; \w+\])") + lines_with(r"^    (pub(\(crate\))? )?(len|count|keys|at): (u8|u16|usize),")


def steps():
    found = []
    for f, n, name, body in items("trait"):
        if len(re.findall(r"\bfn \w+", body)) == 1:
            found.append((f, n, f"trait {name}: one method"))
    return found + lines_with(r"^pub (struct|enum) (Purpose|Elsewhere|Verb)\b")


def proofs():
    found = []
    for crate in sorted(glob.glob("crates/*")):
        count = {"answers": 0, "invariants": 0, "lemmas": 0}
        for f in glob.glob(crate + "/proofs/**/*.antt", recursive=True):
            kind = {"Answers.antt": "answers", "Invariants.antt": "invariants"}.get(f.split("/")[-1], "lemmas")
            count[kind] += len(open(f).readlines())
        if any(count.values()):
            found.append((crate, sum(count.values()), ", ".join(f"{k} {v}" for k, v in count.items())))
    return found


FORMS = {f.__name__: f for f in (codes, twins, loops, by_hand, repeated, buffers, steps, proofs)}

for name in sys.argv[1:] or FORMS:
    found = FORMS[name]()
    print(f"{name}: {len(found)}")
    for where, n, what in found:
        print(f"  {where}:{n}: {what}")
