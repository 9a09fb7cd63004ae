#!/usr/bin/env python3
"""Brings the names of the repository's own definitions and laws to one spelling: snake case for words, upper camel case for types.

usage: tools/respell.py        at the top of the repository, once, after the older spelling was ported; it rewrites files in place

A name is the repository's own where an .antt file of crates/ declares it. A law whose name would fall together with that of what it
speaks of ends in _lem, and a definition that would have the name of a field of a struct ends in _of. Strings, exported names and
the functions of src/ keep their names. Comments and pages are turned where they name a definition.
"""

import collections
import os
import re
import sys

ID = r"[A-Za-z_\u00c0-\u024f][A-Za-z0-9_'\u2032\u2080-\u2089\u2260-\u2262\u2192\u2237\u00b9-]*"
TOKEN = re.compile(ID)
DECLARED = re.compile(r"^\s*(?:(?:pattern|unfoldable|abbrev|axiom|pub)\s+)*((?:%s\s+)*%s)\s*(?:\{[^}]*\}\s*)?:\s" % (ID, ID))
BOUND = re.compile(r"[({]((?:%s\s+)*%s) : " % (ID, ID))
IMPORT = re.compile(r"\s*(?:ghost )?(?:pub )?use\s+([\w.+«»-]+)\.\{([^}]*)\}")

# laws in snake case already whose definition gets their name
LAWS = {"group_at", "run_end", "chosen_by", "names_apart", "read_as", "no_record", "is_address", "no_address"}
# definitions that would have the name of a field of a struct
FIELDS = {"ipv6Address", "preSharedKey", "ipv6Gateway", "hasGateway", "prefixLength"}
# laws that would have the name of a field of a struct or of a variable of the code
OF_FIELDS = {"name-len", "file-len", "search-domains", "auto-connect", "address-override", "domain-name", "send-hostname", "service-type", "address-bytes", "is-some", "is-group"}


# names of warnings and of inputs, which pages speak of beside names of laws
KEPT = {"no-service", "bad-escape"}


def snake(name):
    """A name in snake case, a type's in upper camel case."""
    name = name.replace("\u2032", "'")
    if name[0].isupper():
        return "".join(p[:1].upper() + p[1:] for p in name.split("-"))
    return "_".join(re.sub(r"(?<=[a-z0-9_])([A-Z]+)", lambda m: "_" + m.group(1).lower(), p) for p in name.split("-"))


def files(*ends):
    for folder, dirs, names in os.walk("crates"):
        dirs[:] = sorted(d for d in dirs if d != "out")
        for n in sorted(names):
            if n.endswith(ends):
                yield os.path.join(folder, n)


def is_own(module):
    parts = module.split(".")
    return parts[0] == "Rattle" and len(parts) > 1 and os.path.isdir(os.path.join("crates", parts[1]))


def names():
    """The own names and what they become."""
    own, others = set(), set()
    for p in files(".antt"):
        for line in open(p, encoding="utf-8"):
            m = IMPORT.match(line)
            if m:
                if not is_own(m.group(1)):
                    others |= {w.strip() for w in m.group(2).split(",")}
                continue
            if line.lstrip().startswith("--"):
                continue
            m = DECLARED.match(line)
            if m:
                own |= set(m.group(1).split())
            for m in BOUND.finditer(line):
                own |= set(m.group(1).split())
    turned = {n: snake(n) for n in own - others if snake(n) != n}
    by = collections.defaultdict(list)
    for n, t in turned.items():
        by[t].append(n)
    for t, ns in by.items():
        for n in ns:
            if "-" in n and (len(ns) > 1 or n in OF_FIELDS):
                turned[n] = t + "_lem"
            elif n in FIELDS:
                turned[n] = t + "_of"
    for n in LAWS:
        turned[n] = n + "_lem"
    return turned, {turned.get(n, n) for n in own}


def turn_code(text, turned):
    """A line of antt, or the clauses of a line of Rattle, in the new spelling; what a path names beside its last list stays."""
    out, at = [], 0
    for m in TOKEN.finditer(text):
        w = m.group(0)
        if w in turned and not (w in LAWS and m.start() > 0 and text[m.start() - 1] == "."):
            out += [text[at : m.start()], turned[w]]
            at = m.end()
    return "".join(out) + text[at:]


def turn_words(text, turned):
    """A comment: names in backquotes, and names in camel case wherever they stand."""
    text = re.sub(r"`[^`]*`", lambda m: turn_code(m.group(0), {k: v for k, v in turned.items() if k not in LAWS}), text)
    return re.sub(r"(?<![\w'-])[a-z]+[0-9]*[A-Z][A-Za-z0-9-]*", lambda m: turned.get(m.group(0), m.group(0)), text)


STRING = re.compile(r'b?"(?:[^"\\]|\\.)*"|b?\'(?:[^\'\\]|\\.)\'')


def turn_rattle(line, turned):
    if line.lstrip().startswith("//"):
        return turn_words(line, turned)
    camel = {k: v for k, v in turned.items() if k not in LAWS}
    out, at = [], 0
    for m in STRING.finditer(line):
        out += [turn_code(line[at : m.start()], camel), m.group(0)]
        at = m.end()
    return "".join(out) + turn_code(line[at:], camel)


def turn_page(line, turned, own):
    """A line of a page: names in backquotes, and what was turned before this."""

    def one(m):
        w = m.group(0)
        new = turned.get(w, snake(w)) if w not in KEPT and w not in LAWS else w
        return new if w in turned or new in own else w

    return turn_words(re.sub(r"`[^`]*`", lambda m: TOKEN.sub(one, m.group(0)), line), {k: v for k, v in turned.items() if k not in KEPT})


def turn(p, turned, own=()):
    old = open(p, encoding="utf-8").read()
    lines = old.split("\n")
    if p.endswith(".antt"):
        new = [turn_words(x, turned) if x.lstrip().startswith("--") else turn_code(x, turned) for x in lines]
    elif p.endswith((".rt", ".edit")):
        new = [turn_rattle(x, turned) for x in lines]
    else:
        new = [turn_page(x, turned, own) for x in lines]
    text = "\n".join(new)
    if text != old:
        open(p, "w", encoding="utf-8").write(text)
    return text != old


def clashes(p, turned):
    """Names of one file that fall together."""
    by = collections.defaultdict(set)
    for line in open(p, encoding="utf-8"):
        if line.lstrip().startswith("--"):
            continue
        for m in TOKEN.finditer(line):
            w = m.group(0)
            if w in LAWS and m.start() > 0 and line[m.start() - 1] == ".":
                continue
            by[turned.get(w, w)].add(w)
    return [(p, t, sorted(ws)) for t, ws in by.items() if len(ws) > 1]


def main():
    turned, own = names()
    fallen = [c for p in files(".antt") for c in clashes(p, turned)]
    for p, t, ws in fallen:
        print(f"{p}: {', '.join(ws)} fall together as {t}")
    if "--clashes" in sys.argv:
        return
    pages = [os.path.join(d, n) for d in (".", "docs", "docs/changes") if os.path.isdir(d) for n in sorted(os.listdir(d)) if n.endswith(".md")]
    pages = [p for p in pages if os.path.basename(p) not in ("PORT.md",)]
    changed = [p for p in list(files(".antt", ".rt", ".edit")) + pages if turn(p, turned, own)]
    print(f"{len(turned)} names, {len(changed)} files changed")


main()
