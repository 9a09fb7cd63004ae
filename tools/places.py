#!/usr/bin/env python3
"""Counts places in crates/*/src/*.rt that a richer language would write shorter.

usage: tools/places.py [-c] [POINT..]     at the top of the repository; POINT is the start of one, such as 2 or 5b; -c: counts only

Patterns are found by shape. Where a name or a comment is all there is to go by, the comment of the point says so.
"""
import collections, difflib, glob, itertools, re, sys

Fn = collections.namedtuple("Fn", "at name params result contracts body doc text")
Type = collections.namedtuple("Type", "at kind name parts doc")
KEYWORDS = set("let mut if else while return match true false for in as self break continue loop".split())
INTS = ("u8", "u16", "u32", "u64", "usize")
show = lambda x: "%s %s" % (x.at, x.name)
full = lambda t: "%s {%s}" % (show(t), ", ".join(t.parts))


def end_of(s, i, pair="{}"):
    """The place behind the bracket that closes the one at i."""
    depth = 0
    for j in range(i, len(s)):
        depth += (s[j] == pair[0]) - (s[j] == pair[1])
        if depth == 0:
            return j + 1


def split(s, sep=","):
    """The parts of s between separators that stand in no bracket."""
    parts, depth, last = [], 0, 0
    for j, c in enumerate(s):
        depth += (c in "([{") - (c in ")]}")
        if depth == 0 and s.startswith(sep, j):
            parts.append(s[last:j])
            last = j + len(sep)
    return [" ".join(p.split()) for p in parts + [s[last:]] if p.strip()]


def arms(s):
    """The (pattern, result) arms of the first match in s, or none."""
    m = re.search(r"\bmatch [^{;]*\{", s)
    found, i = [], m.end() if m else len(s)
    end = end_of(s, i - 1) - 1 if m else i
    while m := re.compile(r"[\s,]*([^=>{}]+?) => ").match(s, i, end):
        i = m.end()
        open_at = lambda k: any(s.count(a, i, k) != s.count(b, i, k) for a, b in ("()", "{}"))
        j = end_of(s, i) if s[i] == "{" else next((k for k in range(i, end) if s[k] == "," and not open_at(k)), end)
        found.append((m.group(1), " ".join(s[i:j].split()) if s[i] != "{" else " ".join(s[i + 1:j - 1].split())))
        i = j
    return found


def read():
    """The functions (and constants of a struct), the types, and the lines of each file without comments and texts."""
    fns, types, lines = [], [], {}
    blank = lambda m: re.sub(r"[^\n]", " ", m.group(0))
    for path in sorted(glob.glob("crates/*/src/**/*.rt", recursive=True)):
        raw = open(path, encoding="utf-8").read()
        bare = re.sub(r'(?<=")[^"\n]*(?=")', lambda m: "_" * len(m.group(0)), raw)
        bare = re.sub(r"//[^\n]*|^ghost use [^;]*;", blank, bare, flags=re.M)
        short = path.replace("crates/", "").replace("/src/", "/")
        lines[short] = bare.split("\n")
        where = lambda i: "%s:%d" % (short, raw.count("\n", 0, i) + 1)
        doc = lambda i: re.search(r"((?:^[ \t]*(?://|#\[)[^\n]*\n)*)\Z", raw[:i], re.M).group(1).replace("\n// ", " ")
        for m in re.finditer(r"^[ \t]*(?:pub(?:\(crate\))? )?(struct|enum) (\w+)(?:<[^>]*>)? \{", bare, re.M):
            parts = split(bare[m.end():end_of(bare, m.end() - 1) - 1])
            types.append(Type(where(m.start()), m.group(1), m.group(2), [re.sub(r"^pub ", "", p) for p in parts], doc(m.start())))
        for m in re.finditer(r"^(?:pub )?const (\w+): [A-Z]\w+ = (?=\w+ \{)", bare, re.M):
            fns.append(Fn(where(m.start()), m.group(1), [], "const", [], bare[m.end():end_of(bare, bare.index("{", m.end()))], "", ""))
        for m in re.finditer(r'^[ \t]*(?:pub(?:\(crate\))? )?(?:extern "_" )?fn (\w+)(<(?:->|[^>])*>)?\(', bare, re.M):
            close = end_of(bare, m.end() - 1, "()")
            params = [tuple(p.split(": ", 1)) for p in split(bare[m.end():close - 1]) if ": " in p]
            head = re.compile(r"\s*(?:-> (.*?))?\s*(?=requires|ensures|\{)", re.S).match(bare, close)
            i, contracts = head.end(), []
            while bare[i] != "{":
                start = bare.index("{", i) + 1
                e = end_of(bare, start - 1)
                contracts.append(" ".join(raw[start:e - 1].split()))
                i = e + len(bare[e:]) - len(bare[e:].lstrip())
            e = end_of(bare, i)
            fns.append(Fn(where(m.start()), m.group(1), params, head.group(1), contracts, bare[i:e], doc(m.start()), bare[m.start():e]))
    return fns, types, lines


def grep(lines, pattern):
    return ["%s:%d %s" % (p, n, t.strip()) for p in sorted(lines) for n, t in enumerate(lines[p], 1) if re.search(pattern, t)]


def tokens(s, numbered):
    """The tokens of code with its names, numbers and texts left out; names by first use where they are numbered."""
    names = collections.defaultdict(lambda: "n%d" % len(names) if numbered else "n")
    parts = re.findall(r'b?"_*"|\w+|[^\w\s]', re.sub(r"\b(?:\w+::)+", "", s))
    return ["0" if t[0].isdigit() else t if t in KEYWORDS or not re.match(r"\w", t) else names[t] for t in parts]


def loops(f):
    for m in re.finditer(r"\b(while|for|loop)\b([^{]*)\{", f.body):
        yield m.group(1), m.group(2).rstrip(), f.body[m.end():end_of(f.body, m.end() - 1)]


def points(fns, types, lines):
    enums, structs = [t for t in types if t.kind == "enum"], [t for t in types if t.kind == "struct"]
    fields = [(t, *p.split(": ", 1)) for t in structs for p in t.parts]
    of = lambda t: [(n, k) for u, n, k in fields if u is t]
    plain = {t.name for t in enums if not any("(" in p for p in t.parts)}
    carries = lambda p: split(p[p.index("(") + 1:-1]) if "(" in p else []
    behind = [(f, p, q) for f in fns for p, q in zip(f.params, f.params[1:])]
    beside = lambda x: "%s (%s, %s)" % (show(x[0]), ": ".join(x[1]), ": ".join(x[2]))
    # 1a: two variants, one bare and one with a value; or both with a value, one of them a plain enum (a refusal)
    def option_like(t):
        a = [carries(p) for p in t.parts]
        return len(a) == 2 and (bool(a[0]) != bool(a[1]) or all(a) and any(c in plain for v in a for c in v))
    own = [t for t in enums if option_like(t)]
    yield "1a", "enums of the shape of Option or Result", map(full, own)
    # 1b: more variants, only one of which carries a value
    yield "1b", "wider enums with one variant that carries a value", [full(t) for t in enums if len(t.parts) > 2 and sum("(" in p for p in t.parts) == 1]
    # 1c: a field ok or given, or has_x beside a field x (by these names); 1d: every other bool field
    flags = [(t, n, k) for t, n, k in fields if n in ("ok", "given") or n.startswith("has_") and n[4:] in dict(of(t))]
    yield "1c", "fields that say whether those beside them count", ["%s.%s" % (show(t), n) for t, n, _ in flags]
    yield "1d", "other bool fields of structs", ["%s.%s" % (show(x[0]), x[1]) for x in fields if x[2] == "bool" and x not in flags]
    # 1e: a bool parameter with another value right behind it
    yield "1e", "functions with a bool parameter and a value behind it", [beside(x) for x in behind if x[1][1] == "bool" and x[2][1] != "bool"]
    # 1f: an integer answer, or a struct, whose comment says what 0, 16 or another number stands for (by the comment)
    none = re.compile(r"\b(?:or|count|length|line|and) (?:0|16)\b|\b(?:0|16) (?:where|for|of|to)\b|is 0\b|more than 9\b|which holds 0")
    yield "1f", "numbers that stand for none", [show(x) for x in [f for f in fns if f.result in INTS] + structs if none.search(x.doc)]
    # 1g: a refusal by its number: a field or a parameter of type u8 with the name number (by name)
    yield "1g", "numbers of refusals", grep(lines, r"\bnumber: (?:&mut )?u8\b")
    # 1h: what `?` would write: a test of ok, a let-else, and an arm or an `if let` of a refusing case (one with the plain enum that most of
    # 1a carry, else the bare one) that uses all that it binds, or answers a case
    held = collections.Counter(c for t in own for p in t.parts for c in carries(p) if c in plain)
    refusal = max(held, key=held.get, default="")
    holds = lambda t: any(refusal in carries(p) for p in t.parts)
    refusing = {p.split("(")[0] for t in own for p in t.parts if (refusal in carries(p) if holds(t) else not carries(p))}
    def hands_on(f):
        for p, r in arms(f.body) + [m.groups() for m in re.finditer(r"if let ([^=]*?) = \w+ \{\s*return ([^;]*);", f.body)]:
            m = re.fullmatch(r"\w+::(\w+)(?:\((.*)\))?", p)
            bound = set((m.group(2) or "").split(", ")) - {"", "_"} if m else set()
            if m and m.group(1) in refusing and (bound <= set(re.findall(r"\w+", r)) if bound else re.fullmatch(r"\w+::\w+(\(\w+::\w+\))?", r)):
                yield "%s: %s" % (show(f), p)
    by_hand = grep(lines, r"if !\w+\.ok\b|^\s*let \w+(?:::\w+)?\(.*\) = .*else \{")
    yield "1h", "refusals handed on by hand", by_hand + [x for f in fns for x in hands_on(f)]
    # 2a: functions that are the same but for names, types, numbers and texts (bodies of 8 tokens or more)
    alike = collections.defaultdict(list)
    for f in fns:
        if len(tokens(f.body, True)) >= 8:
            alike[(len(f.params), " ".join(tokens(f.body, True)))].append(f)
    groups = [g for g in alike.values() if len(g) > 1]
    yield "2a", "groups of functions with one body (%d functions)" % sum(map(len, groups)), [" | ".join(map(show, g)) for g in groups]
    # 2b: pairs of the rest that are nearly the same: 30 tokens or more, alike in nine of ten
    firsts, near = [x for x in ((g[0], tokens(g[0].body, False)) for g in alike.values()) if len(x[1]) >= 30], []
    for (f, a), (g, b) in itertools.combinations(firsts, 2):
        m = difflib.SequenceMatcher(None, a, b, False)
        if m.real_quick_ratio() >= .9 and m.quick_ratio() >= .9 and m.ratio() >= .9:
            near.append("%s | %s" % (show(f), show(g)))
    yield "2b", "pairs of functions that are nearly the same", near
    # 2c: structs with the same fields but for sizes, enums with the same variants but for types
    shapes = collections.defaultdict(list)
    for t in types:
        shapes[(t.kind, *sorted(re.sub(r"\d+", "N", p) if t.kind == "struct" else re.sub(r"\(.*", "(T)", p) for p in t.parts))].append(t)
    yield "2c", "groups of types that differ in a size or a type", [" | ".join(map(show, g)) for g in shapes.values() if len(g) > 1]
    # 3a: a while whose condition has a name that its body counts up or down by a constant; 3b: every other loop
    steps = lambda kind, cond, body: kind == "while" and any(re.search(r"\b%s\b" % n, cond) for n in re.findall(r"\b(\w+) [+-]= (?:\d+|[A-Z_]+);", body))
    yield "3a", "loops that count an index by hand", ["%s: while%s" % (show(f), x[1]) for f in fns for x in loops(f) if steps(*x)]
    yield "3b", "other loops", ["%s: %s%s" % (show(f), x[0], x[1]) for f in fns for x in loops(f) if not steps(*x)]
    # 4a: equality: a bool of two values, or lists of values, of the same types
    halves = lambda k: k and len(k) % 2 == 0 and k[:len(k) // 2] == k[len(k) // 2:]
    yield "4a", "functions to bool over twice the same types", [show(f) for f in fns if f.result == "bool" and halves([k for _, k in f.params])]
    # 4b: a match from cases to numbers or from numbers to anything, or two tests of a number that return a case
    is_number, is_case = re.compile(r"\d+( \| \d+)*").fullmatch, re.compile(r"[A-Z]\w*::\w+").match
    def coded(f):
        a = [(p, r) for p, r in arms(f.body) if p != "_"]
        numbers = len(a) > 1 and (all(is_case(p) and is_number(r) for p, r in a) or all(is_number(p) for p, _ in a))
        return numbers or len(re.findall(r"if \w+ == \d+ \{\s*return [A-Z]\w*::", f.body)) > 1
    yield "4b", "cases to numbers and back", [show(f) for f in fns if coded(f)]
    # 4c: a match whose arms are all true or false; 4d: one from the cases of an enum to those of another
    yield "4c", "matches to true and false", [show(f) for f in fns if arms(f.body) and all(r in ("true", "false") for _, r in arms(f.body))]
    turned = lambda a: len(a) > 1 and all(is_case(p) and is_case(r) for p, r in a) and any(p.split(":")[0] != r.split(":")[0] for p, r in a)
    yield "4d", "matches from the cases of one enum to those of another", [show(f) for f in fns if turned(arms(f.body))]
    # 4e: a struct made with three fields or more that are a field, or a local that was one; 4f: a struct of zeros, false and bare cases
    copies, zeros = [], []
    for f in fns:
        local = set(re.findall(r"let (\w+) = \w+\.\w+;", f.body))
        for m in re.finditer(r"\b([A-Z]\w*) \{", f.body):
            values = [x.split(": ", 1)[-1] for x in split(f.body[m.end():end_of(f.body, m.end() - 1) - 1])]
            if sum(bool(local & set(re.findall(r"\w+", v)) or re.search(r"\b\w+\.\w+", v)) for v in values) >= 3:
                copies.append("%s -> %s (%d fields)" % (show(f), m.group(1), len(values)))
            if len(values) > 1 and all(re.fullmatch(r"0|false|\[0(?:u8)?; \w+\]|\w+::\w+", v) for v in values):
                zeros.append("%s -> %s" % (show(f), m.group(1)))
    yield "4e", "structs filled field by field from another", copies
    yield "4f", "structs of zeros, written out", zeros
    # 4g: printing: a function that writes to a stream; 4h: one that puts bytes into a lent buffer and answers a place or a length
    yield "4g", "functions that print to a stream", [show(f) for f in fns if "<W: Write>" in f.text]
    yield "4h", "functions that put bytes into a lent buffer", [show(f) for f in fns if f.params and f.params[0][1] == "&mut [u8]" and f.result == "usize"]
    # 5a: a fact, the text of a contract or of a factor of it, in three functions or more
    # 5b: the same with what stands in brackets, numbers and cases left out; 5c: with the types of parameters in place of their names
    def hole(s, f):
        while re.search(r"\([^()]*\)", s):
            s = re.sub(r"\([^()]*\)", "_", s)
        return re.sub(r"\b([A-Z]\w*)\.[A-Z]\w*", r"\1", re.sub(r"\b\d+\b", "N", s))
    typed = lambda s, f: re.sub(r"[\w«»]+", lambda m: dict(f.params).get(m.group(0), m.group(0)), s)
    for point, title, change in (("5a", "facts in the contracts of three functions or more", lambda s, f: s), ("5b", "the same with holes", hole), ("5c", "the same by types", typed)):
        facts = collections.defaultdict(list)
        for f in fns:
            for fact in {change(re.sub(r"^\((.*)\)$", r"\1", p) if " × " in c else p, f) for c in f.contracts for p in split(c, " × ")}:
                facts[fact].append(f)
        got = sorted(((v, k) for k, v in facts.items() if len(v) > 2), key=lambda x: (-len(x[0]), x[1]))
        yield point, "%s (%d uses)" % (title, sum(len(v) for v, _ in got)), ["%d x { %s }: %s" % (len(v), k, ", ".join(map(show, v))) for v, k in got]
    # 5d: sets of parameters (name and type) that three functions or more have; none of which a larger set has two thirds of the functions
    sets = collections.defaultdict(set)
    for i, f in enumerate(fns):
        for c in itertools.chain.from_iterable(itertools.combinations(sorted(f.params), n) for n in range(2, len(f.params) + 1)):
            sets[c].add(i)
    sets = {c: v for c, v in sets.items() if len(v) > 2}
    closed = [c for c in sets if not any(set(c) < set(d) and 3 * len(sets[d]) >= 2 * len(sets[c]) for d in sets)]
    closed.sort(key=lambda c: (-len(sets[c]) * (len(c) - 1), c))
    yield "5d", "parameters that travel together", ["%d x (%s): %s" % (len(sets[c]), ", ".join(map(": ".join, c)), ", ".join(show(fns[i]) for i in sorted(sets[c]))) for c in closed]
    # 6a: a struct with an array and a number with the name of a length beside it (by name); 6b: two arrays of one type, other than bytes
    size, is_array = re.compile(r"(?:.*_)?(?:len|length|count)").fullmatch, lambda k: k.startswith("[")
    yield "6a", "structs with an array and its length beside it", ["%s.%s" % (show(t), n) for t, n, k in fields if k in INTS and size(n) and any(is_array(x) for _, x in of(t))]
    yield "6b", "structs with parallel arrays", [show(t) for t in structs if max(collections.Counter(k for _, k in of(t) if is_array(k) and "u8" not in k).values(), default=0) > 1]
    # 6c: an array parameter with a count behind it; 6d: an array filled at an index that is counted beside it
    yield "6c", "functions with an array and a count behind it", [beside(x) for x in behind if is_array(x[1][1]) and x[2][1] == "usize"]
    yield "6d", "functions that fill an array and count beside it", [show(f) for f in fns if any(re.search(r"\b%s \+= \d" % n, f.body) for n in re.findall(r"\w+\[(\w+)(?: \+ \w+)?\] = ", f.body))]
    # 6e: an index with a constant in front: one array as several
    yield "6e", "indices into an area of an array", grep(lines, r"\w\[[A-Z_]+ \+ \w+\]|\b[A-Z_]+ \+ \w+\)")
    # 6f: searches: a loop that returns at an equality; 6g: two calls or more of one function with a text: a list of words asked one by one
    ends = re.compile(r"if [^{;]*(?:==|equal\()[^{;]*\{\s*return (?:true|\w+|\w+ \+ \w+);").search
    yield "6f", "linear searches by hand", [show(f) for f in fns for x in loops(f) if ends(x[2])]
    yield "6g", "lists of words asked one by one", [show(f) for f in fns if max(collections.Counter(re.findall(r"\b(\w+)\([^()\"]*, b\"", f.body)).values(), default=0) > 1]
    # 7a: a match half of whose arms or more call functions, two of them different; 7b: functions as values
    called = lambda f: [m.group(1) for m in (re.match(r"(?:\w+::)*([a-z_]\w*)\(.*\)$", r) for _, r in arms(f.body)) if m]
    yield "7a", "switches on which function to call", ["%s (%d arms)" % (show(f), len(arms(f.body))) for f in fns if len(set(called(f))) > 1 and 2 * len(called(f)) >= len(arms(f.body))]
    yield "7b", "functions as values", grep(lines, r"\bfn\(|\bdyn \w|\bFn(?:Mut|Once)?\(")
    # 8: per crate the answers (.antt in the folders of proofs/, loop invariants too), the lemma files (proofs/*.antt), and their lines
    rows, total = [], (0, 0, 0, 0)
    for c in sorted(glob.glob("crates/*/")):
        kinds = [p for p in glob.glob(c + "proofs/*/**/*.antt", recursive=True)], glob.glob(c + "proofs/*.antt")
        n = [x for k in kinds for x in (len(k), sum(open(p, encoding="utf-8").read().count("\n") for p in k))]
        total = [a + b for a, b in zip(total, n)]
        rows.append("%s: %d answers, %d lines; %d lemma files, %d lines" % (c.split("/")[1], *n))
    yield "8", "proofs: %d answers, %d lines; %d lemma files, %d lines; crates" % tuple(total), rows


for point, title, places in points(*read()):
    wanted, places = [a for a in sys.argv[1:] if a != "-c"], list(places)
    if not wanted or any(point.startswith(w) for w in wanted):
        print("%s %s: %d" % (point, title, len(places)))
        if "-c" not in sys.argv:
            print("".join("    %s\n" % p for p in places), end="")
