#!/usr/bin/env python3
"""Brings the repository's own definitions and lemmas to snake case: port_names.py [--write], at the top of the repository, once, after port.py.

Renamed are: each name in lower camel case in specs/, proofs/ and the clauses of src/ (definitions, fields, constructors, parameters), and each
name with dashes that specs/ or a file of lemmas right in proofs/ declares; in comments, those that are declared there; and so in must-fail
edits of specs/ and proofs/. A lemma whose new name is a definition's gets `_lem`, and so do the lemmas `bit-or` and `bit-xor`, which are words
of the library, and promises' `is_word`. Left are: types and modules, names that Rattle makes (goals, steps: in proofs/F/), code outside
clauses, strings. It prints the names that fall together in one file, to be looked at."""
import glob, re, sys, collections
write = "--write" in sys.argv
token = re.compile(r"\"(?:[^\"\\]|\\.)*\"|[^\s(){}\[\].;,@\"`:=|⌜⌝\\]+|:+|=+|.", re.S)
word = re.compile(r"^[a-z_][\w?'′]*(?:-[\w?'′]+)*$|^[A-Z]\w*(?:-[\w?'′]+)+$")

def snake(n):
    n = re.sub(r"(?<=[a-z0-9])([A-Z])", r"_\1", n)
    n = re.sub(r"([A-Z])(?=[A-Z][a-z])", r"\1_", n)
    return n.replace("-", "_").lower()

antt = [f for f in glob.glob("crates/*/specs/**/*.antt", recursive=True) + glob.glob("crates/*/proofs/**/*.antt", recursive=True)]
lemmas = [f for f in antt if re.match(r"crates/[^/]+/(specs/|proofs/[^/]+\.antt$)", f)]
declared = set()
for f in lemmas:
    for line in open(f).read().split("\n"):
        if line.lstrip().startswith("--"): continue
        m = re.match(r"\s*(?:(?:abbrev|unfoldable|irreducible|opaque|pub|private|data|record|instance)\s+)*([^\s(){}:]+)\s*:(?:\s|$)", line)
        if m and word.match(m.group(1)): declared.add(m.group(1))
# what else a lemma's new name could fall together with: a definition's
plain = {snake(d) for d in declared if "-" not in d}

def target(t, f):
    """The new spelling of a token of f, or None."""
    if not word.match(t) or t in ("not-false", "not-true"): return None  # the last two are the library's
    if t in ("bit-or", "bit-xor"): return snake(t) + "_lem"  # the library's words
    if f == "crates/promises/proofs/Runs.antt" and t == "is_word": return "is_word_lem"  # beside the definition isWord
    if re.match(r"^[a-z][\w?']*$", t) and re.search(r"[a-z0-9][A-Z]", t): return snake(t)
    if "-" in t and t in declared and t[0].islower(): return snake(t) + ("_lem" if snake(t) in plain else "")
    return None

renames = collections.Counter(); clashes = []
def turn(text, f, clause=False):
    out = []; seen = collections.defaultdict(set)
    toks = token.findall(text)
    for t in toks:
        n = target(t, f)
        seen[n or t].add(t)
        if n and n != t: renames[(t, n)] += 1
        out.append(n or t)
    for n, olds in seen.items():
        if len(olds) > 1: clashes.append((f, n, sorted(olds)))
    return "".join(out)

def antt_text(s, f):
    # comments: only names in backquotes and declared camel names
    parts = []; seen_all = []
    lines = []
    for line in s.split("\n"):
        m = re.search(r"(?:^|(?<=\s))--(?:\s|$)", line)
        code, com = (line[:m.start()], line[m.start():]) if m else (line, "")
        lines.append((code, com))
    body = turn("\n".join(c for c, _ in lines), f).split("\n")
    res = []
    for b, (_, com) in zip(body, lines):
        com = re.sub(r"[\w'?]+(?:-[\w'?]+)*", lambda m: snake(m.group(0)) if (m.group(0) in declared and target(m.group(0), f)) else m.group(0), com)
        res.append(b + com)
    return "\n".join(res)

def rt_text(s, f):
    # clauses: ghost use .. ; requires/ensures .. { .. } and comments' declared names
    out = []; i = 0
    head = re.compile(r"ghost use [^;]*;|\b(?:requires|ensures)\b(?: \w+)? \{|^[ \t]*ghost \w+: \{", re.M)
    while True:
        m = head.search(s, i)
        if not m: out.append(("code", s[i:])); break
        out.append(("code", s[i:m.start()]))
        if m.group(0).startswith("ghost use"):
            out.append(("clause", m.group(0))); i = m.end(); continue
        d = 1; j = m.end()
        while d: d += {"{": 1, "}": -1}.get(s[j], 0); j += 1
        out.append(("clause", s[m.start():j])); i = j
    whole = "".join(t for k, t in out if k == "clause")
    res = []
    for k, t in out:
        if k == "clause": res.append(turn(t, f))
        else:
            res.append(re.sub(r"//.*", lambda m: re.sub(r"[\w'?]+(?:-[\w'?]+)*", lambda w: snake(w.group(0)) if (w.group(0) in declared and target(w.group(0), f)) else w.group(0), m.group(0)), t))
    return "".join(res)

changed = {}
for f in antt: changed[f] = antt_text(open(f).read(), f)
for f in glob.glob("crates/*/src/*.rt"): changed[f] = rt_text(open(f).read(), f)
for f in glob.glob("crates/*/must-fail/*.edit"):
    s = open(f).read()
    # an edit of specs/ is antt; one of src/ is code, which names no definition
    changed[f] = turn(s, f) if re.search(r"^file: (specs|proofs)/", s, re.M) else s
for f, n, olds in clashes: print("falls together:", f, n, olds)
# two declarations with one new name in one file
print(len({k for k in renames}), "names,", sum(renames.values()), "places,", len(clashes), "to look at")
if write:
    for f, s in changed.items(): open(f, "w").write(s)
