#!/usr/bin/env python3
"""The names in our own antt that port_names.py passes over, to snake case, once, behind port_forms.py: lemmas with a level argument between
their name and the colon, other names of modules, parameters of a module."""
import glob, re
names = ["by-option", "no-some", "by-window", "by-pair", "call-type", "listing-type", "outcome-type", "esp-idf", "esp-backtrace", "good-g", "good-h"]
word = re.compile(r"(?<![\w'-])(" + "|".join(names) + r")(?![\w'-])")
for f in sorted(glob.glob("crates/*/specs/**/*.antt", recursive=True) + glob.glob("crates/*/proofs/**/*.antt", recursive=True)):
    s = open(f).read()
    t = word.sub(lambda m: m.group(0).replace("-", "_"), s)
    if t != s: open(f, "w").write(t)
