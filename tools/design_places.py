#!/usr/bin/env python3
"""Counts the places of docs/DESIGN-PASS.md's points in crates/*/src: `tools/design_places.py [--list] [POINT..]`.

Each point is a search that a reader can check by eye: it lists candidates, and the page says of each what became of it.
"""
import re
import sys
from collections import defaultdict
from pathlib import Path

ROOT = Path(__file__).resolve().parent.parent
FILES = sorted(ROOT.glob("crates/*/src/*.rt"))


def text(path):
    """A file without comments; strings stay."""
    return "\n".join(re.sub(r"//.*", "", line) for line in path.read_text().split("\n"))


def where(path, body, at):
    return f"{path.relative_to(ROOT)}:{body.count(chr(10), 0, at) + 1}"


def block(body, at):
    """From the brace at or behind `at` to its end."""
    start = body.index("{", at)
    depth = 0
    for i in range(start, len(body)):
        depth += (body[i] == "{") - (body[i] == "}")
        if depth == 0:
            return body[start : i + 1]
    return body[start:]


class Function:
    def __init__(self, path, body, match):
        self.path, self.name, self.at = path, match.group("name"), where(path, body, match.start())
        rest = body[match.start() :]
        opening = re.search(r"^\s*\{$", rest, re.M)
        one_line = re.search(r"\{[^{}]*$", rest.split("\n")[0])
        end = opening.start() if opening and not one_line else rest.index("{")
        self.head = rest[:end]
        self.code = block(rest, end)
        self.public = "pub " in match.group(0)


def functions():
    head = re.compile(r"^[ ]*(pub )?(extern \"C\" )?fn (?P<name>\w+)", re.M)
    for path in FILES:
        body = text(path)
        for match in head.finditer(body):
            yield Function(path, body, match)


def point_1():
    """Own enums, flags with a value beside, numbers for kinds."""
    for path in FILES:
        body = text(path)
        for match in re.finditer(r"^\s*(pub )?enum (\w+)", body, re.M):
            yield f"{where(path, body, match.start(2))}: enum {match.group(2)}"
        for match in re.finditer(r"^\s*(pub )?struct (\w+)[^;{]*\{", body, re.M):
            fields = block(body, match.start())
            if re.search(r"\b(ok|known|outcome|verdict|go|is_alike): |\bline: Line,", fields):
                yield f"{where(path, body, match.start(2))}: struct {match.group(2)}, a flag with values beside"
    for f in functions():
        if re.search(r"\bmatch kind\b|\b(k|kind|p) == \d+|\b\d+ <= k\b|\bn == [01]\b", f.code) and re.search(r"\b(k|kind|p|n): (u32|usize|u8)|item: Item", f.head):
            yield f"{f.at}: fn {f.name}, a number for a kind"


def point_2():
    """Functions of one shape: the same text once names, numbers and texts are left out."""
    shapes = defaultdict(list)
    for f in functions():
        shape = re.sub(r'b?"(\\.|[^"\\])*"', "S", f.code)
        shape = re.sub(r"\b(0x[\da-f_]+|[\d_]+)(u\d+|usize)?\b", "N", shape)
        shape = re.sub(r"\b(?!if\b|else\b|match\b|return\b|let\b|while\b|for\b|loop\b|mut\b|S\b|N\b)[A-Za-z_]\w*(::\w+)*", "x", shape)
        shape = re.sub(r"\s+", " ", shape)
        if len(shape) > 40:
            shapes[shape].append(f)
    for group in shapes.values():
        if len(group) > 1:
            yield "; ".join(f"{f.at} {f.name}" for f in group)


def point_3():
    """Loops written with `while` or `loop`."""
    for f in functions():
        for match in re.finditer(r"^\s*(while|loop)\b.*", f.code, re.M):
            yield f"{f.at}: fn {f.name}: {match.group(0).strip()}"


BY_HAND = r"""wide flag same spells has larger least is_idle is_pc is_blank first_byte worth in_state grown_to told keep sp_or
number value digit hex_digit state_in state_number value_in top_in registers_in collector_in state_words register_words memory_words complete_number
line_by number_of fits""".split()


def point_4():
    """Equality, order, copying, conversion and printing by hand: functions of these names, and each that prints or puts text."""
    for f in functions():
        if f.name in BY_HAND or re.match(r"(put|print|say|expect|write)(_|$)", f.name):
            yield f"{f.at}: fn {f.name}"
    for path in FILES:
        body = text(path)
        for match in re.finditer(r"^\s*#\[derive\(([^)]*)\)\]\n\s*(pub )?(struct|enum) (\w+)", body, re.M):
            if "PartialEq" not in match.group(1):
                yield f"{where(path, body, match.start(4))}: {match.group(4)} derives {match.group(1)} alone"


def point_5():
    """Facts that stand in the `requires` of three or more functions, and parameters that five or more take together."""
    facts, lists = defaultdict(list), defaultdict(list)
    for f in functions():
        needs = re.search(r"requires \{(.*)\}$", f.head, re.M)
        if needs:
            for fact in re.split(r" × ", needs.group(1)):
                facts[re.sub(r"^[( ]+|[) ]+$", "", fact)].append(f)
        names = re.findall(r"(\w+): (?:&'?\w* ?(?:mut )?)?[\[\w]", f.head.split("ensures")[0].split("requires")[0])
        for size in range(2, len(names) + 1):
            for i in range(len(names) - size + 1):
                lists[tuple(names[i : i + size])].append(f)
    for fact, users in facts.items():
        if len(users) > 2:
            yield f"{fact}: {len(users)} functions"
    wide = {k: v for k, v in lists.items() if len(v) > 4}
    for group, users in wide.items():
        if not any(len(g) > len(group) and set(group) <= set(g) and 2 * len(wide[g]) >= len(users) for g in wide):
            yield f"{', '.join(group)}: {len(users)} functions"


def point_6():
    """Arrays with a count beside, in a struct or as parameters; a search of a sorted list by hand."""
    for path in FILES:
        body = text(path)
        for match in re.finditer(r"^\s*(pub )?struct (\w+)[^;{]*\{", body, re.M):
            fields = block(body, match.start())
            if re.search(r": \[", fields) and re.search(r"\b(count|len|n): ", fields):
                yield f"{where(path, body, match.start(2))}: struct {match.group(2)}"
    for f in functions():
        head = f.head.split("ensures")[0].split("requires")[0]
        if re.search(r"\w+: &(?:'\w+ )?(?:mut )?\[[^\]]*\],\s*(count|n|bytes): (usize|u32)|\w+: \[u32; \d+\],\s*count: u32", head):
            yield f"{f.at}: fn {f.name}: a list and how much of it counts"
        if re.search(r"\blo\b.*\bhi\b", f.code, re.S):
            yield f"{f.at}: fn {f.name}: a search by halves"


def point_7():
    """Switches on which step to run: three or more tests of one value against numbers or variants, each with a call."""
    for f in functions():
        tests = re.findall(r"\bif (\w+) == \w+ \{\s*return \w+[(:]", f.code)
        arms = re.findall(r"^\s*\w+(?:::\w+)?(?:\([^)]*\)|\s*\{[^}]*\})? => .*\(", f.code, re.M)
        if max((tests.count(t) for t in set(tests)), default=0) > 2 or len(arms) > 2:
            yield f"{f.at}: fn {f.name}"


def point_8():
    """Lemmas and definitions that nothing cites."""
    sources = {p: re.sub(r"--.*", "", p.read_text()) for d in ("proofs", "specs") for p in ROOT.glob(f"crates/*/{d}/**/*.antt")}
    everything = "\n".join(sources.values()) + "\n".join(p.read_text() for p in FILES)
    named = set(re.findall(r"[\w'?-]+", (ROOT / "docs/PROMISES.md").read_text()))
    words = defaultdict(int)
    for word in re.findall(r"[^\s(){}.,;:\[\]`]+", everything):
        words[word] += 1
    for path, body in sorted(sources.items()):
        if "/Answers" in str(path) and "proofs" in str(path) or "/Invariants" in str(path):
            continue
        for match in re.finditer(r"^[ ]*(?:unfoldable |abbrev )?pub (?:ruleset |abbrev |unfoldable )?([^\s{}:]+) ?(?:\{[^}]*\} ?)?:", body, re.M):
            name = match.group(1)
            own = len(re.findall(rf"(?<![^\s(){{}}.,;:\[\]`]){re.escape(name)}(?![^\s(){{}}.,;:\[\]`])", body))
            if words[name] == own and not re.search(rf"[(,\s.]{re.escape(name)}\b", re.sub(rf"^[ ]*(?:pub |abbrev |unfoldable )*{re.escape(name)}\b.*", "", body, flags=re.M)):
                note = ", named in docs/PROMISES.md" if name in named else ""
                yield f"{where(path, body, match.start(1))}: {name}{note}"


POINTS = {"1": point_1, "2": point_2, "3": point_3, "4": point_4, "5": point_5, "6": point_6, "7": point_7, "8": point_8}


def main():
    asked = [a for a in sys.argv[1:] if a in POINTS] or list(POINTS)
    for point in asked:
        found = list(POINTS[point]())
        print(f"point {point}: {len(found)}  {POINTS[point].__doc__.strip()}")
        if "--list" in sys.argv:
            print("".join(f"    {line}\n" for line in found), end="")


if __name__ == "__main__":
    main()
