#!/usr/bin/env python3
"""Lists the places in crates/*/src that have the form of one of the points of docs/DESIGN-PASS.md, by their text.

usage: python3 tools/places.py [-c] [POINT..]    at the top of the repository; -c counts alone

Comments are left out. The text tells forms and no meaning: what a place is and whether it stays is said in the page.
"""
import glob
import re
import sys

INTEGER = r"(?:usize|u8|u16|u32|u64)"


def sources():
    for path in sorted(glob.glob("crates/*/src/**/*.rt", recursive=True)):
        lines = open(path).read().split("\n")
        yield path, [re.sub(r"(^|\s)//.*", "", line) for line in lines]


def functions():
    """(path, line, name, parameters, clauses, body): parameters as (name, type), clauses as text."""
    for path, lines in sources():
        text = "\n".join(lines)
        for match in re.finditer(r"\bfn (\w+)(<[^>(]*>)?\(", text):
            at, depth = match.end(), 1
            while depth:
                depth += {"(": 1, ")": -1}.get(text[at], 0)
                at += 1
            parameters = []
            for part in re.split(r",(?![^<\[(]*[>\])])", text[match.end() : at - 1]):
                name, _, kind = part.strip().partition(":")
                if name:
                    parameters.append((name.strip().removeprefix("mut "), kind.strip()))
            head = at
            while True:
                clause = re.compile(r"\s*(?:->[^{;]*?)?\s*(?:requires|ensures|ghost)\*?[^{;]*\{").match(text, head)
                if not clause:
                    break
                head, depth = clause.end(), 1
                while depth:
                    depth += {"{": 1, "}": -1}.get(text[head], 0)
                    head += 1
            open_brace = re.compile(r"[^{;]*[{;]").match(text, head)
            if not open_brace or text[open_brace.end() - 1] == ";":
                continue
            end, depth = open_brace.end(), 1
            while depth:
                depth += {"{": 1, "}": -1}.get(text[end], 0)
                end += 1
            line = text.count("\n", 0, match.start()) + 1
            yield path, line, match.group(1), parameters, text[at:head], text[open_brace.end() : end - 1]


def by_line(pattern):
    for path, lines in sources():
        for number, line in enumerate(lines, 1):
            if re.search(pattern, line):
                yield f"{path}:{number}: {line.strip()}"


def enums():
    yield from by_line(r"^\s*(pub )?enum \w")


def kind_numbers():
    for path, lines in sources():
        if re.search(r"words/src/(kind|use_kind|scope_kind)\.rt$", path):
            for number, line in enumerate(lines, 1):
                if "pub const" in line:
                    yield f"{path}:{number}: {line.strip()}"


def sentinels():
    yield from by_line(r"const (NO_\w+|NO|NONE|NOWHERE|MISSING|ABSENT|NAME_WITHOUT\w+|OPEN)\b")


def none_as_number():
    """Functions that answer a number by `return 0;` or a last `0`, beside another result."""
    for path, line, name, _, _, body in functions():
        if re.search(r"return 0;|\n\s*0\n\s*\}?\s*$|\{ 0 \}|=> 0,", body) and re.search(r"[^\s0]", body):
            yield f"{path}:{line}: {name}"


def flags():
    """Flags that are handed on or kept: parameters and fields of type bool."""
    for path, line, name, parameters, _, _ in functions():
        for parameter, kind in parameters:
            if kind == "bool":
                yield f"{path}:{line}: {name}({parameter})"
    for path, lines in sources():
        text = "\n".join(lines)
        for match in re.finditer(r"\bstruct (\w+)[^{;]*\{([^}]*)\}", text):
            for field in re.findall(r"(\w+): bool", match.group(2)):
                yield f"{path}: {match.group(1)}.{field}"


def twins():
    """Functions of one shape: the same text once names and numbers are left out."""
    shapes = {}
    for path, line, name, _, _, body in functions():
        seen = {}

        def shape(token):
            word = token.group(0)
            if re.match(r"(let|mut|if|else|while|for|in|return|match|as)$", word):
                return word
            if re.match(r"(?:[\d]|(?:\w+::)*[A-Z][A-Z_0-9]*$)", word):
                return "0"
            return "x" + str(seen.setdefault(word, len(seen)))

        text = re.sub(r"[A-Za-z_][\w]*(?:::\w+)*|\d\w*", shape, re.sub(r",\s*\)", ")", body))
        text = re.sub(r"\s+", "", text)
        if len(text) > 16:
            shapes.setdefault(text, []).append(f"{path}:{line}: {name}")
    for places in shapes.values():
        if len(places) > 1:
            yield "; ".join(places)


def loops():
    yield from by_line(r"^\s*(while|loop)\b")


def counters():
    yield from by_line(r"^\s*\w+ [+-]= 1;")


def conversions():
    """Functions of one step whose body is a cast, or an `if` or `match` of plain values."""
    value = r"(?:[\w:.]+|\w+ as \w+|\d+)"
    for path, line, name, _, _, body in functions():
        text = re.sub(r"\s+", " ", body).strip()
        arms = r"match [\w.]+ \{ (?:[\w:|()_ ]+ => " + value + r",? )+\}"
        choice = r"if \w+ \{ (?:return )?" + value + r";? \}(?: else \{)? " + value + r"(?: \})?"
        if re.fullmatch(r"\w+ as \w+|" + arms + "|" + choice, text):
            yield f"{path}:{line}: {name}"
        elif re.search(r"\b(b'0'|<< 8|\* BYTE)\b", text):
            yield f"{path}:{line}: {name}"


def copies():
    """Fields set one after the other from those of another value."""
    for path, line, name, _, _, body in functions():
        if len(re.findall(r"self\.(\w+) = \w+\.\1;", body)) > 1:
            yield f"{path}:{line}: {name}"


def wide():
    """Functions with more than seven parameters."""
    for path, line, name, parameters, _, _ in functions():
        if len(parameters) > 7:
            yield f"{path}:{line}: {name}: {len(parameters)} parameters"


def facts():
    """A part of a requires, its names left out, that stands in three functions or more."""
    places = {}
    for path, line, name, _, clauses, _ in functions():
        found = set()
        for clause in re.findall(r"requires(?: \w+)? \{(.*?)\}\s*(?=requires|ensures|$)", clauses, re.S):
            for part in clause.split("×"):
                part = re.sub(r"\s+", " ", part.replace("(", "").replace(")", "")).strip()
                found.add(re.sub(r"\.(now|old)\b", "", part))
        for part in found:
            places.setdefault(part, []).append(f"{path}:{line}: {name}")
    for part, where in sorted(places.items()):
        if len(where) > 2:
            yield f"{part}: " + "; ".join(where)


def counted_buffers():
    """A slice or array parameter with its fill, height or length beside it."""
    beside = r"top|top0|count|at|depth|before|n|names|codes|nodes|buckets|done|to"
    for path, line, name, parameters, _, _ in functions():
        buffers = [p for p, kind in parameters if re.match(r"&(?:'\w+ )?(?:mut )?\[", kind)]
        counts = [p for p, kind in parameters if kind == "usize" and re.fullmatch(beside, p)]
        if buffers and counts:
            yield f"{path}:{line}: {name}({', '.join(buffers)} / {', '.join(counts)})"


def local_arrays():
    yield from by_line(r"let mut \w+ = \[.*; .*\];")


def switches():
    """A flag that says which of two things is done: a bool parameter that an `if` of the body reads."""
    for path, line, name, parameters, _, body in functions():
        for parameter, kind in parameters:
            if kind == "bool" and re.search(r"\bif !?" + parameter + r"\b", body):
                yield f"{path}:{line}: {name}({parameter})"


POINTS = {
    "1": [enums, kind_numbers, sentinels, none_as_number, flags],
    "2": [twins],
    "3": [loops, counters],
    "4": [conversions, copies],
    "5": [wide, facts],
    "6": [counted_buffers, local_arrays],
    "7": [switches],
}


def main():
    words = sys.argv[1:]
    alone = "-c" in words
    for point in [w for w in words if w != "-c"] or sorted(POINTS):
        for form in POINTS[point]:
            places = list(form())
            print(f"{point} {form.__name__}: {len(places)}")
            if not alone:
                for place in places:
                    print(f"    {place}")


main()
