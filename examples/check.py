#!/usr/bin/env python3
"""Holds the plain text of each example's sheet to its script.

    check.py            every folder beside this file that holds a script.lua

A folder holds script.lua, sheet.txt (the form of compare/sheet.py, with the
text of each span behind #) and sheet.bin (its words). What is checked:

- a span's text in the script is what stands behind #; a header's span ends
  where its body begins;
- spans, scope ends and uses stand where the script has the words they mean;
- the uses are all places where the script names a local, each once, and a
  local is marked m exactly when a use writes it;
- sheet.bin holds the words of sheet.txt.

It knows the scripts of the examples and not all of Lua: no two locals of a
script have the same name, and there are no closures, labels or long strings.
"""

import pathlib
import re
import struct
import sys

HERE = pathlib.Path(__file__).resolve().parent
sys.dont_write_bytecode = True
sys.path.insert(0, str(HERE.parent / "compare"))
import sheet  # noqa: E402

OPENING = {"local": "local ", "while": "while ", "for": "for ", "if": "if ", "elseif": "elseif ",
           "break": "break", "goto": "goto ", "return": "return"}
HEADER_END = {"while": " do", "for": " do", "if": " then", "elseif": " then"}


class Wrong(Exception):
    pass


def lines_of(text):
    """Kind, fields, span or None, and the text behind #, for each line of a sheet."""
    for line in text.splitlines():
        words, _, said = line.partition("#")
        fields = words.split()
        if not fields or fields[0].startswith("="):
            continue
        span = None
        if re.fullmatch(r"\d+-\d+", fields[-1]):
            span = tuple(map(int, fields.pop().split("-")))
        yield fields[0], fields[1:], span, said.strip()


def need(holds, why, line):
    if not holds:
        kind, fields, span, said = line
        raise Wrong(f"{kind} {' '.join(fields)} {span}: {why}")


def values_of(local):
    """The values of a LOCAL's text, split at the commas outside parentheses and braces."""
    _, _, values = local.partition("=")
    while re.search(r"[({][^(){}]*[)}]", values):
        values = re.sub(r"[({][^(){}]*[)}]", ")", values)
    return [value.strip() for value in values.split(",")] if values else []


def check_text(script, line):
    """The span holds the text, and the text is one of its kind."""
    kind, fields, span, said = line
    if span is None:
        return
    there = script[span[0]:span[1]]
    text = there.rstrip() if kind in HEADER_END else there
    need(text == said, f"the script has {there!r}", line)
    need(said.startswith(OPENING.get(kind, "")), "not a statement of this kind", line)
    need(said.endswith(HEADER_END.get(kind, "")), "not the whole header", line)
    if kind == "until":
        need(re.search(r"\buntil\s+$", script[:span[0]]), "no until before it", line)
    if kind == "call":
        need(fields == ["6" if said.startswith("error(") else "0"], "6 for a call of error, else 0", line)
    if kind == "local":
        values = values_of(said)
        many = values and values[-1].endswith((")", "..."))
        need(fields == [str(len(values))] or fields == ["..."] and many, "the number of values", line)


def check_nesting(script, lines):
    """Headers end where their body begins; a scope ends where its closing word stands."""
    opened = []
    for at, line in enumerate(lines):
        kind, fields, span, _ = line
        if kind == "outer":
            need(int(fields[0]) == len(script), f"the script has {len(script)} bytes", line)
        if kind in HEADER_END:
            body = next(after[2] for after in lines[at + 1:] if after[2])
            between = script[span[1]:body[0]].strip()
            need(between in ("", "repeat", "do"), "the body begins elsewhere", line)
        if kind == "until":
            need(int(opened.pop()[1][-1]) == span[1], "not the scope end of its repeat", line)
        if kind in ("end", "elseif", "else"):
            scope_end = int(opened.pop()[1][-1])
            need(re.match(kind + r"\b", script[scope_end:]), "no such word at the scope end", line)
            need(span is None or span[0] == scope_end, "starts elsewhere", line)
        if kind in sheet.SCOPED:
            opened.append(line)


def bare(script):
    """The script with comments and strings blanked."""
    return re.sub(r'--[^\n]*|"[^"\n]*"', lambda found: " " * len(found[0]), script)


def check_uses(script, lines):
    names = [line for line in lines if line[0] == "name"]
    uses = [line for line in lines if line[0] == "use"]
    for line in uses:
        how, local = line[1]
        need(int(local) < len(names), "no such local", line)
        need(line[3] == names[int(local)][3], "not that local's name", line)
        writes = re.match(r"\s*=[^=]", script[line[2][1]:]) is not None
        need(writes == (how != "read"), "a write stands before =, a read does not", line)
    for number, line in enumerate(names):
        need(re.fullmatch(r"[A-Za-z_]\w*", line[3]), "not a name", line)
        written = any(use[1] == ["write", str(number)] for use in uses)
        need(("m" in line[1][0]) == written, "m exactly when it is written", line)
        found = {match.span() for match in re.finditer(rf"\b{line[3]}\b", bare(script))}
        stated = [use[2] for use in uses if use[1][1] == str(number)] + [line[2]]
        need(sorted(found) == sorted(stated), f"the script names it at {sorted(found)}", line)


def check(folder):
    script = (folder / "script.lua").read_bytes().decode("ascii")
    text = (folder / "sheet.txt").read_text()
    lines = list(lines_of(text))
    for line in lines:
        check_text(script, line)
    check_nesting(script, [line for line in lines if line[0] != "use"])
    check_uses(script, lines)
    words = sheet.parse(text)
    if struct.pack(f"<{len(words)}Q", *words) != (folder / "sheet.bin").read_bytes():
        raise Wrong("sheet.bin does not hold the words of sheet.txt")
    return len(lines)


def main():
    for script in sorted(HERE.glob("*/script.lua")):
        folder = script.parent
        try:
            print(f"examples/{folder.name}: {check(folder)} lines hold of the script")
        except Wrong as fault:
            sys.exit(f"examples/{folder.name}: {fault}")


if __name__ == "__main__":
    main()
