#!/usr/bin/env python3
"""Spells the repository's own definitions and lemmas as today's Rattle does: words in snake case.

usage: tools/names.py [--dry] [FOLDER]      FOLDER holds crates/; without it, the folder above this file's

It runs once, behind the toolchain's port.py. A name that the files of specs/ and proofs/ declare, and that has a capital inside or a dash, gets
underscores: `countWord` is `count_word`, `closure-alike` is `closure_alike`. Names that begin with a capital are types and stay. A name that a file
imports from elsewhere stays in that file, and so do names that Rattle makes: the goals of a function, and what stands behind `goal.` or `tie.`.
OTHER has the names that would meet another name. Functions of src/, strings, inputs and outputs keep their text.
"""
import os
import re
import sys

WORD = r"[^\s(){}.;,@\"«»⌜⌝]+"
# Names that would fall together with another, and what they are called instead: the definition with a parameter of a function of that name, and lemmas with
# the definition that they are about, to which main() adds each dashed name whose words are those of another name.
OTHER = {"nameNode": "node_of_name"}
# Lemmas in snake case already that would so: the crates where they are turned, the definition that they would meet, and what they are called instead.
LEMMAS = {"all_found": (("flow", "tables"), "allFound", "all_found_law"), "in_order": (("flow",), "inOrder", "in_order_law")}
OWN = re.compile(r"Rattle\.(?!std\b|core\b|std_)\w+\b")


def files(root):
    for folder, dirs, names in os.walk(os.path.join(root, "crates")):
        dirs[:] = sorted(d for d in dirs if d != "out")
        for n in sorted(names):
            if n.endswith((".antt", ".rt")):
                yield os.path.join(folder, n)


def in_snake_case(name):
    if name in OTHER:
        return OTHER[name]
    return re.sub(r"(?<=[A-Za-z0-9])[A-Z](?=[a-z]|[A-Z][a-z])|(?<=[a-z0-9])[A-Z]", lambda m: "_" + m[0].lower(), name).replace("-", "_")


def turns(name):
    return bool(re.fullmatch(r"[a-zℓ][\w'ℓ₀-₉α-ω-]*", name)) and in_snake_case(name) != name


def bare(text):
    return re.sub(r"--[^\n]*", "", text)


def foreign(text):
    """The names that a file imports from other libraries than this repository's."""
    found = set()
    for m in re.finditer(r"(?m)^(?:ghost )?use ([^\s;{]+?)\.\{([^}]*)\}", text):
        if not OWN.match(m[1]) or ".declared" in m[1]:
            for item in m[2].split(","):
                found |= {w for w in item.split() if w != "as"}
    return found


def is_answer(path):
    return os.path.basename(path) == "Proof.antt"


def declared(path, text):
    """The names that a file declares: signatures, constructors, fields, what a `where` or a `let` binds."""
    found = set()
    text = bare(text)
    for m in re.finditer(rf"(?m)^ *(?:(?:pattern|unfoldable|abbrev|pub|data|record|mutual) +)*((?:{WORD} +)*?{WORD})(?: +[({{][^\n]*?[)}}])* +:(?= |$)", text):
        found |= set(m[1].split())
    for m in re.finditer(rf"\blet ({WORD})\b", text):
        found.add(m[1])
    for m in re.finditer(rf"[{{;(] *({WORD}) :(?= )", text):
        found.add(m[1])
    for m in re.finditer(rf"(?m)^ *({WORD})(?: :(?= )| = )", text):
        found.add(m[1])
    return {n for n in found if turns(n)}


def names(root):
    own = set()
    for p in files(root):
        if p.endswith(".antt") and not is_answer(p):
            with open(p, encoding="utf-8") as f:
                text = f.read()
            own |= declared(p, text) - foreign(text)
    return own


def snake_names(root):
    """The names that files of specs/ and proofs/ declare in snake case already."""
    found = set()
    for p in files(root):
        if p.endswith(".antt") and not is_answer(p):
            with open(p, encoding="utf-8") as f:
                text = bare(f.read())
            for m in re.finditer(rf"(?m)^ *(?:(?:pattern|unfoldable|abbrev|pub|data|record|mutual) +)*((?:{WORD} +)*?{WORD})(?: +[({{][^\n]*?[)}}])* +:(?= |$)", text):
                found |= {n for n in m[1].split() if "_" in n}
    return found


def turned(path, text, own):
    here = set(own)
    if is_answer(path):
        # what an answer file declares of its own, but for goals
        mine = {n for n in declared(path, text)}
        goals = set(re.findall(rf"(?m)^(?:pub )?({WORD}) : (?:tie|goal)\.", text))
        here = own | (mine - goals)
        here -= goals - own
    keep = foreign(text)

    crate = path.split(os.sep + "crates" + os.sep)[1].split(os.sep)[0]

    def word(m):
        w, before = m[0], m.string[max(0, m.start() - 5) : m.start()]
        if w in LEMMAS and path.endswith(".antt") and crate in LEMMAS[w][0] and LEMMAS[w][1] in own:
            return LEMMAS[w][2]
        if w not in here or w in keep:
            return w
        if before.endswith(("tie.", "goal.")):
            return w
        return in_snake_case(w)

    if path.endswith(".antt"):
        return re.sub(rf"--[^\n]*|\"[^\"\n]*\"|{WORD}", lambda m: spans(m, here, keep) if m[0].startswith("--") else m[0] if m[0].startswith('"') else word(m), text)
    return re.sub(r"//[^\n]*|\"(?:\\.|[^\"\\\n])*\"|[A-Za-zℓ][\w'-]*", lambda m: spans(m, here, keep) if m[0].startswith("//") else m[0] if m[0].startswith('"') else word(m), text)


def spans(m, here, keep):
    """A comment's code spans."""
    return re.sub(r"`[^`\n]*`", lambda s: re.sub(r"[A-Za-zℓ][\w'-]*", lambda w: in_snake_case(w[0]) if w[0] in here and w[0] not in keep else w[0], s[0]), m[0])


def meetings(root, own):
    """Where two names of one file would be one."""
    for p in files(root):
        with open(p, encoding="utf-8") as f:
            text = f.read()
        keep = foreign(text)
        words = set(re.findall(WORD, bare(text)))
        new = {}
        for w in words:
            n = in_snake_case(w) if w in own and w not in keep else w
            new.setdefault(n, set()).add(w)
        for n, olds in new.items():
            if len(olds) > 1:
                yield p, n, sorted(olds)


def main():
    dry = "--dry" in sys.argv
    args = [a for a in sys.argv[1:] if not a.startswith("--")]
    root = args[0] if args else os.path.join(os.path.dirname(os.path.abspath(__file__)), "..")
    own = names(root)
    plain = {in_snake_case(n) for n in own if "-" not in n} | snake_names(root)
    for n in sorted(own):
        if "-" in n and in_snake_case(n) in plain:
            OTHER[n] = in_snake_case(n) + "_law"
            print(f"{n}: {OTHER[n]}")
    for p, n, olds in meetings(root, own):
        print(f"{os.path.relpath(p, root)}: {n}: {', '.join(olds)}")
    count = 0
    for p in files(root):
        with open(p, encoding="utf-8") as f:
            text = f.read()
        new = turned(p, text, own)
        if new != text:
            count += 1
            if not dry:
                with open(p, "w", encoding="utf-8") as f:
                    f.write(new)
    print(f"names: {len(own)} names, {count} files")


main()
