#!/usr/bin/env python3
"""Sheets as plain text, one item a line.

    sheet.py < TEXT > WORDS           the bytes that flowlist reads
    sheet.py --words < TEXT           the same, as decimal numbers
    sheet.py --show < WORDS           text from such bytes

Lines, with A-B for a span and END for a scope end:

    outer END
    do END                  while COND END A-B      repeat COND END
    for END A-B             if END A-B              elseif END A-B
    else END                end                     until A-B
    local VALUES A-B        name FLAGS A-B          empty
    label NAME A-B          goto NAME A-B           break A-B
    continue A-B            return VALUES A-B       call BITS A-B
    plain A-B               use KIND LOCAL A-B

COND is one of the words below or a number. FLAGS is made of the letters u
(begins with underscore), m (modified), c (captured), or - for none. VALUES of
a local is a number, or ... for a call or `...` last; of a return 0 or 1. NAME
0 has no identifier. KIND is read, write or readwrite, with ^ behind it for a
use that crosses a function. LOCAL counts the names from 0. What follows # is
left out, and so are lines that begin with =, which say what is printed.
"""

import struct
import sys

KINDS = ("do while repeat for if elseif else end until local name label goto "
         "break continue return call plain empty").split()
CONDITIONS = ("nil false true number integer string interpolated table function "
              "vararg var call parenthesized binary unary ifexpression cast "
              "instantiation error").split()
USE_KINDS = "read write readwrite".split()
FLAGS = "umc"
NO_SPAN = {"do", "repeat", "else", "end", "empty"}
SCOPED = {"do", "while", "repeat", "for", "if", "elseif", "else"}
CONDITIONED = {"while", "repeat"}
NUMBERED = {"label", "goto", "return", "call"}


def span_word(text):
    start, end = text.split("-")
    return int(start) + (int(end) << 32)


def condition(word):
    return CONDITIONS.index(word) if word in CONDITIONS else int(word)


def argument(kind, fields):
    """Takes the argument of an item from the front of its fields."""
    if kind in SCOPED:
        code = condition(fields.pop(0)) if kind in CONDITIONED else 0
        return code + 32 * int(fields.pop(0))
    if kind == "local":
        values = fields.pop(0)
        return 65535 if values == "..." else int(values)
    if kind == "name":
        flags = fields.pop(0)
        return sum(1 << FLAGS.index(letter) for letter in flags if letter != "-")
    return int(fields.pop(0)) if kind in NUMBERED else 0


def parse(text):
    outer, items, uses = 0, [], []
    for number, line in enumerate(text.splitlines(), 1):
        fields = line.split("#")[0].split()
        if not fields or fields[0].startswith("="):
            continue
        kind = fields.pop(0)
        try:
            if kind == "outer":
                outer = int(fields.pop(0))
            elif kind == "use":
                how, crossing = fields[0].rstrip("^"), fields.pop(0).endswith("^")
                high = USE_KINDS.index(how) + 4 * crossing
                uses.append((int(fields.pop(0)) + 65536 * high, span_word(fields.pop(0))))
            else:
                word = KINDS.index(kind) + 1 + 256 * argument(kind, fields)
                items.append((word, 0 if kind in NO_SPAN else span_word(fields.pop(0))))
            if fields:
                raise ValueError("too many words")
        except (ValueError, IndexError) as fault:
            sys.exit(f"line {number}: {line.strip()}: {fault}")
    return ([len(items), outer] + [word for word, _ in items] + [span for _, span in items]
            + [len(uses)] + [word for word, _ in uses] + [span for _, span in uses])


def show_span(word):
    return f"{word % 2**32}-{word >> 32}"


def show_item(word, span):
    kind, value = KINDS[word % 256 - 1], word // 256
    fields = [kind]
    if kind in CONDITIONED:
        fields.append(CONDITIONS[value % 32])
    if kind in SCOPED:
        fields.append(value // 32)
    elif kind == "local":
        fields.append("..." if value == 65535 else value)
    elif kind == "name":
        fields.append("".join(FLAGS[bit] for bit in range(3) if value >> bit & 1) or "-")
    elif kind in NUMBERED:
        fields.append(value)
    if kind not in NO_SPAN:
        fields.append(show_span(span))
    return " ".join(map(str, fields))


def show(words):
    count = words[0]
    print("outer", words[1])
    for at in range(count):
        print(show_item(words[2 + at], words[2 + count + at]))
    uses = words[2 + 2 * count:]
    for at in range(uses[0]):
        word, span = uses[1 + at], uses[1 + uses[0] + at]
        how = USE_KINDS[word // 65536 % 4] + "^" * (word // 65536 // 4)
        print("use", how, word % 65536, show_span(span))


def main():
    option = sys.argv[1] if len(sys.argv) > 1 else ""
    if option == "--show":
        data = sys.stdin.buffer.read()
        show(struct.unpack(f"<{len(data) // 8}Q", data))
    elif option in ("", "--words"):
        words = parse(sys.stdin.read())
        if option:
            print(*words)
        else:
            sys.stdout.buffer.write(struct.pack(f"<{len(words)}Q", *words))
    else:
        sys.exit(__doc__)


if __name__ == "__main__":
    main()
