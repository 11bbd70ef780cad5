#!/usr/bin/env python3
"""Writes src/letters/tables.rs from Python's own Unicode data: letters.py > src/letters/tables.rs"""
import unicodedata

EVERY = range(0x110000)
PER_LINE = {"pair": 4, "range": 5}


def assigned(code):
    return unicodedata.category(chr(code)) != "Cn"


def ranges(holds):
    """The runs of characters for which it holds; what is not assigned breaks no run."""
    found, last = [], None
    for code in filter(assigned, EVERY):
        if holds(chr(code)):
            if last is not None and found and found[-1][1] == last:
                found[-1][1] = code
            else:
                found.append([code, code])
            last = code
        else:
            last = None
    return found


def composed():
    """Characters that stand for a letter with its marks, but for Hangul (by rule) and Han."""
    for code in EVERY:
        by_rule = 0xAC00 <= code <= 0xD7A3 or 0xF900 <= code <= 0xFAFF or 0x2F800 <= code <= 0x2FA1F
        mapping = unicodedata.decomposition(chr(code))
        if mapping and not mapping.startswith("<") and not by_rule:
            yield code, unicodedata.normalize("NFD", chr(code))


def table(comment, name, kind, items, per_line):
    print(f"\n/// {comment}\npub const {name}: &[{kind}] = &[")
    for at in range(0, len(items), per_line):
        print("    " + " ".join(item + "," for item in items[at:at + per_line]))
    print("];")


def escaped(text):
    return "".join("\\u{%X}" % ord(letter) for letter in text)


print(f"//! Written by letters.py, from Unicode {unicodedata.unidata_version}.")
print("#![cfg_attr(rustfmt, rustfmt_skip)]")
wide = ranges(lambda letter: unicodedata.east_asian_width(letter) in "WF")
marks = ranges(lambda letter: unicodedata.category(letter) in ("Mn", "Me") or "\u1160" <= letter <= "\u11FF")
span = lambda pair: "(0x%X, 0x%X)" % tuple(pair)
table("Letters two columns wide: first and last of each run.", "WIDE", "(u32, u32)", [span(one) for one in wide], 5)
table("Marks that take no column of their own.", "MARKS", "(u32, u32)", [span(one) for one in marks], 5)
whole = ["(0x%X, \"%s\")" % (code, escaped(text)) for code, text in composed()]
table("A letter in one piece, and the same in pieces.", "COMPOSED", "(u32, &str)", whole, 4)
