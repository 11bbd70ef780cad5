#!/usr/bin/env python3
"""Brings the repository's own definitions and lemmas to today's spelling: tools/port/names.py [FOLDER]

names.txt beside this file has a line for each name, the old and the new one. The names are replaced as whole words in crates/**/*.antt and in
crates/*/src/**/*.rt: in comments only between backticks, in strings never. It is run once, after port.py, at the top of FOLDER (here if not given).
It refuses to run where two names would fall together, or where a new name stands already.
"""
import pathlib
import re
import sys

HERE = pathlib.Path(__file__).resolve().parent
WORD = r"[^\s(){}.,;:\"\[\]\\`'|⟨⟩]+(?:'+(?=[\s(){}.,;:]|$))?"


def names():
    pairs = [line.split() for line in (HERE / 'names.txt').read_text().splitlines()]
    new = dict(pairs)
    if len(new) != len(pairs) or len(set(new.values())) != len(new):
        raise SystemExit('names.py: two names fall together')
    return new


def renamed(text, new, mark):
    """The text with the new names; mark begins a comment."""
    def word(m):
        return new.get(m.group(0), m.group(0))

    def quoted(m):
        return '`' + re.sub(WORD, word, m.group(1)) + '`'

    lines = []
    for line in text.split('\n'):
        parts = re.split(r'("(?:[^"\\]|\\.)*")', line)
        out, behind = [], False
        for k, part in enumerate(parts):
            if behind:
                out.append(re.sub(r'`([^`]*)`', quoted, part))
            elif k % 2:
                out.append(part)
            else:
                at = re.search(r'(?:^|(?<=\s))' + mark, part)
                code, rest = (part[:at.start()], part[at.start():]) if at else (part, '')
                behind = bool(at)
                out.append(re.sub(WORD, word, code) + re.sub(r'`([^`]*)`', quoted, rest))
        lines.append(''.join(out))
    return '\n'.join(lines)


def main():
    top = pathlib.Path(sys.argv[1] if len(sys.argv) > 1 else '.')
    new = names()
    changed = 0
    for kind, mark in (('antt', '--'), ('rt', '//')):
        for file in sorted((top / 'crates').glob('*/**/*.' + kind)):
            if 'out' in file.relative_to(top).parts:
                continue
            old = file.read_text()
            text = renamed(old, new, mark)
            if text != old:
                file.write_text(text)
                changed += 1
    print('names.py: %d files changed' % changed)


if __name__ == '__main__':
    main()
