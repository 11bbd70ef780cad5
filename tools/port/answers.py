#!/usr/bin/env python3
"""Turns the proofs that the older Rattle tied together into today's files: tools/port/answers.py CRATE NAMES [FUNCTION ..]

NAMES is what `rt check --generated FOLDER --old-names` wrote for the crate (FOLDER/names.json). Of each proofs/F/Proof.antt that ends in
`tie.close (tie.spec ..)` the invariants and measures go to Invariants.antt and the rest to Answers.antt; Proof.antt goes. Steps and goals get
the names that names.json has for them. What it can't turn it says, and leaves out: the check then says what is still wanted.
"""
import json
import pathlib
import re
import sys
import tempfile

# Where the answers go whose goal has no name in names.json (the goal may be found without them now).
LEFT = pathlib.Path(tempfile.gettempdir()) / 'port-left'

IDENT = r"[^\s(){}.,;:\"\[\]\\`|⟨⟩]+"


def norm(name):
    return name.replace('_', '-')


def blocks(text):
    """The header's comment, the use lines, and the blocks: what begins at the line's start, with the comments before it."""
    head, uses, out, comment = [], [], [], []
    seen = False
    for line in text.split('\n'):
        if line.startswith('use '):
            uses.append(line)
            seen = True
            if comment and not out:
                head += comment
                comment = []
        elif line.startswith('--'):
            (comment if seen else head).append(line)
        elif not line.strip():
            continue
        elif line[0] in ' \t':
            out[-1].append(line)
        else:
            name = re.match(r'(?:abbrev |pub |unfoldable )*(' + IDENT + ')', line).group(1)
            if out and not comment and (line.startswith('unfolding') or re.match(re.escape(owner(out[-1])) + r'(?=\s)', line)) and not re.match(r'(?:abbrev |pub |unfoldable )', line):
                out[-1].append(line)
            else:
                out.append(comment + [line])
                comment = []
    return head, uses, out


def owner(block):
    line = next(x for x in block if not x.startswith('--'))
    return re.match(r'(?:abbrev |pub |unfoldable )*(' + IDENT + ')', line).group(1)


class Turn:
    def __init__(self, crate, where, names, said):
        self.crate, self.where, self.names, self.said = crate, where, names, said
        key = 'Rattle-%s-proofs.%s.Lts' % (crate, where)
        self.it = names.get(key)
        if self.it is None:
            raise KeyError(key)
        self.needs = {norm(a): b for a, b in self.it['needs']}
        self.steps = {}
        for _, _, (a, b), _, _ in self.it['places']:
            self.steps.setdefault(norm(a), b)
        self.known = {}
        for typed in self.it['typed']:
            for var, step in typed:
                self.known.setdefault(norm(step), var)

    def step(self, old):
        n = norm(old)
        if n in ('args', 'requires', 'ranges', 'type-inv'):
            return old
        for m in (n, re.sub(r'-lem(-2)?$', '', n)):
            if m in self.known:
                return 'type_inv.' + self.known[m]
            if m in self.steps:
                return self.steps[m]
        self.said('no step %s' % old)
        return old

    def body(self, text):
        text = re.sub(r'\bc\.((?:before\.)*)(' + IDENT + ')', lambda m: 'c.' + self.step(m.group(2)), text)
        text = re.sub(r'(the-(?:shared-slice-known|mut-slice-known|slice-known)[0-9-]*)\.given', r'\1', text)
        return self.negated(text)

    def negated(self, text):
        """What an `if !x` said of `not x` it says of `x` now."""
        for name in set(re.findall(r'let (' + IDENT + r') = c\.(?:if|loop)-not-' + IDENT + r' in', text)):
            text = re.sub(r'(?<![\w-])' + re.escape(name) + r'\.(true|false)(?![\w-])', r'(ap not ' + name + r'.\1)', text)
        return text

    def answer(self, block, old):
        new = self.needs.get(norm(old))
        if new is None:
            self.said('no goal %s: kept in LEFT' % old)
            new = '%s-OLD' % norm(old)
            self.left = True
        else:
            self.left = False
        me, out = owner(block), []
        for line in block:
            if line.startswith('--') or line.startswith('unfolding'):
                out.append(line)
            elif re.match(r'(?:abbrev |pub )*' + re.escape(me) + ' : ', line):
                out.append('pub %s : goal.%s' % (new, new))
            elif line.startswith('    ') and out and out[-1].startswith('pub '):
                continue
            else:
                m = re.match(re.escape(me) + r'((?:\s+' + IDENT + r')*)\s+=(.*)$', line)
                if m:
                    args = m.group(1).split()
                    if args and args[0] != 'c':
                        self.said('%s takes %s' % (old, args))
                    out.append('%s c =%s' % (new, m.group(2)))
                else:
                    out.append(line)
        return self.body('\n'.join(out))

    def invariant(self, block, old):
        word, loop = re.match(r'(invariant|decreases)-(.*)', old).groups()
        at = next((k for k, ((a, b), vs) in enumerate(self.it['loops']) if norm(a) == norm(loop)), None)
        if at is None:
            self.said('no loop %s' % loop)
            return None
        (_, new), variables = self.it['loops'][at]
        changed = self.it['changed'][at]
        text = '\n'.join(x for x in block if not x.startswith('--'))
        m = re.search(r'^' + re.escape(owner(block)) + r'((?:\s+' + IDENT + r')*)\s+=(.*)', text, re.M | re.S)
        params = m.group(1).split()
        slots = [('l.initial.' if c else 'l.') + v for v, c in zip(variables, changed)] + ['l.' + v for v, c in zip(variables, changed) if c]
        if len(params) != len(slots):
            self.said('%s: %d names %s for %d variables %s' % (old, len(params), params, len(slots), slots))
            by = {}
            for p in params:
                by[p] = ('l.initial.' if p.endswith('₀') else 'l.') + p.rstrip('₀')
        else:
            by = dict(zip(params, slots))
        body = re.sub(r'(?<![.\w-])' + IDENT, lambda w: by.get(w.group(0), w.group(0)), m.group(2))
        comments = [x for x in block if x.startswith('--')]
        unf = [x for x in block if x.startswith('unfolding')]
        name = '%s-%s' % (word, new)
        return '\n'.join(comments + ['abbrev pub %s : goal.%s' % (name, name)] + unf + ['%s l =%s' % (name, body)])


def used(uses, text):
    out = []
    for line in uses:
        m = re.match(r'(use [^{]*\.)\{([^}]*)\}$', line)
        if not m:
            out.append(line)
            continue
        keep = []
        for name in (x.strip() for x in m.group(2).split(',')):
            bare = name.split(' as ')[-1].strip()
            parts = [p for p in bare.split('◌') if p]
            if all(re.search(r'(?<![^\s(){}.,;\[\]])' + re.escape(p) + r'(?![^\s(){}.,;:\[\]])', text) for p in parts):
                keep.append(name)
        if keep:
            out.append('%s{%s}' % (m.group(1), ', '.join(keep)))
    return out


def turn(crate_dir, names, file):
    crate = crate_dir.name
    where = str(file.parent.relative_to(crate_dir / 'proofs')).replace('/', '.')
    def said(what):
        print('%s %s: %s' % (crate, where, what))
    head, uses, all_blocks = blocks(file.read_text())
    if not any('tie.close' in x for b in all_blocks for x in b):
        said('walked by hand: left')
        return
    try:
        t = Turn(crate, where, names, said)
    except KeyError:
        said('not in names.json')
        return
    uses = [u for u in uses if not re.search(r'\.Statement\.\{|\.Tie as tie$', u)]
    invariants, answers, local, left = [], [], [], []
    for b in all_blocks:
        sig = next(x for x in b if not x.startswith('--'))
        m = re.search(r' : tie\.(Need|invariant|decreases)-(' + IDENT + ')', sig)
        if 'tie.close' in '\n'.join(b):
            inline = re.findall(r'\(λ c(?: κs)?\. (?!search rules\))[^\n]*', '\n'.join(b))
            for x in inline:
                said('inline: ' + x)
        elif m and m.group(1) == 'Need':
            a = t.answer(b, m.group(2))
            (left if t.left else answers).append(a)
        elif m:
            a = t.invariant(b, m.group(1) + '-' + m.group(2))
            if a:
                invariants.append(a)
        else:
            local.append('\n'.join(b))
    base = 'Rattle.%s.proofs.%s' % (crate, where)
    made = []
    if invariants:
        text = '\n\n'.join(invariants)
        loc = [x for x in local if re.search(r'(?<![\w-])' + re.escape(owner(x.split('\n'))) + r'(?![\w-])', text)]
        text = '\n\n'.join(loc + invariants)
        (file.parent / 'Invariants.antt').write_text('\n'.join(head + used(uses, text) + ['use %s.Given as goal' % base]) + '\n\n' + text + '\n')
        made.append('Invariants')
    if answers:
        text = '\n\n'.join(local + answers)
        more = ['use Rattle.std.proofs.Common.{ap}', 'use Rattle.std.specs.Prelude.{not}'] if '(ap not ' in text else []
        uses = [re.sub(r'(?<=[{ ])ap, ', '', u) if more else u for u in uses]
        (file.parent / 'Answers.antt').write_text('\n'.join((head if not invariants else []) + more + used(uses, text) + ['use %s.Goals as goal' % base]) + '\n\n' + text + '\n')
        made.append('Answers')
    if left:
        LEFT.mkdir(exist_ok=True)
        (LEFT / ('%s.%s.antt' % (crate, where))).write_text('\n'.join(uses) + '\n\n' + '\n\n'.join(left) + '\n')
    file.unlink()
    print('%s %s: %s' % (crate, where, ', '.join(made) or 'nothing is left to say'))


def main():
    crate_dir = pathlib.Path(sys.argv[1]).resolve()
    names = json.load(open(pathlib.Path(sys.argv[2]) / 'names.json'))
    only = sys.argv[3:]
    for file in sorted((crate_dir / 'proofs').rglob('Proof.antt')):
        where = str(file.parent.relative_to(crate_dir / 'proofs')).replace('/', '.')
        if not only or where in only:
            turn(crate_dir, names, file)


if __name__ == '__main__':
    main()
