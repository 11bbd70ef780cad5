"""A Proof.antt that answers the needs of a function, or of a cycle of calls, and what a change of the code makes of it."""
import re

from match import Match, kind

NAME = r"[^\s().{},;=]+"
PATH = re.compile(r"(?<![\w.'-])c((?:\s+\.before\b)*)(?:\s+\.(?!before\b)([A-Za-z][\w-]*))?")
# what is left to `search` where nothing like it is answered yet
ARITHMETIC = re.compile(r'(add|sub|mul|div|rem|shl|shr|cast|index|part|slice|shared|array|element)-')


def renamed(text, names):
    """The text with whole names replaced, all at once; never behind a dot."""
    names = {old: new for old, new in names.items() if old != new}
    if not names:
        return text
    some = '|'.join(sorted(map(re.escape, names), key=len, reverse=True))
    return re.sub(r"(?<![\w.·'’₀-])(%s)(?![\w·'’₀-])" % some, lambda m: names[m.group(1)], text)


class Declaration:
    """A declaration with the comment above it; which need it answers, or the place that its c stands at."""

    def __init__(self, text):
        self.text = text
        m = re.search(r'^(?:(?:abbrev|pub|unfoldable|opaque) )*(%s) :(?=\s)' % NAME, text, re.M)
        self.name = m and m.group(1)
        self.type = self.head()
        m = re.search(r'(%s)\.Need-(%s)' % (NAME, NAME), self.type)
        self.alias, self.need = m.groups() if m else (None, None)
        m = not self.need and re.search(r'\(c : (%s)\.(%s)' % (NAME, NAME), self.type)
        if m:
            self.alias = m.group(1)
        self.place = m and m.group(2)
        m = re.search(r'(%s)\.(InvT|MeasureT)-(%s)\s*$' % (NAME, NAME), self.type.strip())
        self.loop = m and (m.group(1), m.group(3))

    def head(self):
        """The type, up to the first clause."""
        if not self.name:
            return ''
        m = re.search(r'^(unfolding |%s\b[^\n:]*=)' % re.escape(self.name), self.text, re.M)
        return self.text[:m.start()] if m else self.text


def declarations(text):
    found, waiting = [], []
    for block in re.split(r'\n(?=\S)', text):
        if block.startswith('--'):
            waiting.append(block)
        elif re.match(r'(?:(?:abbrev|pub|unfoldable|opaque) )*%s :(?=\s)' % NAME, block) or re.match(r'(use|module|record|data|pub record|mod|pub mod) ', block):
            found.append([*waiting, block])
            waiting = []
        elif found:
            found[-1] += [*waiting, block]
            waiting = []
        else:
            waiting.append(block)
    if waiting:
        found.append(waiting)
    return [Declaration('\n'.join(blocks)) for blocks in found]


def arguments(text, at):
    """The (begin, end) of each argument of the application whose function ends at `at`."""
    found = []
    while True:
        m = re.compile(r'\s*').match(text, at)
        begin = at = m.end()
        depth = 0
        while at < len(text) and (depth or not text[at].isspace()):
            depth += (text[at] in '({') - (text[at] in ')}')
            if depth < 0:
                break
            at += 1
        if begin == at:
            return found
        found.append((begin, at))
        if depth < 0:
            return found


class ProofFile:
    """The file's text as it is for the old shapes, to be written for the new ones."""

    def __init__(self, text, old, new, crate):
        self.declared = declarations(text)
        self.old, self.new, self.crate = old, new, crate
        self.matches = {member: Match(old[member], new[member]) for member in new if member in old}
        self.aliases = {'tie': ''} if '' in new else {}
        for m in re.finditer(r'^use \S+\.Lts-(\S+) as (\S+)', text, re.M):
            self.aliases[m.group(2)] = m.group(1)
        self.moved, self.notes = 0, []

    def match(self, alias):
        return self.matches.get(self.aliases.get(alias))

    # ---- paths

    def repath(self, declaration, match, old_place, new_place):
        """The declaration's text with each path worked out anew, and what it is named after renamed with it."""
        lets = {}

        def path(m):
            steps, thing = len(re.findall('before', m.group(1))), m.group(2)
            if not steps and not thing:
                return m.group(0)
            found = match.path(old_place, new_place, steps, thing)
            if not found:
                self.notes.append('%s: .%s is gone' % (declaration.name, thing or 'before'))
                return '?gone-%s' % (thing or 'before')
            if re.sub(r'\s+', ' ', m.group(0)) == found[0]:
                return m.group(0)
            self.moved += 1
            if thing and found[1] != thing:
                lets['the-' + thing] = 'the-' + found[1]
            return found[0]
        head = len(declaration.head())
        text = declaration.text[:head] + PATH.sub(path, declaration.text[head:])
        return renamed(text, lets)

    # ---- invariants and claims

    def reloop(self, declaration, match):
        """An invariant or a measure takes what stands at the loop's head: a parameter more for a local more there."""
        loop = declaration.loop[1]
        to = match.places.get('At-' + loop, '')[3:]
        if to not in match.new.loops:
            self.notes.append('%s: the loop is gone' % declaration.name)
            return declaration.text
        (olds, old_turned), (news, new_turned) = match.old.loops[loop], match.new.loops[to]
        came = {match.locals.get(k): k for k in olds}
        if [match.locals.get(k) for k in olds] == news and old_turned == new_turned:
            return declaration.text
        m = re.search(r'^%s((?: +%s)*) =' % (re.escape(declaration.name), NAME), declaration.text, re.M)
        names = m and m.group(1).split()
        if not m or len(names) != len(olds) + len(old_turned):
            self.notes.append('%s: takes %d arguments now; mend its parameters by hand' % (declaration.name, len(news) + len(new_turned)))
            return declaration.text
        at_first = [names[olds.index(came[k])] if came.get(k) in olds else '_' for k in news]
        turned = [names[len(olds) + old_turned.index(v)] if v in old_turned else v for v in new_turned]
        self.moved += 1
        self.notes.append('%s: takes %s now' % (declaration.name, ' '.join(at_first + turned)))
        return declaration.text[:m.start(1)] + ''.join(' ' + n for n in at_first + turned) + declaration.text[m.end(1):]

    def reclaim(self, alias, match):
        """The claims of the functions that a member of a cycle calls, two each, by first call: where they are named, and where they are written out."""
        if match.old.calls == match.new.calls:
            return
        self.notes.append('%s: the calls are %s now' % (alias, ' '.join(c.split('::')[-1] for c in match.new.calls)))
        for d in self.declared:
            named = re.search(r'%s\.Claims\s*$' % re.escape(alias), d.type)
            begins = [m.end() for m in re.finditer(r'(?<![\w-])%s\.(?:Need-%s|spec)\s*(?=\()' % (re.escape(alias), NAME), d.text)]
            if named:
                begins.append(d.text.index('(', d.text.index('=', len(d.type) - 1)))
            for begin in sorted(begins, reverse=True):
                (_, end), *_ = arguments(d.text, begin)
                entries = [e.strip() for e in d.text[begin + 1:end - 1].split(',') if e.strip()]
                if len(entries) != 2 * len(match.old.calls):
                    if named:
                        self.notes.append('%s: mend its claims by hand' % d.name)
                    continue
                pairs = {call: entries[2 * k:2 * k + 2] for k, call in enumerate(match.old.calls)}
                said = [claim for call in match.new.calls for claim in pairs.get(call) or self.claims_of(call)]
                d.text = '%s(%s)%s' % (d.text[:begin], ', '.join(said), d.text[end:])
                self.moved += 1

    def claims_of(self, call):
        crate, *rest = call.split('::')
        short = rest[-1].replace('_', '-')
        if short in self.new:
            return ['%s-below t' % short, '%s.Post' % short]
        library = 'Rattle·%s·proofs.proofs' % crate if crate == self.crate else 'Rattle·%s.proofs' % crate
        line = 'use %s.%s.Reads as %s-reads' % (library, '.'.join(rest), short)
        if not any(line in d.text for d in self.declared):
            last = max(k for k, d in enumerate(self.declared) if d.text.startswith('use ') or '\nuse ' in d.text)
            self.declared[last].text += '\n' + line
        return ['%s-reads.Asked' % short, '%s-reads.Learnt' % short]

    # ---- the whole

    def refreshed(self):
        """The file for the new shapes."""
        names, aliased, gone = {}, {}, []
        for d in self.declared:
            match = self.match(d.alias) if d.alias else None
            if match and d.need:
                self.answer(d, match, names, gone)
            elif match and d.place in match.places:
                d.text = self.repath(d, match, d.place, match.places[d.place])
            elif d.loop and self.match(d.loop[0]):
                d.text = self.reloop(d, self.match(d.loop[0]))
        for alias, member in self.aliases.items():
            match = self.matches.get(member)
            if not match:
                continue
            if member:
                self.reclaim(alias, match)
            came = {match.places.get('At-' + loop, '')[3:] for loop in match.old.loops}
            for loop in match.new.loops:
                if loop not in came:
                    self.notes.append('a loop more, %s: write its invariant and measure, and put them among the arguments of every need and of spec' % loop)
            prefix = member + '-' if member else ''
            for old, new in match.needs.items():
                aliased['%s.Need-%s' % (alias, old)] = '%s.Need-%s' % (alias, new)
            for old, new in match.places.items():
                aliased['%s.%s' % (alias, old)] = '%s.%s' % (alias, new)
                if old[3:] in match.old.loops and old.startswith('At-'):
                    for word in ('InvT', 'MeasureT'):
                        aliased['%s.%s-%s' % (alias, word, old[3:])] = '%s.%s-%s' % (alias, word, new[3:])
                    for word in ('Inv', 'μ'):
                        names['%s%s-%s' % (prefix, word, old[3:])] = '%s%s-%s' % (prefix, word, new[3:])
        for d in self.declared:
            if any(k != v for k, v in aliased.items()) or any(k != v for k, v in names.items()):
                d.text = renamed(renamed(d.text, aliased), names)
        self.declared = [d for d in self.declared if d not in gone]
        for alias, member in self.aliases.items():
            if member in self.matches:
                self.fill(alias, member)
        return '\n'.join(d.text for d in self.declared)

    def answer(self, d, match, names, gone):
        member = self.aliases[d.alias]
        if d.need not in match.old.needs:
            self.notes.append('%s: no need of that name was there' % d.name)
            return
        to = match.needs.get(d.need)
        if to is None:
            gone.append(d)
            self.notes.append('%s: nothing asks for it any more; taken out:\n%s' % (d.name, d.text))
            return
        d.text = self.repath(d, match, match.old.needs[d.need], match.new.needs[to])
        if to != d.need:
            self.notes.append('%s is %s now' % (d.need, to))
            self.moved += 1
            for prefix in ('', member + '-'):
                if d.name == prefix + d.need:
                    names[d.name] = prefix + to
        d.need = to
        d.name = names.get(d.name, d.name)

    def fill(self, alias, member):
        """Answers for needs that are new, and the list of answers at the end."""
        match = self.matches[member]
        answered = {d.need: d for d in self.declared if d.need and self.aliases.get(d.alias) == member}
        came = set(match.needs.values())
        last = None
        for need in match.new.needs:
            if need in came:
                last = answered.get(need, last)
                continue
            d = self.skeleton(alias, member, need, answered)
            if d is None:
                self.notes.append('new: %s, %s' % (need, 'left to search' if ARITHMETIC.match(need) else 'to be answered'))
                continue
            where = self.declared.index(last) + 1 if last else self.declared.index(next(iter(answered.values())))
            self.declared.insert(where, d)
            if last and not last.text.endswith('\n'):
                last.text += '\n'
            answered[need] = last = d
            self.moved += 1
        if list(match.old.needs) != list(match.new.needs):
            self.relist(alias, member, match, answered)

    def skeleton(self, alias, member, need, answered):
        """A declaration that answers a new need: as the nearest like it is answered, where that can be said there, or open."""
        match = self.matches[member]
        order = list(match.new.needs)
        near = sorted(answered, key=lambda other: (kind(other) != kind(need), abs(order.index(other) - order.index(need))))
        if not near:
            return None
        prefix = member + '-' if answered[near[0]].name.startswith(member + '-') else ''
        of_type = answered[near[0]]
        head = re.sub(r'^--[^\n]*\n', '', Declaration(of_type.text).head(), flags=re.M)
        head = head.replace('Need-' + near[0], 'Need-' + need).replace(of_type.name + ' :', prefix + need + ' :', 1)
        taken = ('t ' if member else '') + ('c κs' if need.endswith('-requires') or kind(need).endswith('-requires') else 'c')
        text, like = None, None
        for other in near:
            if kind(other) != kind(need) or kind(need) in ('returns', 'loop-again', 'loop-holds'):
                break
            text = self.said_there(answered[other], match, match.new.needs[other], match.new.needs[need])
            if text:
                like = other
                break
        if text:
            text = text.replace(answered[like].name, prefix + need, 1)
            self.notes.append('new: %s, answered as %s is' % (need, like))
        else:
            way = 'search needs' if ARITHMETIC.match(need) else '?'
            text = '%s %s = %s\n' % (prefix + need, taken, way)
            self.notes.append('new: %s, at %s, %s' % (need, match.new.needs[need], 'left to search' if way != '?' else 'to be answered'))
        d = Declaration(head + text)
        if self.declared and not head.startswith('\n'):
            d.text = head + text.rstrip('\n') + '\n'
        return d

    def said_there(self, d, match, place, new_place):
        """The clauses of an answer, said at another place; None where something it names is not known there."""
        chain, back, lost = list(match.new.chain(place)), list(match.new.chain(new_place)), []

        def path(m):
            steps, thing = len(re.findall('before', m.group(1))), m.group(2)
            if not steps and not thing:
                return m.group(0)
            if steps >= len(chain) or chain[steps] not in back:
                lost.append(thing)
                return m.group(0)
            return 'c' + ' .before' * back.index(chain[steps]) + (' .' + thing if thing else '')
        fresh = Declaration(d.text)
        text = PATH.sub(path, fresh.text[len(fresh.head()):])
        return None if lost or '?' in text else text

    def relist(self, alias, member, match, answered):
        """The answers behind `spec`, in the order of the new needs."""
        for d in self.declared:
            m = re.search(r'(?<![\w-])%s\.spec\b' % re.escape(alias), d.text)
            if not m:
                continue
            found = arguments(d.text, m.end())
            many = len(match.old.needs)
            if len(found) < many:
                self.notes.append('%s: the list of answers has %d, not %d; mend it by hand' % (d.name, len(found), many))
                return
            args = found[-many:] if many else []
            texts = {match.needs[old]: d.text[b:e] for old, (b, e) in zip(match.old.needs, args) if old in match.needs}
            said = [texts.get(new) or (('(%s t)' if member else '%s') % answered[new].name if new in answered else '(λ c. search needs)' if ARITHMETIC.match(new) else '?') for new in match.new.needs]
            between = d.text[args[-2][1]:args[-1][0]] if many > 1 else ' '
            d.text = d.text[:args[0][0]] + between.join(said) + d.text[args[-1][1]:]
            return


def fits(text, shapes):
    """What in a file does not fit the shapes as it stands: needs that are not there, needs not answered, paths that lead elsewhere."""
    file, faults = ProofFile(text, shapes, shapes, ''), []
    for d in file.declared:
        match = file.match(d.alias) if d.alias else None
        if not match or not (d.need or d.place):
            continue
        place = match.new.needs.get(d.need) if d.need else d.place
        if place not in match.new.before:
            faults.append('%s answers %s, which nothing asks' % (d.name, d.need or d.place))
            continue
        chain = list(match.new.chain(place))
        for m in PATH.finditer(d.text[len(d.head()):]):
            steps, thing = len(re.findall('before', m.group(1))), m.group(2)
            if (steps or thing) and (steps >= len(chain) or thing and thing not in match.new.things[chain[steps]]):
                faults.append('%s: %s' % (d.name, re.sub(r'\s+', ' ', m.group(0))))
    for alias, member in file.aliases.items():
        said = [d for d in file.declared if re.search(r'(?<![\w-])%s\.spec\b' % re.escape(alias), d.text)]
        if member not in shapes or not said:
            continue
        m = re.search(r'(?<![\w-])%s\.spec\b' % re.escape(alias), said[0].text)
        many = len(arguments(said[0].text, m.end())) - (3 if member else 0) - 2 * len(shapes[member].loops)
        if many != len(shapes[member].needs):
            faults.append('%d needs, and %d answers' % (len(shapes[member].needs), many))
    return faults
