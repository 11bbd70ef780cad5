"""What the code of a function wants shown, read from the Lts files that `rt goals` writes.

A need is a function of c, the record of what is known at one place of the code. A place's record has what was bound
there last, its thing, and under `before` the record of the place before it: so a thing known at a need has a path
c .before .. .before .thing, with one .before for each thing bound since.
"""
import glob
import os
import re


class Shape:
    """The places, needs, loops, locals and calls of one function, each in the order of the code."""

    def __init__(self, before=(), things=(), texts=(), needs=(), loops=(), locals=(), calls=(), own=(), ahead=()):
        self.before = dict(before)  # place -> the place before it, or None
        self.things = dict(things)  # place -> the things bound there
        self.texts = dict(texts)    # place or need -> what is known or asked there, as printed
        self.needs = dict(needs)    # need -> its place
        self.loops = dict(loops)    # loop -> (the locals that its invariant takes, the variables that a turn changes)
        self.locals = {int(k): v for k, v in dict(locals).items()}  # local -> the statement that first sets it
        self.calls = list(calls)    # the functions called, by first call
        self.own = dict(own)        # place -> the names of the parts of its thing
        self.ahead = dict(ahead)    # need -> the place that comes next, which for a call is behind it

    def chain(self, place):
        """The places on the way back from a place, itself first."""
        while place:
            yield place
            place = self.before.get(place)

    def paths(self, place):
        """thing -> (its path from c at that place, the names of its parts), nearest first."""
        found, path = {}, 'c'
        for at in self.chain(place):
            for thing in self.things[at]:
                found.setdefault(thing, (path + ' .' + thing, self.own.get(at, [])))
            path += ' .before'
        return found


def parts_of(text):
    """The declarations of a printed module: from each line that declares something to the next."""
    mark = re.compile(r'^ *(?:abbrev )?pub (?:record )?(?=[^\s:]+ (?:: Type|:$|:\s*\(c))|^ *abbrev (?=b\d+ :)', re.M)
    starts = [m.start() for m in mark.finditer(text)] + [len(text)]
    for begin, end in zip(starts, starts[1:]):
        yield text[begin:end]


def read(text):
    """The shape in the text of an Lts file."""
    shape, own, waiting = Shape(), {}, []
    for part in parts_of(text):
        m = re.match(r' *(?:abbrev )?(?:pub )?(?:record )?([^\s:]+) ?:', part)
        name = m.group(1)
        if re.fullmatch(r'b\d+', name):
            statement(shape, re.sub(r'\s+', ' ', part.split('=', 1)[1]).strip())
        elif name.endswith('·own'):
            own[name] = part
        elif name.startswith('Need-'):
            shape.needs[name[5:]] = re.search(r'\(c : ([^\s)]+)', part).group(1)
            shape.texts[name] = part
            waiting.append(name[5:])
        elif re.match(r' *pub record', part) and (name == 'Start' or '·own' in part or 'pub before :' in part):
            place(shape, name, part, own)
            shape.ahead.update((need, name) for need in waiting)
            waiting = []
    return shape


def place(shape, name, part, own):
    fields = re.findall(r'^ +pub ([^\s:]+) :\s*([^\s]+)', part, re.M)
    shape.before[name] = dict(fields).get('before')
    shape.things[name] = [field for field, _ in fields if field != 'before']
    shape.texts[name] = own.get(name + '·own', '')
    shape.own[name] = re.findall(r'^ +pub ([^\s:]+) :', shape.texts[name], re.M)
    loop = re.fullmatch(r'At-(\S+)', name)
    if loop and re.search(r'pub inv :', shape.texts[name]):
        inv = shape.texts[name].split('pub inv :')[1]
        turned = [v for v in shape.own[name] if v != 'inv']
        shape.loops[loop.group(1)] = ([int(k) for k in re.findall(r'Row\.get\s+(\d+)', inv)], turned)


def statement(shape, text):
    """A statement of the code: which local it sets, and what it calls."""
    called = re.match(r'Syntax\.call "([^"]+)"', text)
    set_to = re.findall(r'Syntax\.place (\d+)', text)
    if called and called.group(1) not in shape.calls:
        shape.calls.append(called.group(1))
    if set_to and (called or text.startswith('Syntax.assign')):
        shape.locals.setdefault(int(set_to[-1 if called else 0]), text)


def of_goals(folder):
    """member -> shape, for a function ('' its one member) or a cycle of calls; empty where the code is walked by hand."""
    shapes = {}
    for path in sorted(glob.glob(glob.escape(folder) + '/Lts*.antt')):
        member = re.match(r'Lts-?(.*)\.antt', os.path.basename(path)).group(1)
        with open(path) as file:
            shapes[member] = read(file.read())
    return shapes
