"""Which place, need and local of a function's old code is which of its new code.

Numbers in names go by the order of the text (if1, if2; spend, spend2; returns, returns-2), so a line put in renumbers
what follows. Here things are matched by what surrounds them: their kind, what is known or asked there over which
locals, and their order.
"""
import re

from shape import Shape


def kind(name):
    """A name without its numbers: what may be matched with what."""
    return re.sub(r'-?\d+', '', name)


def aligned(old, new, score):
    """The pairs of the best way to lay two sequences beside each other, in order; score gives None where two may not meet."""
    best = [[0] * (len(new) + 1) for _ in range(len(old) + 1)]
    scores = [[score(a, b) for b in new] for a in old]
    for i in range(len(old) - 1, -1, -1):
        for j in range(len(new) - 1, -1, -1):
            best[i][j] = max(best[i + 1][j], best[i][j + 1])
            if scores[i][j] is not None:
                best[i][j] = max(best[i][j], scores[i][j] + best[i + 1][j + 1])
    pairs, i, j = {}, 0, 0
    while i < len(old) and j < len(new):
        if scores[i][j] is not None and best[i][j] == scores[i][j] + best[i + 1][j + 1]:
            pairs[old[i]] = new[j]
            i, j = i + 1, j + 1
        elif best[i][j] == best[i + 1][j]:
            i += 1
        else:
            j += 1
    return pairs


def likeness(a, b):
    """From 0 to 1: how much of two texts is the same."""
    if a == b:
        return 1.0
    a, b = set(a.split()), set(b.split())
    return 0.8 * len(a & b) / max(len(a | b), 1)


class Match:
    """old -> new, of locals, places and needs."""

    def __init__(self, old: Shape, new: Shape):
        self.old, self.new = old, new
        self.locals = self.match_locals()
        self.texts = {}
        self.places = aligned(list(old.before), list(new.before), self.places_score)
        self.needs = aligned(list(old.needs), list(new.needs), self.needs_score)
        self.match_the_rest()

    def match_locals(self):
        blank = lambda text: re.sub(r'Syntax\.place \d+', 'place', text)

        def score(a, b):
            x, y = blank(self.old.locals[a]), blank(self.new.locals[b])
            return 3 + (a == b) * 0.5 if x == y else 1 if x.split()[:2] == y.split()[:2] else None
        pairs = aligned(sorted(self.old.locals), sorted(self.new.locals), score)
        # parameters are set by nobody: they stand in front, under the same numbers
        k = 1
        while k not in self.old.locals and k not in self.new.locals and k < 99:
            pairs[k], k = k, k + 1
        return pairs

    def plain(self, shape, name):
        """What is known or asked at a place, over the new code's locals and with no other numbers."""
        key = (shape is self.old, name)
        if key not in self.texts:
            to = self.locals if shape is self.old else {k: k for k in range(1000)}
            text = re.sub(r'(Row\.get\s+|vAt |pos = )(\d+)', lambda m: 'local‹%s›' % to.get(int(m.group(2)), 'gone'), shape.texts.get(name, ''))
            text = re.sub(r'(?<=[^\W\d])-?\d+|(?<=·)\d+|(?<=claims· )\.\d+', '', text)
            text = re.sub(r'(?: \.before)+|\S+·gave', '', text)
            self.texts[key] = ' '.join(re.sub(r'([()])', r' \1 ', text).split())
        return self.texts[key]

    def places_score(self, a, b):
        if kind(a) != kind(b):
            return None
        back = lambda shape, at: [kind(p) for p in shape.chain(at)][1:4]
        near = sum(x == y for x, y in zip(back(self.old, a), back(self.new, b)))
        return 2 + 8 * likeness(self.plain(self.old, a), self.plain(self.new, b)) + 0.2 * near + 0.1 * (a == b)

    def needs_score(self, a, b):
        if kind(a) != kind(b):
            return None
        at, to = self.places.get(self.old.needs[a]), self.new.needs[b]
        if at is None or at not in self.new.chain(to):
            return None
        text = likeness(self.plain(self.old, 'Need-' + a), self.plain(self.new, 'Need-' + b))
        ahead = self.old.ahead.get(a) in self.places and self.places[self.old.ahead[a]] == self.new.ahead.get(b)
        return 2 + 4 * (at == to) + 6 * ahead + 4 * text + 0.1 * (a == b)

    def match_the_rest(self):
        """A need is named after what its value goes into; what is asked at the same place in the same words is the same need."""
        for a in [need for need in self.old.needs if need not in self.needs]:
            for b in [need for need in self.new.needs if need not in self.needs.values()]:
                same = self.places.get(self.old.needs[a]) == self.new.needs[b] and a.split('-')[0] == b.split('-')[0]
                if same and re.sub(r'Need-\S+', '', self.plain(self.old, 'Need-' + a)) == re.sub(r'Need-\S+', '', self.plain(self.new, 'Need-' + b)):
                    self.needs[a] = b
                    break

    def thing(self, place, thing):
        """The thing of a matched place that was that thing of the old one, or None."""
        olds, news = self.old.things[place], self.new.things[self.places[place]]
        if thing in news:
            return thing
        same = [new for new in news if kind(new) == kind(thing)]
        return same[0] if len(same) == 1 and thing in olds else None

    def path(self, need_place, new_place, steps, thing):
        """(the new path, the new thing) of c .before*steps .thing, from an old place to the one that took its part; None where it is gone."""
        chain = list(self.old.chain(need_place))
        if steps >= len(chain) or chain[steps] not in self.places:
            return None
        at, back = self.places[chain[steps]], list(self.new.chain(new_place))
        if at not in back:
            return None
        named = thing and self.thing(chain[steps], thing)
        if thing and not named:
            return None
        return 'c' + ' .before' * back.index(at) + (' .' + named if thing else ''), named
