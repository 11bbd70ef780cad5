"""Answers that only say `search needs` say it in the list behind `spec`, where the needs are tied together."""
import re

from prooffile import arguments, declarations


def searched(declaration):
    """What such an answer takes (`c`, `c κs`, with `t` before them in a cycle); None for any other declaration."""
    if not declaration.need or '--' in declaration.text:
        return None
    m = re.match(r'\s*%s((?: \S+)*) =\s+search needs\s*$' % re.escape(declaration.name), declaration.text[len(declaration.head()):])
    return m and m.group(1).split()


def shortened(text):
    """The text so, and how many answers moved into the list."""
    found = declarations(text)
    answers = {d.name: taken for d in found for taken in [searched(d)] if taken}
    rest = [d for d in found if d.name not in answers]
    said = set()
    for d in rest:
        for m in reversed(list(re.finditer(r'(?<![\w-])[\w-]+\.spec\b', d.text))):
            for begin, end in reversed(arguments(d.text, m.end())):
                name = re.fullmatch(r'\(?(\S+?)(?: t\))?', d.text[begin:end])
                taken = name and answers.get(name.group(1))
                if taken:
                    said.add(name.group(1))
                    of_cycle = d.text[begin] == '('
                    d.text = '%s(λ %s. search needs)%s' % (d.text[:begin], ' '.join(taken[of_cycle:]), d.text[end:])
    if said != set(answers) or any(re.search(r'(?<![\w-])%s(?![\w-])' % re.escape(n), d.text) for d in rest for n in answers):
        return text, 0
    return '\n'.join(d.text for d in rest), len(answers)
