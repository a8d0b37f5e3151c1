"""The file that is written, laid out to be read and changed by hand."""

import re
import textwrap
from typing import Dict, Iterable, List, Sequence, Tuple

from pkslib import ALL_WORDS, Text

from .actions import Action
from .declared import Declared
from .start import Start, item, region

WIDTH = 100

Told = Tuple[Action, int, Sequence[str], Sequence[str]]
"""An action, its cost, its adds and remarks on it."""


def section(head: str, parts: Sequence[str], indent: int, ends: str = '') -> List[str]:
    """A list with a head: in one line where it fits, else in lines that are further in."""
    single = ' ' * indent + ' '.join([f'({head}'] + parts) + ')' + ends
    if len(single) <= WIDTH:
        return [single]
    lines = [' ' * indent + f'({head}']
    for part in parts:
        if len(lines[-1]) + 1 + len(part) > WIDTH:
            lines.append(' ' * (indent + 2) + part)
        else:
            lines[-1] += ' ' + part
    lines[-1] += ')' + ends
    return lines


def kept(text: str) -> str:
    """The text with a sign for each blank that stands in parentheses, where no line may end."""
    found: List[str] = []
    begun = 0
    for form in Text(text.replace(';', ','), ALL_WORDS).forms:
        if form.is_list():
            end = form.end or len(text)
            found += [text[begun:form.start], text[form.start:end].replace(' ', '\x01')]
            begun = end
    return ''.join(found) + text[begun:]


def wrapped(text: str, first: str, others: str) -> List[str]:
    """The text in lines, the first behind `first` and each other behind `others`."""
    lines = textwrap.wrap(kept(text), WIDTH, initial_indent=first, subsequent_indent=others,
                          break_long_words=False, break_on_hyphens=False)
    return [line.replace('\x01', ' ') for line in lines]


def comment(text: str, indent: int = 0) -> List[str]:
    """A comment in lines."""
    first = ' ' * indent + '; '
    plain = re.sub('[^ -~]', '?', text.replace('\t', ' '))
    indented = ' ' * (len(plain) - len(plain.lstrip()))
    return wrapped(plain.strip(), first + indented, first + indented + '  ') or [first.rstrip()]


def comments(texts: Iterable[str], indent: int = 0) -> List[str]:
    """Comments in lines."""
    return [line for text in texts for line in comment(text, indent)]


def declarations(declared: Declared) -> List[str]:
    """The sections of a domain before its actions."""
    kinds = [f'({name} {parent})' if parent else name for name, parent in declared.kinds().items()]
    objects: Dict[str, List[str]] = {}
    for name, kind in declared.objects.items():
        objects.setdefault(kind, []).append(name)
    lists = [
        ('types', kinds),
        ('objects', [f'({kind} {" ".join(names)})' for kind, names in objects.items()]),
        ('predicates', [f'({" ".join([name] + types)})'
                        for name, types in declared.predicates.items()]),
        ('functions', [f'({" ".join([name] + types + [result])})'
                       for name, (types, result) in declared.functions.items()]),
    ]
    return [line for head, parts in lists if parts for line in section(head, parts, 2)]


def action(act: Action, cost: int, adds: Sequence[str], remarks: Sequence[str]) -> List[str]:
    """The lines of one action."""
    lines = comments(act.comments, 2)
    parts = [('params', [f'({term} {kind})' for term, kind in act.parameters.items()]),
             ('pre', act.queries.texts), ('effects', [str(e) for e in act.effects]),
             ('senses', act.senses), ('knows', adds)]
    first = section(f'action {act.name}' + (f' (cost {cost})' if cost else ''),
                    section(*parts[0], 0) if parts[0][1] else [], 2)
    given = [(head, found) for head, found in parts[1:] if found]
    above = [] if given else comments(remarks, 2)
    lines += above + first[:-1] + [first[-1][:-1]] + (comments(remarks, 4) if given else [])
    for head, found in given:
        lines += section(head, found, 4)
    lines[-1] += ')'
    return lines


def flow(parts: Iterable[str], indent: int) -> List[str]:
    """Parts one behind the other, in lines."""
    return wrapped(' '.join(parts), ' ' * indent, ' ' * indent)


def start(found: Start) -> List[str]:
    """The lines of `init`, without the last parenthesis."""
    by_name: Dict[str, List[str]] = {}
    for literal in found.facts:
        by_name.setdefault(literal.name, []).append(item(literal))
    lines = [line for parts in by_name.values() for line in flow(parts, 4)]
    lines += flow([item(literal) for literal in found.values], 4)
    closed = [region(pattern) for pattern in found.regions] + [item(l) for l in found.negatives]
    if closed:
        lines += comment('All else is false.', 4) + flow(closed, 4)
    for members, said in found.groups:
        lines += comment(said, 4) if said else []
        lines += section('kx', [str(member) for member in members], 4)
    return lines


def problem(found: Start, goals: Sequence[str]) -> List[str]:
    """The lines of a problem."""
    lines = ['(problem']
    items = start(found)
    if found.unknown:
        named = ' '.join(map(str, found.unknown))
        lines += comment('Unknown: ' + named, 2)
    if items:
        lines += ['  (init'] + items
        lines[-1] += ')'
    return lines + section('goal', goals, 2, ')')


def written(heading: Sequence[str], version: int, declared: Declared, actions: Iterable[Told],
            start_and_goals: Tuple[Start, Sequence[str]]) -> str:
    """The whole file; each action with its cost, its adds and remarks on it."""
    lines = comments(heading) + [f'(pks {version})', '(domain'] + declarations(declared)
    for act, cost, adds, remarks in actions:
        lines += [''] + action(act, cost, adds, remarks)
    lines[-1] += ')'
    return '\n'.join(lines + [''] + problem(*start_and_goals)) + '\n'
