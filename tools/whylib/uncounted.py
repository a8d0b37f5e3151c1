"""Adds that are accepted and never count: of an equation of two functions the wrong side stands first.

Of an equation the greater side stands first, and a function is greater the later it is declared. An add
`(kf (= PLACE VALUE))` counts only where PLACE, the place that is assigned, stands first (docs/RULES.md, section 11).
"""

from dataclasses import dataclass
from typing import Iterable, Iterator, List, Optional, Sequence, Tuple, Union

from pkslib import Expression, written


Key = Tuple[Union[int, 'Key'], ...]
"""What terms are compared by: the kind of a term, its number, and the keys of its arguments."""


@dataclass(frozen=True)
class Uncounted:
    """An add that never counts, of an action; the place that is assigned, and the value that stands before it."""

    action: str
    add: Expression
    place: Expression
    value: Expression

    def said(self) -> str:
        """Why it never counts."""
        cure = (f'Declare `{self.value[0]}` before `{self.place[0]}` in `functions`.'
                if self.value[0] != self.place[0] else 'Assign to a function of its own.')
        return (f'The add `{written(self.add)}` of `{self.action}` never counts. Of an equation of two functions the '
                f'one that is declared later stands first, and this add counts only where the place that is assigned '
                f'does: here `{written(self.value)}` stands before `{written(self.place)}`. {cure}')


def uncounted(domain: Expression) -> Iterator[Uncounted]:
    """The adds of a domain that never count."""
    objects = [str(name) for entry in section(domain, 'objects') for name in entry[1:]]
    functions = [str(entry[0]) for entry in section(domain, 'functions')]
    for action in parts(domain, 'action'):
        order = Order(objects, [str(entry[0]) for entry in section(action, 'params')], functions)
        assigned = [target(effect) for effect in section(action, 'effects')]
        pairs = [done[1:] for done in assigned if done[0] == 'assign']
        for add in section(action, 'knows'):
            item = add[-1] if add[0] == 'if' else add
            if item[0] == 'kf' and item[1][0] == '=':
                found = behind(item[1], pairs, order)
                if found:
                    yield Uncounted(str(action[1]), add, *found)


class Order:
    """The order of terms in an action: objects, then parameters, then places of functions, each as declared."""

    def __init__(self, objects: Iterable[str], params: Iterable[str], functions: Iterable[str]) -> None:
        self.numbers = [{name: n for n, name in enumerate(names)} for names in (objects, params, functions)]

    def key(self, term: Expression) -> Key:
        """A value by which a term compares with others."""
        objects, params, functions = self.numbers
        if not isinstance(term, str):
            return (2, functions[str(term[0])], tuple(self.key(part) for part in term[1:]))
        return (1, params[term]) if term in params else (0, objects[term])


def behind(equation: Expression, pairs: Sequence[Expression], order: Order) -> Optional[Tuple[Expression, Expression]]:
    """The assigned place and the value of an equation in which the value stands first; None where the place does."""
    found = [(pair[0], pair[1]) for pair in pairs if set(pair) == set(equation[1:])]
    if not found or any(order.key(place) >= order.key(value) for place, value in found):
        return None
    return found[0]


def swapped(functions: Sequence[Expression], found: Sequence[Uncounted]) -> Optional[List[Expression]]:
    """The declarations of functions in an order in which these adds count, or None where there is none."""
    before = [(str(each.value[0]), str(each.place[0])) for each in found]
    return ordered(functions, before)


def ordered(functions: Sequence[Expression], before: Sequence[Tuple[str, str]]) -> Optional[List[Expression]]:
    """Declarations in an order in which each first one of the pairs stands before the second, else as they stand."""
    left, placed = list(functions), []
    while left:
        names = {str(entry[0]) for entry in left}
        free = next((entry for entry in left
                     if not any(late == entry[0] and early in names for early, late in before)), None)
        if free is None:
            return None
        placed.append(free)
        left.remove(free)
    return placed


# Parts of a domain

def parts(form: Expression, head: str) -> List[Expression]:
    """The lists of a form that begin with a word."""
    return [part for part in form[1:] if not isinstance(part, str) and part[:1] == (head,)]


def section(form: Expression, head: str) -> Sequence[Expression]:
    """The parts of a section, or none."""
    return next((part[1:] for part in parts(form, head)), ())


def target(effect: Expression) -> Expression:
    """What an effect does, without its condition."""
    return effect[2] if effect[0] == 'when' else effect
