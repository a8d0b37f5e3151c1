"""The order in which functions are declared, so that what is told of an assigned value counts.

Of an equation of two functions the one that is declared later stands first, and an add of it counts only where the
place that is assigned does.
"""

from typing import Iterator, List, Sequence, Tuple

from whylib import uncounted

from .actions import Action
from .declared import Declared
from .effects import Effect


def arrange(declared: Declared, actions: Sequence[Action]) -> None:
    """Declares the functions in an order in which the adds of all assignments count, where there is one."""
    rows = [(name,) for name in declared.functions]
    placed = uncounted.ordered(rows, [pair for action in actions for pair in pairs(action)])
    if placed is not None:
        declared.functions = {row[0]: declared.functions[row[0]] for row in placed}


def pairs(action: Action) -> Iterator[Tuple[str, str]]:
    """The functions of each assignment of a value of another function: that of the value, and that of the place."""
    for effect in assignments(action):
        place, value = effect.target
        if value[0] != place[0]:
            yield value[0], place[0]


def assignments(action: Action) -> List[Effect]:
    """The effects that assign a value of a function."""
    return [e for e in action.effects if e.head == 'assign' and isinstance(e.target[1], tuple)]


def remarks(declared: Declared, action: Action) -> Iterator[str]:
    """Comments on what is assigned and isn't known afterwards in any order of the declarations."""
    order = uncounted.Order(declared.objects, action.parameters, declared.functions)
    for effect in assignments(action):
        place, value = effect.target
        if order.key(place) < order.key(value):
            yield (f'That the two of {effect} are equal isn\'t known afterwards: of an equation of two functions the one '
                   'that is declared later stands first, and what is told of it counts only where the assigned place '
                   'does. No order of the functions suits all assignments: assign to a function of its own.')
