"""What the agent knows of an action's effects and observations.

The planner itself derives that from the action's text, in its mode `derive`.
"""

from typing import Iterator, List, NamedTuple, Optional, Sequence, Tuple

import pkslib
from pkslib import Expression, Status

from . import limits
from .actions import Action
from .conditions import Literal, term_text
from .effects import Effect
from .fixed import Fixed


def answer(words: List[str], text: str) -> str:
    """What the planner prints on this file; pkslib.PksError where it doesn't run or has no such mode."""
    said = pkslib.call(words, text)
    if said.status not in (Status.DONE, Status.NO_PLAN, Status.REFUSED):
        raise pkslib.Failed(' '.join(words), said.status)
    return said.text


def derived(text: str) -> Tuple[Optional[str], List[List[str]]]:
    """What `derive` says of a file that is refused, or None and the adds of each action in their order."""
    said = answer(['derive'], text)
    if said.startswith('refused'):
        return said, []
    found = []
    for line in said.splitlines():
        if line.startswith('action '):
            found.append([])
        else:
            found[-1].append(line)
    return None, found


def chosen(adds: List[str]) -> Tuple[List[str], List[str]]:
    """At most as many adds as an action may have; those that tell least are left out first."""
    if len(adds) <= limits.ADDS:
        return adds, []
    least = [add for add in adds if add.startswith('(if ((kw ')]
    left_out = least[len(least) - (len(adds) - limits.ADDS):] if least else []
    kept = [add for add in adds if add not in left_out]
    return kept[:limits.ADDS], kept[limits.ADDS:] + left_out


class Untold(NamedTuple):
    """An effect that isn't known afterwards: what would tell it, the effect that may undo it, and what excludes that."""

    what: str
    add: str
    later: str
    guard: Optional[str]
    pair: Optional[Tuple[str, str]]

    def sentence(self) -> str:
        """What isn't known, and why."""
        return f'{self.what} isn\'t known afterwards: {self.later} may be about the same.'


def told_by(effect: Effect) -> Tuple[str, str]:
    """What an effect makes so, and the add that would tell it."""
    literal = effect.literal()
    if literal is not None:
        return str(literal), f'(kf {literal})'
    if effect.head == 'assign':
        equation = f'(= {" ".join(term_text(part) for part in effect.target)})'
        return equation, f'(kf {equation})'
    return f'that no {term_text(effect.target[0])} is true', f'(lcw {term_text(effect.target[0])})'


def undoes(later: Effect, effect: Effect) -> bool:
    """Whether a later effect may be about the same thing as an earlier one, to another end."""
    if later.target[0][0] != effect.target[0][0]:
        return False
    makes_true = {'set': True, 'unset': False, 'clear': False}
    if 'assign' in (effect.head, later.head):
        return effect.head == later.head and effect.target[1] != later.target[1]
    return makes_true[effect.head] != makes_true[later.head]


def untold(action: Action, adds: Sequence[str]) -> Iterator[Untold]:
    """What the agent doesn't know to be so after an effect, each with what may undo it."""
    for place, effect in enumerate(action.effects):
        what, add = told_by(effect)
        if any(add in own for own in adds):
            continue
        later = next((other for other in action.effects[place + 1:] if undoes(other, effect)), None)
        if later is not None:
            pair = remedy(effect, later)
            guard = f'(k (not (= {pair[0]} {pair[1]})))' if pair else None
            yield Untold(what, add, term_text(later.target[0]), guard, pair)


def remedy(effect: Effect, later: Effect) -> Optional[Tuple[str, str]]:
    """The arguments by whose difference two effects are told apart, or None."""
    pairs = [(a, b) for a, b in zip(effect.target[0][1:], later.target[0][1:]) if a != b]
    if not pairs or not all(isinstance(part, str) and part != '_' for pair in pairs for part in pair):
        return None
    return pairs[0]


# Whether PDDL does anything where two arguments are the same

def renamed(term: Expression, pair: Tuple[str, str]) -> Expression:
    """A term in which the second of a pair stands for the first too."""
    if isinstance(term, tuple):
        return tuple(renamed(part, pair) for part in term)
    return pair[1] if term == pair[0] else term


def does_nothing(action: Action, pair: Tuple[str, str]) -> bool:
    """Whether an action changes and teaches nothing where two of its arguments are the same."""
    same = lambda literal: Literal(literal.positive, literal.name, renamed(literal.args, pair))
    given = {same(literal) for literal in action.queries.literals}
    if action.senses or any(effect.head in ('assign', 'clear') for effect in action.effects):
        return False
    done = [(effect.conditions, same(effect.literal())) for effect in action.effects]
    always = {literal for conditions, literal in done if not conditions}
    return all(literal in given if literal.positive else literal.negated() in always or literal in given
               for _, literal in done)


def can_not_be(action: Action, pair: Tuple[str, str], fixed: Fixed) -> bool:
    """Whether a precondition that no action changes is false wherever two arguments are the same."""
    for literal in action.queries.literals:
        args = renamed(literal.args, pair)
        if literal.positive and literal.name in fixed.predicates and pair[1] in args and args != literal.args:
            meets = lambda atom: atom.name == literal.name and len({a for a, b in zip(atom.args, args) if b == pair[1]}) == 1
            if not any(meets(atom) for atom in list(fixed.start.facts) + list(fixed.start.unknown)):
                return True
    return False


def guards(action: Action, adds: Sequence[str], fixed: Fixed) -> List[str]:
    """The preconditions by which more is known afterwards, and by which nothing is lost."""
    found = []
    for one in untold(action, adds):
        if one.guard and one.pair and (does_nothing(action, one.pair) or can_not_be(action, one.pair, fixed)):
            found.append(one.guard)
    return list(dict.fromkeys(found))


def remarks(action: Action, adds: Sequence[str], left_out: Sequence[str]) -> Iterator[str]:
    """Comments on what the agent will not know."""
    for one in untold(action, adds):
        yield one.sentence() + (f' With {one.guard} in pre it is.' if one.guard else '')
    for add in left_out:
        yield f'More than {limits.ADDS} adds, so this is left out: {add}'


def warnings(action: Action, adds: Sequence[str], fixed: Fixed) -> Iterator[str]:
    """A line for each effect that won't be known, with what to write."""
    place = f'{action.form.source.path}:{action.form.line}:{action.form.column}'
    for one in untold(action, adds):
        line = f"{place}: {one.what} won't be known after {action.name}: {one.later} may be about the same."
        if one.guard:
            free = one.guard in guards(action, adds, fixed)
            line += f' Write {one.guard} in pre, and {one.add} in knows'
            line += '; --known does, since nothing is lost by it.' if free else '; it excludes what PDDL allows.'
        else:
            line += f' Write the effects in another order, or as two actions, and {one.add} in knows.'
        yield line
