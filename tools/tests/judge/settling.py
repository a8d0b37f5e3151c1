"""Settling: what is learnt of the past (RULES 13).

The rounds here close each moment wholly before the steps are read again. Where nothing clashes the end is the least
family that has the start and is closed under the rules, so the order of rounds doesn't matter.
"""

from typing import Callable, FrozenSet, Iterator, List, NamedTuple, Optional, Sequence, Set, Tuple

from .closing import Closer, term_steps, values_of
from .interference import Interference
from .lookup import Database
from .progression import Instance
from .terms import Literal, Term, application, equation, negated

Act = Callable[[Database, Instance], Interference]
"""An instance read in the databases before it."""


class History(NamedTuple):
    """Databases at moments, and the instance between each two."""

    moments: Tuple[Database, ...]
    steps: Tuple[Instance, ...]


class Form(NamedTuple):
    """A form of an effect's target: the literal, the place where it is an assignment, and the terms to be stable."""

    literal: Literal
    place: Term
    terms: Tuple[Term, ...]


def reach(start: Tuple[Term, ...], steps: Callable[[Tuple[Term, ...]], Iterator[Tuple[Term, ...]]]
          ) -> Set[Tuple[Term, ...]]:
    """All that comes of a list of terms by any number of steps, itself included."""
    found, new = {start}, [start]
    while new:
        for step in steps(new.pop()):
            if step not in found:
                found.add(step)
                new.append(step)
    return found


def target_forms(acting: Interference, number: int) -> List[Form]:
    """The forms of the target of a `set`, `unset` or `assign`, its terms stable but for an assigned application."""
    effect, values = acting.effects[number], values_of(acting.base.five.kf)

    def steps(terms: Tuple[Term, ...]) -> Iterator[Tuple[Term, ...]]:
        for n, term in enumerate(terms):
            for step in term_steps(values, term):
                yield terms[:n] + (step,) + terms[n + 1:]

    start = effect.slots + ((effect.value,) if effect.kind == 'assign' else ())
    forms = []
    for terms in reach(start, steps):
        if all(map(acting.is_stable, terms)):
            place = application(effect.head, terms[:-1]) if effect.kind == 'assign' else ()
            literal = equation(place, terms[-1]) if place else effect.target[:2] + (terms, effect.target[3])
            forms.append(Form(literal, place, terms))
    return forms


def hits(acting: Interference, number: int, form: Form) -> bool:
    """Whether an effect may hit a target."""
    if form.place:
        return acting.may_hit(number, form.place[1], form.place[2])
    return acting.may_hit(number, form.literal[1], form.literal[2])


def can_be_undone(acting: Interference, number: int, form: Form) -> bool:
    """Whether a later effect of the opposite sign, or to the same function, may hit the target."""
    undoing = {'set': ('unset', 'clear'), 'unset': ('set',), 'assign': ('assign',)}[acting.effects[number].kind]
    return any(acting.effects[n].kind in undoing and hits(acting, n, form)
               for n in range(number + 1, len(acting.effects)))


def makes_same(acting: Interference, other: int, number: int, form: Form) -> bool:
    """Whether another effect would make the target so."""
    own, effect = acting.effects[number], acting.effects[other]
    if own.kind == 'assign':
        return effect.kind == 'assign' and not acting.base.differ(effect.value, form.terms[-1])
    return effect.kind in {'set': ('set',), 'unset': ('unset', 'clear')}[own.kind]


def is_made_otherwise(acting: Interference, number: int, form: Form) -> bool:
    """Whether another effect that would make the target so may hit it."""
    return any(n != number and makes_same(acting, n, number, form) and hits(acting, n, form)
               for n in range(len(acting.effects)))


def by_form(acting: Interference, after: Database, number: int, form: Form) -> Iterator[Tuple[bool, Literal]]:
    """What fired, must have fired and cannot have fired give by one form: (whether it is after, the literal)."""
    before, condition = acting.base, acting.effects[number].condition
    lasting = not can_be_undone(acting, number, form)
    if lasting and all(map(before.holds, condition)):
        yield True, form.literal
    if (before.holds(negated(form.literal)) and after.holds(form.literal)
            and not is_made_otherwise(acting, number, form)):
        for literal in condition:
            yield False, literal
    if lasting and after.holds(negated(form.literal)):
        for literal in condition:
            if all(before.holds(other) for other in condition if other != literal):
                yield False, negated(literal)


def by_step(acting: Interference, after: Database) -> Iterator[Tuple[bool, Literal]]:
    """What one step gives the moments on its two sides: (whether it is after, the literal)."""
    for literal in acting.base.five.kf:
        if not acting.spoils(literal):
            yield True, literal
    for literal in after.five.kf:
        if not acting.spoils(negated(literal)):
            yield False, literal
    for number, effect in enumerate(acting.effects):
        if effect.kind != 'clear':
            for form in target_forms(acting, number):
                yield from by_form(acting, after, number, form)


def new_by_steps(act: Act, moments: Sequence[Database], steps: Sequence[Instance]) -> List[Set[Literal]]:
    """For each moment the literals that the steps beside it add to what it has."""
    found: List[Set[Literal]] = [set() for _ in moments]
    for n, step in enumerate(steps):
        for is_after, literal in by_step(act(moments[n], step), moments[n + 1]):
            at = n + 1 if is_after else n
            if literal not in moments[at].five.kf:
                found[at].add(literal)
    return found


def settle(closer: Closer, act: Act, history: History) -> Optional[History]:
    """The settled history, its last moment being the databases assumed; None where it clashes."""
    first = [base.five for base in history.moments]
    known: List[FrozenSet[Literal]] = [five.kf for five in first]
    while True:
        moments = [closer.close(five._replace(kf=kf)) for five, kf in zip(first, known)]
        closed = [base for base in moments if base is not None]
        if len(closed) < len(moments):
            return None
        new = new_by_steps(act, closed, history.steps)
        if not any(new):
            return History(tuple(closed), history.steps)
        known = [base.five.kf | more for base, more in zip(closed, new)]
