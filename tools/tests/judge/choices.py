"""Instances, choices and what is assumed on a side (RULES 12)."""

from itertools import product
from typing import Iterator, List, NamedTuple, Optional, Tuple

from .closing import Closer
from .lookup import Database, Five
from .problems import Action, Problem, Signature
from .progression import Instance
from .queries import answers
from .terms import Conjunction, Literal, Term, equation, negated, of_objects


class Choice(NamedTuple):
    """What a tree may have at its root: `act` with an instance, `branch` on a formula, `cases` on a term."""

    kind: str
    what: tuple
    objects: Tuple[Term, ...] = ()
    """The objects left for cases."""


LEFT = 16
"""Cases have at most this many objects left."""


def candidates(signature: Signature, base: Database, kind: int) -> List[Term]:
    """The arguments that may stand for a parameter of the type, in order."""
    places = (term for term in base.five.kv if of_objects(term) and signature.fits(signature.type_of(term), kind))
    return sorted([*signature.objects_of(kind), *places])


def instances(problem: Problem, base: Database, number: int) -> Iterator[Instance]:
    """The instances of an action that are choices, by their arguments."""
    action: Action = problem.actions[number]
    for arguments in product(*(candidates(problem.signature, base, kind) for kind in action.kinds)):
        if all(answers(base, query.at(arguments)) for query in action.pre):
            yield (number, arguments)


def is_undecided(base: Database, formula: Conjunction) -> bool:
    """Whether none of its literals is derived false, and not each is derived."""
    return not any(base.holds(negated(literal)) for literal in formula) and not all(map(base.holds, formula))


def left(signature: Signature, base: Database, term: Term) -> Tuple[Term, ...]:
    """The objects of the term's type that may be its value."""
    return tuple(thing for thing in signature.objects_of(signature.type_of(term)) if not base.differ(term, thing))


def choices(problem: Problem, base: Database) -> Iterator[Choice]:
    """All choices at closed databases, in the order of trees."""
    for number in range(len(problem.actions)):
        for instance in instances(problem, base, number):
            yield Choice('act', instance)
    for formula in sorted(base.five.kw):
        if is_undecided(base, formula):
            yield Choice('branch', formula)
    for term in sorted(base.five.kv):
        things = left(problem.signature, base, term)
        if 1 <= len(things) <= LEFT:
            yield Choice('cases', term, things)


def denials(base: Database, formula: Conjunction) -> Tuple[Literal, ...]:
    """What a formula that is false denies: its one literal that isn't derived, where there is exactly one."""
    open_ones = [literal for literal in formula if not base.holds(literal)]
    return (negated(open_ones[0]),) if len(open_ones) == 1 else ()


def assume_truth(closer: Closer, base: Database, formula: Conjunction, truth: bool) -> Optional[Database]:
    """The databases where a formula is assumed true or false, or None where they clash."""
    kf, kw, kv, kx, lcw = base.five
    added = formula if truth else denials(base, formula)
    return closer.close(Five(kf | set(added), kw - {formula}, kv, kx, lcw))


def assume_value(closer: Closer, base: Database, term: Term, thing: Term) -> Optional[Database]:
    """The databases where a term is assumed to have a value, or None where they clash."""
    kf, kw, kv, kx, lcw = base.five
    return closer.close(Five(kf | {equation(term, thing)}, kw, kv - {term}, kx, lcw))
