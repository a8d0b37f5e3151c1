"""Closing and clashes (RULES 7)."""

from typing import Dict, FrozenSet, Iterator, List, Optional, Set

from .lookup import Database, Five, Lookup
from .problems import Signature
from .terms import (APPLICATION, EQUATION, OBJECT, Literal, Term, applications, equation, negated, of_objects)


class TooMuch(Exception):
    """The judge's own limit is passed: the file is skipped."""


MEMBERS = 600
"""A round of more literals than this is too much."""


def values_of(known: FrozenSet[Literal]) -> Dict[Term, List[Term]]:
    """For each `f(objects)` all d for which the set has `f(objects) = d`."""
    found: Dict[Term, List[Term]] = {}
    for kind, _, terms, sign in known:
        if kind == EQUATION and not sign and terms[1][0] == OBJECT and of_objects(terms[0]):
            found.setdefault(terms[0], []).append(terms[1])
    return found


def term_steps(values: Dict[Term, List[Term]], term: Term) -> Iterator[Term]:
    """The term with one application replaced by a value in one place."""
    if term[0] != APPLICATION:
        return
    yield from values.get(term, ())
    for n, argument in enumerate(term[2]):
        for step in term_steps(values, argument):
            yield (APPLICATION, term[1], term[2][:n] + (step,) + term[2][n + 1:])


def literal_steps(values: Dict[Term, List[Term]], literal: Literal) -> Iterator[Literal]:
    """The literal with one application replaced by a value in one place (by value)."""
    kind, head, terms, sign = literal
    for n, term in enumerate(terms):
        for step in term_steps(values, term):
            changed = terms[:n] + (step,) + terms[n + 1:]
            yield equation(changed[0], changed[1], sign) if kind == EQUATION else (kind, head, changed, sign)


def by_value(known: FrozenSet[Literal]) -> Iterator[Literal]:
    """What the first point adds."""
    values = values_of(known)
    if values:
        for literal in known:
            yield from literal_steps(values, literal)


def by_group(lookup: Lookup, groups: FrozenSet[tuple]) -> Iterator[Literal]:
    """What the second point adds; members count by place."""
    for group in groups:
        for n, member in enumerate(group):
            others = [negated(other) for k, other in enumerate(group) if k != n]
            if all(map(lookup.holds, others)):
                yield member
            if lookup.holds(member):
                yield from others


def by_range(signature: Signature, lookup: Lookup, known: FrozenSet[Literal]) -> Iterator[Literal]:
    """What the third point adds: the object of an application's type that is left."""
    occurring = {place for _, _, terms, _ in known for term in terms for place in applications(term)}
    for place in occurring:
        things = signature.objects_of(signature.type_of(place))
        left = [thing for thing in things if not lookup.differ(place, thing)]
        if len(left) < 2:
            for thing in left or things:
                yield equation(place, thing)


def closing_round(signature: Signature, five: Five, known: FrozenSet[Literal], lookup: Lookup) -> FrozenSet[Literal]:
    """The next round: what stands, and what the three points add."""
    found: Set[Literal] = set(known)
    found.update(by_value(known))
    found.update(by_group(lookup, five.kx))
    found.update(by_range(signature, lookup, known))
    if len(found) > MEMBERS:
        raise TooMuch
    return known if len(found) == len(known) else frozenset(found)


def tidied(five: Five, closure: FrozenSet[Literal], lookup: Lookup) -> Five:
    """The closed databases: the closure, and the other sets in normal form by it."""
    return Five(closure, frozenset(map(lookup.normal_conjunction, five.kw)),
                frozenset(term for term in map(lookup.normal, five.kv) if term[0] != OBJECT),
                frozenset(map(lookup.normal_group, five.kx)), frozenset(map(lookup.normal_region, five.lcw)))


class Closer:
    """Closes databases of one signature, each once."""

    def __init__(self, signature: Signature) -> None:
        self.signature = signature
        self._closed: Dict[Five, Optional[Database]] = {}
        self._databases: Dict[Five, Database] = {}

    def close(self, five: Five) -> Optional[Database]:
        """The closed databases, or None where they clash."""
        if five not in self._closed:
            self._closed[five] = self._close(five)
        return self._closed[five]

    def _close(self, five: Five) -> Optional[Database]:
        known = five.kf
        while True:
            lookup = Lookup(self.signature, known, five.lcw)
            if any(lookup.holds(negated(literal)) for literal in known):
                return None  # where one of a round is denied on the way, closing clashes
            grown = closing_round(self.signature, five, known, lookup)
            if grown is known:
                break
            known = grown
        closed = tidied(five, known, lookup)
        if closed not in self._databases:
            self._databases[closed] = Database(self.signature, closed)
        return self._databases[closed]
