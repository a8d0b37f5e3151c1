"""Queries (RULES 8) and aims (RULES 14)."""

from typing import Sequence

from .lookup import Database
from .problems import Aim, Query
from .terms import EQUATION, OBJECT, Conjunction, Literal, Term, conjunction, negated


def known_value(base: Database, term: Term) -> bool:
    """Whether `kv` of the term is answered."""
    normal = base.normal(term)
    return normal[0] == OBJECT or normal in {base.normal(member) for member in base.five.kv}


def has_known_sides(base: Database, literal: Literal) -> bool:
    """Whether it is an equation, of either sign, between two terms whose values are known."""
    return literal[0] == EQUATION and all(known_value(base, term) for term in literal[2])


def is_decided(base: Database, literal: Literal) -> bool:
    """Whether a literal of a formula is decided."""
    if base.holds(literal) or base.holds(negated(literal)):
        return True
    members = {base.lookup.normal_conjunction(member) for member in base.five.kw}
    alone = (base.lookup.normal_conjunction((one,)) for one in (literal, negated(literal)))
    return any(one in members for one in alone) or has_known_sides(base, literal)


def known_whether(base: Database, formula: Conjunction) -> bool:
    """Whether `kw` of the formula is answered."""
    members = {base.lookup.normal_conjunction(member) for member in base.five.kw}
    return (base.lookup.normal_conjunction(formula) in members
            or any(base.holds(negated(literal)) for literal in formula)
            or all(is_decided(base, literal) for literal in conjunction(formula)))


def answers(base: Database, query: Query) -> bool:
    """Whether the query is answered."""
    if query.kind == 'k':
        found = base.holds(query.what)
    elif query.kind == 'kw':
        found = known_whether(base, query.what)
    else:
        found = known_value(base, query.what)
    return found != query.denied


def is_met(moments: Sequence[Database], aim: Aim) -> bool:
    """Whether an aim is met at the moments of a history (RULES 14)."""
    if aim.when == 'now':
        return answers(moments[-1], aim.query)
    if aim.when == 'at-start':
        return answers(moments[0], aim.query)
    found = (answers(base, aim.query) for base in moments)
    return all(found) if aim.when == 'always' else any(found)
