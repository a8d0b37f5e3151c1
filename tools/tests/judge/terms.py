"""Terms, literals and their orders (RULES 1), and arguments put in for parameters (RULES 3).

Everything is a tuple whose own order is the order of the rules, so sorting needs no key:

    an object (0, number), a parameter (1, number), an application (2, function, arguments)
    a literal (0, predicate, arguments, sign) or (1, 0, (left, right), sign), sign 0 positive and 1 negative
    a conjunction or a group: its literals in order
    an atom (predicate, arguments); a pattern (predicate, slots), a slot being a term or WILD
    a region (pattern, atoms in order)
"""

from typing import Any, Callable, Iterable, Iterator, Sequence, Tuple

Term = Tuple[Any, ...]
Literal = Tuple[int, int, Tuple[Term, ...], int]
Conjunction = Tuple[Literal, ...]
Atom = Tuple[int, Tuple[Term, ...]]
Pattern = Tuple[int, Tuple[Term, ...]]
Region = Tuple[Pattern, Tuple[Atom, ...]]

OBJECT, PARAMETER, APPLICATION = 0, 1, 2
PREDICATE, EQUATION = 0, 1
WILD: Term = ()


def application(function: int, arguments: Sequence[Term]) -> Term:
    """The function applied to the arguments."""
    return (APPLICATION, function, tuple(arguments))


def of_objects(term: Term) -> bool:
    """Whether the term is an application to objects."""
    return term[0] == APPLICATION and all(argument[0] == OBJECT for argument in term[2])


def applications(term: Term) -> Iterator[Term]:
    """The applications that occur in the term, itself included."""
    if term[0] == APPLICATION:
        yield term
        for argument in term[2]:
            yield from applications(argument)


def literal_of(atom: Atom) -> Literal:
    """The atom as a literal."""
    return (PREDICATE, atom[0], atom[1], 0)


def equation(one: Term, other: Term, sign: int = 0) -> Literal:
    """The equation of two terms, or its negation: the greater side stands first (RULES 1)."""
    return (EQUATION, 0, (one, other) if one >= other else (other, one), sign)


def negated(literal: Literal) -> Literal:
    """The negation."""
    return literal[:3] + (1 - literal[3],)


def conjunction(literals: Iterable[Literal]) -> Conjunction:
    """The set of the literals, in order."""
    return tuple(sorted(set(literals)))


def with_terms(literal: Literal, change: Callable[[Term], Term]) -> Literal:
    """The literal with each term changed; an equation is ordered again."""
    kind, head, terms, sign = literal
    if kind == EQUATION:
        return equation(change(terms[0]), change(terms[1]), sign)
    return (kind, head, tuple(map(change, terms)), sign)


def with_slots(pattern: Pattern, change: Callable[[Term], Term]) -> Pattern:
    """The pattern with each fixed term changed."""
    return (pattern[0], tuple(slot if slot == WILD else change(slot) for slot in pattern[1]))


def term_at(term: Term, arguments: Sequence[Term]) -> Term:
    """The term with the arguments put in for the parameters (RULES 3)."""
    if term[0] == PARAMETER:
        return arguments[term[1]]
    if term[0] == APPLICATION:
        return (APPLICATION, term[1], tuple(term_at(t, arguments) for t in term[2]))
    return term


def literal_at(literal: Literal, arguments: Sequence[Term]) -> Literal:
    """The literal with the arguments put in."""
    return with_terms(literal, lambda term: term_at(term, arguments))


def conjunction_at(literals: Conjunction, arguments: Sequence[Term]) -> Conjunction:
    """The conjunction with the arguments put in; equal literals become one."""
    return conjunction(literal_at(literal, arguments) for literal in literals)


def pattern_at(pattern: Pattern, arguments: Sequence[Term]) -> Pattern:
    """The pattern with the arguments put in."""
    return with_slots(pattern, lambda term: term_at(term, arguments))


def parameters(term: Term) -> Iterator[int]:
    """The numbers of the parameters that occur in the term."""
    if term[:1] == (PARAMETER,):
        yield term[1]
    elif term[:1] == (APPLICATION,):
        for argument in term[2]:
            yield from parameters(argument)
