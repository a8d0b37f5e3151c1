"""Databases (RULES 4), normal forms (RULES 5) and what holds (RULES 6)."""

from typing import Dict, FrozenSet, Iterable, List, NamedTuple

from .problems import Problem, Signature
from .terms import (APPLICATION, EQUATION, OBJECT, WILD, Atom, Conjunction, Literal, Region, Term, conjunction,
                    equation, of_objects, with_slots, with_terms)


class Five(NamedTuple):
    """What the agent knows, as five sets over ground terms (RULES 4)."""

    kf: FrozenSet[Literal]
    kw: FrozenSet[Conjunction]
    kv: FrozenSet[Term]
    kx: FrozenSet[Conjunction]
    lcw: FrozenSet[Region]


def initial(problem: Problem) -> Five:
    """The sets of the initial items (RULES 4)."""
    found: Dict[str, set] = {kind: set() for kind in ('kf', 'kw', 'kv', 'kx', 'lcw')}
    for item in problem.init:
        found[item.kind].add(item.what)
    atoms = sorted((head, terms) for kind, head, terms, sign in found['kf'] if kind != EQUATION and not sign)
    regions = {(pattern, tuple(atom for atom in atoms if atom[0] == pattern[0])) for pattern in found['lcw']}
    return Five(frozenset(found['kf']), frozenset(found['kw']), frozenset(found['kv']), frozenset(found['kx']),
                frozenset(regions))


class Lookup:
    """A set of literals with the regions at hand, and what holds in it."""

    def __init__(self, signature: Signature, known: FrozenSet[Literal], regions: Iterable[Region]) -> None:
        self.signature = signature
        self.values: Dict[Term, Term] = {}
        for literal in known:
            self._note_value(literal)
        self._terms: Dict[Term, Term] = {}
        self._answers: Dict[Literal, bool] = {}
        self.normals = {self.normal_literal(literal) for literal in known} if self.values else known
        self.regions: Dict[int, List[Region]] = {}
        for region in regions:
            self.regions.setdefault(region[0][0], []).append(region)

    def _note_value(self, literal: Literal) -> None:
        """Notes the least d of `f(objects) = d` (RULES 5)."""
        kind, _, terms, sign = literal
        if kind == EQUATION and not sign and terms[1][0] == OBJECT and of_objects(terms[0]):
            self.values[terms[0]] = min(terms[1], self.values.get(terms[0], terms[1]))

    # ---- normal forms (RULES 5)

    def normal(self, term: Term) -> Term:
        """The normal form of a term, inner first."""
        if term[0] != APPLICATION or not self.values:
            return term
        found = self._terms.get(term)
        if found is None:
            inner = (APPLICATION, term[1], tuple(map(self.normal, term[2])))
            found = self._terms[term] = self.values.get(inner, inner)
        return found

    def normal_literal(self, literal: Literal) -> Literal:
        """The normal form of a literal."""
        return with_terms(literal, self.normal)

    def normal_conjunction(self, literals: Conjunction) -> Conjunction:
        """The set of the literals' normal forms."""
        return conjunction(map(self.normal_literal, literals))

    def normal_group(self, group: Conjunction) -> Conjunction:
        """The literals' normal forms in order, equal ones as often as they come."""
        return tuple(sorted(map(self.normal_literal, group)))

    def normal_atom(self, atom: Atom) -> Atom:
        """The atom with its arguments in normal form."""
        return (atom[0], tuple(map(self.normal, atom[1])))

    def normal_region(self, region: Region) -> Region:
        """The region with its fixed terms and its listed atoms in normal form, the atoms as a set."""
        return (with_slots(region[0], self.normal), tuple(sorted(set(map(self.normal_atom, region[1])))))

    # ---- what holds (RULES 6)

    def holds(self, literal: Literal) -> bool:
        """Whether the literal holds in the set."""
        found = self._answers.get(literal)
        if found is None:
            found = self._answers[literal] = self._holds(literal)
        return found

    def _holds(self, literal: Literal) -> bool:
        normal = self.normal_literal(literal)
        kind, head, terms, sign = normal
        if normal in self.normals:
            return True
        if kind == EQUATION:
            return self._is_shut_out(*terms) if sign else terms[0] == terms[1]
        return bool(sign) and any(self._is_closed_off(region, terms) for region in self.regions.get(head, ()))

    def _is_shut_out(self, left: Term, right: Term) -> bool:
        """Whether two normal forms are two different objects, or an application and a foreign object."""
        if right[0] != OBJECT:
            return False
        return left != right if left[0] == OBJECT else self.signature.is_foreign(right, left)

    def _is_closed_off(self, region: Region, terms: Iterable[Term]) -> bool:
        """Whether a region leaves no room for an atom of its predicate at these arguments."""
        (_, slots), atoms = region
        return (all(slot == WILD or self.normal(slot) == self.normal(term) for slot, term in zip(slots, terms))
                and all(any(map(self.differ, atom[1], terms)) for atom in atoms))

    def differ(self, one: Term, other: Term) -> bool:
        """Whether `one != other` holds."""
        return self.holds(equation(one, other, 1))


class Database:
    """Closed databases, and what holds in them. Each is made once, so two are equal where they are one."""

    def __init__(self, signature: Signature, five: Five) -> None:
        self.five = five
        self.lookup = Lookup(signature, five.kf, five.lcw)
        self.holds = self.lookup.holds
        self.differ = self.lookup.differ
        self.normal = self.lookup.normal
