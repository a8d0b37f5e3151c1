"""A problem as a file states it, over numbers, so that tuples compare as `docs/RULES.md` orders them.

An object is (0, number), a parameter (1, number), an application (2, function, arguments).
A literal is (0, predicate, arguments, denied) or (1, left, right, denied), the greater side
of an equation first. A slot of a pattern is a term or WILD. A fact is ('lit', literal),
('kx', literals) or ('lcw', (predicate, slots), atoms).
"""

from typing import Any, Dict, Iterable, List, Optional, Sequence, Tuple

from pkslib import Expression
from pkslib import expressions as forms

Term = Tuple[Any, ...]
"""An object, a parameter or an application."""

Terms = Sequence[Term]
"""Arguments, or slots of which some may be WILD."""

Literal = Tuple[Any, ...]
"""An atom or an equation, or the negation of one."""

Literals = Sequence[Literal]
"""Literals in order."""

Pattern = Tuple[Any, ...]
"""A predicate and its slots."""

Fact = Tuple[Any, ...]
"""A literal, a group or a region, behind its word."""

Target = Tuple[Any, ...]
"""What an effect writes: a pattern, or a place and its value."""

Names = Dict[str, int]
"""Names with their numbers."""

WILD: Term = (-1,)
"""A slot that is open."""


# Terms and literals

def is_object(t: Term) -> bool:
    """It is an object."""
    return bool(t[0] == 0)


def is_application(t: Term) -> bool:
    """It is a function with arguments."""
    return bool(t[0] == 2)


def equation(t: Term, u: Term, denied: bool) -> Literal:
    """The equation of two terms, or its negation, the greater side first."""
    return (1, max(t, u), min(t, u), denied)


def negated(literal: Literal) -> Literal:
    """The negation of a literal."""
    return literal[:3] + (not literal[3],)


def terms_of(literal: Literal) -> Terms:
    """The arguments of an atom, or the sides of an equation."""
    found: Terms = literal[2] if literal[0] == 0 else literal[1:3]
    return found


def applications(t: Term) -> List[Term]:
    """All applications in a term, itself among them."""
    if not is_application(t):
        return []
    return [t] + [a for part in t[2] for a in applications(part)]


def put_in(t: Term, given: Terms) -> Term:
    """The term with the arguments put in for its parameters."""
    if t[0] == 1:
        return given[t[1]]
    if is_application(t):
        return (2, t[1], tuple(put_in(part, given) for part in t[2]))
    return t


def literal_at(literal: Literal, given: Terms) -> Literal:
    """The literal with the arguments put in for its parameters."""
    if literal[0] == 0:
        return (0, literal[1], tuple(put_in(t, given) for t in literal[2]), literal[3])
    return equation(put_in(literal[1], given), put_in(literal[2], given), literal[3])


def slots_at(slots: Terms, given: Terms) -> Tuple[Term, ...]:
    """Slots with the arguments put in for their parameters."""
    return tuple(slot if slot == WILD else put_in(slot, given) for slot in slots)


class Effect:
    """What is written where all conditions hold."""

    def __init__(self, conditions: Sequence[Literal], kind: str, target: Target) -> None:
        self.conditions = sorted(set(conditions))
        self.kind = kind
        self.target = target

    def at(self, given: Terms) -> 'Effect':
        """The effect with the arguments put in for its parameters."""
        target = (slots_at(self.target, given) if self.kind == 'assign'
                  else (self.target[0], slots_at(self.target[1], given)))
        return Effect([literal_at(c, given) for c in self.conditions], self.kind, target)


class Action:
    """The literals that an action needs known, and its effects."""

    def __init__(self, needed: Literals, effects: Sequence[Effect]) -> None:
        self.needed = needed
        self.effects = effects


# Reading

class Problem:
    """What a file states of types, objects, actions, the start and the goal."""

    def __init__(self, text: str) -> None:
        _, domain, problem = self.three(text)
        sections = {part[0]: part[1:] for part in domain[1:] if part[0] != 'action'}
        self.types, self.parents = self.read_types(sections.get('types', []))
        self.objects, self.object_types = self.read_objects(sections.get('objects', []))
        self.predicates = self.numbers(row[0] for row in sections.get('predicates', []))
        self.arities = [len(row) - 1 for row in sections.get('predicates', [])]
        self.functions = self.numbers(row[0] for row in sections.get('functions', []))
        self.results = [self.types[row[-1]] for row in sections.get('functions', [])]
        acts = [part for part in domain[1:] if part[0] == 'action']
        self.acts = self.numbers(part[1] for part in acts)
        self.actions = [self.read_action(part) for part in acts]
        parts = {part[0]: part[1:] for part in problem[1:]}
        self.items = [self.read_item(item) for item in parts.get('init', [])]
        self.goals = [self.literal(aim[1]) for aim in parts['goal'] if aim[0] == 'k']

    @staticmethod
    def three(text: str) -> Tuple[Expression, Expression, Expression]:
        """The version, the domain and the problem; ValueError where one is missing."""
        version, domain, problem = forms(text)[:3]
        return version, domain, problem

    @staticmethod
    def numbers(names: Iterable[str]) -> Names:
        """Names with their numbers, in the order of declaration."""
        return {name: n for n, name in enumerate(names)}

    def read_types(self, rows: Sequence[Expression]) -> Tuple[Names, List[Optional[int]]]:
        """The types by their names, and the parent of each."""
        names = self.numbers(row if isinstance(row, str) else row[0] for row in rows)
        parents = [None if isinstance(row, str) else names[row[1]] for row in rows]
        return names, parents

    def read_objects(self, rows: Sequence[Expression]) -> Tuple[Names, List[int]]:
        """The objects by their names, and the type of each."""
        named = [(name, self.types[row[0]]) for row in rows for name in row[1:]]
        return self.numbers(name for name, _ in named), [kind for _, kind in named]

    def read_action(self, part: Expression) -> Action:
        """An action."""
        sections = {row[0]: row[1:] for row in part[2:]}
        names = self.numbers(row[0] for row in sections.get('params', []))
        needed = [self.literal(q[1], names) for q in sections.get('pre', []) if q[0] == 'k']
        effects = [self.read_effect(e, names) for e in sections.get('effects', [])]
        return Action(needed, effects)

    def read_effect(self, form: Expression, names: Names) -> Effect:
        """An effect, over parameters with these names."""
        conditions = []
        if form[0] == 'when':
            conditions = [self.literal(c, names) for c in form[1]]
            form = form[2]
        if form[0] == 'assign':
            return Effect(conditions, 'assign', tuple(self.term(t, names) for t in form[1:]))
        return Effect(conditions, form[0], self.pattern(form[1], names))

    def read_item(self, form: Expression) -> Optional[Fact]:
        """A known literal, a group or the pattern of a region, or nothing where it is no fact."""
        if form[0] == 'kf':
            return ('lit', self.literal(form[1]))
        if form[0] == 'kx':
            return ('kx', tuple(sorted(self.literal(l) for l in form[1:])))
        if form[0] == 'lcw':
            return ('lcw', self.pattern(form[1]))
        return None

    # ---- parts, in a file and in printed text

    def term(self, form: Expression, names: Optional[Names] = None) -> Term:
        """A term, over parameters with these names."""
        if isinstance(form, tuple):
            return (2, self.functions[form[0]], tuple(self.term(t, names) for t in form[1:]))
        if form.startswith('?'):
            return (1, (names or {})[form])
        return (0, self.objects[form])

    def pattern(self, form: Expression, names: Optional[Names] = None) -> Pattern:
        """A pattern or an atom."""
        slots = tuple(WILD if t == '_' else self.term(t, names) for t in form[1:])
        return (self.predicates[form[0]], slots)

    def literal(self, form: Expression, names: Optional[Names] = None, denied: bool = False) -> Literal:
        """A literal, or the negation of one."""
        if form[0] == 'not':
            return self.literal(form[1], names, True)
        if form[0] == '=':
            return equation(self.term(form[1], names), self.term(form[2], names), denied)
        return (0,) + self.pattern(form, names) + (denied,)

    def fact(self, form: Expression) -> Fact:
        """A literal, a group `(kx ..)` or a region `(lcw ..)`, as they are printed."""
        if form[0] == 'kx' and 'kx' not in self.predicates:
            return ('kx', tuple(self.literal(l) for l in form[1:]))
        if form[0] == 'lcw' and 'lcw' not in self.predicates:
            return ('lcw', self.pattern(form[1]), tuple(self.pattern(a) for a in form[2:]))
        return ('lit', self.literal(form))

    # ---- what is said of types and of the start

    def fits(self, kind: Optional[int], wanted: int) -> bool:
        """A type is another, or below it."""
        while kind is not None and kind != wanted:
            kind = self.parents[kind]
        return kind is not None

    def objects_of(self, kind: int) -> List[Term]:
        """The objects of a type."""
        return [(0, n) for n, own in enumerate(self.object_types) if self.fits(own, kind)]

    def type_of(self, t: Term) -> int:
        """The type of an object, or of the values of an application."""
        return self.object_types[t[1]] if is_object(t) else self.results[t[1]]

    def first_list(self, predicate: int) -> Tuple[Pattern, ...]:
        """The positive initial literals of a predicate, as atoms in order."""
        known = {item[1] for item in self.items if item is not None and item[0] == 'lit'}
        return tuple(sorted(l[1:3] for l in known if l[0] == 0 and l[1] == predicate and not l[3]))
