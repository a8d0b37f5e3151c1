"""What a file states: the signature, the actions, the start and the aims (RULES 2, FORMAT 2); and how it is spelled."""

from dataclasses import dataclass, field
from typing import Callable, Dict, List, Optional, Sequence, Tuple, Union

from pkslib import Expression, expressions

from .terms import (APPLICATION, EQUATION, OBJECT, PARAMETER, WILD, Conjunction, Literal, Pattern, Term,
                    application, conjunction, conjunction_at, equation, literal_at, literal_of, negated, pattern_at,
                    term_at)


@dataclass(frozen=True)
class Signature:
    """Types with their parents, the type of each object, and what predicates and functions take (RULES 2)."""

    parents: Tuple[Optional[int], ...]
    objects: Tuple[int, ...]
    predicates: Tuple[Tuple[int, ...], ...]
    functions: Tuple[Tuple[Tuple[int, ...], int], ...]
    _objects_of: Dict[int, Tuple[Term, ...]] = field(default_factory=dict, compare=False, repr=False)

    def fits(self, kind: int, wanted: int) -> bool:
        """Whether a type is another one, or its parent fits that."""
        parent = self.parents[kind]
        return kind == wanted or (parent is not None and self.fits(parent, wanted))

    def objects_of(self, kind: int) -> Tuple[Term, ...]:
        """The objects whose own type fits the type, in order."""
        if kind not in self._objects_of:
            self._objects_of[kind] = tuple((OBJECT, n) for n, own in enumerate(self.objects) if self.fits(own, kind))
        return self._objects_of[kind]

    def type_of(self, term: Term) -> int:
        """The own type of an object, the result type of an application."""
        return self.objects[term[1]] if term[0] == OBJECT else self.functions[term[1]][1]

    def is_foreign(self, thing: Term, place: Term) -> bool:
        """Whether an object isn't one of an application's result type."""
        return not self.fits(self.objects[thing[1]], self.functions[place[1]][1])


@dataclass(frozen=True)
class Effect:
    """A target under a condition: `set`, `unset` and `clear` of a predicate's slots, `assign` of a place a value."""

    condition: Conjunction
    kind: str
    head: int
    slots: Tuple[Term, ...]
    value: Term = ()

    def at(self, arguments: Sequence[Term]) -> 'Effect':
        """The effect with the arguments put in."""
        return Effect(conjunction_at(self.condition, arguments), self.kind, self.head,
                      pattern_at((self.head, self.slots), arguments)[1],
                      term_at(self.value, arguments) if self.value else ())

    @property
    def place(self) -> Term:
        """What an `assign` assigns."""
        return application(self.head, self.slots)

    @property
    def target(self) -> Literal:
        """The literal that a `set`, `unset` or `assign` makes true."""
        if self.kind == 'assign':
            return equation(self.place, self.value)
        made = literal_of((self.head, self.slots))
        return made if self.kind == 'set' else negated(made)


What = Union[Literal, Conjunction, Term, Pattern]
"""What a query, a sense or an item is about."""


@dataclass(frozen=True)
class Query:
    """`k` of a literal, `kw` of a conjunction, `kv` of a term; denied behind `not-derived`."""

    kind: str
    what: What
    denied: bool = False

    def at(self, arguments: Sequence[Term]) -> 'Query':
        """The query with the arguments put in."""
        return Query(self.kind, AT[self.kind](self.what, arguments), self.denied)


@dataclass(frozen=True)
class Sense:
    """`sense` of a conjunction, `sense-value` of a term, `sense-all` of a pattern."""

    kind: str
    what: What

    def at(self, arguments: Sequence[Term]) -> 'Sense':
        """The sense with the arguments put in."""
        return Sense(self.kind, AT[self.kind](self.what, arguments))


@dataclass(frozen=True)
class Item:
    """`kf` of a literal, `kw` of a conjunction, `kv` of a term, `lcw` of a pattern, `kx` of a group."""

    kind: str
    what: What


@dataclass(frozen=True)
class Add:
    """An item under queries of its own."""

    given: Tuple[Query, ...]
    item: Item


AT: Dict[str, Callable[..., What]] = {'k': literal_at, 'kf': literal_at, 'kw': conjunction_at, 'kv': term_at, 'lcw': pattern_at,
                      'sense': conjunction_at, 'sense-value': term_at, 'sense-all': pattern_at}
"""How arguments are put in, by the word of a query, an item or a sense."""


@dataclass(frozen=True)
class Action:
    """A schema."""

    name: str
    cost: int
    kinds: Tuple[int, ...]
    pre: Tuple[Query, ...]
    effects: Tuple[Effect, ...]
    senses: Tuple[Sense, ...]
    adds: Tuple[Add, ...]
    parameters: Tuple[str, ...] = ()


@dataclass(frozen=True)
class Aim:
    """A query, and when it is asked: `now`, `at-start`, `always` or `once`."""

    when: str
    query: Query


@dataclass
class Names:
    """The numbers of declared names by kind, and the names by their numbers."""

    kinds: Dict[str, List[str]] = field(default_factory=lambda: {
        'type': [], 'object': [], 'predicate': [], 'function': [], 'parameter': []})

    def add(self, kind: str, name: str) -> None:
        """Declares a name."""
        self.kinds[kind].append(name)

    def number(self, kind: str, name: str) -> int:
        """The number of a name; ValueError where it isn't declared."""
        return self.kinds[kind].index(name)

    # ---- reading

    def term(self, form: Expression) -> Term:
        """The term that a form spells."""
        if isinstance(form, str):
            if form.startswith('?'):
                return (PARAMETER, self.number('parameter', form))
            return (OBJECT, self.number('object', form))
        return application(self.number('function', str(form[0])), [self.term(part) for part in form[1:]])

    def literal(self, form: Expression) -> Literal:
        """The literal that a form spells."""
        if form[0] == 'not':
            return negated(self.literal(form[1]))
        if form[0] == '=':
            return equation(self.term(form[1]), self.term(form[2]))
        return literal_of(self.pattern(form))

    def pattern(self, form: Expression) -> Pattern:
        """The pattern, or the atom, that a form spells."""
        return (self.number('predicate', str(form[0])),
                tuple(WILD if part == '_' else self.term(part) for part in form[1:]))

    def conjunction(self, forms: Sequence[Expression]) -> Conjunction:
        """The conjunction of some literals."""
        return conjunction(map(self.literal, forms))

    # ---- spelling (FORMAT 6)

    def spelled(self, term: Term) -> Expression:
        """The form of a term, or of a wildcard."""
        if term == WILD:
            return '_'
        if term[0] == APPLICATION:
            return (self.kinds['function'][term[1]], *map(self.spelled, term[2]))
        return self.kinds['object' if term[0] == OBJECT else 'parameter'][term[1]]

    def spelled_literal(self, literal: Literal) -> Expression:
        """The form of a literal."""
        kind, head, terms, sign = literal
        name = '=' if kind == EQUATION else self.kinds['predicate'][head]
        form = (name, *map(self.spelled, terms))
        return ('not', form) if sign else form

    def spelled_pattern(self, pattern: Pattern) -> Expression:
        """The form of a pattern."""
        return (self.kinds['predicate'][pattern[0]], *map(self.spelled, pattern[1]))


@dataclass(frozen=True)
class Problem:
    """All that a file states but its world."""

    version: int
    signature: Signature
    names: Names
    actions: Tuple[Action, ...]
    init: Tuple[Item, ...]
    aims: Tuple[Aim, ...]


# ---- reading forms

def sections(parts: Sequence[Expression]) -> Dict[str, Tuple[Expression, ...]]:
    """The sections of a list by their heads."""
    return {str(part[0]): tuple(part[1:]) for part in parts if not isinstance(part, str)}


def read_query(names: Names, form: Expression) -> Query:
    """A query."""
    if form[0] == 'not-derived':
        inner = read_query(names, form[1])
        return Query(inner.kind, inner.what, True)
    if form[0] == 'k':
        return Query('k', names.literal(form[1]))
    if form[0] == 'kw':
        return Query('kw', names.conjunction(form[1:]))
    return Query('kv', names.term(form[1]))


def read_item(names: Names, form: Expression) -> Item:
    """An item of `init`, or of an add."""
    kind = str(form[0])
    if kind == 'kf':
        return Item(kind, names.literal(form[1]))
    if kind == 'kw':
        return Item(kind, names.conjunction(form[1:]))
    if kind == 'kx':
        return Item(kind, tuple(sorted(map(names.literal, form[1:]))))
    return Item(kind, names.term(form[1]) if kind == 'kv' else names.pattern(form[1]))


def read_add(names: Names, form: Expression) -> Add:
    """An add of `knows`."""
    if form[0] == 'if':
        return Add(tuple(read_query(names, query) for query in form[1]), read_item(names, form[2]))
    return Add((), read_item(names, form))


def read_effect(names: Names, form: Expression) -> Effect:
    """An effect."""
    condition: Conjunction = ()
    if form[0] == 'when':
        condition, form = names.conjunction(form[1]), form[2]
    kind = str(form[0])
    if kind == 'assign':
        place = names.term(form[1])
        return Effect(condition, kind, place[1], place[2], names.term(form[2]))
    return Effect(condition, kind, *names.pattern(form[1]))


def read_sense(names: Names, form: Expression) -> Sense:
    """A sense."""
    kind = str(form[0])
    if kind == 'sense':
        return Sense(kind, names.conjunction(form[1:]))
    return Sense(kind, names.term(form[1]) if kind == 'sense-value' else names.pattern(form[1]))


def read_action(names: Names, parts: Sequence[Expression]) -> Action:
    """An action, from its name on."""
    own = sections(parts[1:])
    names.kinds['parameter'] = [str(name) for name, _ in own.get('params', ())]
    return Action(
        str(parts[0]), int(own.get('cost', ('1',))[0]),
        tuple(names.number('type', kind) for _, kind in own.get('params', ())),
        tuple(read_query(names, form) for form in own.get('pre', ())),
        tuple(read_effect(names, form) for form in own.get('effects', ())),
        tuple(read_sense(names, form) for form in own.get('senses', ())),
        tuple(read_add(names, form) for form in own.get('knows', ())),
        tuple(names.kinds['parameter']))


def read_aim(names: Names, form: Expression) -> Aim:
    """An aim."""
    if form[0] in ('at-start', 'always', 'once'):
        return Aim(str(form[0]), read_query(names, form[1]))
    return Aim('now', read_query(names, form))


def read_signature(names: Names, own: Dict[str, Tuple[Expression, ...]]) -> Signature:
    """The signature that the sections of a domain declare; its names are added."""
    parents: List[Optional[int]] = []
    for kind in own.get('types', ()):
        name, parent = (kind, None) if isinstance(kind, str) else kind
        parents.append(None if parent is None else names.number('type', parent))
        names.add('type', name)
    objects: List[int] = []
    for kind, *things in own.get('objects', ()):
        for thing in things:
            names.add('object', thing)
            objects.append(names.number('type', kind))
    shapes: Dict[str, List[Tuple[int, ...]]] = {'predicate': [], 'function': []}
    for word in ('predicate', 'function'):
        for name, *kinds in own.get(f'{word}s', ()):
            names.add(word, name)
            shapes[word].append(tuple(names.number('type', kind) for kind in kinds))
    return Signature(tuple(parents), tuple(objects), tuple(shapes['predicate']),
                     tuple((kinds[:-1], kinds[-1]) for kinds in shapes['function']))


def read_problem(text: str) -> Problem:
    """The problem that an accepted text states."""
    version, domain, problem, *_ = expressions(text)
    names = Names()
    signature = read_signature(names, sections(domain[1:]))
    actions = tuple(read_action(names, part[1:]) for part in domain[1:] if part[0] == 'action')
    names.kinds['parameter'] = []
    stated = sections(problem[1:])
    return Problem(int(str(version[1])), signature, names, actions,
                   tuple(read_item(names, form) for form in stated.get('init', ())),
                   tuple(read_aim(names, form) for form in stated['goal']))
