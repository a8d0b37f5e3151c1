"""Progression: what is known after an action (RULES 11)."""

from typing import Dict, Iterator, Optional, Sequence, Set, Tuple, Union

from .adds import case_of, given_of, makers
from .closing import Closer
from .interference import Interference
from .lookup import Database, Five
from .problems import AT, Action, Add, Effect
from .queries import answers
from .terms import WILD, Conjunction, Literal, Region, Term, application, equation, negated, parameters, pattern_at, term_at

Instance = Tuple[int, Tuple[Term, ...]]
"""The number of an action, and its arguments."""

Gained = Union[Literal, Conjunction, Term, Region]
"""What an add gives: a known literal, a known conjunction, a known place, a region."""

SENSED = ('J3', 'J4', 'J6')


def put_in(action: Action, arguments: Sequence[Term]) -> Tuple[Effect, ...]:
    """The effects with the arguments put in."""
    return tuple(effect.at(arguments) for effect in action.effects)


def widened(acting: Interference, region: Region) -> Optional[Region]:
    """What an action leaves of a region: itself, a wider one, or None where it is lost."""
    (head, slots), atoms = region
    terms = [slot for slot in slots if slot != WILD] + [term for atom in atoms for term in atom[1]]
    if not all(map(acting.is_stable, terms)):
        return None
    listed = set(atoms)
    for n, effect in enumerate(acting.effects):
        fixed = [pair for pair in zip(effect.slots, slots) if pair[1] != WILD]
        if (effect.kind != 'set' or effect.head != head or not acting.firing[n]
                or any(acting.base.differ(*pair) for pair in fixed)):
            continue
        atom = acting.base.lookup.normal_atom((head, effect.slots))
        if not all(map(acting.is_stable, atom[1])):
            return None
        listed.add(atom)
    return (region[0], tuple(sorted(listed)))


def kept(acting: Interference) -> Five:
    """What the action keeps of the databases before it."""
    def is_untouched(literals: Sequence[Literal]) -> bool:
        return not any(acting.spoils(one) for literal in literals for one in (literal, negated(literal)))
    kf, kw, kv, kx, lcw = acting.base.five
    regions = (widened(acting, region) for region in lcw)
    return Five(frozenset(literal for literal in kf if not acting.spoils(literal)),
                frozenset(filter(is_untouched, kw)), frozenset(filter(acting.is_stable, kv)),
                frozenset(filter(is_untouched, kx)), frozenset(region for region in regions if region is not None))


class Gains:
    """What the adds of an action give, whose terms allow it."""

    def __init__(self, acting: Interference, action: Action, arguments: Sequence[Term]) -> None:
        self.acting, self.action, self.arguments = acting, action, arguments
        self.normal = acting.base.normal
        self.found: Dict[str, Set[Gained]] = {kind: set() for kind in ('kf', 'kw', 'kv', 'lcw')}
        for add in action.adds:
            if all(answers(acting.base, query.at(arguments)) for query in add.given):
                for what in self.given_by(add):
                    self.found[add.item.kind].add(what)

    def are_stable(self, terms: Sequence[Term]) -> bool:
        """Whether each of the terms is stable."""
        return all(map(self.acting.is_stable, terms))

    def given_by(self, add: Add) -> Iterator[Gained]:
        """What an add gives: one thing, or nothing."""
        case = case_of(self.action, add)
        if case in SENSED:
            yield from self.sensed(add)
        elif case == 'J2':
            yield from self.assigned(add)
        elif case == 'J7':
            yield from self.place(add.item.what)
        elif case == 'J8':
            pattern = self.acting.base.lookup.normal_region((pattern_at(add.item.what, self.arguments), ()))[0]
            if self.are_stable([slot for slot in pattern[1] if slot != WILD]):
                yield (pattern, ())
        else:
            yield from self.made(add)

    def made(self, add: Add) -> Iterator[Gained]:
        """A world add in normal form, each of its terms stable."""
        what = AT[add.item.kind](add.item.what, self.arguments)
        literals = self.acting.base.lookup.normal_conjunction((what,) if add.item.kind == 'kf' else what)
        if all(self.are_stable(literal[2]) for literal in literals):
            yield literals[0] if add.item.kind == 'kf' else literals

    def place(self, written: Term) -> Iterator[Term]:
        """An assigned application, its arguments in normal form and stable."""
        inner = [self.normal(term_at(argument, self.arguments)) for argument in written[2]]
        if self.are_stable(inner):
            yield application(written[1], inner)

    def assigned(self, add: Add) -> Iterator[Literal]:
        """A J2 add, where its left side as the schema has it is the place of an `assign` that makes it so."""
        left, right = add.item.what[2]
        if not any(effect.place == left for effect in makers(self.action, given_of(self.action, add), add.item.what)):
            return
        value = self.normal(term_at(right, self.arguments))
        if self.acting.is_stable(value):
            for place in self.place(left):
                yield equation(place, value)

    def sensed(self, add: Add) -> Iterator[Gained]:
        """A sensed add: the arguments in normal form, those that occur in it stable, the rest as written."""
        what = add.item.what
        terms = [what] if add.item.kind == 'kv' else [term for literal in what for term in literal[2]]
        inner = [self.normal(argument) for argument in self.arguments]
        if self.are_stable([inner[number] for term in terms for number in parameters(term)]):
            yield AT[add.item.kind](what, inner)


def progress(closer: Closer, action: Action, acting: Interference, arguments: Sequence[Term]) -> Optional[Database]:
    """The databases after an action, or None where they clash."""
    left, gained = kept(acting), Gains(acting, action, arguments).found
    return closer.close(Five(left.kf | gained['kf'], left.kw | gained['kw'], left.kv | gained['kv'], left.kx,
                             left.lcw | gained['lcw']))
