"""Justified adds, and the adds that follow from an action's text (RULES 10)."""

from typing import Callable, Iterator, Optional, Sequence, Tuple

from .problems import Action, Add, Effect, Item, Query, What
from .terms import (APPLICATION, EQUATION, OBJECT, WILD, Conjunction, Literal, Pattern, Term, conjunction, equation,
                    literal_of, negated)

Given = Tuple[Query, ...]


def given_of(action: Action, add: Add) -> Given:
    """The given queries: the add's own and the preconditions, negated ones left out."""
    return tuple(query for query in add.given + action.pre if not query.denied)


def is_known(given: Given, literal: Literal) -> bool:
    """Whether `k` of the literal is given."""
    return Query('k', literal) in given


def is_given(given: Given, condition: Conjunction) -> bool:
    """Whether `k` of each literal of a condition is given."""
    return all(is_known(given, literal) for literal in condition)


def is_given_either_way(given: Given, literal: Literal) -> bool:
    """Whether `k` of it, `k` of its negation, or `kw` of one of these alone is given."""
    return any(is_known(given, one) or Query('kw', (one,)) in given for one in (literal, negated(literal)))


def are_apart(given: Given, one: Term, other: Term) -> bool:
    """Whether two arguments are two different objects, or have their difference given."""
    if WILD in (one, other):
        return False
    return (one[0] == other[0] == OBJECT and one != other) or is_known(given, equation(one, other, 1))


def may_undo(given: Given, later: Effect, earlier: Effect) -> bool:
    """Whether a later effect may undo an earlier one."""
    opposite = {'set': ('unset', 'clear'), 'unset': ('set',), 'clear': ('set',), 'assign': ('assign',)}
    return (later.kind in opposite[earlier.kind] and later.head == earlier.head
            and not any(are_apart(given, *pair) for pair in zip(later.slots, earlier.slots)))


def lasts(action: Action, given: Given, number: int) -> bool:
    """Whether no later effect may undo the one of this number."""
    return not any(may_undo(given, later, action.effects[number]) for later in action.effects[number + 1:])


def makers(action: Action, given: Given, literal: Literal) -> Iterator[Effect]:
    """The effects that make a literal so: their conditions given, and no later one may undo them."""
    for n, effect in enumerate(action.effects):
        if (effect.kind != 'clear' and effect.target == literal and is_given(given, effect.condition)
                and lasts(action, given, n)):
            yield effect


def is_found_among_all(action: Action, literal: Literal) -> bool:
    """J4: a `sense-all` with the same terms, and wildcards at objects or parameters."""
    def fits(slots: Sequence[Term]) -> bool:
        return all(slot == term or (slot == WILD and term[0] != APPLICATION) for slot, term in zip(slots, literal[2]))
    return any(sense.kind == 'sense-all' and sense.what[0] == literal[1] and fits(sense.what[1])
               for sense in action.senses)


def is_decided(action: Action, given: Given, literal: Literal) -> bool:
    """J5: a conditional `set` or `unset` of the atom, the only effect on the predicate, all of it given either way."""
    on = [effect for effect in action.effects if effect.kind != 'assign' and effect.head == literal[1]]
    if len(on) != 1 or on[0].kind == 'clear' or not on[0].condition or on[0].slots != literal[2]:
        return False
    condition = on[0].condition
    return is_given_either_way(given, literal) and (
        Query('kw', condition) in given or all(is_given_either_way(given, one) for one in condition))


def assigns_known(action: Action, given: Given, place: Term) -> bool:
    """J7: an unconditional `assign` to the place that lasts, of an object, a parameter or a term with `kv` given."""
    return any(effect.kind == 'assign' and effect.place == place and not effect.condition and lasts(action, given, n)
               and (effect.value[0] != APPLICATION or Query('kv', effect.value) in given)
               for n, effect in enumerate(action.effects))


def clears_all(action: Action, pattern: Pattern) -> bool:
    """J8: an unconditional `clear` of the pattern, with no later `set` on the predicate."""
    return any(effect.kind == 'clear' and (effect.head, effect.slots) == pattern and not effect.condition
               and not any(later.kind == 'set' and later.head == effect.head for later in action.effects[n + 1:])
               for n, effect in enumerate(action.effects))


def senses(action: Action, kind: str, what: What) -> bool:
    """Whether the action has this sense (J3, J6)."""
    return any((sense.kind, sense.what) == (kind, what) for sense in action.senses)


def case_of(action: Action, add: Add) -> Optional[str]:
    """The case of an add, the first that fits; None where none does."""
    given, kind, what = given_of(action, add), add.item.kind, add.item.what
    if kind == 'kf':
        fits = any(makers(action, given, what))
        return ('J2' if what[0] == EQUATION else 'J1') if fits else None
    if kind == 'kv':
        return first((('J6', lambda: senses(action, 'sense-value', what)),
                      ('J7', lambda: assigns_known(action, given, what))))
    if kind == 'lcw':
        return 'J8' if clears_all(action, what) else None
    alone = len(what) == 1 and what[0][0] != EQUATION
    return first((('J3', lambda: senses(action, 'sense', what)),
                  ('J4', lambda: alone and is_found_among_all(action, what[0])),
                  ('J5', lambda: alone and is_decided(action, given, what[0]))))


def first(cases: Sequence[Tuple[str, Callable[[], bool]]]) -> Optional[str]:
    """The first case whose test says yes."""
    return next((name for name, test in cases if test()), None)


# ---- derived adds

def shapes_of_effect(effect: Effect) -> Iterator[Add]:
    """The adds that are made for an effect."""
    if effect.kind != 'clear':
        yield Add(tuple(Query('k', literal) for literal in effect.condition), Item('kf', effect.target))
    if effect.kind in ('set', 'unset') and effect.condition:
        atom = literal_of((effect.head, effect.slots))
        yield Add((Query('kw', effect.condition), Query('kw', (atom,))), Item('kw', (atom,)))
    if effect.kind == 'assign' and not effect.condition:
        needed = (Query('kv', effect.value),) if effect.value[0] == APPLICATION else ()
        yield Add(needed, Item('kv', effect.place))
    if effect.kind == 'clear' and not effect.condition:
        yield Add((), Item('lcw', (effect.head, effect.slots)))


def shapes(action: Action) -> Iterator[Add]:
    """The adds that are made for each effect, and then for each sense."""
    for effect in action.effects:
        yield from shapes_of_effect(effect)
    for sense in action.senses:
        if sense.kind == 'sense':
            yield Add((), Item('kw', conjunction(sense.what)))
        elif sense.kind == 'sense-value':
            yield Add((), Item('kv', sense.what))


def derived_adds(action: Action) -> Tuple[Add, ...]:
    """The adds that follow from the action's text."""
    found: Tuple[Add, ...] = ()
    for add in shapes(action):
        if add not in found and case_of(action, add):
            found += (add,)
    return found
