"""PDDL's own meaning: a plan of the planner is run in every world that a problem allows.

This shares the reading of parentheses and of printed plans with the tools, and nothing else. Of what is known it
says nothing: `knows-whether` and `knows-value` hold.
"""

import itertools
import re
from typing import Dict, FrozenSet, Iterator, List, Optional, Sequence, Set, Tuple

from pddllib.text import Form
from pkslib import Act, Branch, Cases, Expression, Goal, Tree, read_plan

World = FrozenSet[Expression]
"""The facts that are true in a world; a value of a place is the fact `(= place value)`."""

ENDS = r'finish(-\d+)*'
"""An action that PDDL doesn't have, and that changes nothing there: a plan ends with it where the goal has an `or`."""


class Wrong(Exception):
    """What goes wrong in some world."""


def plain(form: Form) -> Expression:
    """A form as nested tuples of words in small letters."""
    return form.word if form.word is not None else tuple(plain(part) for part in form.parts)


def typed(parts: Sequence[Expression]) -> List[Tuple[str, str]]:
    """The names of a typed list with their types."""
    found, waiting, parts = [], [], list(parts)
    while parts:
        word = parts.pop(0)
        if word == '-':
            kind = parts.pop(0)
            found += [(name, kind) for name in waiting]
            waiting = []
        else:
            waiting.append(word)
    return found + [(name, 'object') for name in waiting]


class Model:
    """A domain and a problem."""

    def __init__(self, domain: Expression, problem: Expression, standing: Dict[str, Dict[str, str]]) -> None:
        """`standing` has for actions of the plan the objects that stand for parameters of theirs."""
        self.standing = standing
        self.parts = domain[2:] + problem[2:]
        self.parents = dict(typed(self.under(':types')))
        self.objects = dict(typed(self.under(':constants') + self.under(':objects')))
        self.actions = {part[1]: dict(zip(part[2::2], part[3::2]))
                        for part in self.parts if part[0] == ':action'}
        self.goal = ('and',) + self.under(':goal')

    def under(self, head: str) -> Tuple[Expression, ...]:
        """The parts of all sections with a head."""
        return tuple(p for part in self.parts if part[0] == head for p in part[1:])

    def objects_of(self, kind: str) -> List[str]:
        """The objects of a type and of those below it."""
        def fits(own: Optional[str]) -> bool:
            """Whether a type is the one that is wanted, or below it."""
            while own not in (kind, 'object', None):
                own = self.parents.get(own)
            return own == kind or kind == 'object'
        return [name for name, own in self.objects.items() if fits(own)]

    def bindings(self, variables: Sequence[Expression], given: Dict[str, str]) -> Iterator[Dict[str, str]]:
        """All ways to choose objects for variables."""
        pairs = typed(variables)
        for chosen in itertools.product(*(self.objects_of(kind) for _, kind in pairs)):
            yield {**given, **{name: o for (name, _), o in zip(pairs, chosen)}}

    def worlds(self) -> Iterator[World]:
        """All worlds of the start: true facts, and values as facts `(= place value)`."""
        start = [p for part in self.under(':init')
                 for p in (part[1:] if part[0] == 'and' else [part])]
        start = [('oneof',) + p[2::2] if p[0] == 'probabilistic' else p for p in start]
        sure = {p for p in start if p[0] not in ('unknown', 'oneof', 'or', 'not')}
        loose = [p for p in start if p[0] in ('oneof', 'or')]
        open_facts = sorted({p[1] for p in start if p[0] == 'unknown'} |
                            {m[1] if m[0] == 'not' else m for p in loose for m in p[1:]}, key=str)
        for choice in itertools.product((False, True), repeat=len(open_facts)):
            world = frozenset(sure | {f for f, so in zip(open_facts, choice) if so})
            places = [fact[1] for fact in world if fact[0] == '=']
            if len(places) > len(set(places)):
                continue
            counts = [(p[0], sum(self.holds(m, world, {}) for m in p[1:])) for p in loose]
            if all(n == 1 if head == 'oneof' else n > 0 for head, n in counts):
                yield world

    # Conditions and effects in one world

    def value(self, term: Expression, world: World, given: Dict[str, str]) -> Optional[Expression]:
        """The value of a term."""
        if isinstance(term, str):
            return given.get(term, term)
        place = (term[0],) + tuple(self.value(t, world, given) for t in term[1:])
        return next((p[2] for p in world if p[0] == '=' and p[1] == place), None)

    def holds(self, form: Expression, world: World, given: Dict[str, str]) -> bool:
        """Whether a condition holds."""
        head, parts = (form[0], form[1:]) if form else ('and', ())
        if head == 'and':
            return all(self.holds(p, world, given) for p in parts)
        if head in ('knows-whether', 'knows-value'):
            return True
        if head == 'or':
            return any(self.holds(p, world, given) for p in parts)
        if head == 'not':
            return not self.holds(parts[0], world, given)
        if head == 'imply':
            return not self.holds(parts[0], world, given) or self.holds(parts[1], world, given)
        if head in ('forall', 'exists'):
            found = [self.holds(parts[1], world, g) for g in self.bindings(parts[0], given)]
            return all(found) if head == 'forall' else any(found)
        if head == '=':
            return self.value(parts[0], world, given) == self.value(parts[1], world, given)
        return (head,) + tuple(self.value(p, world, given) for p in parts) in world

    def changes(self, form: Expression, world: World,
                given: Dict[str, str]) -> Tuple[Set[Expression], Set[Expression]]:
        """What an effect takes away and what it adds."""
        head, parts = (form[0], form[1:]) if form else ('and', ())
        if head == 'and':
            inner = [self.changes(p, world, given) for p in parts]
        elif head == 'when':
            fires = self.holds(parts[0], world, given)
            inner = [self.changes(parts[1], world, given)] if fires else []
        elif head == 'forall':
            inner = [self.changes(parts[1], world, g) for g in self.bindings(parts[0], given)]
        elif head in ('increase', 'knows-whether', 'knows-value'):
            inner = []
        elif head == 'assign':
            place = (parts[0][0],) + tuple(self.value(p, world, given) for p in parts[0][1:])
            gone = {p for p in world if p[0] == '=' and p[1] == place}
            inner = [(gone, {('=', place, self.value(parts[1], world, given))})]
        else:
            fact = parts[0] if head == 'not' else form
            fact = (fact[0],) + tuple(self.value(p, world, given) for p in fact[1:])
            inner = [({fact}, set()) if head == 'not' else (set(), {fact})]
        return (set().union(*(gone for gone, _ in inner)), set().union(*(new for _, new in inner)))

    def done(self, step: Expression, world: World) -> World:
        """The world after an action; Wrong where it can't be done."""
        # (an action that is written as several has a number behind its name)
        name = step[0] if step[0] in self.actions else re.sub(r'-\d+$', '', step[0])
        if name not in self.actions and re.fullmatch(ENDS, step[0]):
            return world
        action = self.actions[name]
        stands = self.standing.get(step[0], {})
        names = [name for name, _ in typed(action.get(':parameters', ())) if name not in stands]
        given = dict(stands, **dict(zip(names, (self.value(t, world, {}) for t in step[1:]))))
        if not self.holds(action.get(':precondition', ()), world, given):
            raise Wrong(f'{step} is done where its precondition does not hold')
        gone, new = self.changes(action.get(':effect', ()), world, given)
        return frozenset(world - gone | new)

    def run(self, plan: Tree, world: World) -> None:
        """Follows a plan to the goal."""
        while isinstance(plan, Act):
            world = self.done((plan.name, *plan.arguments), world)
            plan = plan.next
        if isinstance(plan, Goal):
            if not self.holds(self.goal, world, {}):
                raise Wrong('the plan ends where the goal does not hold')
        elif isinstance(plan, Branch):
            test = all(self.holds(p, world, {}) for p in plan.literals)
            self.run(plan.true if test else plan.false, world)
        elif isinstance(plan, Cases):
            self.run(dict(plan.sides)[self.value(plan.term, world, {})], world)
        else:
            raise Wrong('a world comes to a side that is called impossible')


def check(domain: Form, problem: Form, text: str, standing: Dict[str, Dict[str, str]]) -> int:
    """Runs a printed plan in every world; gives how many there are."""
    model = Model(plain(domain), plain(problem), standing)
    plan = read_plan(text)
    worlds = list(model.worlds())
    for world in worlds:
        model.run(plan, world)
    return len(worlds)
