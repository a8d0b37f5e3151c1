"""Worlds (RULES 3), and good runs of a printed tree in all of them (RULES 16), by trying each."""

from itertools import product
from typing import Callable, Dict, FrozenSet, Hashable, Iterable, Iterator, List, Optional, Sequence, Tuple, Union

import pkslib

from .lookup import initial
from .problems import Action, Effect, Problem, Query, What
from .terms import (APPLICATION, EQUATION, OBJECT, WILD, Atom, Conjunction, Literal, Pattern, Term, application,
                    of_objects)

Found = Union[bool, Term, Tuple[Atom, ...]]
"""What a query or a sense finds: a truth, a value, or instances."""


class World:
    """The true atoms, and the value of each place (RULES 3)."""

    def __init__(self, true: FrozenSet[Atom], values: Dict[Term, Term]) -> None:
        self.true, self.values = true, values

    def value(self, term: Term) -> Term:
        """The value of a term, read inside out."""
        if term[0] != APPLICATION:
            return term
        return self.values[application(term[1], [self.value(argument) for argument in term[2]])]

    def atom(self, head: int, terms: Sequence[Term]) -> Atom:
        """The predicate at the values of the terms."""
        return (head, tuple(map(self.value, terms)))

    def holds(self, literal: Literal) -> bool:
        """Whether the literal is true."""
        kind, head, terms, sign = literal
        true = self.value(terms[0]) == self.value(terms[1]) if kind == EQUATION else self.atom(head, terms) in self.true
        return true != bool(sign)

    def all_hold(self, literals: Conjunction) -> bool:
        """Whether the conjunction is true."""
        return all(map(self.holds, literals))

    def matching(self, pattern: Pattern) -> Tuple[Atom, ...]:
        """The true instances of a pattern, in order."""
        head, slots = pattern
        fixed = [slot if slot == WILD else self.value(slot) for slot in slots]
        return tuple(sorted(atom for atom in self.true if atom[0] == head
                            and all(slot in (WILD, term) for slot, term in zip(fixed, atom[1]))))

    def seen(self, kind: str, what: What) -> Found:
        """What a query asks for, or what a sense finds: a truth, a value, or instances."""
        if kind in ('k', 'kw', 'sense'):
            return self.holds(what) if kind == 'k' else self.all_hold(what)
        return self.value(what) if kind in ('kv', 'sense-value') else self.matching(what)

    def after(self, effects: Sequence[Effect]) -> 'World':
        """The world after the effects: all is read in this one, and of what fires the last that writes decides."""
        true, values = set(self.true), dict(self.values)
        for effect in effects:
            if not self.all_hold(effect.condition):
                continue
            if effect.kind == 'assign':
                values[application(effect.head, [self.value(term) for term in effect.slots])] = self.value(effect.value)
            elif effect.kind == 'clear':
                true -= self.instances(effect, true)
            elif effect.kind == 'set':
                true.add(self.atom(effect.head, effect.slots))
            else:
                true.discard(self.atom(effect.head, effect.slots))
        return World(frozenset(true), values)

    def instances(self, effect: Effect, true: Iterable[Atom]) -> FrozenSet[Atom]:
        """Those of these atoms that a `clear` makes false, its terms read in this world."""
        return frozenset(World(frozenset(true), self.values).matching((effect.head, effect.slots)))


# ---- the compatible worlds (RULES 4)

def is_met(world: World, pattern: Pattern, atoms: Sequence[Atom]) -> bool:
    """Whether each true instance of a region's pattern is the value of a listed atom."""
    listed = {world.atom(*atom) for atom in atoms}
    return all(atom in listed for atom in world.matching(pattern))


def is_compatible(problem: Problem, world: World) -> bool:
    """Whether the initial Kf, Kx and LCW are true of the world."""
    five = initial(problem)
    return (all(map(world.holds, five.kf))
            and all([world.holds(literal) for literal in group].count(True) == 1 for group in five.kx)
            and all(is_met(world, *region) for region in five.lcw))


def is_flat(literal: Literal) -> bool:
    """Whether it is a predicate at objects, or says that an application to objects has an object as its value."""
    kind, _, terms, sign = literal
    if kind == EQUATION:
        return not sign and of_objects(terms[0]) and terms[1][0] == OBJECT
    return all(term[0] == OBJECT for term in terms)


def fixed_by_start(problem: Problem) -> Dict[Union[Atom, Term], Union[bool, Term]]:
    """The truth of atoms, and the values of places, that known literals fix."""
    flat = filter(is_flat, initial(problem).kf)
    return dict((terms[0], terms[1]) if kind == EQUATION else ((head, terms), not sign)
                for kind, head, terms, sign in flat)


def compatible_worlds(problem: Problem, limit: int) -> Optional[List[World]]:
    """All compatible worlds, or None where more than so many would have to be tried."""
    signature = problem.signature
    fixed = fixed_by_start(problem)
    atoms = [(head, things) for head, kinds in enumerate(signature.predicates)
             for things in product(*map(signature.objects_of, kinds))]
    places = [(application(head, things), signature.objects_of(result))
              for head, (kinds, result) in enumerate(signature.functions)
              for things in product(*map(signature.objects_of, kinds))]
    choices: List[Sequence[Union[bool, Term]]] = [[fixed[atom]] if atom in fixed else [False, True] for atom in atoms]
    choices += [[fixed[place]] if place in fixed else things for place, things in places]
    count = 1
    for options in choices:
        count *= len(options)
    if count > limit:
        return None
    worlds = []
    for taken in product(*choices):
        world = World(frozenset(atom for atom, true in zip(atoms, taken) if true),
                      {place: value for (place, _), value in zip(places, taken[len(atoms):])})
        if is_compatible(problem, world):
            worlds.append(world)
    return worlds


# ---- good runs (RULES 16)

class Fault(Exception):
    """What a tree does that it must not."""


Run = Tuple[World, ...]
"""The worlds of one run at its moments."""


def parted(runs: Sequence[Run], tells: Callable[[Run], Hashable]) -> List[List[Run]]:
    """The runs, those together of which the same is told."""
    groups: Dict[Hashable, List[Run]] = {}
    for run in runs:
        groups.setdefault(tells(run), []).append(run)
    return list(groups.values())


def is_known(runs: Sequence[Run], query: Query, moment: int = -1) -> bool:
    """Whether an agent to whom these runs are alike knows what a query asks for at a moment."""
    found = {run[moment].seen(query.kind, query.what) for run in runs}
    return found == {True} if query.kind == 'k' else len(found) == 1


def alike_at_start(problem: Problem, worlds: Sequence[World]) -> List[List[Run]]:
    """The compatible worlds, those together that agree on the initial Kw and Kv."""
    asked = [(item.kind, item.what) for item in problem.init if item.kind in ('kw', 'kv')]
    return parted([(world,) for world in worlds],
                  lambda run: tuple(run[0].seen(kind, what) for kind, what in asked))


class Walk:
    """Takes runs that are alike along a printed tree, and notes which come to which leaf."""

    def __init__(self, problem: Problem) -> None:
        self.problem, self.names = problem, problem.names
        self.actions: Dict[str, Action] = {action.name: action for action in problem.actions}
        self.leaves: List[List[Run]] = []

    def along(self, tree: pkslib.Tree, groups: Sequence[List[Run]]) -> None:
        """Goes on with all groups from a node on; Fault where the tree isn't good for one of them."""
        if isinstance(tree, pkslib.Act):
            self.along(tree.next, [part for runs in groups for part in self.done(tree, runs)])
        elif isinstance(tree, pkslib.Branch):
            formula = self.names.conjunction(tree.literals)
            sides = self.sides(Query('kw', formula), groups)
            self.along(tree.true, sides.pop(True, []))
            self.along(tree.false, sides.pop(False, []))
        elif isinstance(tree, pkslib.Cases):
            sides = self.sides(Query('kv', self.names.term(tree.term)), groups)
            for name, child in tree.sides:
                self.along(child, sides.pop(self.names.term(name), []))
            if sides:
                raise Fault(f'a value of {tree.text()} has no case')
        else:
            self.end(tree, groups)

    def sides(self, query: Query, groups: Sequence[List[Run]]) -> Dict[Found, List[List[Run]]]:
        """The groups by what is found; Fault where one doesn't know it."""
        found: Dict[Found, List[List[Run]]] = {}
        for runs in groups:
            if not is_known(runs, query):
                raise Fault(f'{query} is not known where it is tested')
            found.setdefault(runs[0][-1].seen(query.kind, query.what), []).append(runs)
        return found

    def done(self, tree: pkslib.Act, runs: List[Run]) -> Iterator[List[Run]]:
        """The runs longer by an action, those together in which it sees the same."""
        action = self.actions[tree.name]
        arguments = [self.names.term(argument) for argument in tree.arguments]
        for argument in arguments:
            if not is_known(runs, Query('kv', argument)):
                raise Fault(f'an argument of {tree.text()} is not known')
        for query in action.pre:
            if not query.denied and not is_known(runs, query.at(arguments)):
                raise Fault(f'a precondition of {tree.text()} is not known')
        objects = [[run[-1].value(argument) for argument in arguments] for run in runs]
        longer = [run + (run[-1].after([effect.at(things) for effect in action.effects]),)
                  for run, things in zip(runs, objects)]
        yield from parted(longer, lambda run: self.observed(action, objects[0], run[-1]))

    def observed(self, action: Action, things: Sequence[Term], world: World) -> Tuple[Found, ...]:
        """What the senses of an action find in the world after it."""
        return tuple(world.seen(sense.kind, sense.at(things).what) for sense in action.senses)

    def end(self, tree: pkslib.Tree, groups: Sequence[List[Run]]) -> None:
        """Notes what comes to a leaf; Fault where an aim isn't known there."""
        self.leaves.append([run for runs in groups for run in runs])
        if isinstance(tree, pkslib.Impossible) and groups:
            raise Fault('a world comes to a leaf that is called impossible')
        for runs in groups:
            for aim in self.problem.aims:
                known = [is_known(runs, aim.query, moment) for moment in range(len(runs[0]))]
                asked = {'now': known[-1:], 'at-start': known[:1], 'always': known}.get(aim.when, [any(known)])
                if not all(asked):
                    raise Fault(f'an aim is not known at a leaf: {aim}')


def judge(problem: Problem, recalled: pkslib.Recalled, worlds: Sequence[World]) -> Optional[str]:
    """What a printed tree, or what its leaves recall, has wrong in some of the worlds; None where all is right."""
    walk = Walk(problem)
    try:
        walk.along(recalled.tree, alike_at_start(problem, worlds))
    except Fault as fault:
        return str(fault)
    for number, (moments, runs) in enumerate(zip(recalled.leaves, walk.leaves), 1):
        for moment, literals in enumerate(moments or ()):
            for literal in map(problem.names.literal, literals):
                if not all(run[moment].holds(literal) for run in runs):
                    return f'leaf {number} recalls of moment {moment} what was not so in some world: {literal}'
    return None
