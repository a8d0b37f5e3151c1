"""Problems whose plans owe proofs: by groups, regions, ranges and values, over several moments, of what was before.

What is asked for at the end is made from behind. Each literal is to be known at a moment, by a reason of
docs/REASONS.md that chance takes: that puts a group, a region or a value into the start, or an effect into a step, and
makes what the reason cites known in turn. The steps are done one after the other, each of them once. Where something
is looked at behind the last one, what is asked for is another literal, which is so or not as that one is.
"""

import random
from typing import Callable, Dict, Iterator, List, NamedTuple, Tuple

from pkslib import Expression

from .generator import Maker
from .templates import Actions, action, flag, opposite, unknown

KIND = 'o'
"""The type of the objects that the problems are about."""

OBJECTS = ('o1', 'o2', 'o3')

MOST = 20
"""With more predicates than these what is to be known is told by the start."""

Way = Callable[[Expression, int, int, bool], None]
"""Makes a literal known at a moment, by reasons that are nested so deep; where it is told so no step touches it."""


class Told(NamedTuple):
    """A literal that is so or not at a moment, as what is seen tells; and whether steps and groups may touch it."""

    literal: Expression
    moment: int
    may_be_made: bool = True
    may_be_of_group: bool = True


Turn = Callable[[Told, int], Told]
"""Gives another literal that is so or not as one is; what that takes is known by reasons that are nested so deep."""


def atom_of(literal: Expression) -> Expression:
    """The literal without its negation."""
    return literal[1] if literal[0] == 'not' else literal


def is_equation(literal: Expression) -> bool:
    """Whether a literal is an equation or an inequation."""
    return atom_of(literal)[0] == '='


def with_sign_of(literal: Expression, atom: Expression) -> Expression:
    """The atom, negated where the literal is."""
    return ('not', atom) if literal[0] == 'not' else atom


def at_objects(literal: Expression) -> List[int]:
    """The places among the parts of an atom at which an object stands."""
    return [] if is_equation(literal) else [n for n, part in enumerate(atom_of(literal)) if part in OBJECTS]


def target(literal: Expression) -> Expression:
    """The effect that makes a literal so; it is no inequation."""
    if is_equation(literal):
        return ('assign', *literal[1:])
    return ('unset', literal[1]) if literal[0] == 'not' else ('set', literal)


class Knowing(Maker):
    """A problem of which literals are made known, each at its moment."""

    def __init__(self, chance: random.Random) -> None:
        super().__init__(chance)
        self.beside = [self.action(n) for n in range(chance.choice([0, 0, 1, 1, 2]))]
        self.around = [item for item in super().init() if item[0] != 'kf' or self.declared.is_true(item[1])]
        self.declared.parents[KIND], self.declared.objects[KIND] = None, list(OBJECTS)
        self.is_past = chance.random() < 0.25
        """Whether what is seen tells of the first moments."""
        count = chance.choice([2, 3, 4] if self.is_past else [1, 1, 2, 2, 3])
        self.steps: List[List[Expression]] = [[] for _ in range(count)]
        """The effects of each step."""

    # ---- new names

    def thing(self, *others: Expression) -> str:
        """An object that isn't one of these."""
        return self.chance.choice([name for name in OBJECTS if name not in others])

    def spot(self) -> Expression:
        """A new place."""
        if self.may(0.3):
            return (self.declared.with_function(KIND, KIND), self.thing())
        return (self.declared.with_function(KIND),)

    def fresh(self) -> Expression:
        """A literal of a new predicate, or of a new place."""
        count = self.chance.choice([0, 1, 1, 2, None, None])
        found: Expression = ('=', self.spot(), self.thing()) if count is None else self.instance(count)
        return ('not', found) if self.may(0.4) else found

    def instance(self, count: int) -> Expression:
        """A new predicate at so many objects."""
        return (self.declared.with_predicate(*[KIND] * count), *(self.thing() for _ in range(count)))

    def makeable(self) -> Expression:
        """The same, of one that an effect may make so."""
        found = self.fresh()
        return atom_of(found) if is_equation(found) else found

    def replaced(self, literal: Expression, spot: Expression) -> Tuple[Expression, str]:
        """The literal with a place in the stead of one of its objects, and that object."""
        atom = atom_of(literal)
        n = self.chance.choice(at_objects(literal))
        return with_sign_of(literal, (*atom[:n], spot, *atom[n + 1:])), str(atom[n])

    def let(self, literal: Expression) -> None:
        """Lets the literal be true at the start."""
        atom = atom_of(literal)
        if atom[0] == '=':
            place = (str(atom[1][0]), *map(self.declared.value, atom[1][1:]))
            if self.declared.is_true(literal):
                return
            self.declared.values[place] = self.thing(atom[2]) if literal[0] == 'not' else str(atom[2])
            return
        ground = (str(atom[0]), *map(self.declared.value, atom[1:]))
        if literal[0] == 'not':
            self.declared.true.discard(ground)
        else:
            self.declared.true.add(ground)

    # ---- ways in which a literal is known

    def show(self, literal: Expression, moment: int, height: int, still: bool = False) -> None:
        """Makes a literal known at a moment; where it is to stay still no step touches it."""
        ways: List[Way] = [self.kept if moment else self.given]
        if height > 0 and len(self.declared.predicates) < MOST:
            ways += self.ways(literal, moment, still)
        self.chance.choice(ways)(literal, moment, height, still)

    def ways(self, literal: Expression, moment: int, still: bool) -> Iterator[Way]:
        """The ways that a literal may be known in, but for what is given and kept."""
        yield from (self.by_only, self.by_others)
        is_denied = literal[0] == 'not'
        if is_equation(literal):
            if not is_denied:
                yield from [self.by_range] * 3
            elif not still:
                yield self.by_value
        elif is_denied:
            yield from [self.by_region] * 4
        if at_objects(literal):
            yield self.by_swap
        if moment and not still and not (is_denied and is_equation(literal)):
            yield self.by_effect

    def given(self, literal: Expression, moment: int, height: int, still: bool) -> None:
        """An item of the start."""
        self.let(literal)
        self.known.append(('kf', literal))

    def kept(self, literal: Expression, moment: int, height: int, still: bool) -> None:
        """It was so before the step, which is barred from undoing it."""
        if height > 0 and self.may(0.5):
            self.bar(literal, moment, height - 1)
        self.show(literal, moment - 1, height, still)

    def bar(self, literal: Expression, moment: int, height: int) -> None:
        """An effect of the step that would undo the literal, and is known not to."""
        effects = self.steps[moment - 1]
        if at_objects(literal) and self.may(0.5):
            spot = self.spot()
            elsewhere, thing = self.replaced(opposite(literal), spot)
            effects.append(target(elsewhere))
            self.show(('not', ('=', spot, thing)), moment - 1, height, True)
            return
        condition = self.fresh()
        undone = opposite(literal)
        if is_equation(literal):
            atom = atom_of(literal)
            undone = ('=', atom[1], atom[2] if literal[0] == 'not' else self.thing(atom[2]))
        effects.append(('when', (condition,), target(undone)))
        self.show(opposite(condition), moment - 1, height)

    def by_only(self, literal: Expression, moment: int, height: int, still: bool) -> None:
        """The last of a group."""
        others = [self.fresh() for _ in range(self.chance.choice([1, 2, 2]))]
        self.grouped(literal, *others)
        for other in others:
            self.show(opposite(other), moment, height - 1, True)

    def by_others(self, literal: Expression, moment: int, height: int, still: bool) -> None:
        """Not the one of a group, since another is."""
        true, others = self.fresh(), [self.fresh() for _ in range(self.chance.choice([0, 0, 1]))]
        self.grouped(true, opposite(literal), *others)
        self.show(true, moment, height - 1, True)

    def grouped(self, true: Expression, *others: Expression) -> None:
        """A group of the start, of which the first one is true."""
        self.let(true)
        for other in others:
            self.let(opposite(other))
        self.known.append(('kx', *self.chance.sample([true, *others], 1 + len(others))))

    def by_range(self, literal: Expression, moment: int, height: int, still: bool) -> None:
        """The last value that is left."""
        self.let(literal)
        for thing in OBJECTS:
            if thing != literal[2]:
                self.show(('not', ('=', literal[1], thing)), moment, height - 1, True)

    def by_value(self, literal: Expression, moment: int, height: int, still: bool) -> None:
        """Another value than that of the place."""
        _, place, thing = literal[1]
        self.show(('=', place, self.thing(thing)), moment, height - 1)

    def by_swap(self, literal: Expression, moment: int, height: int, still: bool) -> None:
        """The same of a place that has the object for its value."""
        spot = self.spot()
        other, thing = self.replaced(literal, spot)
        self.let(('=', spot, thing))
        self.show(('=', spot, thing), moment, height - 1, True)
        self.show(other, moment, height - 1, True)

    def by_effect(self, literal: Expression, moment: int, height: int, still: bool) -> None:
        """What an effect makes so whose conditions are known."""
        made = literal
        if at_objects(literal) and self.may(0.3):
            spot = self.spot()
            made, thing = self.replaced(literal, spot)
            self.show(('=', spot, thing), moment - 1, height - 1, True)
        conditions = tuple(self.fresh() for _ in range(self.chance.choice([0, 1, 1, 2])))
        self.steps[moment - 1].append(('when', conditions, target(made)) if conditions else target(made))
        for condition in conditions:
            self.show(condition, moment - 1, height - 1)
        if self.may(0.5):
            self.given(opposite(literal), 0, 0, True)

    def by_region(self, literal: Expression, moment: int, height: int, still: bool) -> None:
        """What a region doesn't list, which the start has or a step clears, and which grows from there on."""
        atom = literal[1]
        begins = 0 if still else self.chance.choice(range(moment + 1))
        for instance in list(self.declared.instances({str(atom[0]): self.declared.predicates[str(atom[0])]})):
            self.declared.true.discard(instance)
        pattern = (atom[0], *('_' if self.may(0.7) else part for part in atom[1:]))
        if begins:
            self.steps[begins - 1].append(('clear', pattern))
        else:
            for _ in range(self.chance.choice([0, 1, 1, 2]) if atom[1:] else 0):
                self.given(self.beside_of(atom, height), 0, 0, True)
            self.known.append(('lcw', pattern))
        for step in self.steps[begins:moment]:
            if atom[1:] and self.may(0.9):
                joins: Expression = ('set', self.beside_of(atom, height))
                step.append(('when', (unknown(self),), joins) if self.may(0.3) else joins)

    def beside_of(self, atom: Expression, height: int) -> Expression:
        """An atom of the same predicate that is told apart from this one."""
        n = self.chance.choice(range(1, len(atom)))
        other: Expression = self.thing(self.declared.value(atom[n]))
        if atom[n] not in OBJECTS:
            self.show(('not', ('=', atom[n], other)), 0, height - 1, True)
        elif self.may(0.3):
            other = self.spot()
            self.show(('not', ('=', other, atom[n])), 0, height - 1, True)
        rest = [part if part in OBJECTS and self.may(0.7) else self.thing() for part in atom[n + 1:]]
        return (*atom[:n], other, *rest)


class OwingMaker(Knowing):
    """A problem that asks for a literal that is made known, or that is told by what is seen at the end."""

    # ---- what is told by what is seen

    def before(self, told: Told) -> List[Turn]:
        """The ways that lead to the moment before."""
        if not told.may_be_made or not told.moment:
            return []
        is_inequation = told.literal[0] == 'not' and is_equation(told.literal)
        return [self.earlier] if is_inequation else [self.earlier, *[self.cause] * 3]

    def turned(self, told: Told, height: int) -> Told:
        """Another literal that is so or not as this one is."""
        ways = self.before(told)
        if told.may_be_of_group:
            ways.append(self.of_group)
        if told.moment < len(self.steps):
            ways.append(self.result)
        if is_equation(told.literal):
            ways.append(self.other_value)
        if at_objects(told.literal):
            ways.append(self.same_elsewhere)
        return self.chance.choice(ways)(told, height) if ways else told

    def earlier(self, told: Told, height: int) -> Told:
        """The same before the step, which leaves it as it is."""
        if self.may(0.4):
            self.bar(self.chance.choice([told.literal, opposite(told.literal)]), told.moment, height)
        return told._replace(moment=told.moment - 1)

    def cause(self, told: Told, height: int) -> Told:
        """A condition of the one effect that could make it so."""
        cause, before = self.fresh(), told.moment - 1
        conditions = [cause] + [self.fresh() for _ in range(self.chance.choice([0, 0, 1]))]
        for condition in conditions[1:]:
            self.show(condition, before, height)
        self.show(opposite(told.literal), before, height)
        self.chance.shuffle(conditions)
        self.steps[before].append(('when', tuple(conditions), target(told.literal)))
        if self.may(0.3):
            barred = self.fresh()
            self.steps[before].append(('when', (barred,), target(told.literal)))
            self.show(opposite(barred), before, height)
        return Told(cause, before)

    def result(self, told: Told, height: int) -> Told:
        """What an effect makes so of which it is the condition."""
        made = self.makeable()
        self.steps[told.moment].append(('when', (told.literal,), target(made)))
        self.show(opposite(made), told.moment, height)
        return Told(made, told.moment + 1, False, False)

    def of_group(self, told: Told, height: int) -> Told:
        """The other one of a group of which two are left."""
        other = self.fresh()
        outside = [self.fresh() for _ in range(self.chance.choice([0, 1, 1]))]
        self.let(opposite(other) if self.declared.is_true(told.literal) else other)
        for literal in outside:
            self.show(opposite(literal), told.moment, height, True)
            self.let(opposite(literal))
        self.known.append(('kx', *self.chance.sample([told.literal, other, *outside], 2 + len(outside))))
        return Told(other, told.moment, False)

    def other_value(self, told: Told, height: int) -> Told:
        """Whether the place has the other value of two that are left."""
        _, place, thing = atom_of(told.literal)
        out = self.thing(thing)
        if told.may_be_of_group:
            if self.declared.value(place) == out:
                self.let(('=', place, thing))
            self.show(('not', ('=', place, out)), told.moment, height, True)
        return Told(('=', place, self.thing(thing, out)), told.moment, False, False)

    def same_elsewhere(self, told: Told, height: int) -> Told:
        """The same of a place that has the object for its value."""
        spot = self.spot()
        other, thing = self.replaced(told.literal, spot)
        self.show(('=', spot, thing), told.moment, height, True)
        return told._replace(literal=other)

    # ---- the actions

    def actions(self) -> Actions:
        """The steps, what is looked at behind them, and what asks for literals that are to be known."""
        height, last = self.chance.choice([1, 2, 2]), len(self.steps)
        asked: Actions = []
        done = [flag(self) for _ in self.steps]
        if self.may(0.35):
            asked.append(('not', self.instance(self.chance.choice([1, 1, 2]))))
            self.by_region(asked[0], last, height, False)
        elif self.may(0.4):
            asked.append(self.makeable())
            self.show(asked[0], last, height)
        seen: Actions = []
        if self.is_past or not asked or self.may(0.25):
            seen.append(self.fresh() if self.may(0.7) else ('=', self.spot(), self.thing()))
        ends = [action('end', ('set', flag(self)), pre=[('k', done[-1]), *(('k', literal) for literal in asked)])]
        if seen:
            told = Told(seen[0], last)
            while self.is_past and told.moment:
                told = self.chance.choice(self.before(told))(told, height - 1)
            for _ in range(self.chance.choice([0, 1, 2] if self.is_past else [1, 2, 3, 3])):
                told = self.turned(told, height - 1)
            ends = [(*ends[0][:1], f'end{n}', (*ends[0][2], ('k', literal)), *ends[0][3:])
                    for n, literal in enumerate([told.literal, opposite(told.literal)])]
        self.goals = [('k', ends[0][-1][1][1])]
        return [*self.done(done, seen), *ends]

    def done(self, done: Actions, seen: Actions) -> Actions:
        """The steps, each of which tells the next that it was done; and what looks behind them."""
        senses: List[Expression] = [('sense', *seen)] if seen else []
        if seen and is_equation(seen[0]) and self.may(0.5):
            senses = [('sense-value', atom_of(seen[0])[1])]
        is_apart = bool(seen) and len(self.steps) < 3 and self.may(0.4)
        found: Actions = []
        for n, effects in enumerate(self.steps):
            if self.may(0.1):
                effects.append(self.effect([]))
            self.chance.shuffle(effects)
            found.append(action(f'step{n}', *effects[:14], ('set', done[n]), pre=[('k', done[n - 1])] if n else [],
                                senses=senses if n == len(self.steps) - 1 and not is_apart else []))
        found += [action('look', pre=[('k', done[-1])], senses=senses)] * is_apart
        self.depth = len(found) + 1 + bool(seen)
        return found

    # ---- the whole

    def init(self) -> Tuple[Expression, ...]:
        """The items that are needed among such as aren't."""
        items = [*self.known, *self.around, *[('kf', self.true_one(self.literal([])))] * self.may(0.3)]
        self.chance.shuffle(items)
        return tuple(items)

    def forms(self) -> List[Expression]:
        """The forms of the file without adds, in an order and with names that chance gives."""
        actions = self.actions()
        actions += self.beside[:max(0, 5 - self.depth)]
        self.chance.shuffle(actions)
        tables: List[Dict[str, Tuple[Expression, ...]]] = [self.declared.predicates, self.declared.functions]
        for table in tables:
            rows = self.chance.sample(list(table.items()), len(table))
            table.clear()
            table.update(rows)
        for things in self.declared.objects.values():
            self.chance.shuffle(things)
        found: List[Expression] = [
            ('pks', str(self.version)), ('domain', *self.declared.forms(), *actions),
            ('problem', ('init', *self.init()), ('goal', *self.goals))]
        old = [name for group in (tables[0], tables[1], self.declared.parents) for name in group]
        old += [str(one[1]) for one in actions] + [one for own in self.declared.objects.values() for one in own]
        new = [f'{self.chance.choice("bcdfgjmnprvwyz")}{number}' for number in self.chance.sample(range(100), len(old))]
        return [renamed(form, dict(zip(old, new))) for form in found]


def renamed(form: Expression, names: Dict[str, str]) -> Expression:
    """The form with other names."""
    return names.get(form, form) if isinstance(form, str) else tuple(renamed(part, names) for part in form)
