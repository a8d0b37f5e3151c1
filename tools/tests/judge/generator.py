"""Small problems that are made at random."""

import random
from typing import Dict, Iterator, List, Optional, Sequence, Tuple

from pkslib import Expression, written

from . import templates
from .templates import Actions, opposite

Parameters = Sequence[Tuple[str, str]]
"""The parameters of an action, each with its type."""

OVER_TIME = ('at-start', 'always', 'once')


class Declared:
    """Types, objects, predicates and functions, and a world of them."""

    def __init__(self, chance: random.Random, version: int) -> None:
        self.chance = chance
        self.parents: Dict[str, Optional[str]] = {'t': None}
        self.objects: Dict[str, List[str]] = {'t': ['a', 'b', 'c'][:chance.choice([2, 2, 3])]}
        if chance.random() < 0.4:
            self._second_type(version)
        self.predicates = {f'p{n}': self._kinds([0, 0, 0, 1, 1, 2]) for n in range(chance.choice([2, 3, 3, 4]))}
        self.functions = {f'f{n}': (self._kinds([0, 0, 1]), self._kind())
                          for n in range(chance.choice([0, 0, 1, 1, 2]))}
        self.values = {place: chance.choice(self.objects_of(self.functions[place[0]][1]))
                       for place in self.instances({name: kinds for name, (kinds, _) in self.functions.items()})}
        self.true = {atom for atom in self.instances(self.predicates) if chance.random() < 0.4}

    def _second_type(self, version: int) -> None:
        self.objects['t'] = ['a', 'b'][:self.chance.choice([1, 2])]
        self.objects['u'] = ['d', 'e'][:self.chance.choice([1, 2])]
        self.parents['u'] = 't' if version == 2 and self.chance.random() < 0.7 else None
        if version == 2 and self.chance.random() < 0.3:
            self.parents['w'], self.objects['w'] = 't', ['g']

    # ---- what a template adds

    def with_predicate(self, *kinds: str) -> str:
        """A further predicate over these types; gives its name."""
        name = f'q{len(self.predicates)}'
        self.predicates[name] = kinds
        self.true |= {atom for atom in self.instances({name: kinds}) if self.chance.random() < 0.4}
        return name

    def with_function(self, result: str, *kinds: str) -> str:
        """A further function of this type over these; gives its name."""
        name = f'g{len(self.functions)}'
        self.functions[name] = (kinds, result)
        for place in self.instances({name: kinds}):
            self.values[place] = self.chance.choice(self.objects_of(result))
        return name

    def with_type(self, count: int) -> str:
        """A further type of so many objects, below none; gives its name."""
        self.parents['r'], self.objects['r'] = None, ['k', 'l', 'm'][:count]
        return 'r'

    def with_subtype(self) -> str:
        """A further type below the first, and things of its own at each place that is new by that; gives its name."""
        others = {thing for kind, things in self.objects.items() if kind != 'v' for thing in things}
        own = [name for name in ('h', 'i', 'n') if name not in others][:self.chance.choice([1, 2])]
        self.parents['v'], self.objects['v'] = 't', max(own, self.objects.get('v', []), key=len)
        for place in self.instances({name: kinds for name, (kinds, _) in self.functions.items()}):
            if place not in self.values:
                self.values[place] = self.chance.choice(self.objects_of(self.functions[place[0]][1]))
        return 'v'

    def _kind(self) -> str:
        return self.chance.choice(list(self.parents))

    def _kinds(self, counts: Sequence[int]) -> Tuple[str, ...]:
        return tuple(self._kind() for _ in range(self.chance.choice(counts)))

    def fits(self, kind: Optional[str], wanted: str) -> bool:
        """Whether a type is another one, or its parent fits that."""
        return kind is not None and (kind == wanted or self.fits(self.parents[kind], wanted))

    def objects_of(self, kind: str) -> List[str]:
        """The objects of a type."""
        return [thing for own, things in self.objects.items() if self.fits(own, kind) for thing in things]

    def instances(self, shapes: Dict[str, Tuple[str, ...]]) -> Iterator[Tuple[str, ...]]:
        """Each name at all objects of its types."""
        def lists(kinds: Sequence[str]) -> Iterator[Tuple[str, ...]]:
            if not kinds:
                yield ()
            else:
                for thing in self.objects_of(kinds[0]):
                    for rest in lists(kinds[1:]):
                        yield (thing, *rest)
        for name, kinds in shapes.items():
            for things in lists(kinds):
                yield (name, *things)

    def own_type(self, term: Expression, names: Parameters) -> str:
        """The type of a term."""
        if not isinstance(term, str):
            return self.functions[str(term[0])][1]
        own = {thing: kind for kind, things in self.objects.items() for thing in things}
        own.update(names)
        return own[term]

    def forms(self) -> Iterator[Expression]:
        """The sections of the domain."""
        kinds: List[Expression] = [kind if parent is None else (kind, parent) for kind, parent in self.parents.items()]
        yield ('types', *kinds)
        yield ('objects', *((kind, *things) for kind, things in self.objects.items()))
        yield ('predicates', *((name, *kinds) for name, kinds in self.predicates.items()))
        if self.functions:
            yield ('functions', *((name, *kinds, result) for name, (kinds, result) in self.functions.items()))

    # ---- what is so in the world

    def value(self, term: Expression) -> str:
        """The value of a ground term."""
        return term if isinstance(term, str) else self.values[(str(term[0]), *map(self.value, term[1:]))]

    def is_true(self, literal: Expression) -> bool:
        """Whether a ground literal is true."""
        if literal[0] == 'not':
            return not self.is_true(literal[1])
        if literal[0] == '=':
            return self.value(literal[1]) == self.value(literal[2])
        return (str(literal[0]), *map(self.value, literal[1:])) in self.true


class Maker:
    """One problem, made by a source of chance."""

    def __init__(self, chance: random.Random) -> None:
        self.chance = chance
        self.version = chance.choice([1, 2])
        self.declared = Declared(chance, self.version)
        self.made: List[Expression] = []
        """What effects make so, at some objects."""
        self.asked: List[Expression] = []
        """Ground literals of conditions."""
        self.aims: List[Expression] = []
        """Queries that an action may answer."""
        self.known: List[Expression] = []
        """Items that the start must have."""
        self.goals: List[Expression] = []
        """The aims, where a template says them."""
        self.aim_atom: Optional[Expression] = None
        """The atom that a template has for its aim."""
        self.depth = 0
        """To what depth it is planned."""

    def may(self, share: float) -> bool:
        """Whether something is so that is so in this share of all."""
        return self.chance.random() < share

    # ---- terms and literals

    def term(self, kind: str, names: Parameters, height: int = 2) -> Expression:
        """A term that fits the type and is no higher, among these parameters."""
        found: List[Expression] = [self.chance.choice(self.declared.objects_of(kind))]
        if height > 0:
            found += [name for name, own in names if self.declared.fits(own, kind)] * 2
            found += [name for name, (_, result) in self.declared.functions.items()
                      if self.declared.fits(result, kind)]
        taken = self.chance.choice(found)
        return self.place(taken, names, height) if taken in self.declared.functions else taken

    def place(self, name: str, names: Parameters, height: int) -> Expression:
        """The function at some terms."""
        return (name, *(self.term(kind, names, height - 1) for kind in self.declared.functions[name][0]))

    def some_place(self, names: Parameters) -> Expression:
        """Some function at some terms."""
        return self.place(self.chance.choice(list(self.declared.functions)), names, self.chance.choice([1, 2, 2]))

    def atom(self, names: Parameters) -> Expression:
        """An atom."""
        name = self.chance.choice(list(self.declared.predicates))
        return (name, *(self.term(kind, names) for kind in self.declared.predicates[name]))

    def literal(self, names: Parameters) -> Expression:
        """A literal of any kind."""
        if self.declared.functions and self.may(0.3):
            one = self.term(self.chance.choice(list(self.declared.parents)), names)
            found: Expression = ('=', one, self.term(self.declared.own_type(one, names), names))
        else:
            found = self.atom(names)
        return ('not', found) if self.may(0.3) else found

    def pattern(self, names: Parameters) -> Expression:
        """A pattern of at most two wildcards."""
        found = self.atom(names)
        return (found[0], *('_' if self.may(0.6) else term for term in found[1:]))

    def true_one(self, literal: Expression) -> Expression:
        """The ground literal or its negation, which is true."""
        return literal if self.declared.is_true(literal) else opposite(literal)

    def ground(self, form: Expression, names: Parameters) -> Expression:
        """The form at some objects."""
        taken = {name: self.chance.choice(self.declared.objects_of(kind)) for name, kind in names}

        def put(part: Expression) -> Expression:
            return taken.get(part, part) if isinstance(part, str) else tuple(map(put, part))
        return put(form)

    # ---- actions

    def effect(self, names: Parameters) -> Expression:
        """An effect, with or without a condition."""
        kinds = ['set', 'set', 'unset', 'clear'] + ['assign', 'assign'] * bool(self.declared.functions)
        kind = self.chance.choice(kinds)
        if kind == 'assign':
            place = self.some_place(names)
            target: Expression = (kind, place, self.term(self.declared.functions[str(place[0])][1], names))
            self.made.append(self.ground(('=', *target[1:]), names))
        elif kind == 'clear':
            target = (kind, self.pattern(names))
        else:
            target = (kind, self.atom(names))
            made = self.ground(target[1], names)
            self.made.append(made if kind == 'set' else ('not', made))
        if not self.may(0.4):
            return target
        condition = tuple(self.literal(names) for _ in range(self.chance.choice([1, 1, 1, 2])))
        self.asked += [self.ground(literal, names) for literal in condition]
        return ('when', condition, target)

    def sense(self, names: Parameters) -> Expression:
        """A sense; what it may answer becomes a possible aim."""
        kinds = ['sense', 'sense', 'sense-all'] + ['sense-value', 'sense-value'] * bool(self.declared.functions)
        kind = self.chance.choice(kinds)
        if kind == 'sense-value':
            found = self.some_place(names)
            self.aims.append(('kv', self.ground(found, names)))
            return (kind, found)
        if kind == 'sense-all':
            return (kind, self.pattern(names))
        literals = [self.chance.choice(self.made) if self.made and self.may(0.3) else self.literal(names)
                    for _ in range(self.chance.choice([1, 1, 1, 2]))]
        self.aims.append(self.ground(('kw', *literals), names))
        return (kind, *literals)

    def query(self, names: Parameters) -> Expression:
        """A precondition, or a query of an add."""
        if self.declared.functions and self.may(0.15):
            found: Expression = ('kv', self.some_place(names))
        else:
            literal = self.chance.choice(self.made) if self.made and self.may(0.4) else self.literal(names)
            found = ('kw' if self.may(0.15) else 'k', literal)
        return ('not-derived', found) if self.may(0.08) else found

    def action(self, number: int) -> Expression:
        """An action without its adds."""
        kinds = [self.chance.choice(list(self.declared.parents)) for _ in range(self.chance.choice([0, 0, 0, 1, 1, 2]))]
        names = [(f'?x{n}', kind) for n, kind in enumerate(kinds)]
        part: List[Expression] = ['action', f'act{number}']
        if self.version == 2 and self.may(0.4):
            part.append(('cost', str(self.chance.choice([1, 2, 2, 3, 5]))))
        if names:
            part.append(('params', *names))
        if self.may(0.4):
            part.append(('pre', *(self.query(names) for _ in range(self.chance.choice([1, 1, 2])))))
        if self.may(0.8):
            part.append(('effects', *(self.effect(names) for _ in range(self.chance.choice([1, 1, 2, 3])))))
        if self.may(0.45):
            part.append(('senses', *(self.sense(names) for _ in range(self.chance.choice([1, 1, 2])))))
        return tuple(part)

    def learning(self) -> List[Expression]:
        """Actions whose outcome tells of what was before, and ones that need to know that."""
        condition, made, aim = self.literal([]), self.atom([]), self.atom([])
        self.known.append(('kf', self.true_one(made)))
        target = ('unset' if self.declared.is_true(made) else 'set', made)
        self.made.append(aim)
        self.asked.append(condition)
        self.aims += [('k', aim)] * 4
        effects: List[Expression] = [('when', (condition,), target)]
        if self.may(0.4):
            beside = self.literal([])
            other = self.chance.choice([target, target, self.undoing(target)])
            effects.insert(self.chance.choice([0, 1]), ('when', (beside,), other))
            self.asked.append(beside)
        return [('action', 'try', ('effects', *effects, *self.sometimes())),
                ('action', 'look', ('effects', *self.sometimes()), ('senses', ('sense', made))),
                *(('action', f'way{n}', ('pre', ('k', known)), ('effects', *self.sometimes(), ('set', aim)))
                  for n, known in enumerate([condition, opposite(condition)]))]

    def false_atom(self) -> Expression:
        """A ground atom that is false in the world, where one is found soon."""
        found = [self.atom([]) for _ in range(4)]
        return next((atom for atom in found if not self.declared.is_true(atom)), found[-1])

    def reading(self) -> List[Expression]:
        """An action that reads a value, and one that needs it."""
        if not self.declared.functions:
            return self.chain()
        place, aim = self.some_place([]), self.false_atom()
        kind = self.declared.functions[str(place[0])][1]
        used: List[Expression] = [('when', (('=', '?x', place),), ('set', aim))]
        if self.may(0.3):
            other = self.some_place([('?x', kind)])
            result = self.declared.functions[str(other[0])][1]
            used = [('assign', other, self.term(result, [('?x', kind)])), *used]
        if self.may(0.3):
            used.append(self.effect([('?x', kind)]))
        pre = [('pre', self.query([('?x', kind)]))] if self.may(0.2) else []
        self.made.append(aim)
        self.aims += [('k', aim)] * 4
        return [('action', 'read', ('effects', *self.sometimes()), ('senses', ('sense-value', place))),
                ('action', 'use', ('params', ('?x', kind)), *pre, ('effects', *used))]

    def chain(self) -> List[Expression]:
        """Actions of which each needs what the one before it makes so."""
        links = [self.false_atom() for _ in range(self.chance.choice([2, 3, 3]))]
        found: List[Expression] = []
        for n, link in enumerate(links):
            pre = [('pre', ('k', links[n - 1]))] if n else []
            effects = [*self.sometimes(), ('set', link), *self.sometimes()]
            found.append(('action', f'link{n}', *pre, ('effects', *effects)))
        self.made += links
        self.aims += [('k', links[-1])] * 4 + [('k', self.chance.choice(links))]
        return found

    def sweeping(self) -> List[Expression]:
        """An action that clears a pattern, ones that fill it again, and an aim that some of it stays clear."""
        head, kinds = self.chance.choice(list(self.declared.predicates.items()))
        pattern = (head, *('_' if self.may(0.7) else self.term(kind, []) for kind in kinds))
        atom = (head, *(self.term(kind, []) for kind in kinds))
        filled = (head, *(self.term(kind, []) for kind in kinds))
        self.aims += [('k', ('not', atom))] * 2 + [('k', self.false_atom())]
        fill: Expression = ('set', filled)
        if self.may(0.4):
            fill = ('when', (self.literal([]),), fill)
        aim = self.aims[-1][1]
        return [('action', 'sweep', ('effects', *self.sometimes(), ('clear', pattern), *self.sometimes())),
                ('action', 'fill', ('effects', fill, ('set', aim), *self.sometimes())),
                ('action', 'go', ('pre', ('k', ('not', atom))), ('effects', ('set', aim), *self.sometimes()))]

    def undoing(self, target: Expression) -> Expression:
        """An effect on the same predicate of the opposite sign."""
        if target[0] == 'set' and self.may(0.5):
            return ('clear', (target[1][0], *('_' if self.may(0.6) else term for term in target[1][1:])))
        return ('unset' if target[0] == 'set' else 'set', target[1])

    def knowing(self) -> List[Expression]:
        """A first step, and then ways that need to know on which side of what will be known one is."""
        first, aim = self.false_atom(), self.false_atom()
        literals = [self.literal([]) for _ in range(self.chance.choice([1, 1, 2]))]
        if self.may(0.5):
            self.known.append(('kw', *literals))
        elif self.may(0.5):
            group = [*(self.true_one(literal) for literal in literals[:1]),
                     *(opposite(self.true_one(self.atom([]))) for _ in range(2))]
            self.known += [('kx', *group)] if len(set(map(written, group))) == 3 else []
            literals = [self.chance.choice(group)]
        self.made += [first, aim]
        self.aims += [('k', aim)] * 4
        sense = [('senses', ('sense', *literals))] if self.may(0.5) else []
        ways = [*literals[:1], opposite(literals[0]), *map(opposite, literals[1:])]
        found: List[Expression] = [('action', 'first', ('effects', ('set', first), *self.sometimes()), *sense)]
        for n, known in enumerate(ways):
            pre = ('pre', ('k', first), ('k', known))
            found.append(('action', f'way{n}', pre, ('effects', ('set', aim), *self.sometimes())))
        return found

    def holding(self) -> List[Expression]:
        """A value that is known from the start, and is used behind a step that may change it."""
        if not self.declared.functions:
            return self.knowing()
        found = self.reading()
        place = found[0][-1][1][1]
        self.known.append(('kv', place))
        step = self.false_atom()
        other = self.some_place([])
        result = self.declared.functions[str(other[0])][1]
        effects: List[Expression] = [('set', step)]
        if self.may(0.5):
            effects.append(('assign', other, self.term(result, [])))
        self.known += [('kf', ('not', ('=', place, thing))) for thing in self.other_values(place)[:1]]
        use = (*found[1][:3], ('pre', ('k', step)), found[1][-1])
        return [('action', 'step', ('effects', *effects)), use, *found[:self.may(0.4)]]

    def other_values(self, place: Expression) -> List[str]:
        """The objects of a place's type that aren't its value in the world."""
        things = self.declared.objects_of(self.declared.functions[str(place[0])][1])
        return [thing for thing in things if thing != self.declared.value(place)]

    def sometimes(self) -> List[Expression]:
        """Sometimes an effect."""
        return [self.effect([])] if self.may(0.2) else []

    # ---- the start and the aims

    def atoms(self, name: str) -> List[Expression]:
        """All ground atoms of a predicate."""
        return sorted(self.declared.instances({name: self.declared.predicates[name]}))

    def one_of(self, atoms: Sequence[Expression]) -> None:
        """Lets one of the atoms be true."""
        true = self.chance.choice(list(atoms))
        for atom in atoms:
            self.declared.true.discard(atom)
        self.declared.true.add(true)

    def region(self) -> List[Expression]:
        """A pattern of which the start lists all that is true."""
        found = self.pattern([])
        listed: List[Expression] = [('kf', atom) for atom in sorted(self.declared.true) if atom[0] == found[0]]
        return listed + [('lcw', found)]

    def group(self) -> List[Expression]:
        """A group of which one literal is true, where one is found."""
        literals = [self.atom([]) for _ in range(self.chance.choice([2, 3, 3, 4]))]
        if self.may(0.2):
            literals[0] = self.literal([])
        same = {written(literal) for literal in literals}
        true = [self.declared.is_true(literal) for literal in literals].count(True)
        return [('kx', *literals)] if len(same) == len(literals) and true == 1 else []

    def init(self) -> Tuple[Expression, ...]:
        """The initial items; mostly such as are true of the world."""
        items = list(self.known)
        items += [('kf', self.true_one(self.literal([]))) for _ in range(self.chance.choice([0, 1, 2, 4, 6]))]
        items += [('kf', self.true_one(literal)) for literal in self.asked if self.may(0.25)]
        for _ in range(3):
            items += self.group()
        for _ in range(self.chance.choice([0, 0, 0, 1])):
            items += self.region()
        if self.may(0.25):
            some = [*self.asked, self.literal([])]
            literals = [self.chance.choice(some) for _ in range(self.chance.choice([1, 1, 2]))]
            items.append(('kw', *literals))
        if self.declared.functions and self.may(0.3):
            items.append(('kv', self.some_place([])))
        if self.may(0.05):
            items.append(('kf', self.literal([])))
        self.chance.shuffle(items)
        return tuple(items)

    def aim(self) -> Expression:
        """An aim: what an action makes so or tells, or what a condition asks for."""
        found: List[Expression] = self.aims * 2
        found += [('k', literal) for literal in self.made] * 2
        found += [('kw', literal) for literal in self.asked]
        aim = self.chance.choice(found) if found and self.may(0.9) else ('k', self.literal([]))
        if self.version == 2 and self.may(0.2):
            return (self.chance.choice(OVER_TIME), aim)
        return aim

    # ---- the whole

    def forms(self) -> List[Expression]:
        """The forms of the file, without adds."""
        self.depth = self.chance.choice([1, 2, 3, 3, 3])
        actions = self.actions()
        aims = self.goals or [self.aim() for _ in range(self.chance.choice([1, 1, 1, 2]))]
        return [('pks', str(self.version)), ('domain', *self.declared.forms(), *actions),
                ('problem', ('init', *self.init()), ('goal', *aims))]

    def actions(self) -> List[Expression]:
        """The actions, of one of a few kinds."""
        kind = self.chance.random()
        if kind < 0.1:
            self.depth = 4
            return self.learning()
        if kind < 0.6:
            self.depth = 3
            return self.chance.choice(templates.KINDS)(self)
        if kind < 0.8:
            self.depth = 3
            found = self.chance.choice([self.reading, self.chain, self.sweeping, self.knowing, self.holding])()
            return found + [self.action(0)] * self.may(0.4)
        return [self.action(n) for n in range(self.chance.choice([1, 2, 2, 3]))]

    def priced(self, actions: Actions) -> Actions:
        """The actions, in version 2 some at a cost."""
        if self.version != 2 or self.may(0.5):
            return actions
        return [(*one[:2], ('cost', str(self.chance.choice([1, 2, 3]))), *one[2:])
                if one[2:] and one[2][0] != 'cost' else one for one in actions]

    # ---- adds

    def own_adds(self, adds: List[Expression]) -> List[Expression]:
        """What an action tells of these adds: all of them."""
        return adds

    def other_adds(self, action: Expression) -> Iterator[Expression]:
        """Adds that don't follow from the text as it stands, some of which have a case."""
        own: Dict[Expression, Sequence[Expression]] = {part[0]: part[1:] for part in action[2:]}
        names: List[Tuple[str, str]] = list(own.get('params', ()))
        for sense in own.get('senses', ()):
            if sense[0] == 'sense-all':
                for _ in range(2):
                    yield ('kw', self.filled(sense[1], names))
        for effect in own.get('effects', ()):
            if effect[0] == 'when' and effect[2][0] in ('set', 'unset') and self.may(0.5):
                atom = effect[2][1]
                whether = tuple(('kw', literal) for literal in effect[1])
                yield ('if', (*whether, ('k', atom if self.may(0.5) else ('not', atom))), ('kw', atom))
            elif effect[0] in ('set', 'assign') and self.may(0.3):
                item = ('kf', ('=', *effect[1:]) if effect[0] == 'assign' else effect[1])
                yield ('if', (self.query(names),), item)
        if self.may(0.04):
            yield ('kf', self.literal(names))

    def put_in(self, kind: str, names: Parameters) -> Expression:
        """An object or a parameter of the type; sometimes a place, where there is one."""
        places = [name for name, (_, result) in self.declared.functions.items() if self.declared.fits(result, kind)]
        if places and self.may(0.6):
            return self.place(self.chance.choice(places), names, 1)
        return self.term(kind, names, 0)

    def filled(self, pattern: Expression, names: Parameters) -> Expression:
        """The pattern with objects or parameters at its wildcards, and sometimes with a place, where no case fits."""
        kinds = self.declared.predicates[str(pattern[0])]
        return (pattern[0], *(self.put_in(kind, names) if term == '_' else term
                              for term, kind in zip(pattern[1:], kinds)))


ADDS = 16
"""An action has at most this many adds."""


def text_of(forms: Sequence[Expression], adds: Optional[Dict[str, List[Expression]]] = None) -> str:
    """The text of a file, its actions having these adds by their names."""
    version, domain, *rest = forms
    parts: List[Expression] = []
    for part in domain:
        own = (adds or {}).get(str(part[1]), []) if part[0] == 'action' else []
        parts.append((*part, ('knows', *own[:ADDS])) if own else part)
    lines = '\n  '.join(map(written, parts[1:]))
    return '\n'.join([written(version), f'({parts[0]}\n  {lines})', *map(written, rest)]) + '\n'
