"""Small problems of which objects are alike: two to four of a type, of which most is said of all of them or of none.

An action names them by its parameters, but where a constant breaks some; what the start knows and what is asked for
goes with all its images, but where something is said of one alone. So most files have renamings that leave the actions
and the goal as they are, some of which take a history to another one, and some have such as only seem to.
"""

import itertools
import random
from typing import Callable, Dict, Iterator, List, Sequence, Tuple

from pkslib import Expression, written

from .generator import OVER_TIME, Declared, Maker, Parameters
from .templates import Actions, action, flag, named_apart, opposite, when

Thing = Sequence[Tuple[str, str]]
"""Parameters of a template's action."""

ONE: Thing = [('?x', 't')]
TWO: Thing = [('?x', 't'), ('?y', 't')]
MOST_AIMS = 6
MOST_ITEMS = 24


class AlikeDeclared(Declared):
    """Types of which one has two to four objects, with predicates and functions over them, and a world of them."""

    def __init__(self, chance: random.Random, version: int) -> None:
        super().__init__(chance, version)
        self.parents = {'t': None}
        self.objects = {'t': ['a', 'b', 'c', 'd'][:chance.choice([2, 2, 3, 3, 4])]}
        if chance.random() < 0.4:
            self.parents['u'] = 't' if version == 2 and chance.random() < 0.5 else None
            self.objects['u'] = ['e', 'f', 'h'][:chance.choice([1, 2, 2, 3])]
        self.predicates = {f'p{n}': self._kinds([0, 1, 1, 2]) for n in range(chance.choice([1, 1, 2, 3]))}
        self.functions = {f'f{n}': (self._kinds([0, 0, 1]), self._kind()) for n in range(chance.choice([0, 0, 0, 1]))}
        self.values = {place: chance.choice(self.objects_of(self.functions[place[0]][1]))
                       for place in self.instances({name: kinds for name, (kinds, _) in self.functions.items()})}
        self.true = {atom for atom in self.instances(self.predicates) if chance.random() < 0.4}

    def images(self, form: Expression) -> List[Expression]:
        """The images of a form by all permutations of the objects of each type, in order."""
        own = [things for things in self.objects.values() if len(things) > 1]
        found: Dict[str, Expression] = {}
        for orders in itertools.product(*map(itertools.permutations, own)):
            to = {thing: image for things, order in zip(own, orders) for thing, image in zip(things, order)}
            image = renamed(form, to)
            found.setdefault(written(image), image)
        return [found[key] for key in sorted(found)]

    def made_alike(self, name: str) -> None:
        """Lets a predicate be true of all images of an atom or of none."""
        left = sorted(self.instances({name: self.predicates[name]}))
        while left:
            same = {written(image) for image in self.images(left[0])}
            is_true = self.chance.random() < 0.4
            for atom in [atom for atom in left if written(atom) in same]:
                left.remove(atom)
                self.true.discard(atom)
                if is_true:
                    self.true.add(atom)


def renamed(form: Expression, to: Dict[str, str]) -> Expression:
    """The form with other objects in the place of these; its head, and those of its parts, stay."""
    if isinstance(form, str):
        return to.get(form, form)
    kept = form[:1] if form and isinstance(form[0], str) else ()
    return (*kept, *(renamed(part, to) for part in form[len(kept):]))


class AlikeMaker(Maker):
    """One problem of this kind, made by a source of chance."""

    def __init__(self, chance: random.Random) -> None:
        super().__init__(chance)
        self.alike = self.declared = AlikeDeclared(chance, self.version)
        self.constants = chance.choice([0, 0, 0, 0.1, 0.3])
        """In what share of terms an action names an object where it needn't."""
        self.breaks = chance.choice([0, 0, 1, 1, 2])
        """How many items are of some objects alone."""
        self.told: List[str] = []
        """The predicates and functions of which a template says what is known."""

    # ---- terms

    def term(self, kind: str, names: Parameters, height: int = 2) -> Expression:
        """A term that fits the type: a parameter or a place, and seldom an object, within an action that has some."""
        if not names or height == 0 or self.may(self.constants):
            return super().term(kind, names, height)
        fit: List[str] = [name for name, own in names if self.declared.fits(own, kind)] * 3
        fit += [name for name, (_, result) in self.declared.functions.items() if self.declared.fits(result, kind)]
        if not fit:
            return super().term(kind, names, height)
        taken = self.chance.choice(fit)
        return self.place(taken, names, height) if taken in self.declared.functions else taken

    def action(self, number: int) -> Expression:
        """An action without its adds, which mostly has parameters."""
        for _ in range(8):
            found = super().action(number)
            if self.may(self.constants) or not self.names_objects(found):
                break
        return found

    def names_objects(self, form: Expression) -> bool:
        """Whether an object stands in the form."""
        if isinstance(form, str):
            return any(form in things for things in self.declared.objects.values())
        return any(map(self.names_objects, form))

    # ---- the start

    def init(self) -> Tuple[Expression, ...]:
        """The initial items: what is known of all or of none, and of some alone."""
        items = list(self.known)
        for name in self.declared.predicates:
            if name not in self.told:
                items += self.known_of(name)
        for name, (kinds, _) in self.declared.functions.items():
            if name not in self.told:
                items += self.values_of(name, kinds)
        for _ in range(self.breaks):
            items += self.item_of_one()
        if self.may(0.7):
            self.chance.shuffle(items)
        return tuple(items)

    def known_of(self, name: str) -> List[Expression]:
        """What the start knows of a predicate."""
        atoms = self.atoms(name)[:MOST_ITEMS]
        kind = self.chance.choice(['all', 'all', 'none', 'one', 'one', 'whether', 'pairs', 'region', 'some'])
        if kind == 'one' and 2 <= len(atoms) <= 16:
            self.one_of(atoms)
            return [('kx', *atoms)]
        if kind == 'all':
            self.alike.made_alike(name)
            return [('kf', self.true_one(atom)) for atom in atoms]
        if kind == 'whether':
            return [('kw', atom) for atom in atoms]
        if kind == 'pairs' and len(atoms) > 1:
            pair = self.chance.sample(atoms, 2)
            return [('kw', *part) for part in self.alike.images(tuple(pair))]
        if kind == 'region':
            return self.region_of(name)
        if kind == 'some':
            return [('kf', self.true_one(atom)) for atom in atoms if self.may(0.5)]
        return []

    def region_of(self, name: str) -> List[Expression]:
        """What is true of a predicate, and that it is all; of some places of it, or everywhere."""
        kinds = self.declared.predicates[name]
        if self.may(0.6):
            self.alike.made_alike(name)
        listed: List[Expression] = [('kf', atom) for atom in self.atoms(name) if self.declared.is_true(atom)]
        if not kinds or len(kinds) > 2:
            return listed
        if self.may(0.5):
            return listed + [('lcw', (name, *['_'] * len(kinds)))]
        pattern = (name, *(self.chance.choice(self.declared.objects_of(kind)) if self.may(0.6) else '_'
                           for kind in kinds))
        found = self.alike.images(pattern) if self.may(0.6) else [pattern]
        return listed + [('lcw', one) for one in found[:MOST_ITEMS]]

    def values_of(self, name: str, kinds: Sequence[str]) -> List[Expression]:
        """What the start knows of the values of a function."""
        places = sorted(place for place in self.declared.values if place[0] == name)[:MOST_ITEMS]
        kind = self.chance.choice(['value', 'value', 'none', 'whether', 'not', 'same'])
        if kind == 'value':
            return [('kf', ('=', place, self.declared.value(place))) for place in places]
        if kind == 'whether':
            return [('kv', place) for place in places]
        if kind == 'not':
            return [('kf', ('not', ('=', place, thing))) for place in places for thing in self.other_values(place)[:1]]
        if kind == 'same':
            return [('kf', self.true_one(('=', places[0], place))) for place in places[1:]]
        return []

    def item_of_one(self) -> List[Expression]:
        """An item of some objects alone."""
        kind = self.chance.choice(['kf', 'kf', 'kw', 'kx', 'kv', 'lcw', 'images'])
        if kind == 'kw':
            return [('kw', *(self.literal([]) for _ in range(self.chance.choice([1, 1, 2]))))]
        if kind == 'kx':
            return self.group()
        if kind == 'kv' and self.declared.functions:
            return [('kv', self.some_place([]))]
        if kind == 'lcw':
            return self.region()
        found = self.true_one(self.literal([]))
        if kind == 'images':
            return [('kf', image) for image in self.alike.images(found)[:MOST_ITEMS] if self.declared.is_true(image)]
        return [('kf', found)]

    # ---- the aims

    def aims_of(self) -> List[Expression]:
        """The aims: what a template says or what is found by chance, most with all their images."""
        found: List[Expression] = []
        for aim in self.goals or [self.aim() for _ in range(self.chance.choice([1, 1, 2]))]:
            images = self.alike.images(aim)
            if self.may(0.2) or len(images) > MOST_AIMS:
                images = [aim]
            if len(images) > 1 and self.may(0.2):
                images = images[1:]
            found += images
        if self.version == 2 and self.may(0.25):
            word = self.chance.choice(OVER_TIME)
            found += [aim if aim[0] in OVER_TIME else (word, aim)
                      for aim in self.alike.images(self.aim())[:MOST_AIMS]]
        if self.may(0.3):
            self.chance.shuffle(found)
        return list({written(aim): aim for aim in found}.values())[:16]

    # ---- the whole

    def forms(self) -> List[Expression]:
        """The forms of the file, without adds."""
        actions = self.actions()
        aims = self.aims_of()
        self.depth = self.chance.choice(self.depths(aims))
        return [('pks', str(self.version)), ('domain', *self.declared.forms(), *actions),
                ('problem', ('init', *self.init()), ('goal', *aims))]

    def depths(self, aims: Sequence[Expression]) -> List[int]:
        """The depths to which such a problem is planned: where histories stay long, or there are many objects, less."""
        many = sum(map(len, self.declared.objects.values()))
        if any(aim[0] in OVER_TIME for aim in aims):
            return [3, 4] if many <= 2 else [3]
        return [3, 4, 5] if many <= 2 else [3, 3, 3, 4] if many <= 4 else [3]

    def actions(self) -> List[Expression]:
        """Those of a template or two, and sometimes others."""
        found = self.chance.choice(TEMPLATES)(self)
        if self.may(0.3):
            found += self.chance.choice(TEMPLATES)(self)
        found += [self.action(n) for n in range(self.chance.choice([0, 0, 1, 1, 2]))]
        return named_apart(self.priced(found))

# ---- templates: each adds what it needs to what a maker has declared, and says some aims

def searched(m: AlikeMaker) -> Actions:
    """One of some is so; looks tell which, and one needs to know it."""
    head, done = m.declared.with_predicate('t'), flag(m)
    m.told.append(head)
    atoms = m.atoms(head)
    m.one_of(atoms)
    m.known += [('kx', *atoms)] if m.may(0.8) else [('kw', atom) for atom in atoms]
    m.goals.append(('k', done))
    ready = [('k', flag(m))] if m.may(0.1) else []
    effects = m.chance.choice([[('set', done)], [('set', done)], [('set', done), ('unset', (head, '?x'))]])
    found = [action('look', params=ONE, senses=[('sense', (head, '?x'))]),
             action('take', *effects, params=ONE, pre=[('k', (head, '?x')), *ready])]
    if m.may(0.3):
        found.append(action('spoil', ('unset', (head, '?x')), params=ONE))
    return found


def mended(m: AlikeMaker) -> Actions:
    """Each may be broken, an action mends one where it is, and each has to be known to be whole."""
    head, busy = m.declared.with_predicate('t'), flag(m)
    m.told.append(head)
    atoms = m.atoms(head)
    if m.may(0.6):
        m.one_of(atoms)
        m.known.append(('kx', *atoms))
    m.goals += [('k', ('not', (head, 'a'))) if m.may(0.7) else ('kw', (head, 'a'))]
    m.known += [('kf', ('not', busy))] * m.may(0.7)
    free: List[Expression] = [('k', ('not', busy))] * m.may(0.4)
    mend: List[Expression] = [when(m, 0.5, (head, '?x'), ('unset', (head, '?x')))]
    if free:
        mend.append(('set', busy))
    found = [action('mend', *mend, params=ONE, pre=free, senses=[('sense', (head, '?x'))] * m.may(0.3))]
    if m.may(0.6):
        found.append(action('look', params=ONE, senses=[('sense', (head, '?x'))]))
    if free or m.may(0.2):
        found.append(action('rest', ('unset', busy)))
    return found


def stood(m: AlikeMaker) -> Actions:
    """One stands at one of some; where one stands is looked at or changed."""
    at, head = m.declared.with_function('t'), m.declared.with_predicate('t')
    m.told += [at, head]
    atoms = m.atoms(head)
    if m.may(0.7):
        m.one_of(atoms)
        m.known.append(('kx', *atoms))
    m.known += [('kf', ('=', (at,), m.declared.value((at,))))] if m.may(0.6) else [('kv', (at,))] * m.may(0.6)
    m.goals.append(m.chance.choice([('k', ('not', (head, 'a'))), ('kw', (head, 'a')), ('k', (head, (at,)))]))
    found = [action('go', ('assign', (at,), '?x'), params=ONE, pre=[('k', ('not', ('=', (at,), '?x')))] * m.may(0.2)),
             action('look', senses=[('sense', (head, (at,)))])]
    if m.may(0.6):
        found.append(action('mend', ('unset', (head, (at,))), pre=[('k', (head, (at,)))] * m.may(0.6)))
    return found


def valued(m: AlikeMaker) -> Actions:
    """Each has a value that can be read; what is done with it needs the value."""
    own, head = m.declared.with_function('t', 't'), m.declared.with_predicate('t')
    m.told += [own, head]
    places: List[Expression] = [(own, thing) for thing in m.declared.objects_of('t')]
    kind = m.chance.choice(['whether', 'some', 'none', 'not', 'none'])
    m.known += [('kv', place) for place in places] if kind == 'whether' else []
    m.known += [('kf', ('=', place, m.declared.value(place))) for place in places if kind == 'some' and m.may(0.5)]
    m.known += [('kf', m.true_one(('=', place, place[1]))) for place in places if kind == 'not']
    m.known += [('kf', m.true_one(atom)) for atom in m.atoms(head) if m.may(0.8)]
    asked: List[Expression] = [('kv', (own, 'a')), ('k', (head, 'a')), ('k', (head, (own, 'a'))),
                               ('k', m.true_one(('=', (own, 'a'), 'b'))), ('kw', ('=', (own, 'a'), 'a'))]
    m.goals.append(m.chance.choice(asked))
    found = [action('read', params=ONE, senses=[('sense-value', (own, '?x'))])]
    if m.may(0.7):
        found.append(action('use', ('set', (head, '?x')), params=TWO, pre=[('k', ('=', (own, '?x'), '?y'))]))
    if m.may(0.5):
        found.append(action('turn', ('assign', (own, '?x'), '?y'), params=TWO, pre=[('kv', (own, '?x'))] * m.may(0.3)))
    return found


def moved(m: AlikeMaker) -> Actions:
    """Some lie at places, are taken and put down."""
    place = 'u' if 'u' in m.declared.objects and m.may(0.7) else m.declared.with_type(2)
    at, held, full = m.declared.with_predicate('t', place), m.declared.with_predicate('t'), flag(m)
    m.told += [at, held]
    first, last = m.declared.objects_of(place)[0], m.declared.objects_of(place)[-1]
    own = m.declared.objects['t']
    for atom in m.atoms(at) + m.atoms(held):
        m.declared.true.discard(atom)
    m.declared.true |= {(at, thing, first) for thing in own}
    m.known += [('kf', m.true_one(atom)) for atom in m.atoms(at) + m.atoms(held)][:40] + [('kf', ('not', full))]
    m.goals.append(('k', (at, 'a', last)))
    names = [('?x', 't'), ('?p', place)]
    return [action('take', ('unset', (at, '?x', '?p')), ('set', (held, '?x')), ('set', full), params=names,
                   pre=[('k', (at, '?x', '?p')), *[('k', ('not', full))] * m.may(0.6)]),
            action('put', ('set', (at, '?x', '?p')), ('unset', (held, '?x')), ('unset', full), params=names,
                   pre=[('k', (held, '?x'))])]


def learnt(m: AlikeMaker) -> Actions:
    """What an action does tells what was before, of one of some."""
    head, sign, shown = m.declared.with_predicate('t'), flag(m), m.declared.with_predicate('t')
    m.told += [head, shown]
    is_own = m.may(0.5)
    made: Expression = (shown, '?x') if is_own else sign
    m.declared.true -= set(m.atoms(shown))
    m.known += [('kf', ('not', atom)) for atom in [*m.atoms(shown), sign]]
    if m.may(0.5):
        m.one_of(m.atoms(head))
        m.known.append(('kx', *m.atoms(head)))
    asked: List[Expression] = [('kw', (head, 'a')), ('kw', (head, 'a')), ('k', m.true_one((head, 'a')))]
    if m.version == 2:
        asked += [('at-start', ('kw', (head, 'a'))), ('once', ('kw', (head, 'a')))]
    m.goals.append(m.chance.choice(asked))
    effects: List[Expression] = [('when', ((head, '?x'),), ('set', made))]
    if m.may(0.3):
        effects.append(('unset', (head, '?x')))
    look = action('look', params=ONE, senses=[('sense', (shown, '?x'))])
    found = [action('try', *effects, params=ONE), look if is_own else action('look', senses=[('sense', sign)])]
    if not is_own:
        found.append(action('wipe', ('unset', sign)))
    return found


def listed(m: AlikeMaker) -> Actions:
    """All that is so of one is told at once; and one may have to know that something isn't so."""
    pair, done = m.declared.with_predicate('t', 't'), m.declared.with_predicate('t')
    m.told += [pair, done]
    things = m.declared.objects_of('t')
    for thing in things:
        if m.may(0.5):
            m.known += [('kf', atom) for atom in m.atoms(pair) if atom[1] == thing and m.declared.is_true(atom)]
            m.known.append(('lcw', (pair, thing, '_')))
    m.declared.true -= set(m.atoms(done))
    m.known += [('kf', ('not', atom)) for atom in m.atoms(done)] * m.may(0.7)
    m.goals.append(m.chance.choice([('k', (done, 'a')), ('kw', (pair, 'a', 'b')), ('k', m.true_one((pair, 'a', 'b')))]))
    wanted: Expression = ('not', (pair, '?x', '?y')) if m.may(0.7) else (pair, '?x', '?y')
    found = [action('list', params=ONE, senses=[('sense-all', (pair, '?x', '_'))]),
             action('act', ('set', (done, '?x')), params=TWO if m.may(0.7) else ONE,
                    pre=[('k', wanted if m.may(0.7) else ('not', (pair, '?x', '?x')))])]
    if found[1][2] == ('params', *ONE):
        found[1] = action('act', ('set', (done, '?x')), params=ONE, pre=[('k', ('not', (pair, '?x', '?x')))])
    if m.may(0.4):
        found.append(action('sweep', ('clear', (pair, '?x', '_')), params=ONE))
    if m.may(0.4):
        found.append(action('join', ('set', (pair, '?x', '?y')), params=TWO))
    return found


def linked(m: AlikeMaker) -> Actions:
    """Of pairs of some it is known which are linked; one goes along the links."""
    link, at = m.declared.with_predicate('t', 't'), m.declared.with_predicate('t')
    m.told += [link, at]
    things = list(m.declared.objects_of('t'))
    shape = m.chance.choice(['ring', 'all', 'line', 'chance'])
    m.declared.true -= set(m.atoms(link)) | set(m.atoms(at))
    for n, thing in enumerate(things):
        others = {'ring': [things[(n + 1) % len(things)]], 'all': [one for one in things if one != thing],
                  'line': things[n + 1:n + 2], 'chance': [one for one in things if m.may(0.4)]}[shape]
        m.declared.true |= {(link, thing, other) for other in others}
    first = m.chance.choice(things)
    m.declared.true.add((at, first))
    m.known += [('kf', m.true_one(atom)) for atom in m.atoms(link) if m.may(0.9)]
    m.known += [('kf', m.true_one(atom)) for atom in m.atoms(at)] if m.may(0.7) else [('kx', *m.atoms(at))]
    m.goals.append(m.chance.choice([('k', (at, m.chance.choice(things))), ('k', ('not', (at, first))), ('kw', (at, 'a'))]))
    found = [action('go', ('unset', (at, '?x')), ('set', (at, '?y')), params=TWO,
                    pre=[('k', (at, '?x')), ('k', (link, '?x', '?y'))])]
    if m.may(0.6):
        found.append(action('look', params=ONE, senses=[('sense', (at, '?x'))]))
    if m.may(0.4):
        found.append(action('cut', ('unset', (link, '?x', '?y')), params=TWO))
    return found


def coloured(m: AlikeMaker) -> Actions:
    """Each has to be unlike another one, or to be marked with it."""
    head, mark, done = m.declared.with_predicate('t'), m.declared.with_predicate('t', 't'), flag(m)
    m.told += [head, mark]
    m.declared.true -= set(m.atoms(mark)) | set(m.atoms(head))
    m.known += [('kf', ('not', atom)) for atom in m.atoms(mark)] + [('kf', ('not', atom)) for atom in m.atoms(head)]
    m.goals.append(m.chance.choice([('k', done), ('k', (head, 'a')), ('k', (mark, 'a', 'b'))]))
    unlike: Expression = ('k', ('not', ('=', '?x', '?y')))
    found = [action('mark', ('set', (mark, '?x', '?y')), params=TWO, pre=[unlike] * m.may(0.6)),
             action('paint', ('set', (head, '?x')), params=TWO, pre=[('k', (mark, '?x', '?y'))]),
             action('end', ('set', done), params=TWO, pre=[('k', (head, '?x')), ('k', (head, '?y')), unlike])]
    if m.may(0.4):
        found.append(action('wash', ('unset', (head, '?x')), ('clear', (mark, '_', '?x')), params=ONE))
    return found


def hidden(m: AlikeMaker) -> Actions:
    """A value is one of some; each may be tried, and trying tells whether it was."""
    code, opened, done = m.declared.with_function('t'), flag(m), flag(m)
    m.told.append(code)
    m.known += [('kf', ('not', opened))] * m.may(0.8)
    m.known += [('kv', (code,))] * m.may(0.3)
    m.known += [('kf', ('not', ('=', (code,), thing))) for thing in m.other_values((code,))[:1] if m.may(0.3)]
    m.goals.append(m.chance.choice([('k', opened), ('k', done), ('kv', (code,))]))
    found = [action('try', ('when', (('=', (code,), '?x'),), ('set', opened)), params=ONE,
                    senses=[('sense', opened)] * m.may(0.5)),
             action('enter', ('set', done), pre=[('k', opened)])]
    if m.may(0.5):
        found.append(action('look', senses=[('sense', opened)]))
    if m.may(0.3):
        found.append(action('read', senses=[('sense-value', (code,))]))
    if m.may(0.3):
        found.append(action('dial', ('assign', (code,), '?x'), params=ONE))
    return found


def tried(m: AlikeMaker, kind: str) -> Tuple[str, List[Expression]]:
    """Something unknown, which an action shows at the object that it is tried with: the sign's name, and the action."""
    cause, sign = flag(m), m.declared.with_predicate(kind)
    m.told += [str(cause[0]), sign]
    m.declared.true -= set(m.atoms(sign))
    m.declared.true |= {cause} if m.may(0.5) else set()
    m.known += [('kf', ('not', atom)) for atom in m.atoms(sign)]
    m.goals.append(('kw', cause))
    return sign, [action('try', ('when', (cause,), ('set', (sign, '?x'))), params=[('?x', kind)])]


def special(m: AlikeMaker) -> Actions:
    """Of some it shows at each, but an action that looks for it names one, mostly the last."""
    sign, found = tried(m, 't')
    own = m.declared.objects['t']
    thing = own[-1] if m.may(0.7) else m.chance.choice(own)
    kinds: List[Expression] = [
        action('look', senses=[('sense', (sign, thing))]),
        action('look', params=ONE, senses=[('sense', (sign, '?x'))], pre=[('k', ('=', '?x', thing))]),
        action('look', params=ONE, senses=[('sense', (sign, '?x'))], pre=[('k', ('not', ('=', '?x', own[0])))])]
    if m.may(0.4):
        shown = flag(m)
        m.known += [('kf', ('not', shown))] * m.may(0.8)
        return found + [action('show', ('when', ((sign, thing),), ('set', shown)), senses=[('sense', shown)])]
    return found + [m.chance.choice(kinds)]


def narrow(m: AlikeMaker) -> Actions:
    """Of some it shows at each, but only those below a type are looked at."""
    m.version = 2
    below = m.declared.with_subtype()
    sign, found = tried(m, 't')
    own: Thing = [('?x', below)]
    return found + [action('look', params=own, senses=[('sense', (sign, '?x'))])]


def by_chance(m: AlikeMaker) -> Actions:
    """Actions by chance alone."""
    return [m.action(n) for n in range(m.chance.choice([1, 2, 2]))]


TEMPLATES: Sequence[Callable[[AlikeMaker], Actions]] = (
    searched, mended, stood, valued, moved, learnt, listed, linked, coloured, hidden, special, special, narrow,
    by_chance, by_chance)
