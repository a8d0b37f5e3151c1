"""Small problems whose past stays open: effects under conditions that nobody knows, of which a look tells later.

A step may have changed what it is about, or not; the same is done again, or written over unseen, or put right, before
something is seen from which earlier moments follow. What is asked for speaks of such moments too. An action's own adds
may leave out what follows from its text. So most files have histories of which little may be let go or put in another
order, and each kind below stands around one reason for that.
"""

import random
from typing import Callable, List, Sequence, Tuple

from pkslib import Expression

from .generator import OVER_TIME, Declared, Maker
from .templates import Actions, action, flag, named_apart, opposite, when

ONE: Sequence[Tuple[str, str]] = [('?x', 't')]
MOST_ITEMS = 16


class PastDeclared(Declared):
    """One type of a few objects, and of predicates and functions hardly any: the kinds make their own."""

    def __init__(self, chance: random.Random, version: int) -> None:
        super().__init__(chance, version)
        self.parents = {'t': None}
        self.objects = {'t': ['a', 'b', 'd'][:chance.choice([1, 2, 2, 2, 2, 3])]}
        self.predicates = {'p0': self._kinds([0, 0, 1])}
        self.functions = {}
        self.values = {}
        self.true = {atom for atom in self.instances(self.predicates) if chance.random() < 0.4}


class PastMaker(Maker):
    """One problem of this kind, made by a source of chance."""

    def __init__(self, chance: random.Random) -> None:
        super().__init__(chance)
        self.version = 2 if self.may(0.4) else self.version
        self.declared = PastDeclared(chance, self.version)
        self.causes: List[Expression] = []
        """Literals on which effects hang, and of which the start mostly knows nothing."""
        self.facts: List[Expression] = []
        """Atoms that effects make so or undo."""
        self.heads: List[str] = []
        """Predicates over the type."""
        self.places: List[Expression] = []
        """Functions without arguments."""
        self.reached: List[Expression] = []
        """Atoms that steps surely make so."""
        self.telling = chance.choice(['all', 'all', 'seen', 'some', 'some', 'some'])
        """How much an action's own adds tell of what follows from its text."""

    # ---- what the kinds are made of

    def thing(self) -> str:
        """An object."""
        return self.chance.choice(self.declared.objects['t'])

    def head(self) -> str:
        """A predicate over the type: mostly the one that is there."""
        if not self.heads or self.may(0.15):
            self.heads.append(self.declared.with_predicate('t'))
        return self.chance.choice(self.heads)

    def spot(self) -> Expression:
        """A function without arguments: mostly the one that is there."""
        if not self.places or self.may(0.15):
            self.places.append((self.declared.with_function('t'),))
        return self.chance.choice(self.places)

    def cause(self) -> Expression:
        """A literal on which effects hang: a new one, or one from before."""
        if self.causes and self.may(0.3):
            return self.chance.choice(self.causes)
        kind = self.chance.choice(['plain', 'plain', 'plain', 'object', 'object', 'value', 'at a value'])
        if kind == 'plain':
            found: Expression = (self.declared.with_predicate(),)
        elif kind == 'object':
            found = (self.head(), self.thing())
        elif kind == 'value':
            found = ('=', self.spot(), self.thing())
        else:
            found = (self.head(), self.spot())
        self.causes.append(opposite(found) if self.may(0.2) else found)
        return self.causes[-1]

    def fact(self, share: float = 0.7) -> Expression:
        """A new atom that effects make so or undo; in this share of all the start knows what it is."""
        found: Expression = (self.head(), self.thing()) if self.may(0.2) else (self.declared.with_predicate(),)
        if self.may(0.7):
            self.declared.true.discard(found)
        self.start(found, share)
        self.facts.append(found)
        return found

    def start(self, literal: Expression, share: float) -> None:
        """In this share of all the start knows whether a literal is so."""
        if self.may(share):
            self.known.append(('kf', self.true_one(literal)))

    def turned(self, fact: Expression) -> Expression:
        """The effect that makes a fact what it isn't at the start, and sometimes the other one."""
        return ('unset' if self.declared.is_true(fact) != self.may(0.15) else 'set', fact)

    def hung(self, target: Expression, most: int = 2) -> Expression:
        """An effect with this target that hangs on a cause or two."""
        count = self.chance.choice([1, 1, 1, most])
        return ('when', tuple(dict.fromkeys(self.cause() for _ in range(count))), target)

    def listed(self, head: str, *terms: Expression) -> None:
        """The start knows what is true of a predicate, and that it is all, at these terms or everywhere."""
        self.known += [('kf', atom) for atom in self.atoms(head) if self.declared.is_true(atom)]
        self.known.append(('lcw', (head, *(terms or ('_',)))))

    def one_known(self, literals: Sequence[Expression]) -> None:
        """The start knows that one of these atoms is true, where they are two or more."""
        if len(literals) > 1:
            self.one_of(literals)
            self.known.append(('kx', *literals))

    def marked(self, share: float = 0.6) -> List[Expression]:
        """In this share of all an effect that surely reaches an aim."""
        if not self.may(share):
            return []
        done = flag(self)
        self.start(done, 0.3)
        self.reached.append(done)
        self.goals.append(('k', done))
        return [('set', done)]

    def ends(self, literal: Expression) -> Actions:
        """Actions that reach the aim where one knows on which side of a literal one is; it is the aim alone."""
        done = flag(self)
        self.reached.append(done)
        self.goals[:] = [('k', done)]
        sides = [literal, opposite(literal)]
        if self.may(0.08):
            sides.pop(self.chance.choice([0, 1]))
        beside = self.looks(literal) if self.may(0.45) else []
        if self.may(0.2):
            return [*beside, action('end', ('set', done), pre=[('kw', literal)])]
        return [*beside, *(action('end', ('set', done), pre=[('k', side)]) for side in sides)]

    def looks(self, *literals: Expression) -> Actions:
        """Looks at these literals: an action of its own for each, or one for all."""
        if len(literals) > 1 and self.may(0.2):
            return [action('look', senses=[('sense', literal) for literal in literals])]
        return [action('look', senses=[('sense', literal)]) for literal in dict.fromkeys(literals)]

    # ---- the whole

    def actions(self) -> List[Expression]:
        """Those of a kind or two, some changed by chance."""
        found = self.chance.choice(KINDS)(self)
        if self.may(0.15):
            found += self.chance.choice(KINDS)(self)
        if self.may(0.15):
            found.append(self.action(0))
        if self.causes and self.may(0.3):
            found += self.ends(self.chance.choice(self.causes))
        if self.may(0.35):
            found += self.mended()
        asked = [aim[1] for aim in self.goals if aim[0] == 'kw']
        if asked and self.may(0.3):
            found += self.looks(self.chance.choice(asked))
        if self.may(0.45):
            found = self.delayed(found)
        found = [self.varied(one) for one in found]
        if self.may(0.4):
            self.chance.shuffle(found)
        return named_apart(self.priced(found))

    def varied(self, one: Expression) -> Expression:
        """The action as it is, or with one effect more, of what the others are about."""
        if not self.may(0.15):
            return one
        target = self.target()
        return with_effect(one, self.hung(target) if self.may(0.6) else target, self.may(0.5))

    def target(self) -> Expression:
        """A target at what the file is about."""
        kind = self.chance.choice(['fact', 'fact', 'cause', 'place', 'clear', 'clear'])
        if kind == 'place' and self.places:
            return ('assign', self.chance.choice(self.places), self.thing())
        if kind == 'clear' and self.heads:
            return ('clear', (self.chance.choice(self.heads), '_' if self.may(0.6) else self.thing()))
        atoms = [opposite(one) if one[0] == 'not' else one for one in self.causes] if kind == 'cause' else self.facts
        atoms = [atom for atom in atoms if atom[0] != '=']
        return self.turned(self.chance.choice(atoms)) if atoms else self.turned(self.fact())

    def mended(self) -> Actions:
        """An action that puts right what is aimed at, mostly where one knows that it is wrong."""
        aims = [aim[1] for aim in self.goals if aim[0] == 'k' and aim[1] not in self.reached]
        literal = self.chance.choice(aims or [self.fact()])
        if literal[0] == '=':
            effect: Expression = ('assign', *literal[1:])
        elif literal[0] == 'not':
            word = 'clear' if len(literal[1]) == 2 and self.may(0.5) else 'unset'
            effect = (word, literal[1]) if literal[1][0] != '=' else self.target()
        else:
            effect = ('set', literal)
        return [action('mend', effect, pre=[('k', opposite(literal))] * self.may(0.7))]

    def delayed(self, actions: Actions) -> Actions:
        """The actions, of which those that only look need some of the others to be done before."""
        steps = [one for one in actions if has(one, 'effects')]
        if not steps:
            return actions
        found = list(actions)
        for step in self.chance.sample(steps, min(len(steps), self.chance.choice([1, 1, 2]))):
            ready = flag(self)
            found = [with_effect(one, ('set', ready), True) if one is step else one for one in found]
            found = [one if has(one, 'effects') else with_query(one, ('k', ready)) for one in found]
        return found

    def aims_of(self) -> List[Expression]:
        """The aims: what the kinds say, most of what the start doesn't tell, and some on what was before."""
        told = [aim for aim in dict.fromkeys(self.goals) if self.is_told(aim)]
        found = [aim for aim in dict.fromkeys(self.goals) if aim not in told]
        if not found:
            whether: List[Expression] = [('kw', one) for one in dict.fromkeys([*self.causes, *self.facts])]
            found = [aim for aim in whether if not self.is_told(aim)]
        self.chance.shuffle(found)
        found = [self.eased(aim) for aim in found[:self.chance.choice([2, 2, 2, 3])]]
        found += [aim for aim in told[:2] if self.may(0.6)]
        if self.version == 2 and self.may(0.65):
            found += [self.aim_over_time() for _ in range(self.chance.choice([1, 1, 1, 2]))]
        if not found or self.may(0.1):
            found.append(self.aim_now())
        return list(dict.fromkeys(found))

    def eased(self, aim: Expression) -> Expression:
        """The aim, or most often to know whether it is so, where that hangs on what nobody can change."""
        is_open = aim[0] == 'k' and (aim[1] in self.causes or opposite(aim[1]) in self.causes)
        return ('kw', aim[1]) if is_open and self.may(0.6) else aim

    def is_told(self, aim: Expression) -> bool:
        """Whether what the start knows has the answer of an aim of one literal."""
        literals = [aim[-1]] if aim[0] == 'k' else [aim[-1], opposite(aim[-1])]
        return aim in self.known or any(('kf', literal) in self.known for literal in literals)

    def aim_now(self) -> Expression:
        """A query on what the file is about."""
        literals = [*self.causes, *self.facts] or [flag(self)]
        one = self.chance.choice(literals)
        kind = self.chance.choice(['kw', 'kw', 'k', 'kv', 'both'])
        if kind == 'k' and self.facts:
            return ('k', self.true_one(self.chance.choice(self.facts)))
        if kind == 'kv' and self.places:
            return ('kv', self.chance.choice(self.places))
        other = self.chance.choice(literals)
        return ('kw', one, other) if kind == 'both' and other != one else ('kw', one)

    def query_of(self, literal: Expression) -> Expression:
        """Whether a literal is known, or whether it is true or false, or a formula that has it."""
        if self.may(0.6):
            return ('k', literal)
        other = self.chance.choice([*self.causes, *self.facts, literal])
        return ('kw', literal) if other == literal or self.may(0.5) else ('kw', literal, other)

    def aim_over_time(self) -> Expression:
        """An aim of the start, of always or of once: mostly such as a plan can meet."""
        known = [item[1] for item in self.known if item[0] == 'kf']
        word = self.chance.choice(OVER_TIME if known else ('at-start', 'once'))
        if known and self.may(0.9 if word == 'always' else 0.1):
            return (word, self.query_of(self.chance.choice(known)))
        if word == 'once' and self.reached and self.may(0.4):
            return (word, ('k', self.chance.choice(self.reached)))
        if word != 'always' and self.may(0.75):
            return (word, ('kw', self.chance.choice([*self.causes, *self.facts] or [flag(self)])))
        if self.places and self.may(0.2):
            return (word, ('kv', self.chance.choice(self.places)))
        return (word, self.aim_now())

    def know_beside(self) -> None:
        """The start knows, seldom, something of a cause or a place, a group or a region."""
        self.known += [('kf', self.true_one(cause)) for cause in self.causes if self.may(0.06)]
        self.known += [('kw', cause) for cause in self.causes if self.may(0.06)]
        self.known += [('kv', place) for place in self.places if self.may(0.1)]
        self.known += [('kf', self.true_one(('=', place, self.thing()))) for place in self.places if self.may(0.2)]
        atoms = [one for one in dict.fromkeys([*self.causes, *self.facts]) if one[0] not in ('not', '=')]
        group = self.chance.sample(atoms, min(len(atoms), self.chance.choice([2, 2, 3])))
        if self.may(0.45) and [self.declared.is_true(atom) for atom in group].count(True) == 1 < len(group):
            self.known.append(('kx', *group))
        if self.heads and self.may(0.22):
            self.listed(self.chance.choice(self.heads), *[self.thing()] * self.may(0.3))

    def init(self) -> Tuple[Expression, ...]:
        """The initial items."""
        items = list(dict.fromkeys(self.known))[:MOST_ITEMS]
        if self.may(0.5):
            self.chance.shuffle(items)
        return tuple(items)

    def forms(self) -> List[Expression]:
        """The forms of the file, without adds."""
        actions = self.actions()
        self.know_beside()
        aims = self.aims_of()
        self.depth = self.depth or self.chance.choice(self.depths(actions))
        return [('pks', str(self.version)), ('domain', *self.declared.forms(), *actions),
                ('problem', ('init', *self.init()), ('goal', *aims))]

    def depths(self, actions: Actions) -> List[int]:
        """The depths to which such a problem is planned: where there are many instances, less."""
        own = len(self.declared.objects['t'])
        many = sum(own ** sum(len(part) - 1 for part in one[2:] if part[0] == 'params') for one in actions)
        return [4, 5, 5] if many <= 4 else [4, 5] if many <= 6 else [3, 4, 5] if many <= 8 else [3, 4]

    # ---- adds

    def other_adds(self, action: Expression) -> List[Expression]:
        """Seldom adds that don't follow from the text as it stands."""
        return list(super().other_adds(action)) if self.may(0.06) else []

    def own_adds(self, adds: List[Expression]) -> List[Expression]:
        """What an action tells of these adds: all, what is seen alone, or some."""
        if self.telling == 'all' or self.may(0.25):
            return adds
        if self.telling == 'seen':
            return [add for add in adds if add[0] in ('kw', 'kv')]
        kept = {'kf': 0.6, 'kw': 0.96, 'kv': 0.85, 'lcw': 0.5, 'if': 0.4}
        return [add for add in adds if self.may(0.95 if add[1] in self.reached else kept[str(add[0])])]


def has(one: Expression, word: str) -> bool:
    """Whether an action has this part."""
    return any(part[0] == word for part in one[2:])


PARTS = ('cost', 'params', 'pre', 'effects', 'senses')


def with_part(one: Expression, word: str, more: Expression, is_last: bool = True) -> Expression:
    """The action with one thing more in a part."""
    own = {part[0]: part for part in one[2:]}
    old = own.get(word, (word,))[1:]
    own[word] = (word, *old, more) if is_last else (word, more, *old)
    return (*one[:2], *(own[name] for name in PARTS if name in own))


def with_effect(one: Expression, effect: Expression, is_last: bool) -> Expression:
    """The action with one effect more."""
    return with_part(one, 'effects', effect, is_last)


def with_query(one: Expression, query: Expression) -> Expression:
    """The action with one precondition more."""
    return with_part(one, 'pre', query)


# ---- kinds: each adds what it needs to what a maker has declared, and says some aims

def dunked(m: PastMaker) -> Actions:
    """One of some does it: an action at each has an effect where it is the one."""
    head, sign = m.head(), m.fact(0.8)
    atoms = m.atoms(head)
    m.causes += atoms
    if m.may(0.5):
        m.one_known(atoms)
    made = m.turned(sign)
    effects: List[Expression] = [('when', ((head, '?x'),), made)]
    effects += [('unset', (head, '?x'))] * m.may(0.25)
    effects += m.marked(0.3)
    wanted = sign if made[0] == 'set' else ('not', sign)
    m.goals.append(m.chance.choice([('k', wanted), ('kw', atoms[0]), ('kw', sign), ('kw', atoms[-1])]))
    return [action('dunk', *effects, params=ONE), *m.looks(sign)]


def handed(m: PastMaker) -> Actions:
    """What was unknown is handed on, in one step or several, and comes back from the end."""
    links = [m.cause(), *(m.fact(0.8) for _ in range(m.chance.choice([1, 2, 2])))]
    effects: List[Expression] = [('when', (one,), m.turned(other)) for one, other in zip(links, links[1:])]
    m.goals.append(('kw', links[m.chance.choice([0, 0, 1])]))
    if m.may(0.5):
        steps = [action('act', *effects, *m.marked(0.2))]
    else:
        steps = [action('act', effect, *m.marked(0.2)) for effect in effects]
    if m.may(0.4):
        steps += m.ends(links[0])
    return steps + m.looks(links[-1])


def valued(m: PastMaker) -> Actions:
    """A place gets values where something unknown is so; what it had before isn't known either."""
    place = m.spot()
    m.start(('=', place, m.declared.value(place)), 0.25)
    m.start(('=', place, m.thing()), 0.3)
    has_parameter = m.may(0.4)
    values: List[Expression] = [m.thing(), m.thing(), m.spot() if m.may(0.3) else m.thing()]
    effects = [m.hung(('assign', place, '?x' if has_parameter else values[0]))]
    if m.may(0.5):
        effects.append(m.hung(('assign', place, values[1])))
    found = [action('turn', *effects, *m.marked(0.4), params=ONE if has_parameter else ())]
    if m.may(0.6):
        found.append(action('put', when(m, 0.4, m.cause(), ('assign', place, values[2])), *m.marked(0.4)))
    m.goals.append(m.chance.choice([('kw', m.causes[0]), ('kv', place), ('k', m.true_one(('=', place, m.thing()))),
                                    ('kw', ('=', place, m.thing()))]))
    if m.may(0.4):
        return [*found, action('read', senses=[('sense-value', place)])]
    return found + m.looks(('=', place, m.thing()))


def weighed(m: PastMaker) -> Actions:
    """A scale shows what was weighed last, and what it showed before is gone where nobody looked."""
    head, tilt = m.head(), m.fact(0.6)
    atoms = m.atoms(head)
    m.causes += atoms
    m.one_known(atoms)
    effects: List[Expression] = [('when', ((head, '?x'),), ('set', tilt)),
                                 ('when', (('not', (head, '?x')),), ('unset', tilt))]
    if m.may(0.3):
        effects[1] = ('unset', tilt)
        m.chance.shuffle(effects)
    found = [action('weigh', *effects, *m.marked(0.2), params=ONE), *m.looks(tilt)]
    if m.may(0.4):
        found.append(action('clean', ('unset', tilt)))
    if m.may(0.5):
        done = flag(m)
        m.goals.append(('k', done))
        return found + [action('say', ('set', done), params=ONE, pre=[('k', (head, '?x'))])]
    m.goals.append(('kw', atoms[0]))
    return found


def overwritten(m: PastMaker) -> Actions:
    """An effect that isn't seen, and a step that surely writes over it; a region may hold what it hangs on."""
    fact, head, place = m.fact(0.8), m.head(), m.spot()
    m.declared.true -= set(m.atoms(head))
    if m.may(0.6):
        m.listed(head)
    m.start(('=', place, m.thing()), 0.6)
    thing = m.thing()
    condition: Expression = ('not', (head, thing)) if m.may(0.6) else m.cause()
    found = [action('act', ('when', (condition,), ('set', fact)), *m.marked(0.3))]
    found.append(action('over', ('unset', fact) if m.may(0.8) else ('set', fact), *m.marked(0.2)))
    drop: List[Expression] = [('set', (head, place)), ('assign', place, m.thing())][:m.chance.choice([1, 2, 2])]
    if m.may(0.8):
        found.append(action('drop', *drop, *m.marked(0.9)))
    m.goals.append(('k', ('not', fact)))
    m.goals += [('k', ('not', (head, thing)))] * m.may(0.6)
    seen: List[Expression] = [m.cause(), fact, ('=', place, thing)]
    return found + m.looks(m.chance.choice(seen), *[(head, thing)] * m.may(0.4))


def joined(m: PastMaker) -> Actions:
    """What is known at a place's value is joined to what a step surely writes, and tells of the value."""
    head, place = m.head(), m.spot()
    value, thing = m.declared.value(place), m.thing()
    kind = m.chance.choice(['at the value', 'region', 'group', 'both'])
    if kind == 'region':
        m.listed(head, place)
        fact = (m.declared.with_predicate(),)
        m.one_known([(head, thing), fact])
        m.known = [item for item in m.known if item[0] != 'kf' or m.declared.is_true(item[1])]
        m.start(fact, 0.7)
    elif kind == 'group':
        m.one_known([(head, thing), *((m.declared.with_predicate(),) for _ in range(m.chance.choice([1, 2])))])
    else:
        m.declared.true.add((head, value))
        m.known.append(('kf', (head, place)))
    if kind in ('at the value', 'both') and thing != value:
        m.declared.true.discard((head, thing))
        m.start((head, thing), 0.8)
    written: List[Expression] = [('unset', (head, m.thing())), ('unset', (head, thing)), ('set', (head, thing)),
                                 ('clear', (head, '_')), ('clear', (head, thing)), ('assign', place, thing)]
    effect = m.chance.choice(written)
    m.facts.append((head, thing))
    m.causes.append(('=', place, thing))
    m.goals.append(m.chance.choice([('k', m.true_one(('=', place, thing))), ('kw', ('=', place, thing)), ('kv', place),
                                    ('kw', (head, thing))]))
    found = [action('act', m.hung(effect) if m.may(0.3) else effect, *m.marked(0.9))]
    if m.may(0.3):
        found.append(action('more', m.hung(m.chance.choice(written)), *m.marked(0.4)))
    return found + m.looks(m.chance.choice([('=', place, thing), ('=', place, thing), (head, thing), (head, place)]))


def twofold(m: PastMaker) -> Actions:
    """Assignments to one place under conditions that aren't known, of which the last that fires counts."""
    place = m.spot()
    one, other = m.thing(), m.thing()
    first, second = m.cause(), m.cause()
    m.start(first, 0.5)
    m.start(('=', place, one), 0.7)
    effects: List[Expression] = [('when', (first,), ('assign', place, one)), m.hung(('assign', place, other), 3)]
    m.chance.shuffle(effects)
    asked = m.true_one(('=', place, one))
    m.goals.append(m.chance.choice([('k', asked), ('kw', second), ('kv', place), ('kw', asked)]))
    if m.may(0.3):
        steps = [action('act', effect, *m.marked(0.5)) for effect in effects]
    else:
        steps = [action('act', *effects, *m.marked(0.7))]
    return steps + m.looks(('=', place, m.chance.choice([one, one, other])), *[second] * m.may(0.3))


def same_made(m: PastMaker) -> Actions:
    """Two steps that make the same so, each under a condition of its own; one may hold of itself."""
    fact, place, head = m.fact(0.9), m.spot(), m.head()
    made = m.turned(fact)
    odd: List[Expression] = [('=', place, place), (head, place), ('not', (head, m.thing())), m.cause()]
    first = action('one', ('when', (m.cause(),), made), *m.marked(0.7))
    second = action('two', ('when', (m.chance.choice(odd),), made if m.may(0.8) else m.turned(fact)), *m.marked(0.7))
    if m.may(0.4):
        m.listed(head)
    value = m.true_one(('=', place, m.thing()))
    m.goals.append(m.chance.choice([('kw', fact), ('kw', m.causes[0]), ('kw', m.causes[0]), ('k', value)]))
    found = [first, second, *m.looks(m.chance.choice([fact, fact, m.cause()]))]
    if m.may(0.4):
        found.append(action('undo', when(m, 0.4, m.cause(), opposite_effect(made)), *m.marked(0.3)))
    return found


def opposite_effect(effect: Expression) -> Expression:
    """The `set` for the `unset`, and the other way round."""
    return ('unset' if effect[0] == 'set' else 'set', effect[1])


def held(m: PastMaker) -> Actions:
    """A region that a step may let go of, and a step that reads what it shuts out."""
    head, place = m.head(), m.spot()
    thing = m.thing()
    m.declared.true -= set(m.atoms(head))
    m.declared.true.add((head, m.declared.value(place)))
    m.known.append(('kf', (head, place)))
    m.known.append(('lcw', (head, '_')))
    m.start(('=', place, thing), 0.8)
    fact = m.fact(0.6)
    moved: List[Expression] = [('assign', place, m.thing()), ('set', (head, m.thing())), ('clear', (head, '_'))]
    steps = [action('let', m.hung(m.chance.choice(moved)), *m.marked(0.8)),
             action('use', ('when', (('not', (head, thing)),), ('set', fact)), *m.marked(0.8))]
    m.goals.append(m.chance.choice([('k', fact), ('kw', fact), ('kw', ('=', place, thing)), ('kw', (head, thing))]))
    if m.may(0.3):
        steps.append(action('sweep', ('clear', (head, '_')), *m.marked(0.4)))
    return steps + m.looks(m.chance.choice([m.cause(), fact, (head, thing)]))


def grouped(m: PastMaker) -> Actions:
    """One of two is so, a value among them; what is done and seen at the value tells which."""
    head, place, fact = m.head(), m.spot(), (m.declared.with_predicate(),)
    thing = m.thing()
    if m.declared.is_true(('=', place, thing)):
        m.declared.true.discard(fact)
    else:
        m.declared.true.add(fact)
    m.known.append(('kx', ('=', place, thing), fact))
    m.causes.append(fact)
    effect: Expression = (m.chance.choice(['set', 'unset']), (head, m.thing()))
    effect = ('set', (head, place)) if m.may(0.3) else effect
    m.facts.append((head, thing))
    m.start((head, thing), 0.4)
    found = [action('act', m.hung(effect), *m.marked(0.3)), action('see', senses=[('sense', (head, place))]),
             action('move', when(m, 0.2, m.cause(), ('assign', place, m.thing())), *m.marked(0.9))]
    m.goals += m.chance.sample([('kw', fact), ('kw', (head, thing)), ('k', m.true_one(fact))], 1)
    return found[m.may(0.3):] + m.looks(fact) * m.may(0.6)


def put_back(m: PastMaker) -> Actions:
    """What has to be so once is done at a value that another step changes."""
    m.version = 2
    head, place = m.head(), m.spot()
    value, thing = m.declared.value(place), m.thing()
    m.declared.true.discard((head, value))
    m.start(('=', place, value), 0.8)
    m.facts.append((head, value))
    m.causes.append((head, value))
    put: Expression = ('set', (head, place)) if m.may(0.7) else m.hung(('set', (head, place)))
    found = [action('act', when(m, 0.2, m.cause(), ('assign', place, thing)), *m.marked(0.9)),
             action('put', put, pre=[('k', ('not', (head, m.chance.choice([value, thing]))))] * m.may(0.6))]
    word = m.chance.choice(['once', 'once', 'always', 'at-start'])
    query = m.chance.choice([('k', (head, place)), ('kw', (head, place)), ('k', (head, value)), ('kw', (head, value))])
    m.goals.append((word, query))
    return found + m.looks((head, value), *[('=', place, thing)] * m.may(0.2))


def treated(m: PastMaker) -> Actions:
    """One of some illnesses: a cure works where it is that one, and may harm where it isn't; a stain tells which."""
    ill, stain = m.head(), m.declared.with_predicate('t')
    atoms = m.atoms(ill)
    m.causes += atoms
    m.declared.true -= set(m.atoms(stain))
    well = (m.declared.with_predicate(),)
    m.one_known([*atoms, well] if m.may(0.5) or len(atoms) == 1 else atoms)
    m.known += [('kf', ('not', atom)) for atom in m.atoms(stain) if m.may(0.85)]
    cure: List[Expression] = [('when', ((ill, '?x'),), ('unset', (ill, '?x')))]
    harm = m.fact(0.8)
    if m.may(0.4):
        cure.append(('when', (('not', (ill, '?x')),), ('set', harm)))
        m.goals.append(('k', ('not', harm)))
    m.goals += [('k', ('not', atom)) for atom in atoms] if m.may(0.6) else [('kw', atoms[0])]
    shown: Expression = m.chance.choice([('sense', (stain, '?x')), ('sense-all', (stain, '_'))])
    look = action('look', senses=[shown], params=ONE if shown[0] == 'sense' else ())
    return [action('treat', *cure, params=ONE), look,
            action('stain', ('when', ((ill, '?x'),), ('set', (stain, '?x'))), params=ONE)]


def walked(m: PastMaker) -> Actions:
    """Steps along a line from nobody knows where, and a look that tells where one is."""
    things = m.declared.objects['t']
    place, head = m.spot(), m.head()
    by_value = m.may(0.5)

    def at(thing: str) -> Expression:
        return ('=', place, thing) if by_value else (head, thing)

    if not by_value:
        m.one_known(m.atoms(head))
    m.causes += [at(thing) for thing in things]

    def move(order: Sequence[str]) -> List[Expression]:
        found: List[Expression] = []
        for here, there in zip(order, order[1:]):
            left: List[Expression] = [('unset', (head, here)), ('set', (head, there))]
            to = [('assign', place, there)] if by_value else left
            found += [('when', (at(here),), effect) for effect in to]
        return found or [m.hung(('assign', place, order[0]))]

    first, last = at(things[0]), at(things[-1])
    m.goals.append(m.chance.choice([('k', last), ('k', first), ('kw', first), ('kv', place)]))
    found = [action('up', *move(things), *m.marked(0.2)), *m.looks(at(m.thing()))]
    return found + [action('down', *move(things[::-1]), *m.marked(0.2))] * m.may(0.6)


def flipped(m: PastMaker) -> Actions:
    """A step that turns what it reads, and can be done again."""
    cause = (m.declared.with_predicate(),)
    m.causes.append(cause)
    other = m.fact(0.7)
    turn: List[Expression] = [('when', (cause,), ('unset', cause)), ('when', (('not', cause),), ('set', cause))]
    turn += [('when', (cause,), m.turned(other))] * m.may(0.5)
    m.chance.shuffle(turn)
    m.goals.append(m.chance.choice([('kw', cause), ('kw', cause), ('k', cause), ('k', ('not', cause)), ('kw', other)]))
    found = [action('flip', *turn[:m.chance.choice([1, 2, 3])], *m.marked(0.5))]
    found += m.looks(m.chance.choice([cause, other]))
    if m.may(0.4):
        found.append(action('more', m.hung(m.turned(other)), *m.marked(0.4)))
    return found


def swept(m: PastMaker) -> Actions:
    """All of a predicate may be cleared, and some of it set again; a region stands or comes by that."""
    head = m.head()
    thing = m.thing()
    if m.may(0.5):
        m.listed(head, *[thing] * m.may(0.4))
    m.facts.append((head, thing))
    m.start((head, thing), 0.5)
    sweep: Expression = ('clear', (head, '_' if m.may(0.6) else thing))
    found = [action('sweep', m.hung(sweep) if m.may(0.6) else sweep, *m.marked(0.5)),
             action('fill', when(m, 0.6, m.cause(), ('set', (head, m.thing()))), *m.marked(0.5))]
    m.goals.append(m.chance.choice([('k', ('not', (head, thing))), ('kw', (head, thing)), ('kw', m.cause())]))
    seen: Expression = m.chance.choice([('sense', (head, thing)), ('sense', (head, thing)), ('sense-all', (head, '_'))])
    return found + [action('look', senses=[seen])]


def looked(m: PastMaker) -> Actions:
    """Looks that change nothing, between steps that may, and aims on when it was so."""
    cause, fact = m.cause(), m.fact(0.6)
    step = action('step', ('when', (cause,), m.turned(fact)), *m.marked(0.6))
    found = [step, *m.looks(fact, *[cause] * m.may(0.3))]
    other = m.cause()
    if m.may(0.5):
        seen = [cause, other] if m.may(0.3) and other != cause else [other]
        found.append(action('peek', senses=[('sense', *seen)]))
    if m.may(0.5):
        found.append(action('undo', when(m, 0.5, other, opposite_effect(m.turned(fact))), *m.marked(0.4)))
    m.goals.append(m.chance.choice([('kw', cause), ('kw', fact), ('kw', other)]))
    if m.may(0.5):
        m.version = 2
        m.goals.append((m.chance.choice(OVER_TIME), m.chance.choice([('kw', cause), ('kw', fact)])))
    return found


def woven(m: PastMaker) -> Actions:
    """Steps over a few facts, each of which may read what the others write."""
    facts = [m.fact(0.6) for _ in range(m.chance.choice([2, 2, 3]))]
    m.causes += [m.cause()] + facts
    found: Actions = []
    for _ in range(m.chance.choice([2, 2, 3])):
        effects = [('when', (m.chance.choice(m.causes),), m.turned(m.chance.choice(facts)))
                   for _ in range(m.chance.choice([1, 1, 2]))]
        found.append(action('step', *effects, *m.marked(0.5)))
    last = facts[-1]
    m.goals.append(m.chance.choice([('kw', m.causes[0]), ('kw', facts[0]), ('kw', last), ('k', m.true_one(last))]))
    return found + m.looks(*m.chance.sample(facts, m.chance.choice([1, 1, 2])))


def again(m: PastMaker) -> Actions:
    """A step that is done three times says more than when it is done twice: it hands on what it read a time before."""
    first, chain = m.cause(), [m.fact(0.9) for _ in range(m.chance.choice([2, 2, 3]))]
    effects: List[Expression] = [('when', (one,), ('set', other)) for one, other in zip([first, *chain], chain)]
    m.goals.append(m.chance.choice([('kw', first), ('kw', first), ('kw', chain[0])]))
    m.depth = m.chance.choice([4, 5, 5])
    ways = m.ends(m.chance.choice([first, first, chain[-1]])) if m.may(0.4) else []
    return [action('act', *effects), *m.looks(chain[-1]), *ways]


KINDS: Sequence[Callable[[PastMaker], Actions]] = (
    dunked, handed, valued, valued, weighed, overwritten, overwritten, joined, joined, twofold, same_made, held,
    grouped, put_back, treated, walked, flipped, swept, looked, looked, woven, woven, again)
"""The kinds; one that leaves more to chance stands twice."""
