"""Problems that are made around one rule each: what the start knows, the actions, and what is asked for.

Each of KINDS adds what it needs to what a maker has declared, so that the rule decides whether there is a plan,
which one, or what is known on the way. What it doesn't fix is left to chance.
"""

from typing import TYPE_CHECKING, Callable, List, Sequence, Tuple

from pkslib import Expression

if TYPE_CHECKING:
    from .generator import Maker

Actions = List[Expression]


def opposite(literal: Expression) -> Expression:
    """The negation of a literal."""
    return literal[1] if literal[0] == 'not' else ('not', literal)


def action(name: str, *effects: Expression, pre: Sequence[Expression] = (), senses: Sequence[Expression] = (),
           params: Sequence[Tuple[str, str]] = (), cost: int = 1) -> Expression:
    """An action of these parts; what is empty isn't written."""
    parts: List[Expression] = [('cost', str(cost))] if cost > 1 else []
    parts += [(word, *own) for word, own in (('params', params), ('pre', pre), ('effects', effects), ('senses', senses))
              if own]
    return ('action', name, *parts)


def flag(m: 'Maker') -> Expression:
    """A new atom without arguments, which is false at the start."""
    found = (m.declared.with_predicate(),)
    m.declared.true.discard(found)
    return found


def unknown(m: 'Maker') -> Expression:
    """A new atom without arguments, of which nothing is known."""
    return (m.declared.with_predicate(),)


def ended(m: 'Maker', *pre: Expression, name: str = 'end') -> Expression:
    """An action that reaches the aim where these queries are answered."""
    return action(name, ('set', aim_of(m)), pre=pre)


def aim_of(m: 'Maker') -> Expression:
    """The atom that is the aim; it is made once."""
    if m.aim_atom is None:
        m.aim_atom = flag(m)
        m.goals.append(('k', m.aim_atom))
    return m.aim_atom


def when(m: 'Maker', share: float, condition: Expression, effect: Expression) -> Expression:
    """The effect, in this share of all under the condition."""
    return ('when', (condition,), effect) if m.may(share) else effect


def named_apart(actions: Actions) -> Actions:
    """The actions, each of a name of its own."""
    return [('action', f'{one[1]}-{n}', *one[2:]) for n, one in enumerate(actions)]


# ---- the kinds

def foreign(m: 'Maker') -> Actions:
    """An effect at a place that can't have an object as its value, by types alone; something is known of the object."""
    m.version = 2
    kind = m.declared.with_subtype()
    place = (m.declared.with_function(kind),)
    thing = m.chance.choice(m.declared.objects['t'])
    done = flag(m)
    if m.may(0.3):
        other = m.declared.with_function('t', 't')
        m.known.append(('kf', ('=', (other, thing), m.declared.value((other, thing)))))
        effect: Expression = ('assign', (other, place), m.chance.choice(m.declared.objects_of('t')))
        asked: Expression = ('kv', (other, thing))
    else:
        head = m.declared.with_predicate('t')
        literal = m.true_one((head, thing))
        m.known.append(('kf', literal))
        effect = (m.chance.choice(['set'] if literal[0] == 'not' else ['unset', 'clear']), (head, place))
        asked = ('k', literal)
    return [action('step', when(m, 0.2, unknown(m), effect), ('set', done)), ended(m, ('k', done), asked)]


def widened(m: 'Maker') -> Actions:
    """A region over steps that may add to it, and an aim that needs it to leave something out."""
    kinds = m.chance.choice([('t',), ('t', 't')])
    head, place = m.declared.with_predicate(*kinds), (m.declared.with_function('t'),)
    objects = m.declared.objects_of('t')
    if m.may(0.4):
        m.known.append(('kf', ('=', place, m.declared.value(place))))

    def term() -> Expression:
        return place if m.may(0.3) else m.chance.choice(objects)

    for atom in sorted(atom for atom in m.declared.true if atom[0] == head):
        if m.may(0.5):
            m.declared.true.discard(atom)
    slots: List[Expression] = ['_' if m.may(0.6) else place if m.may(0.6) else term() for _ in kinds]
    m.known += [('kf', atom) for atom in sorted(m.declared.true) if atom[0] == head]
    m.known.append(('lcw', (head, *slots)))

    off = flag(m)
    m.known.append(('kf', ('not', off)))
    asked = [slot if slot != '_' else term() for slot in slots]

    def touch() -> Expression:
        if m.may(0.2):
            return when(m, 0.2, unknown(m), ('assign', place, m.chance.choice(objects)))
        terms = [near if m.may(0.6) else term() for near in asked]
        return when(m, 0.6, m.chance.choice([off, off, unknown(m)]), ('set' if m.may(0.9) else 'unset', (head, *terms)))

    first, second = flag(m), flag(m)
    found = [action('step', *(touch() for _ in range(m.chance.choice([1, 2, 2, 3]))), ('set', first))]
    if m.may(0.5):
        found.append(action('more', *(touch() for _ in range(m.chance.choice([1, 2]))), ('set', second),
                            pre=[('k', first)]))
        first = second
    return found + [ended(m, ('k', first), ('k', ('not', (head, *asked))))]


def group(m: 'Maker') -> Actions:
    """A group over a step that may touch it; then some members are sensed, and the aim needs to know which is true."""
    place, head = (m.declared.with_function('t'),), m.declared.with_predicate('t')
    objects = m.declared.objects_of('t')
    second = (head, place if m.may(0.5) else m.chance.choice(objects))
    members: List[Expression] = [flag(m), second, flag(m)]
    if m.may(0.3):
        members[2] = ('=', place, m.chance.choice(objects))
    for atom in list(m.declared.instances({head: ('t',)})):
        m.declared.true.discard(atom)
    true = m.chance.choice([n for n, member in enumerate(members) if member[0] != '='])
    if m.declared.is_true(members[2]):
        true = 2
    else:
        m.declared.true.add((members[true][0], *map(m.declared.value, members[true][1:])))
    m.known.append(('kx', *members))
    if m.may(0.3):
        m.known.append(('kv', place))
    atoms = [member for member in members if member[0] != '=']
    effects: List[Expression] = [
        ('set', m.chance.choice(atoms)), ('unset', m.chance.choice(atoms)), ('clear', m.chance.choice(atoms)),
        ('assign', place, m.chance.choice(objects)), ('set', (head, m.chance.choice(objects))), ('set', unknown(m))]
    done = flag(m)
    step = action('step', when(m, 0.3, unknown(m), m.chance.choice(effects)), ('set', done))
    seen = m.chance.sample(members, m.chance.choice([1, 2, 2]))
    look = action('look', pre=[('k', done)], senses=[('sense', member) for member in seen])
    m.depth = 4
    return [step, look, *(ended(m, ('k', done), ('k', member), name=f'end{n}') for n, member in enumerate(members))]


def swept(m: 'Maker') -> Actions:
    """Effects under conditions that aren't known, some of which clear, on an atom that is looked at afterwards."""
    head, place = m.declared.with_predicate('t'), (m.declared.with_function('t'),)
    thing = m.chance.choice(m.declared.objects_of('t'))
    atom = (head, thing)
    if m.may(0.5):
        m.declared.true.add(atom)
    m.known.append(('kf', m.true_one(atom)))
    one, other = unknown(m), unknown(m)
    ways: List[Expression] = [('clear', (head, '_')), ('clear', atom), ('unset', atom)]
    first = m.chance.choice([*ways, *ways[2:] * 4] if m.declared.is_true(atom) else [('set', atom)])
    effects: List[Expression] = [('when', (one, other) if m.may(0.3) else (one,), first)]
    if m.may(0.25) and first[0] != 'clear':
        m.declared.values[place] = thing
        m.known.append(('kf', ('=', place, thing)))
        effects = [(*effects[0][:2], (first[0], (head, place))),
                   ('assign', place, m.chance.choice(m.declared.objects_of('t')))]
    else:
        effects += [when(m, 0.7, other, m.chance.choice([*ways, ('set', atom)]))
                    for _ in range(m.chance.choice([0, 1, 1, 2]))]
    if m.may(0.4):
        m.chance.shuffle(effects)
    if m.may(0.4):
        m.known.append(('kf', m.true_one(other)))
    m.goals.append(('kw', one if m.may(0.8) else other))
    return [action('try', *effects), action('look', senses=[('sense', atom)])]


def excluded(m: 'Maker') -> Actions:
    """A place of which nearly all values are known not to be its own, and what is known by the place."""
    kind = m.declared.with_type(3)
    objects = m.declared.objects_of(kind)
    place, head = (m.declared.with_function(kind),), m.declared.with_predicate(kind)
    value = m.declared.value(place)
    others = [thing for thing in objects if thing != value]
    m.chance.shuffle(others)
    apart = [('not', ('=', place, thing)) for thing in others]
    m.known += [('kf', literal) for literal in apart[:m.chance.choice([0, 1, 1, 2])]]
    if m.may(0.7):
        m.known.append(('kf', m.true_one((head, place))))
    outer = m.declared.with_function('t', kind)
    if m.may(0.5):
        m.known.append(('kf', ('=', (outer, place), m.declared.value((outer, place)))))
    asked: List[Expression] = [('k', m.true_one((head, value))), ('k', ('=', place, value)), ('kv', (outer, value)),
                               ('kv', place)]
    done = flag(m)
    look = action('look', ('set', done), senses=[('sense', ('=', place, m.chance.choice(objects)))])
    return [look, action('more', senses=[('sense', ('=', place, m.chance.choice(objects)))]),
            ended(m, ('k', done), m.chance.choice(asked))]


def nested(m: 'Maker') -> Actions:
    """A function at the value of another, of both of which something is known over a step that may change one."""
    inner, outer = (m.declared.with_function('t'),), m.declared.with_function('t', 't')
    head = m.declared.with_predicate('t')
    objects, both = m.declared.objects_of('t'), (outer, inner)
    thing = m.chance.choice(objects)
    known: List[Expression] = [
        ('kf', ('=', both, m.declared.value(both))), ('kf', m.true_one((head, both))), ('kv', both), ('kv', inner),
        ('kf', ('=', inner, m.declared.value(inner))), ('kf', m.true_one(('=', both, inner))),
        ('kf', ('=', (outer, thing), m.declared.value((outer, thing)))), ('kw', (head, both)), ('lcw', (head, both))]
    m.known += m.chance.sample(known[:-1], m.chance.choice([2, 3, 3]))
    if m.may(0.2):
        m.known += [('kf', atom) for atom in sorted(m.declared.true) if atom[0] == head] + known[-1:]
    changed = m.chance.choice([inner, (outer, thing), both, (outer, (outer, thing))])
    done = flag(m)
    effects: List[Expression] = [('assign', changed, m.chance.choice([*objects, inner, (outer, thing)]))]
    if m.may(0.3):
        effects.append(('set', (head, m.chance.choice([both, inner]))))
    asked: List[Expression] = [
        ('k', m.true_one((head, m.declared.value(both)))), ('k', m.true_one((head, both))), ('kv', both), ('kv', inner),
        ('k', ('=', both, m.declared.value(both))), ('kw', (head, both)), ('k', ('=', inner, m.declared.value(inner)))]
    senses: List[Expression] = [('sense-value', inner), ('sense-value', both), ('sense', (head, both))]
    read = action('read', senses=[m.chance.choice(senses)])
    return [action('step', when(m, 0.2, unknown(m), effects[0]), *effects[1:], ('set', done)), read,
            ended(m, ('k', done), m.chance.choice(asked))]


def matching(m: 'Maker') -> Actions:
    """Two places whose values are read, and what needs to know whether they are equal."""
    one, other, done = (m.declared.with_function('t'),), (m.declared.with_function('t'),), flag(m)
    same = m.chance.choice([('=', one, other), ('=', other, one)])
    m.known += m.chance.sample([('kv', one), ('kv', other), ('kf', m.true_one(same)), ('kw', same)],
                               m.chance.choice([0, 1, 1, 2]))
    objects = m.declared.objects_of('t')
    effects: List[Expression] = [
        ('assign', one, other), ('assign', other, m.chance.choice(objects)), ('when', (same,), ('set', unknown(m))),
        ('when', (('not', same),), ('set', done))]
    asked: List[Expression] = [('kw', same), ('kw', ('not', same)), ('k', m.true_one(same)), ('kw', same, unknown(m))]
    m.made.append(done)
    return [action('read', senses=[('sense-value', one)], pre=[('kw', same)] if m.may(0.1) else []),
            action('other', senses=[('sense-value', other)]),
            action('step', m.chance.choice(effects), ('set', done)),
            ended(m, *([('k', done)] if m.may(0.5) else []), m.chance.choice(asked[:3] * 3 + asked[3:]))]


def late(m: 'Maker') -> Actions:
    """Steps each of which hands on what the one before it did, a look at the last, and an aim on what was first."""
    first = unknown(m)
    count, before, done = m.chance.choice([2, 2, 3]), first, None
    found: Actions = []
    for n in range(count):
        after = flag(m) if m.may(0.7) else unknown(m)
        m.known.append(('kf', m.true_one(after)))
        effect: Expression = ('unset' if m.declared.is_true(after) else 'set', after)
        told = before if n == 0 or m.may(0.9) else opposite(before)
        ready = flag(m)
        found.append(action(f'step{n}', ('when', (told,), effect), *m.sometimes(), ('set', ready),
                            pre=[('k', done)] if done else []))
        before, done = (opposite(after) if m.declared.is_true(after) else after), ready
    atom = opposite(before) if before[0] == 'not' else before
    m.depth = count + 2
    m.goals += [('kw', first)] if m.may(0.6) else [('at-start', ('kw', first))]
    m.version = 2 if m.goals[-1][0] == 'at-start' else m.version
    return found + [action('look', pre=[('k', done)], senses=[('sense', atom)])]


def timed(m: 'Maker') -> Actions:
    """Aims over all moments, over some moment and over the first, over a step that may end what is known."""
    m.version = 2
    atom, cause, done = unknown(m), unknown(m), flag(m)
    literal = m.true_one(atom)
    if m.may(0.7):
        m.known.append(('kf', literal))
    m.known += [('kf', m.true_one(cause))] * m.may(0.2)
    flip: Expression = ('set' if literal[0] == 'not' else 'unset', atom)
    aims: List[Expression] = [
        ('always', ('kw', atom)), ('always', ('k', literal)),
        ('once', ('k', literal)), ('once', ('k', opposite(literal))),
        ('at-start', ('kw', cause)), ('at-start', ('k', literal)), ('always', ('kw', cause)), ('once', ('kw', cause)),
        ('kw', atom), ('at-start', ('kw', atom))]
    m.goals += [('k', done), *m.chance.sample(aims, m.chance.choice([1, 1, 2]))]
    return [action('step', when(m, 0.7, cause, flip), ('set', done)),
            action('look', senses=[('sense', m.chance.choice([atom, atom, cause]))],
                   pre=[('k', done)] if m.may(0.5) else []),
            action('back', ('set', atom) if m.may(0.5) else ('unset', atom), pre=[('k', done)])]


def priced(m: 'Maker') -> Actions:
    """A dear way that is short, one in cheap steps, and one whose sides cost differently."""
    m.version = 2
    fact, middle, aim = unknown(m), flag(m), aim_of(m)
    prices = [m.chance.choice([1, 1, 2, 3, 4, 5, 6, 7]) for _ in range(6)]
    found = [action('force', ('set', aim), cost=prices[0] + m.chance.choice([0, 1, 2, 3])),
             action('look', senses=[('sense', fact)], cost=prices[1] % 3 + 1),
             action('left', ('set', aim), pre=[('k', fact)], cost=prices[2]),
             action('right', ('set', aim), pre=[('k', ('not', fact))], cost=prices[3])]
    if m.may(0.6):
        found += [action('first', ('set', middle), cost=prices[4] % 3 + 1),
                  action('second', ('set', aim), pre=[('k', middle)], cost=prices[5] % 3 + 1)]
    if m.may(0.4):
        found.append(action('near', ('set', middle), pre=[('kw', fact)], cost=prices[5]))
    m.known += [('kw', fact)] * m.may(0.3)
    m.chance.shuffle(found)
    return found


def carried(m: 'Maker') -> Actions:
    """Actions at an argument that is a place, which they may change."""
    place, head, done = (m.declared.with_function('t'),), m.declared.with_predicate('t'), flag(m)
    m.known.append(('kv', place) if m.may(0.7) else ('kf', ('=', place, m.declared.value(place))))
    moved: Expression = ('assign', place, m.chance.choice(['?x', *m.declared.objects_of('t')]))
    effects: List[Expression] = [moved] * m.may(0.5)
    effects += [(m.chance.choice(['set', 'unset']), (head, '?x'))] * m.may(0.3)
    senses: List[Expression] = [*[('sense', (head, '?x'))] * 3, *[('sense-all', (head, '_'))] * 2,
                                ('sense', ('=', place, '?x'))]
    allowed: List[Expression] = []
    if m.may(0.6):
        guard = m.declared.with_predicate('t')
        m.declared.true.add((guard, m.declared.value(place)))
        m.known.append(('kf', (guard, place)))
        allowed = [('k', (guard, '?x'))]
    test = action('test', *effects, ('set', done), params=[('?x', 't')], pre=allowed,
                  senses=[m.chance.choice(senses)] * m.may(0.8))
    steps: List[Expression] = [moved if moved[2] != '?x' else ('set', (head, place)), ('set', (head, place)),
                               ('unset', (head, place))]
    step = action('step', when(m, 0.3, unknown(m), m.chance.choice(steps)))
    asked: List[Expression] = [('kw', (head, place))] * 3 + [('k', (head, place)), ('k', ('not', (head, place))),
                                                             ('kv', place)]
    m.known += [('kf', m.true_one((head, place)))] * m.may(0.3)
    return [test, step, ended(m, ('k', done), m.chance.choice(asked))]


def assigned(m: 'Maker') -> Actions:
    """Assignments to one place under conditions that aren't known, and a look at the place."""
    place, value = (m.declared.with_function('t'),), (m.declared.with_function('t'),)
    objects = m.declared.objects_of('t')
    one, other = unknown(m), unknown(m)
    m.known += m.chance.sample([('kf', ('=', place, m.declared.value(place))), ('kv', value),
                                ('kf', m.true_one(('=', value, m.chance.choice(objects)))),
                                ('kf', m.true_one(('=', place, m.chance.choice(objects))))], m.chance.choice([1, 1, 2]))
    effects: List[Expression] = [
        when(m, 0.8, condition, ('assign', place, value if m.may(0.35) else m.chance.choice(objects)))
        for condition in (one, other)]
    look = [('sense-value', place)] if m.may(0.5) else [('sense', ('=', place, m.chance.choice(objects)))]
    m.goals.append(('kw', m.chance.choice([one, one, other])) if m.may(0.7) else ('kv', value))
    return [action('try', *effects), action('look', senses=look)]


def moved(m: 'Maker') -> Actions:
    """What is known by a place whose value is known too; then the place gets another value."""
    place, head = (m.declared.with_function('t'),), m.declared.with_predicate('t')
    pair, outer = m.declared.with_predicate('t', 't'), m.declared.with_function('t', 't')
    fact, done = unknown(m), flag(m)
    value, objects = m.declared.value(place), m.declared.objects_of('t')
    kind = m.chance.choice(['kw', 'kw', 'kv', 'kv', 'kx', 'kx', 'lcw', 'lcw', 'kf', 'own', 'own'])
    found: Actions = []
    if kind == 'kw':
        beside = [fact] * m.may(0.5)
        m.known.append(('kw', (head, place), *beside))
        asked: Expression = ('kw', (head, value), *beside)
    elif kind == 'kv':
        m.known.append(('kv', (outer, place)))
        asked = ('kv', (outer, value))
    elif kind == 'kx':
        m.declared.true.discard(fact if m.declared.is_true((head, place)) else ())
        if not m.declared.is_true((head, place)):
            m.declared.true.add(fact)
        m.known.append(('kx', (head, place), fact))
        found = [action('look', senses=[('sense', fact)], pre=[('k', done)])]
        asked = ('k', m.true_one((head, value)))
        m.depth = 4
    elif kind == 'lcw':
        m.known += [('kf', atom) for atom in sorted(m.declared.true) if atom[0] == pair]
        m.known.append(('lcw', (pair, place, '_')))
        asked = ('k', m.true_one((pair, value, m.chance.choice(objects))))
    elif kind == 'kf':
        m.known.append(('kf', m.true_one((head, place))))
        asked = ('k', m.true_one((head, value)))
    else:
        m.known.append(('kv', (outer, place)))
        asked = ('kv', (outer, place))
    m.known.append(('kv', place) if kind == 'own' else ('kf', ('=', place, value)))
    effect = ('assign', place, m.chance.choice(objects))
    step = action('step', when(m, 0.6 if kind == 'own' else 0.2, unknown(m), effect), ('set', done))
    return [step, *found, ended(m, ('k', done), asked)]


def shifting(m: 'Maker') -> Actions:
    """One action that names a place, and gives the place another value."""
    place, head = (m.declared.with_function('t'),), m.declared.with_predicate('t')
    pair, outer, done = m.declared.with_predicate('t', 't'), m.declared.with_function('t', 't'), flag(m)
    value, objects = m.declared.value(place), m.declared.objects_of('t')
    thing = m.chance.choice(objects)
    named: List[Tuple[Expression, Expression]] = [
        (('set', (head, place)), ('k', (head, value))),
        *[(('set', (head, place)), ('k', ('not', (head, thing))))] * 3,
        (('clear', (pair, place, '_')), ('k', ('not', (pair, value, thing)))),
        (('clear', (pair, place, '_')), ('k', ('not', (pair, place, thing)))),
        (('unset', (head, place)), ('k', ('not', (head, place)))),
        (('assign', (outer, place), thing), ('kv', (outer, value))),
        (('assign', (outer, place), thing), ('kv', (outer, place))),
        (('assign', (outer, value), place), ('kv', (outer, value))),
        (('assign', (outer, value), place), ('k', ('=', (outer, value), value)))]
    effect, asked = m.chance.choice(named)
    is_of_region = asked == ('k', ('not', (head, thing)))
    m.known += [('kf', ('=', place, value))] * m.may(0.2 if is_of_region else 0.7)
    if is_of_region:
        m.known += [('kf', atom) for atom in sorted(m.declared.true) if atom[0] == head] + [('lcw', (head, '_'))]
    effects = [effect, when(m, 0.2, unknown(m), ('assign', place, m.chance.choice(objects))), ('set', done)]
    if m.may(0.3):
        m.chance.shuffle(effects)
    senses = [m.chance.choice([('sense', (head, place)), ('sense-value', (outer, place)), ('sense-value', place)])]
    return [action('step', *effects, senses=senses * m.may(0.3)), ended(m, ('k', done), asked)]


def either(m: 'Maker') -> Actions:
    """A conjunction whose truth is asked for, and looks at its parts."""
    one, other = unknown(m), unknown(m)
    parts = [m.chance.choice([fact, ('not', fact)]) for fact in (one, other)]
    items: List[Expression] = [('kw', *parts), ('kf', m.true_one(other)), ('kw', opposite(parts[0])), ('kw', parts[1])]
    m.known += m.chance.sample(items, m.chance.choice([0, 0, 1, 1]))
    m.goals.append(m.chance.choice([('kw', *parts), ('kw', *parts), ('kw', one)]))
    found = [action('look', senses=[('sense', one)], cost=m.chance.choice([1, 1, 2])),
             action('other', senses=[('sense', other)])]
    if m.may(0.4):
        found.append(action('both', senses=[('sense', *parts)]))
    if m.may(0.3):
        found.append(action('way', ('set', one) if m.may(0.5) else ('when', tuple(parts), ('unset', one)),
                            pre=[('kw', *parts)] if m.may(0.4) else []))
    m.version = 2
    return found


KINDS: Sequence[Callable[['Maker'], Actions]] = (
    foreign, widened, widened, group, swept, swept, excluded, nested, matching, late, timed, priced, carried, assigned,
    moved, moved, shifting, shifting, either)
"""The kinds; one that leaves more to chance stands twice."""
