"""What an accepted file may lack, as far as a look at its text tells. Help, and no more."""

from typing import Dict, Iterator, List, Optional, Sequence, Set, Tuple

from pkslib import Form

from . import adds, uncounted
from .names import Names

Part = Optional[Tuple[Optional[str], bool]]
"""Of a literal its predicate and sign; None for an equation."""

MANY = 50


def literal_parts(literal: Form) -> Part:
    """Of a literal its predicate and sign; None for an equation."""
    sign = literal.head() != 'not'
    atom = literal if sign else literal.rest()[0]
    return None if atom.head() == '=' else (atom.head(), sign)


def untold(names: Names) -> Iterator[Tuple[str, adds.Effect, Optional[adds.Effect]]]:
    """Effects without a condition whose outcome the action doesn't tell, each with a later one that may undo it."""
    for name, action in names.actions.items():
        told = set()
        for add in names.section(action, 'knows'):
            item = add.parts[-1] if add.head() == 'if' else add
            told.add((item.head(), item.rest()[0].text()))
            told.update(('any', head) for head in heads(item))
        effects, given = adds.effects(names, action), adds.asked(names, action)
        for at, effect in enumerate(effects):
            if not effect.conditions and ('any', effect.subject()) not in told:
                undoing = (late for late in effects[at + 1:] if adds.may_undo(names, effect, late, given))
                yield name, effect, next(undoing, None)


def untold_senses(names: Names) -> Iterator[Tuple[str, Form]]:
    """Senses of which the action tells nothing."""
    for name, action in names.actions.items():
        told = set().union(*(heads(add) for add in names.section(action, 'knows')))
        for sense in names.section(action, 'senses'):
            about = {head for part in sense.rest() for head in heads(part)} - {'not', '='}
            if not about & told:
                yield name, sense


def heads(item: Form) -> Set[str]:
    """All predicates and functions that stand in a form."""
    found, stack = set(), [item]
    while stack:
        form = stack.pop()
        if form.head():
            found.add(form.head())
        stack += form.parts or []
    return found


def start_known(names: Names) -> Set[Part]:
    """The predicates of which the start tells something, with their signs."""
    known = set()
    for form in names.init():
        if form.head() == 'kf':
            known.add(literal_parts(form.rest()[0]))
        elif form.head() in ('kx', 'kw'):
            for literal in form.rest():
                part = literal_parts(literal)
                known.update({part, part and (part[0], not part[1])})
        elif form.head() == 'lcw':
            known.add((form.rest()[0].head(), False))
    return known


def learnt(names: Names, action: Form) -> Set[Part]:
    """What an action may tell or let one learn, predicates with signs."""
    found = set()
    for add in names.section(action, 'knows'):
        item = add.parts[-1] if add.head() == 'if' else add
        if item.head() == 'kf':
            found.add(literal_parts(item.rest()[0]))
        elif item.head() == 'kw':
            for literal in item.rest():
                part = literal_parts(literal)
                found.update({part, part and (part[0], not part[1])})
        elif item.head() == 'lcw':
            found.add((item.rest()[0].head(), False))
    for effect in adds.effects(names, action):
        if effect.conditions:
            for literal in effect.conditions:
                part = literal_parts(literal)
                found.update({part, part and (part[0], not part[1])})
            if effect.verb != 'assign':
                found.update({(effect.subject(), True), (effect.subject(), False)})
    return found


def asked(queries: Sequence[Form]) -> Iterator[Tuple[Part, Form]]:
    """The predicates, with signs, that queries `(k ..)` need."""
    for query in queries:
        while query.head() in ('at-start', 'always', 'once'):
            query = query.rest()[0]
        if query.head() == 'k':
            part = literal_parts(query.rest()[0])
            if part:
                yield part, query


def never_known(names: Names) -> Tuple[List[Form], Dict[str, List[Form]]]:
    """Queries of the goal, and of actions, that nothing can make known."""
    known, done, grown = start_known(names), set(), True
    while grown:
        grown = False
        for name, action in names.actions.items():
            needs = [part for part, _ in asked(names.section(action, 'pre'))]
            if name not in done and all(part in known for part in needs):
                done.add(name)
                known |= learnt(names, action)
                grown = True
    goal = [q for part, q in asked(names.section(names.problem, 'goal')) if part not in known]
    blocked = {name: [q for part, q in asked(names.section(action, 'pre')) if part not in known]
               for name, action in names.actions.items() if name not in done}
    return goal, blocked


def remarks(names: Names) -> List[str]:
    """What to say of an accepted file; an empty list where nothing stands out."""
    said = [each.said() for each in uncounted.uncounted(names.domain.expression())]
    for name, effect, late in untold(names):
        said.append(f'The action `{name}` has the effect `{effect.form.text()}`, and its `knows` '
                    f'says nothing of `{effect.subject()}`: the agent won\'t know of it. '
                    f'{cure(effect) if late is None else cure_undone(effect, late)}')
    for name, sense in untold_senses(names):
        said.append(f'The action `{name}` has `{sense.text()}`, and its `knows` says nothing of it: '
                    f'so it teaches nothing. Add {told_by(sense)}.')
    goal, blocked = never_known(names)
    for query in goal:
        said.append(f'The goal asks for `{query.text()}`, and neither the start nor an action that '
                    'can be reached seems to make it known. If so, there is a plan only where a '
                    'branch tells of it afterwards, and mostly there is none.')
    for name, queries in blocked.items():
        texts = ', '.join(f'`{q.text()}`' for q in queries)
        said.append(f'The action `{name}` can never be done, as it seems: nothing makes {texts} '
                    'known. Is a fact missing in `init`?')
    return said[:MANY]


def told_by(sense: Form) -> str:
    """The add that tells of a sense."""
    parts = ' '.join(p.text() for p in sense.rest())
    if sense.head() == 'sense':
        return f'`(kw {parts})`'
    if sense.head() == 'sense-value':
        return f'`(kv {parts})`'
    return 'a `(kw ..)` for each atom that the agent shall know of'


def cure(effect: adds.Effect) -> str:
    """What to add, where an effect shall be known."""
    return f'If it should, add {add_of(effect)}.'


def cure_undone(effect: adds.Effect, late: adds.Effect) -> str:
    """What to do, where an effect shall be known that a later one may undo."""
    why = f'The later `{late.form.text()}` may undo it'
    query = adds.difference(effect, late)
    if query:
        return f'{why}: if the agent should, ask in `pre` that they differ, `{query}`, and add {add_of(effect)}.'
    return f'{why}, so it can\'t be told as it stands. {adds.BEHIND_BOTH if late.conditions else adds.ONE_TOO_MANY}'


def add_of(effect: adds.Effect) -> str:
    """The add that tells of an effect."""
    target = effect.target[0].text()
    if effect.verb == 'set':
        return f'`(kf {target})`'
    if effect.verb == 'unset':
        return f'`(kf (not {target}))`'
    if effect.verb == 'clear':
        return f'`(lcw {target})`'
    return f'`(kf (= {target} {effect.target[1].text()}))`'
