"""Traps that many fall into, each with its cure, which is asked as any other change."""

import itertools
from dataclasses import replace
from typing import Iterator, List, Optional, Tuple

from asklib.files import OVER_TIME, Action, File, List_, atom_of, negated, words_of
from pkslib import Expression, limits, written
from whylib import uncounted

from . import cases, made, makers
from .changes import Change, Rank, changed_heads, item_of, needed, target, texts


def traps(file: File) -> Iterator[Change]:
    """All traps that stand in a file."""
    for trap in (add_never_counts, always_at_start, always_kept, not_so_at_start, unknown_at_start, look_without_branch,
                 last_of_group, whether_for_known, type_too_narrow, cases_apart, fewer_values, nested_value,
                 may_be_spoiled):
        yield from trap(file)


def add_never_counts(file: File) -> Iterator[Change]:
    """An add of an equation whose wrong side stands first: the functions in another order."""
    domain: Expression = ('domain', ('objects', *file.objects), ('functions', *file.functions),
              *(action.expression() for action in file.actions))
    found = list(uncounted.uncounted(domain))
    functions = uncounted.swapped(file.functions, found)
    if found and functions:
        yield Change(Rank.ADD_NEVER_COUNTS, replace(file, functions=tuple(functions)), 'write',
                     (written(('functions', *functions)),), ' '.join(each.said() for each in found), True)
    elif found:
        yield Change(Rank.ADD_NEVER_COUNTS, file, '', (), ' '.join(each.said() for each in found), True)


def aims(file: File, head: str) -> Iterator[Tuple[int, List_, List_]]:
    """Each aim over time with this head: its place, the aim and its query."""
    for at, aim in enumerate(file.goal):
        if aim[0] == head:
            assert not isinstance(aim, str) and not isinstance(aim[1], str)
            yield at, aim, aim[1]


def with_aim(file: File, at: int, aim: Expression) -> File:
    """The file with another aim at a place."""
    return replace(file, goal=file.goal[:at] + (aim,) + file.goal[at + 1:])


def always_at_start(file: File) -> Iterator[Change]:
    """An `always` that isn't known at the start: a fact more there."""
    for _, aim, query in aims(file, 'always'):
        if query[0] == 'k' and ('kf', query[1]) not in file.init:
            item = ('kf', query[1])
            yield Change(Rank.ALWAYS_AT_START, file.with_init(item), 'in `init` add', (written(item),),
                         f'{written(aim)} asks for every moment, and at the first one it isn\'t known.')


def always_kept(file: File) -> Iterator[Change]:
    """An `always` that an action makes otherwise: the same asked of the end."""
    for at, aim, query in aims(file, 'always'):
        if query[0] != 'k':
            continue
        against = made.makes(file, negated(query[1]))
        if against:
            yield Change(Rank.ALWAYS_KEPT, with_aim(file, at, query), 'for its being so at the end, ask for',
                         (written(query),),
                         f'{written(aim)} asks for every moment, and `{against[0]}` makes it otherwise.')


def unknown_at_start(file: File) -> Iterator[Change]:
    """`at-start` of what the start says nothing of: a fact more there."""
    for _, aim, query in aims(file, 'at-start'):
        if query[0] == 'k' and not {('kf', query[1]), ('kf', negated(query[1]))} & set(file.init):
            item = ('kf', query[1])
            yield Change(Rank.UNKNOWN_AT_START, file.with_init(item), 'in `init` add', (written(item),),
                         f'{written(aim)} asks what was so at the start, and `init` doesn\'t say it.')


def not_so_at_start(file: File) -> Iterator[Change]:
    """`at-start` of what the start says the contrary of: the goal with what the start says, asked of the end."""
    for at, aim, query in aims(file, 'at-start'):
        if query[0] == 'k' and ('kf', negated(query[1])) in file.init:
            found = ('k', negated(query[1]))
            yield Change(Rank.NOT_SO_AT_START, with_aim(file, at, found),
                         'for its being at the end as it was found, ask for', (written(found),),
                         f'{written(aim)} asks what was so at the start, and `init` says the contrary: no plan changes '
                         'that.', True)


def look_without_branch(file: File) -> Iterator[Change]:
    """`at-start` with `kw`: the query at the end, where no action changes what it speaks of."""
    known = {item[1] for item in file.init if item[0] in ('kf', 'kw')}
    own = [(at, aim, query) for at, aim, query in aims(file, 'at-start')
           if query[0] == 'kw' and not {query[1], negated(query[1])} & known]
    if not own:
        return
    changed, still = file, []
    for at, aim, query in own:
        if not set(words_of(query)) & changed_heads(file):
            changed = with_aim(changed, at, query)
            still.append(query)
    why = (f'{", ".join(written(aim) for _, aim, _ in own)}: what was so at the start is known only behind a branch '
           'on what a look tells. A look alone isn\'t enough, each branch is a step, and with aims over time the '
           'search can\'t let go of the past.')
    if still:
        yield Change(Rank.LOOK_WITHOUT_BRANCH, changed, 'no action changes what is asked here, so ask for the end:',
                     texts(still), why, True)
    else:
        yield Change(Rank.LOOK_WITHOUT_BRANCH, file, '', (), why, True)


def last_of_group(file: File) -> Iterator[Change]:
    """`kw` of all members of a group: the goal without one of them."""
    asked = {aim[1] for aim in file.goal if aim[0] == 'kw' and len(aim) == 2}
    for item in file.init:
        if item[0] == 'kx' and all(member in asked for member in item[1:]):
            aim = ('kw', item[-1])
            yield Change(Rank.LAST_OF_GROUP, replace(file, goal=tuple(a for a in file.goal if a != aim)),
                         'leave this out of the goal:', (written(aim),),
                         f'The goal asks for `kw` of each member of the group {written(item)}. From `kw` of all others '
                         'that of the last doesn\'t follow: only on a branch does the group tell of it. Whoever knows '
                         'of the others knows of the last one, too.', True)


def whether_for_known(file: File) -> Iterator[Change]:
    """`k` in the goal of what can only be known whether."""
    for at, aim in enumerate(file.goal):
        if aim[0] == 'k' and atom_of(aim[1])[0] not in changed_heads(file) | {'='}:
            literal = atom_of(aim[1])
            yield Change(Rank.WHETHER_FOR_KNOWN, with_aim(file, at, ('kw', literal)), 'ask for',
                         (written(('kw', literal)),),
                         f'{written(aim)} asks that it be so on every side of a branch, and no action changes it: it '
                         'can only be known whether it is so.')


def type_too_narrow(file: File) -> Iterator[Change]:
    """A goal about an object that no action takes: a parameter of a type that it fits."""
    for aim in file.goal:
        if aim[0] not in ('k', 'kw'):
            continue
        atom = atom_of(aim[1])
        tells = [(action, atom_of(item_of(add)[1])) for action in file.actions for add in action.knows
                 if item_of(add)[0] in ('kf', 'kw') and atom_of(item_of(add)[1])[0] == atom[0] != '=']
        if not any(makers.unified(file, action, told, atom) is not None for action, told in tells):
            for action, told in tells:
                yield from widened(file, action, told, atom)


def widened(file: File, action: Action, told: List_, atom: List_) -> Iterator[Change]:
    """The action with each parameter of a type that the atom's objects fit, where one doesn't."""
    types = dict(action.parameters)
    narrow = []
    for term, name in zip(told[1:], atom[1:]):
        if isinstance(term, str) and isinstance(name, str) and term in types and name in file.kinds:
            if not file.fits(file.kinds[name], types[term]):
                narrow.append(f'`{name}` is a `{file.kinds[name]}`, and `{term}` of `{action.name}` a `{types[term]}`')
                types[term] = common(file, file.kinds[name], types[term]) or types[term]
    if narrow and types != action.parameters:
        params = tuple(types.items())
        yield Change(Rank.TYPE_TOO_NARROW, file.with_action(action.name, params=params),
                     f'in `{action.name}` write', (written(('params', *params)),),
                     f'No action takes an object: {"; ".join(narrow)}.', True)
    elif narrow:
        yield Change(Rank.TYPE_TOO_NARROW, file, '', (), f'No action takes an object: {"; ".join(narrow)}.', True)


def common(file: File, own: str, other: str) -> Optional[str]:
    """The lowest type that both types fit, or None."""
    kind: Optional[str] = own
    while kind is not None and not file.fits(other, kind):
        kind = file.parents.get(kind)
    return kind


def cases_apart(file: File) -> Iterator[Change]:
    """A fact that one action tells where something is known to be so, and another where it is known not to be."""
    tells: List[Tuple[str, Expression, Expression]] = []
    for action in file.actions:
        for add in action.knows:
            alone = [other for other in action.knows if item_of(other) == item_of(add)] == [add]
            if alone and add[0] == 'if' and len(add[1]) == 1 and add[1][0][0] == 'k' and add[2][0] == 'kf':
                tells.append((action.name, add[1][0][1], add[2][1]))
    for one, condition, literal in tells:
        for other, contrary, same in tells:
            if one != other and same == literal and contrary == negated(condition) and contrary[0] == 'not' \
                    and not any(word.startswith('?') for word in words_of(condition)):
                item = ('kw', condition)
                yield Change(Rank.CASES_APART, file.with_init(item), 'in `init` add, or learn by a sense,',
                             (written(item),),
                             f'{written(literal)} is known after `{one}` only where {written(condition)} is known, and '
                             f'after `{other}` only where {written(contrary)} is. That one of the two is so in each '
                             'case is no knowledge: each case has to act on its own side of a branch, and nothing '
                             'tells which it is.')


def fewer_values(file: File) -> Iterator[Change]:
    """A value that will be known and that may be one of more objects than cases may have: the others excluded."""
    told: List[Expression] = [item_of(add) for action in file.actions for add in action.knows]
    told += file.init
    for name, kind in file.results.items():
        objects = file.of_type(kind)
        if len(objects) <= limits.CASES or not any(item[0] == 'kv' and item[1][0] == name for item in told):
            continue
        items = tuple(item for place in itertools.islice(file.instances(name), 4)
                      for item in cases.ruled_out(place, too_many(file, place)))
        if items:
            yield Change(Rank.FEWER_VALUES, file.with_init(*items),
                         f'in `init` exclude all but {limits.CASES} (or let an action take the value as an argument)',
                         texts(items[:3]) + (('..',) if len(items) > 3 else ()),
                         f'By its type the value of `{name}` is one of {len(objects)} objects, and a plan has cases only '
                         f'where {limits.CASES} are left at most.')


def too_many(file: File, place: List_) -> List[str]:
    """The values that a place has more than cases may have: those outside a group, then those that no query names."""
    values, group = cases.left(file, place), cases.group_of(file, place)
    named = {word for literal in needed(file) for word in words_of(literal)}
    wanted = sorted(values, key=lambda name: (group is None or name not in group[1], name not in named))
    return wanted[limits.CASES:]


def nested_value(file: File) -> Iterator[Change]:
    """A value of a value that a precondition asks for: a function of its own, to which an action assigns it."""
    note = next(name for name in ('note', *(f'note{n}' for n in range(99))) if name not in file.arguments)
    for term in dict.fromkeys(nested_terms(file)):
        kind = file.results[str(term[0])]
        equal = ('=', (note,), term)
        write = Action(f'write-{note}', pre=(('kv', term), ('not-derived', ('kv', (note,)))),
                       effects=(('assign', (note,), term),), knows=(('kv', (note,)), ('kf', equal)))
        actions = tuple(replace(action, pre=noted(action.pre, term, note, equal)) for action in file.actions)
        yield Change(Rank.NESTED, replace(file, functions=file.functions + ((note, kind),), actions=(*actions, write)),
                     f'declare ({note} {kind}) behind the other functions, add this action, and in `pre` of the others '
                     f'ask for {written(("k", equal))} and for `({note})` in place of it',
                     (written(write.expression()),),
                     f'{written(term)} is a value of a value, which can\'t be the argument of an action.')


def nested_terms(file: File) -> Iterator[List_]:
    """The values of values, without parameters, of which preconditions ask that something is equal to them."""
    for action in file.actions:
        for query in action.pre:
            if query[0] == 'k' and query[1][0] == '=':
                for side in query[1][1:]:
                    if not isinstance(side, str) and any(not isinstance(part, str) for part in side[1:]) \
                            and not set(words_of(side)) & set(action.parameters):
                        yield side


def noted(pre: List_, term: Expression, note: str, equal: Expression) -> List_:
    """Preconditions that ask for a note in place of a term, and that the note is that term."""
    if not any(query[0] == 'k' and query[1][0] == '=' and term in query[1] for query in pre):
        return pre
    asked = tuple(('k', ('=', *((note,) if side == term else side for side in query[1][1:])))
                  if query[0] == 'k' and query[1][0] == '=' else query for query in pre)
    return (*asked, ('k', equal))


def may_be_spoiled(file: File) -> Iterator[Change]:
    """A goal that an action may change, a place of its effect having a value that isn't known: the value excluded."""
    for action in file.actions:
        for effect in map(target, action.effects):
            for aim in file.goal:
                if aim[0] == 'k' and effect[0] in ('set', 'unset', 'clear') and atom_of(aim[1])[0] == effect[1][0]:
                    yield from kept_apart(file, action, effect[1], atom_of(aim[1]))


def kept_apart(file: File, action: Action, changed: Expression, atom: List_) -> Iterator[Change]:
    """The values excluded with which an effect would be about an atom."""
    for place, name in zip(changed[1:], atom[1:]):
        if not isinstance(place, str) and isinstance(name, str) and not set(words_of(place)) & set(action.parameters):
            item = ('kf', ('not', ('=', place, name)))
            yield Change(Rank.SPOILED, file.with_init(item), 'in `init` add', (written(item),),
                         f'`{action.name}` may change {written(atom)}, as {written(place)} may be {written(name)}: so '
                         'it isn\'t known afterwards.')
