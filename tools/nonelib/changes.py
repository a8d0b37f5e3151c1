"""Changes of a file, each of which may make a plan: one item of the start, one query less, one add more."""

import enum
import itertools
from dataclasses import dataclass, replace
from typing import Dict, Iterator, List, Optional, Sequence, Set, Tuple

import pkslib
from asklib.files import OVER_TIME, Action, File, List_, atom_of, negated, words_of
from pkslib import Expression, expressions, limits, written


class Rank(enum.IntEnum):
    """What is said first, where there is a plan with it."""

    ADD_NEVER_COUNTS = 10
    ALWAYS_AT_START = 11
    NOT_SO_AT_START = 12
    UNKNOWN_AT_START = 13
    LOOK_WITHOUT_BRANCH = 14
    LAST_OF_GROUP = 15
    WHETHER_FOR_KNOWN = 16
    TYPE_TOO_NARROW = 17
    CASES_APART = 18
    NESTED = 19
    SPOILED = 20
    DEPTH = 21
    TOLD = 22
    TOLD_TOGETHER = 23
    TOLD_APART = 24
    GUARD = 25
    SENSED_APART = 26
    FEWER_VALUES = 27
    SIGN = 28
    SWAPPED = 29
    OTHER_WAY = 30
    OTHER_WAYS = 31
    VALUE_BEFORE = 32
    OUTSIDE_GROUP = 33
    FIND_OUT = 34
    CASE = 35
    MAKE = 36
    ALWAYS_KEPT = 37
    START = 38
    START_MORE = 39
    CONTRARY = 40
    SIDES = 41
    SIGN_SENSED = 42
    MAKE_LATE = 43
    QUERY_GUARD = 44
    QUERY = 45
    START_LATE = 46
    GOAL = 50


@dataclass(frozen=True, eq=False)
class Change:
    """A changed file, and what is said of it where it has a plan."""

    rank: Rank
    file: File
    what: str
    """What is done, as `in X take (Y) out of pre`."""
    lines: Tuple[str, ...] = ()
    """What to write."""
    why: str = ''
    """The cause that is named then."""
    always: bool = False
    """Whether the cause is so whether or not there is a plan with the change."""
    cases: Tuple[File, ...] = ()
    """Files, as the cases that the change rules out, each known to be so: `why` is said only where none has a plan."""
    otherwise: str = ''
    """What is said in place of it where one of them has a plan, or where that isn't known."""


def texts(parts: Sequence[Expression]) -> Tuple[str, ...]:
    """Expressions as lines to write."""
    return tuple(written(part) for part in parts)


# What actions tell

def missing_adds(file: File) -> Dict[str, List_]:
    """The adds that follow from the text of each action and that it doesn't have, by its name."""
    found = {}
    for name, lines in pkslib.derive(file.text()).items():
        action = file.action(name)
        if action is not None:
            own = {same(add) for add in action.knows}
            adds = expressions(' '.join(lines))
            found[name] = tuple(add for add in adds
                                if same(add) not in own and not is_valued((*action.knows, *adds), add))
    return {name: adds for name, adds in found.items() if adds}


def same(expression: Expression) -> Expression:
    """The expression with the sides of each equation in one order, so that equal ones are the same."""
    if isinstance(expression, str):
        return expression
    parts = tuple(same(part) for part in expression)
    return (parts[0], *tuple(sorted(parts[1:], key=written))) if parts[:1] == ('=',) else parts


def is_valued(adds: Sequence[Expression], add: Expression) -> bool:
    """Whether an add tells that a value is known which another one of these tells itself."""
    return add[0] == 'kv' and any(own[0] == 'kf' and own[1][0] == '=' and add[1] in own[1] for own in adds)


def with_adds(file: File, name: str, adds: List_) -> File:
    """The file with further adds of an action; where they are too many it is refused, and so no plan is claimed."""
    action = file.action(name)
    assert action is not None
    return file.with_action(name, knows=action.knows + adds)


def told(file: File, missing: Dict[str, List_]) -> Iterator[Change]:
    """One add more; all adds more of one action; all adds of all."""
    for name, adds in missing.items():
        for add in sorted(adds, key=lambda add: written(add).startswith('(if ((kw ')):
            yield Change(Rank.TOLD, with_adds(file, name, (add,)), f'in `knows` of `{name}` add', (written(add),),
                         untold(file, name, add))
        if len(adds) > 1:
            yield Change(Rank.TOLD_TOGETHER, with_adds(file, name, adds), f'in `knows` of `{name}` add', texts(adds),
                         f'`{name}` may tell more than its `knows` says; `derive` lists it.')
    if len(missing) > 1:
        every = file
        for name, adds in missing.items():
            every = with_adds(every, name, adds)
        lines = tuple(f'{written(add)} in `{name}`' for name, adds in missing.items() for add in adds)
        yield Change(Rank.TOLD_TOGETHER, every, 'in `knows` of the actions add', lines,
                     'Several actions may tell more than their `knows` says; `derive` lists it.')


MOST_MEMBERS = 8


def told_members(file: File) -> Iterator[Change]:
    """One fact more told of those that a `sense-all` finds, and all of them; `derive` lists none."""
    for action in file.actions:
        for sense in action.senses:
            adds = tuple(untold_members(file, action, sense[1])) if sense[0] == 'sense-all' else ()
            for more in [(add,) for add in adds] + [adds] * (len(adds) > 1):
                yield Change(Rank.TOLD if len(more) == 1 else Rank.TOLD_TOGETHER, with_adds(file, action.name, more),
                             f'in `knows` of `{action.name}` add', texts(more),
                             f'`{action.name}` has {written(sense)}: the agent knows of what it finds only as far as '
                             '`knows` tells it, fact by fact.')


def untold_members(file: File, action: Action, pattern: Expression) -> Iterator[Expression]:
    """The adds that tell whether a fact of a pattern is so and that an action lacks, those of asked objects first."""
    asked = set(words_of((*file.goal, *(query for each in file.actions for query in each.pre))))
    choices = [sorted(file.of_type(kind), key=lambda name: name not in asked) if term == '_' else [term]
               for term, kind in zip(pattern[1:], file.arguments[str(pattern[0])])]
    adds = (('kw', (pattern[0], *terms)) for terms in itertools.product(*choices))
    yield from itertools.islice((add for add in adds if not is_told(file, action, add)), MOST_MEMBERS)


def is_told(file: File, action: Action, add: List_) -> bool:
    """Whether an action has such a `kw`, perhaps with a parameter where this one has an object."""
    types = action.parameters
    atoms = [atom_of(item[1]) for item in map(item_of, action.knows) if item[0] == 'kw' and len(item) == 2]
    return any(atom[0] == add[1][0] and all(
        one == other or one in types and file.fits(file.type_of(other), types[str(one)])
        for one, other in zip(atom[1:], add[1][1:])) for atom in atoms)


def untold(file: File, name: str, add: Expression) -> str:
    """What an add that is missing would tell."""
    item, action = item_of(add), file.action(name)
    assert action is not None
    heads = set(words_of(item)) & set(file.arguments)
    if any(heads & set(words_of(item_of(own))) for own in action.knows):
        return f'`{name}` may tell more than its `knows` says; `derive` lists it.'
    kind = 'a sense' if item[0] in ('kw', 'kv') and action.senses and add[0] != 'if' else 'an effect'
    under = ' under a condition' if add[0] == 'if' else ''
    return f'`{name}` has {kind}{under} that its `knows` doesn\'t tell, so the agent doesn\'t know of it.'


def told_apart(file: File) -> Iterator[Change]:
    """Where a later effect may be about the same thing: a precondition that they differ, and the adds that follow."""
    for action in file.actions:
        for early, late in undone(action):
            pairs = [(a, b) for a, b in zip(early[1:], late[1:]) if a != b]
            if not pairs or any(differ(file, action, *pair) for pair in pairs):
                continue
            query = ('k', ('not', ('=', *pairs[0])))
            changed = file.with_action(action.name, pre=action.pre + (query,))
            try:
                adds = missing_adds(changed).get(action.name, ())
            except pkslib.PksError:
                continue
            is_set = ('set', early) in map(target, action.effects)
            fact: Expression = early if is_set else ('not', early)
            yield Change(Rank.TOLD_APART, with_adds(changed, action.name, adds),
                         f'in `pre` of `{action.name}` add {written(query)}, and in its `knows` add', texts(adds),
                         f'`{written(fact)}` isn\'t known after `{action.name}`, since `{written(late)}` may be about '
                         'the same: the last effect wins.')


def differ(file: File, action: Action, one: Expression, other: Expression) -> bool:
    """Whether two terms are different objects, or the precondition asks that they differ."""
    asked = [('k', ('not', ('=', *pair))) for pair in ((one, other), (other, one))]
    return one in file.kinds and other in file.kinds or any(query in action.pre for query in asked)


def target(effect: Expression) -> List_:
    """What an effect does, without its condition."""
    done = effect[2] if effect[0] == 'when' else effect
    assert not isinstance(done, str)
    return done


def item_of(add: Expression) -> List_:
    """What an add tells, without its queries."""
    item = add[2] if add[0] == 'if' else add
    assert not isinstance(item, str)
    return item


def undone(action: Action) -> Iterator[Tuple[List_, List_]]:
    """The atoms of each two effects of which the later one may undo the earlier."""
    effects = [target(effect) for effect in action.effects]
    for at, early in enumerate(effects):
        for late in effects[at + 1:]:
            if {early[0], late[0]} == {'set', 'unset'} and early[1][0] == late[1][0]:
                assert not isinstance(early[1], str) and not isinstance(late[1], str)
                yield early[1], late[1]


def sensed_apart(file: File) -> Iterator[Change]:
    """Each conjunction that is sensed, sensed literal by literal."""
    for action in file.actions:
        for sense in action.senses:
            if sense[0] != 'sense' or len(sense) < 3:
                continue
            apart = tuple(('sense', literal) for literal in sense[1:])
            others = tuple(other for other in action.senses if other != sense)
            adds = tuple(('kw', literal) for literal in sense[1:])
            changed = file.with_action(action.name, senses=others + apart,
                                       knows=tuple(a for a in action.knows if a != ('kw', *sense[1:])) + adds)
            yield Change(Rank.SENSED_APART, changed, f'in `{action.name}` sense the literals one by one',
                         (written(('senses', *apart)), written(('knows', *adds))),
                         f'`{action.name}` senses a conjunction: where it is false, none of its parts is known to be.')


# Preconditions

def queries_of(file: File) -> Iterator[Tuple[Action, Expression, List_]]:
    """Each query of each precondition, with the others."""
    for action in file.actions:
        for at, query in enumerate(action.pre):
            yield action, query, action.pre[:at] + action.pre[at + 1:]


def signs(file: File) -> Iterator[Change]:
    """Each `k` of a precondition with the other sign; as a cause only where no plan leads to what it asks for."""
    for action, query, others in queries_of(file):
        if query[0] == 'k' and atom_of(query[1])[0] != '=':
            other = ('k', negated(query[1]))
            rank = Rank.SIGN_SENSED if atom_of(query[1])[0] in found_heads(file) else Rank.SIGN
            yield Change(rank, file.with_action(action.name, pre=others + (other,)),
                         f'in `pre` of `{action.name}` write, in place of {written(query)},', (written(other),),
                         f'`{action.name}` asks for {written(query)}, which isn\'t known when it is needed; its '
                         'contrary is.', cases=tuple(asked_alone(file, located(query[1], action.parameters))),
                         otherwise=f'With the contrary of what it asks for, `{action.name}` can be done where it would '
                                   'help.')


MOST_ALONE = 4
"""For so many choices of objects a query is asked alone."""


def asked_alone(file: File, literal: Expression) -> Iterator[File]:
    """The file with nothing but a literal for its goal, for some choices of objects."""
    for atom in itertools.islice(instances(file, atom_of(literal)), MOST_ALONE):
        yield replace(file, goal=(('k', ('not', atom) if literal[0] == 'not' else atom),))


def queries_out(file: File) -> Iterator[Change]:
    """Each query of a precondition taken out."""
    for action, query, others in queries_of(file):
        rank = Rank.QUERY_GUARD if query[0] == 'not-derived' else Rank.QUERY
        why = ('The guard is too tight.' if query[0] == 'not-derived'
               else f'It is what keeps `{action.name}` from being done where it would help.')
        yield Change(rank, file.with_action(action.name, pre=others),
                     f'take {written(query)} out of `pre` of `{action.name}`', (), why)


def guards(file: File) -> Iterator[Change]:
    """Where an action assigns a parameter and the goal says which value is wanted: a precondition that it is this."""
    for action in file.actions:
        for effect in map(target, action.effects):
            if effect[0] != 'assign' or effect[2] not in action.parameters:
                continue
            for wanted in wanted_values(file, effect[1]):
                query = ('k', ('=', effect[2], wanted))
                yield Change(Rank.GUARD, file.with_action(action.name, pre=action.pre + (query,)),
                             f'in `pre` of `{action.name}` add', (written(query),),
                             f'There are too many choices: `{action.name}` may be done with any of '
                             f'{file.count(list(action.parameters.values()))} choices of objects, and with each value '
                             'that is known by then.')


def wanted_values(file: File, place: Expression) -> List[Expression]:
    """What the goal wants a place to be, with the place's parameters put in for the objects of the goal."""
    found: List[Expression] = []
    assert not isinstance(place, str)
    for aim in file.goal:
        if aim[0] != 'k' or aim[1][0] != '=':
            continue
        for side, other in ((aim[1][1], aim[1][2]), (aim[1][2], aim[1][1])):
            if isinstance(side, str) or side[0] != place[0]:
                continue
            back = dict(zip(map(written, side[1:]), place[1:]))
            value = replaced(other, back)
            if value not in found and not isinstance(other, str):
                found.append(value)
    return found


def replaced(expression: Expression, words: Dict[str, Expression]) -> Expression:
    """The expression with terms put in for words, but for its head."""
    if isinstance(expression, str):
        return words.get(expression, expression)
    return (expression[0], *(replaced(part, words) for part in expression[1:]))


# Senses

def found_out(file: File) -> Iterator[Change]:
    """Of each fact and value that is asked for, that none makes so and none finds out: an action that finds it out."""
    for head in dict.fromkeys(asked_heads(file)):
        is_changed = head in changed_heads(file)
        if head not in found_heads(file) | sensed_heads(file) and not (is_changed and is_made(file, head)) \
                and not is_settled(file, head):
            look, what = finder(file, head), 'its value' if head in file.results else 'whether it is so'
            yield Change(Rank.FIND_OUT, replace(file, actions=(*file.actions, look)),
                         'add an action that finds it out, such as', (written(look.expression()),),
                         f'`{head}` is asked for, no action {"makes it so" if is_changed else "changes it"}, and none '
                         f'finds out {what}.')


def is_made(file: File, head: str) -> bool:
    """Whether some action makes a fact of this predicate so, or no precondition asks for one; of a function, always."""
    is_set = any(effect[0] == 'set' and effect[1][0] == head
                 for action in file.actions for effect in map(target, action.effects))
    is_asked = any(query[0] == 'k' and query[1][0] == head for action in file.actions for query in action.pre)
    return head in file.results or is_set or not is_asked


def found_heads(file: File) -> Set[str]:
    """The predicates and functions of which some action finds out whether, or the value."""
    return {word for action in file.actions for add in action.knows if item_of(add)[0] in ('kw', 'kv')
            for word in words_of(item_of(add))}


def sensed_heads(file: File) -> Set[str]:
    """The predicates and functions that actions sense, told or not."""
    return {word for action in file.actions for sense in action.senses for word in words_of(sense)}


def asked_heads(file: File) -> Iterator[str]:
    """The predicates and functions of which preconditions and the goal ask what is known."""
    for asked in (*needed(file), *needed_values(file)):
        yield from (word for word in words_of(asked) if word in file.arguments)


def is_settled(file: File, head: str) -> bool:
    """Whether the start says of each place of a predicate or a function what it is."""
    if any(item[0] == 'lcw' and item[1][0] == head for item in file.init):
        return True
    known = {item[1] for item in file.init if item[0] == 'kf'}
    known |= {side for literal in known if literal[0] == '=' for side in literal[1:]}
    places = instances(file, (head, *(f'?{kind}' for kind in file.arguments[head])))
    return all({place, ('not', place)} & known for place in places)


def finder(file: File, head: str) -> Action:
    """An action that finds out a fact or a value, and does nothing else."""
    names = {action.name for action in file.actions}
    name = next(name for name in (f'look-at-{head}', *(f'look{n}' for n in range(len(names) + 1))) if name not in names)
    params = tuple((f'?x{n}', kind) for n, kind in enumerate(file.arguments[head], 1))
    place = (head, *(variable for variable, _ in params))
    sense, add = ('sense-value', 'kv') if head in file.results else ('sense', 'kw')
    return Action(name, params=params, senses=((sense, place),), knows=((add, place),))


# The start

MOST_ITEMS = 80


def values_before(file: File) -> Iterator[Change]:
    """Where effects under conditions assign values to a place of which the start says nothing: a value before."""
    for action in file.actions:
        places: Dict[List_, List[Expression]] = {}
        for effect in action.effects:
            if effect[0] == 'when' and target(effect)[0] == 'assign':
                place = located(target(effect)[1], action.parameters)
                assert not isinstance(place, str)
                places.setdefault(place, []).append(target(effect)[2])
        for place, assigned in places.items():
            if not any(place[0] in words_of(item) for item in file.init):
                yield from value_before(file, action, place, assigned)


def value_before(file: File, action: Action, place: List_, assigned: Sequence[Expression]) -> Iterator[Change]:
    """A value that none of the effects assigns, known at the start; an object more where they assign them all."""
    kind = file.results[str(place[0])]
    other = next((name for name in file.of_type(kind) if name not in assigned), None)
    declared: Tuple[Expression, ...] = ()
    if other is None:
        other = next(name for name in ('none', *(f'none{n}' for n in range(len(file.kinds) + 1))) if name not in file.kinds)
        declared = ((kind, other),)
    items = tuple(('kf', ('=', each, other)) for each in itertools.islice(instances(file, place), MOST_ITEMS))
    more = 'declare in `objects` a value that it doesn\'t assign, and ' if declared else ''
    yield Change(Rank.VALUE_BEFORE, replace(file, objects=file.objects + declared).with_init(*items),
                 f'{more}in `init` add', texts((*declared, *items)),
                 f'`{action.name}` assigns `{place[0]}` by conditions. The value tells which of them held only where it is '
                 f'known that it was another one before, and `init` says nothing of `{place[0]}`.')


def contraries(file: File) -> Iterator[Change]:
    """Each fact of the start turned into its contrary, but for what the goal asks."""
    goal = {part for aim in file.goal for part in aim[1:]}
    facts = [item for item in file.init if item[0] == 'kf' and atom_of(item[1])[0] != '=']
    for item in facts[:MOST_ITEMS]:
        contrary = ('kf', negated(item[1]))
        if contrary[1] not in goal:
            changed = replace(file, init=tuple(contrary if own == item else own for own in file.init))
            second = second_place(file, contrary)
            yield Change(Rank.START_LATE if second else Rank.CONTRARY, changed,
                         f'in `init` write, in place of {written(item)},', (written(contrary),),
                         second or '`init` says what keeps the goal from being had; it may be that it isn\'t so.')


def starts(file: File) -> Iterator[Change]:
    """One item more of `init`: first of what the start says nothing of."""
    told_heads = {word for item in file.init for word in words_of(item)}
    aims = [aim for aim in file.goal if aim[0] in ('k', 'kw', 'kv') and not isinstance(aim[1], str)]
    goal = {part for aim in aims for part in aim[1:] if not is_fixed(file, part)}
    items = [(atom_of(literal)[0], entry) for literal in needed(file) for entry in items_for(file, literal)]
    items += [(place[0], entry) for place in needed_values(file) for entry in values_for(file, place)]
    found: List[Tuple[int, Expression]] = []
    for head, (order, item) in items:
        if not {item[1], negated(item[1]), *places_of(item[1])} & goal:
            found.append((order + (4 if head in told_heads else 0), item))
    seen: Set[Expression] = set(file.init)
    for order, item in sorted(found, key=lambda pair: pair[0])[:10 * MOST_ITEMS]:
        if item not in seen:
            seen.add(item)
            yield start(file, item, order)


MISSING = {
    'kf': 'A fact is missing at the start.',
    'negative': 'A negative is missing at the start: what isn\'t written isn\'t false, it is unknown.',
    'kw': 'It isn\'t known whether it is so where a plan would branch on it: a sense that tells would do, too.',
    'kv': 'The value isn\'t known where it is needed: a sense that tells would do, too.',
    'kx': 'It isn\'t known that one of these is true.',
    'lcw': 'Negatives are missing at the start: what isn\'t written isn\'t false, it is unknown. (Or `(kf (not ..))` '
           'for each.)',
}


def start(file: File, item: Expression, order: int) -> Change:
    """An item of `init` as a change."""
    mirrored = other_way(file, item)
    if mirrored:
        return Change(Rank.OTHER_WAY, file.with_init(item), 'in `init` add', (written(item),),
                      f'A way leads one way only: {written(mirrored)} is in `init`, and the other way round isn\'t.')
    second = second_place(file, item)
    if second:
        return Change(Rank.START_LATE, file.with_init(item), 'in `init` add', (written(item),), second)
    rank = Rank.START if order < 4 else Rank.START_MORE
    kind = 'negative' if item[0] == 'kf' and item[1][0] == 'not' else str(item[0])
    change = Change(rank, file.with_init(item), 'in `init` add', (written(item),), MISSING[kind])
    facts = [item[1]] if item[0] == 'kf' else []
    if item[0] == 'lcw' and file.count(file.arguments[str(item[1][0])]) <= MOST_SIDES:
        facts = [('not', atom) for atom in file.instances(str(item[1][0])) if ('kf', atom) not in file.init]
    return as_side(file, change, facts)


# Sides of a look

MOST_SIDES = 8
"""The most facts of which the other sides are looked at."""

WITHOUT_PLAN = 'there is no plan. Give it an action, or rule it out where it can\'t be.'


def as_side(file: File, change: Change, facts: Sequence[Expression]) -> Change:
    """A change that makes facts known, as one that rules out their other sides, where these will be found out."""
    if not facts or not all(is_side(file, atom_of(fact)) for fact in facts):
        return change
    contraries = [negated(fact) for fact in facts]
    why = f'One side has no action: where {so(contraries)}, {WITHOUT_PLAN}'
    cases = tuple(file.with_init(('kf', negated(fact)), *others(file, fact)) for fact in facts)
    return replace(change, why=why, cases=cases, otherwise=change.why)


def others(file: File, fact: Expression) -> List_:
    """Items that make all other facts of a predicate known that looks may find out."""
    known = {item[1] for item in file.init if item[0] == 'kf'}
    atoms = itertools.islice(file.instances(str(atom_of(fact)[0])), MOST_ITEMS)
    unknown = [atom for atom in atoms if is_side(file, atom) and not {atom, negated(atom)} & known]
    return tuple(('kf', negated(atom) if fact[0] == 'not' else atom) for atom in unknown if atom != atom_of(fact))


def is_side(file: File, atom: List_) -> bool:
    """Whether it will be found out whether a fact is so, and no group and no action says more of it."""
    grouped = {atom_of(member) for item in file.init if item[0] == 'kx' for member in item[1:]}
    is_found = atom[0] != '=' and (atom[0] in found_heads(file) & sensed_heads(file) or ('kw', atom) in file.init)
    return is_found and atom not in grouped and (len(atom) == 1 or atom[0] not in changed_heads(file))


def so(literals: Sequence[Expression]) -> str:
    """Literals of one sign in words, of which one may be so."""
    atoms = listed([written(atom_of(literal)) for literal in literals])
    return f'{atoms} is {"false" if literals[0][0] == "not" else "true"}'


def listed(words: Sequence[str]) -> str:
    """Words as a list in a sentence."""
    return ' or '.join(filter(None, (', '.join(words[:-1]), words[-1])))


# Facts with two places of one type

def exchanged(fact: Expression, one: int, other: int) -> Expression:
    """A fact with two of its arguments exchanged."""
    parts = list(fact)
    parts[one], parts[other] = parts[other], parts[one]
    return tuple(parts)


def pairs_of(fact: Sequence[object]) -> 'itertools.combinations[Tuple[int, int]]':
    """Each two arguments of a fact, by their places."""
    return itertools.combinations(range(1, len(fact)), 2)


def other_way(file: File, item: Expression) -> Optional[Expression]:
    """The item of `init` of which this one is the other way round, where no action changes its predicate."""
    if item[0] != 'kf' or item[1][0] in ('=', 'not') or item[1][0] in changed_heads(file):
        return None
    back = (('kf', exchanged(item[1], *pair)) for pair in pairs_of(item[1]))
    return next((fact for fact in back if fact in file.init and fact != item), None)


def ways_back(file: File) -> Iterator[Change]:
    """Of each predicate that no action changes all facts the other way round, two arguments of one type exchanged."""
    for head in file.predicate_names:
        facts = [item[1] for item in file.init if item[0] == 'kf' and item[1][0] == head]
        kinds = (head, *file.arguments[head])
        for one, other in pairs_of(kinds):
            if kinds[one] == kinds[other] and head not in changed_heads(file):
                yield from way_back(file, head, [exchanged(fact, one, other) for fact in facts])


def way_back(file: File, head: str, back: Sequence[Expression]) -> Iterator[Change]:
    """Facts the other way round as one change, where two or more aren't in `init`."""
    said = {item[1] for item in file.init if item[0] == 'kf'}
    items = tuple(('kf', fact) for fact in back if not {fact, negated(fact)} & said)
    if 1 < len(items) <= MOST_ITEMS:
        yield Change(Rank.OTHER_WAYS, file.with_init(*items), 'in `init` add', shortened(texts(items)),
                     f'Ways lead one way only: of {len(items)} facts `({head} ..)` in `init` the other way round '
                     'isn\'t there.')


MOST_LINES = 8


def shortened(lines: Tuple[str, ...]) -> Tuple[str, ...]:
    """Lines to write; of many the first ones."""
    return lines if len(lines) <= MOST_LINES else (*lines[:MOST_LINES - 1], '..')


def second_place(file: File, item: Expression) -> Optional[str]:
    """What is said of an item that puts in a second place what an action moves and `init` has elsewhere, or None."""
    if item[0] != 'kf' or item[1][0] in ('=', 'not'):
        return None
    known = [own[1] for own in file.init if own[0] == 'kf' and own[1][0] == item[1][0]]
    for action in file.actions:
        for early, late in undone(action):
            moved = [at for at in range(1, len(early)) if early[at] != late[at]]
            first = next((own for own in known if own[0] == early[0] and is_same_but_for(own, item[1], moved)), None)
            if first is not None:
                return f'This would be a second place: `init` has {written(first)}, and `{action.name}` moves it.'
    return None


def is_same_but_for(one: Expression, other: Expression, places: Sequence[int]) -> bool:
    """Whether two facts are the same but for arguments at some places."""
    assert not isinstance(one, str) and not isinstance(other, str)
    return len(one) == len(other) and all(a == b or at in places for at, (a, b) in enumerate(zip(one, other)))


def is_fixed(file: File, literal: Expression) -> bool:
    """Whether no action changes or tells anything of what a literal speaks of, nor has effects that hang on it."""
    head = atom_of(literal)[0]
    told: List[Expression] = [item_of(add) for action in file.actions for add in action.knows]
    told += [effect[1] for action in file.actions for effect in action.effects if effect[0] == 'when']
    return head != '=' and head not in changed_heads(file) | {word for part in told for word in words_of(part)}


def changed_heads(file: File) -> Set[str]:
    """The predicates and functions that some action changes."""
    return {str(target(effect)[1][0]) for action in file.actions for effect in action.effects}


def needed(file: File) -> Iterator[Expression]:
    """The literals that queries and conditions speak of, each parameter as it is written."""
    for action in file.actions:
        types = action.parameters
        hanging = [effect for effect in action.effects if effect[0] == 'when']
        conditions = [effect[1] for effect in hanging]
        queries = [query for add in action.knows if add[0] == 'if' for query in add[1]]
        for query in (*action.pre, *queries):
            plain = query[1] if query[0] == 'not-derived' else query
            if plain[0] in ('k', 'kw') and query[0] != 'not-derived':
                yield from (located(literal, types) for literal in plain[1:])
        for condition in conditions:
            yield from (located(literal, types) for literal in condition)
        for done in map(target, hanging):
            if done[0] in ('set', 'unset'):
                yield located(('not', done[1]) if done[0] == 'set' else done[1], types)
    for aim in file.goal:
        plain = aim[1] if aim[0] in OVER_TIME else aim
        if plain[0] in ('k', 'kw'):
            yield from plain[1:]


def needed_values(file: File) -> Iterator[List_]:
    """The places whose value queries ask for, each parameter as it is written."""
    for action in file.actions:
        queries = [query for add in action.knows if add[0] == 'if' for query in add[1]]
        for query in (*action.pre, *queries):
            if query[0] == 'kv' and not isinstance(query[1], str):
                yield place_of(located(query[1], action.parameters))
    for aim in file.goal:
        plain = aim[1] if aim[0] in OVER_TIME else aim
        if plain[0] == 'kv' and not isinstance(plain[1], str):
            yield place_of(plain[1])


def place_of(term: Expression) -> List_:
    """An application, which isn't a word."""
    assert not isinstance(term, str)
    return term


def places_of(literal: Expression) -> List[List_]:
    """The applications that are a side of an equation."""
    atom = atom_of(literal)
    return [side for side in atom[1:] if not isinstance(side, str)] if atom[0] == '=' else []


def located(literal: Expression, types: Dict[str, str]) -> Expression:
    """The literal with each parameter replaced by its type behind a `?`."""
    return replaced_all(literal, {name: f'?{kind}' for name, kind in types.items()})


def replaced_all(expression: Expression, words: Dict[str, str]) -> Expression:
    """The expression with words replaced everywhere."""
    if isinstance(expression, str):
        return words.get(expression, expression)
    return tuple(replaced_all(part, words) for part in expression)


def items_for(file: File, literal: Expression) -> Iterator[Tuple[int, Expression]]:
    """Items of `init` by which a literal may be known, or known whether, the likeliest first."""
    atom = atom_of(literal)
    if atom[0] == '=':
        for place in places_of(atom):
            yield from values_for(file, place)
        return
    is_negative = literal[0] == 'not'
    grounded = list(instances(file, atom))[:MOST_ITEMS]
    if is_negative and 1 <= len(atom) - 1 <= limits.WILDCARDS:
        yield 0, ('lcw', (atom[0], *('_' for _ in atom[1:])))
    for each in grounded:
        yield 1, ('kw', each)
    for each in grounded:
        yield (0 if is_negative or len(grounded) < 9 else 2), ('kf', ('not', each) if is_negative else each)
    known = {item[1] for item in file.init if item[0] == 'kf'}
    left = [each for each in grounded if not {each, negated(each)} & known]
    if limits.GROUP_LEAST <= len(left) <= limits.GROUP and not known & set(grounded):
        yield 3, ('kx', *left)


def values_for(file: File, term: List_) -> Iterator[Tuple[int, Expression]]:
    """Items of `init` by which a value may be known."""
    for place in list(instances(file, term))[:MOST_ITEMS]:
        yield 1, ('kv', place)
        for value in file.of_type(file.results[str(place[0])])[:limits.GROUP]:
            yield 2, ('kf', ('=', place, value))


def instances(file: File, atom: List_) -> Iterator[List_]:
    """An atom with objects for what isn't an object in it."""
    kinds = file.arguments.get(str(atom[0]), ())
    choices: List[List[str]] = []
    for term, kind in zip(atom[1:], kinds):
        if isinstance(term, str) and not term.startswith('?'):
            choices.append([term])
        else:
            own = term[1:] if isinstance(term, str) else kind
            choices.append([name for name in file.of_type(own) if file.fits(file.kinds[name], kind)])
    count = 1
    for choice in choices:
        count *= len(choice)
    if count <= 4 * MOST_ITEMS:
        yield from ((atom[0], *objects) for objects in itertools.product(*choices))
