"""Cases in which nothing leads on: values of a place, and members of a group, each ruled out at the start."""

import itertools
from typing import Dict, Iterator, List, Optional, Sequence, Set, Tuple

from asklib.files import File, List_, negated, words_of
from pkslib import Expression, limits, written

from .changes import (MISSING, MOST_SIDES, WITHOUT_PLAN, Change, Rank, as_side, instances, item_of, listed, located,
                      needed, needed_values, place_of, places_of, shortened, so, texts)

MOST = 40
"""The most values, and the most members, that are ruled out one by one."""

MOST_PLACES = 8
"""The most places of a function that are looked at."""

ONE_LESS = 'One case less would do.'


def value_at(literal: Expression, place: Expression) -> Optional[str]:
    """The object that an equation says a place to be, or None."""
    if literal[0] == '=' and place in literal[1:]:
        return next((side for side in literal[1:] if isinstance(side, str)), None)
    return None


def ruled_out(place: Expression, values: Sequence[str]) -> List_:
    """Items that say of a place that it is none of some values."""
    return tuple(('kf', ('not', ('=', place, value))) for value in values)


def group_of(file: File, place: Expression) -> Optional[Tuple[Expression, List[str]]]:
    """A group of `init` that says a place to be one of some values, and these; None where there is none."""
    for item in file.init:
        values = [value_at(literal, place) for literal in item[1:]] if item[0] == 'kx' else []
        if values and None not in values:
            return item, [value for value in values if value is not None]
    return None


def left(file: File, place: List_) -> List[str]:
    """The values that the start leaves a place; none where it says which one it is."""
    known = [item[1] for item in file.init if item[0] == 'kf']
    if any(value_at(literal, place) for literal in known):
        return []
    excluded = {value_at(literal[1], place) for literal in known if literal[0] == 'not'}
    return [name for name in file.of_type(file.results[str(place[0])]) if name not in excluded]


def places(file: File) -> List[List_]:
    """The places that actions find out the value of, or that queries or the start ask about."""
    terms: List[List_] = []
    for action in file.actions:
        terms += [place_of(located(item_of(add)[1], action.parameters)) for add in action.knows
                  if item_of(add)[0] == 'kv' and not isinstance(item_of(add)[1], str)]
    terms += [term for literal in needed(file) for term in places_of(literal)] + list(needed_values(file))
    literals = [literal for item in file.init if item[0] in ('kx', 'kw') for literal in item[1:]]
    terms += [term for literal in literals for term in places_of(literal)]
    terms += [place_of(item[1]) for item in file.init if item[0] == 'kv' and not isinstance(item[1], str)]
    found = [place for term in dict.fromkeys(terms) for place in itertools.islice(instances(file, term), MOST_PLACES)]
    return list(dict.fromkeys(found))


def outside_groups(file: File) -> Iterator[Change]:
    """The values of a place that aren't members of a group that says which it may be, ruled out."""
    for place in places(file):
        group = group_of(file, place)
        others = [value for value in left(file, place) if group and value not in group[1]]
        if group and others:
            items = ruled_out(place, others)
            yield Change(Rank.OUTSIDE_GROUP, file.with_init(*items), 'in `init` add', shortened(texts(items)),
                         f'{written(group[0])} doesn\'t rule out other values of {written(place)}, though none of '
                         'them can be.')


def without_action(file: File) -> Iterator[Change]:
    """Each value that may be left, and each member of a group, ruled out; values that no query names together."""
    named = {word for literal in needed(file) for word in words_of(literal)}
    single: List[Tuple[bool, Change]] = []
    choices: Dict[str, List[Tuple[List_, List[str]]]] = {}
    for place in places(file):
        group, values = group_of(file, place), left(file, place)
        values = [value for value in values if group is None or value in group[1]]
        if 2 <= len(values) <= limits.CASES:
            choices.setdefault(str(place[0]), []).append((place, values))
            single += [(value in named, without_values(file, [place], [value])) for value in values
                       if not is_aim(file, place, [other for other in values if other != value])]
    for own in choices.values():
        yield from without_unnamed(file, own, named)
    yield from (change for _, change in sorted(single, key=lambda pair: pair[0])[:MOST])
    yield from itertools.islice(without_members(file), MOST)


def without_unnamed(file: File, own: Sequence[Tuple[List_, List[str]]], named: Set[str]) -> Iterator[Change]:
    """The values that no query names ruled out at all places of a function, and where these are several, each value."""
    unnamed = [value for value in own[0][1] if value not in named and all(value in values for _, values in own)]
    if any(set(values) <= set(unnamed) for _, values in own):
        return
    every = [place for place, _ in own]
    if len(unnamed) > 1:
        yield without_values(file, every, unnamed)
    if len(every) > 1:
        yield from (without_values(file, every, [value]) for value in unnamed)


def is_aim(file: File, place: Expression, values: Sequence[str]) -> bool:
    """Whether the goal asks for the one value that is left, or which one it is."""
    asked = [('kv', place), *(('k', ('=', *sides)) for value in values for sides in ((place, value), (value, place)))]
    return len(values) == 1 and any(aim in asked for aim in file.goal)


def without_values(file: File, every: Sequence[List_], values: Sequence[str]) -> Change:
    """Values ruled out at each of some places."""
    out = {place: ruled_out(place, values) for place in every}
    items = tuple(item for place in every for item in out[place])
    elsewhere = {place: [item for item in items if item not in out[place]] for place in every}
    begun, ended = 'One case has no action', WITHOUT_PLAN
    if len(values) > 1:
        begun = 'Some cases have no action'
        ended = 'there is no plan. Give each an action, or rule out those that can\'t be.'
    return Change(Rank.CASE, file.with_init(*items), 'in `init` add', shortened(texts(items)),
                  f'{begun}: where {listed([written(place) for place in every])} is {listed(values)}, {ended}',
                  cases=tuple(file.with_init(('kf', ('=', place, value)), *elsewhere[place])
                              for place in every for value in values), otherwise=ONE_LESS)


def without_members(file: File) -> Iterator[Change]:
    """Each member of a group of three or more ruled out; values of a place are looked at by themselves."""
    for group in file.init:
        if group[0] != 'kx' or len(group) < 4:
            continue
        for member in group[1:]:
            item = ('kf', negated(member))
            if not places_of(member) and not {item, ('kf', member)} & set(file.init):
                yield Change(Rank.CASE, file.with_init(item), 'in `init` add', (written(item),),
                             f'One case has no action: where {so([member])}, {WITHOUT_PLAN}',
                             cases=(file.with_init(('kf', member)),), otherwise=ONE_LESS)


def without_sides(file: File) -> Iterator[Change]:
    """Facts of one predicate that queries need and looks find out, all known; of negatives a closed world does it."""
    known = {item[1] for item in file.init if item[0] == 'kf'}
    for literal in dict.fromkeys(needed(file)):
        if literal[0] in ('not', '='):
            continue
        facts = [fact for fact in instances(file, place_of(literal)) if not {fact, negated(fact)} & known]
        if 1 < len(facts) <= MOST_SIDES and not any(('k', fact) in file.goal for fact in facts):
            items = tuple(('kf', fact) for fact in facts)
            change = Change(Rank.SIDES, file.with_init(*items), 'in `init` add', texts(items), MISSING['kf'])
            side = as_side(file, change, facts)
            if side is not change:
                yield side
