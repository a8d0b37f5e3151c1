"""What is printed of what was found, best first."""

import textwrap
from typing import List, Sequence, Tuple

from pkslib import limits, written

from . import goals
from .changes import Change, Rank
from .parts import Helped
from .questions import Outcome
from .search import Found

WIDTH = 100


def wrapped(text: str, first: str, others: str) -> List[str]:
    """A text in lines."""
    return textwrap.wrap(text, WIDTH, initial_indent=first, subsequent_indent=others, break_long_words=False,
                         break_on_hyphens=False)


def report(found: Found, depth: int) -> List[str]:
    """All lines of a report."""
    lines = [begun(found, depth)]
    entries, others = told(found, depth), also_seen(found)
    for number, entry in enumerate(entries, 1):
        lines += ['', *entry_lines(number, entry)]
    if not entries:
        lines += ['', nothing(depth)]
    if others:
        lines += ['', f'Also seen, though mending it alone makes no plan to depth {depth}:']
    for number, entry in enumerate(others, len(entries) + 1):
        lines += ['', *entry_lines(number, entry)]
    if found.open:
        lines += ['', *wrapped(f'Of {found.open} more changes it isn\'t known whether there is a plan with one, the search '
                               'didn\'t end in its time: a greater --seconds may find more.', '', '')]
    hopeless = any(change.rank == Rank.DEPTH and outcome.is_none for change, outcome in found.outcomes.items())
    for part in (goals.said(found.goals, depth, hopeless) if found.goals else [], found.lines):
        lines += ['', *(line for text in part for line in indented(text))]
    return lines


def nothing(depth: int) -> str:
    """What is said where no change makes a plan."""
    more = '' if depth == limits.DEPTH else ': what wants more steps is found with a greater DEPTH'
    return f'No single change that was asked makes a plan to depth {depth}{more}.'


def indented(text: str) -> List[str]:
    """A text in lines, each with its indentation; what is behind the first one further in."""
    own = ' ' * (len(text) - len(text.lstrip()))
    return wrapped(text.strip(), own, own + '  ') if len(text) > WIDTH else [text]


def begun(found: Found, depth: int) -> str:
    """The first line: what is known of the file as it is."""
    if found.base.is_none:
        return f'There is no plan to depth {depth}{deeper(found)}.'
    return f'Whether there is a plan to depth {depth} isn\'t known: the search didn\'t end in its time.'


def deeper(found: Found) -> str:
    """What is known of deeper plans, where no likelier cause was found."""
    asked = [outcome for change, outcome in found.outcomes.items() if change.rank == Rank.DEPTH]
    if not asked or any(outcome.depth is not None for outcome in asked) \
            or any(change.rank < Rank.DEPTH for change in found.cures()):
        return ''
    if any(outcome.is_none for outcome in asked):
        return f', nor to depth {limits.DEPTH}, the greatest'
    return '; whether there is a deeper one isn\'t known, the search didn\'t end in its time'


MOST_SHOWN, MOST_ALIKE = 6, 2
"""The most entries, and the most of one cause."""

SINGLE = {Rank.TOLD_TOGETHER: {Rank.TOLD}, Rank.TOLD_APART: {Rank.TOLD}, Rank.SIDES: {Rank.START},
          Rank.OTHER_WAYS: {Rank.SWAPPED, Rank.OTHER_WAY}, Rank.MAKE_LATE: {Rank.FIND_OUT}}
"""Of some changes those that say less: where one of these does, the others aren't said."""


def told(found: Found, depth: int) -> List[List[str]]:
    """What is said of the changes, the best first: a text for each, and the lines to write."""
    entries: List[List[str]] = []
    said: List[str] = []
    cured = {change.rank for change in found.cures()}
    parts = {} if found.cures() else found.parts
    for change, outcome in sorted(found.outcomes.items(), key=lambda pair: (pair[0] not in parts, place(*pair))):
        if SINGLE.get(change.rank, set()) & cured:
            continue
        if said.count(change.why) == MOST_ALIKE or len(entries) == MOST_SHOWN:
            continue
        entry = said_of_part(change, parts[change], change.why in said) if change in parts else \
            said_of(change, outcome, depth, change.why in said)
        if entry:
            said.append(change.why)
            entries.append(entry)
    return entries


def also_seen(found: Found) -> List[List[str]]:
    """The causes that are so in any case, but with whose change alone there is no plan."""
    cured = {change.why for change in found.cures()}
    causes = [change.why for change, outcome in sorted(found.outcomes.items(), key=lambda pair: pair[0].rank)
              if change.always and outcome.is_none and change.why not in cured]
    return [[why] for why in dict.fromkeys(causes)]


def place(change: Change, outcome: Outcome) -> Tuple[int, int, int]:
    """By which changes are sorted: rank, then those with a plan, then the depth.

    An add of which it isn't known whether there is a plan with it comes behind all that are likelier than the rest. Of
    what is taken for granted at the start the least comes first: that from which the way to the goal is longest.
    """
    rank = change.rank if outcome.depth is not None or change.always else max(change.rank, Rank.SIGN)
    rank = Rank.START if rank in (Rank.START_MORE, Rank.CONTRARY) else rank
    depth = outcome.depth or 0
    return rank, int(outcome.depth is not None and rank == Rank.SIGN), -depth if rank >= Rank.START else depth


def said_of(change: Change, outcome: Outcome, depth: int, is_said: bool) -> List[str]:
    """What is said of a change whose cause was said before or not; nothing where it is no cause."""
    why = '' if is_said else change.why + ' '
    if change.rank == Rank.DEPTH:
        at = outcome.depth
        return [f'The depth is too small by {at - depth}: with {at} in place of {depth} there is a plan.'] if at else []
    if outcome.depth is not None:
        return [f'{why}With this there is a plan of depth {outcome.depth}: {change.what}', *change.lines]
    if change.always and why and (outcome.refused or not change.what):
        return [why]
    if outcome.ended or not why or not (change.always or change.rank in (Rank.TOLD, Rank.GUARD)):
        return []
    return [f'{why}Whether there is a plan with this isn\'t known, the search didn\'t end: {change.what}',
            *change.lines]


def said_of_part(change: Change, helped: Helped, is_said: bool) -> List[str]:
    """What is said of a change that makes a plan for one goal alone."""
    why, aim = '' if is_said else change.why + ' ', written(helped.part.aim)
    return [f'{why}For {aim} alone there is a plan of depth {helped.depth} with this, and none to depth '
            f'{helped.part.none_to} without it; for all goals the search didn\'t end: {change.what}', *change.lines]


def entry_lines(number: int, entry: Sequence[str]) -> List[str]:
    """A numbered entry; its lines to write stand further in."""
    lines = wrapped(entry[0], f'{number}. ', '   ')
    for line in entry[1:]:
        lines += wrapped(line, '       ', '           ')
    return lines
