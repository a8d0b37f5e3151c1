"""Facts that never change and that an action asks for with two arguments in another order than the start has them."""

from typing import Iterator, List, Optional, Set

from asklib.files import SECTIONS, Action, File, List_, atom_of
from pkslib import Expression, written

from .changes import Change, Rank, changed_heads, exchanged, pairs_of


def swapped(file: File) -> Iterator[Change]:
    """Each two arguments of one type exchanged, where a parameter can't be the same object elsewhere in the action."""
    for action in file.actions:
        for atom in dict.fromkeys(unchanging(file, action)):
            kinds = (atom[0], *file.arguments[str(atom[0])])
            for one, other in pairs_of(atom):
                clash = clashing(file, action, atom, (one, other)) if kinds[one] == kinds[other] else None
                if clash is None or atom[one] == atom[other]:
                    continue
                turned = exchanged(atom, one, other)
                sections = {head: with_atom(getattr(action, head), atom, turned) for head in SECTIONS}
                yield Change(Rank.SWAPPED, file.with_action(action.name, **sections),
                             f'in `{action.name}` write, in place of {written(atom)},', (written(turned),),
                             f'The arguments of `{atom[0]}` may stand in another order: {clash}.')


def unchanging(file: File, action: Action) -> Iterator[List_]:
    """The atoms of an action's queries and conditions that no action changes and of which the start has some."""
    said = {literal[0] for literal in literals(file)}
    for literal in asked_by(action):
        atom = atom_of(literal)
        if atom[0] in said and atom[0] != '=' and atom[0] not in changed_heads(file):
            yield atom


def literals(file: File) -> List[Expression]:
    """The literals of the start, those of groups too."""
    return [literal for item in file.init if item[0] in ('kf', 'kx') for literal in item[1:]]


def asked_by(action: Action) -> Iterator[Expression]:
    """The literals that an action asks for, and those on which its effects hang."""
    for query in action.pre:
        if query[0] == 'k':
            yield query[1]
    for effect in action.effects:
        if effect[0] == 'when':
            yield from effect[1]


def clashing(file: File, action: Action, atom: List_, places: Expression) -> Optional[str]:
    """A parameter at one of two places that, by the start, can't be the same object elsewhere; None where it can."""
    for at in map(int, places):
        own = objects_at(file, atom, at)
        for literal in asked_by(action):
            other = atom_of(literal)
            for term, place in ((term, n) for n, term in enumerate(other) if n and term == atom[at]):
                found = objects_at(file, literal, place)
                if other[0] not in {atom[0], *changed_heads(file)} and term in action.parameters and found \
                        and not own & found:
                    return f'`init` has no object that is `{term}` both in {written(atom)} and in {written(literal)}'
    return None


def objects_at(file: File, literal: Expression, at: int) -> Set[Expression]:
    """What stands at a place of the literals of the start that have this head and this sign."""
    atom = atom_of(literal)
    return {atom_of(own)[at] for own in literals(file)
            if atom_of(own)[0] == atom[0] and (own[0] == 'not') == (literal[0] == 'not') and atom[0] != '='}


def with_atom(part: Expression, atom: List_, turned: Expression) -> Expression:
    """An expression with another atom in place of one."""
    if part == atom:
        return turned
    return part if isinstance(part, str) else tuple(with_atom(each, atom, turned) for each in part)
