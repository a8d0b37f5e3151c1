"""What is asked for and no action makes so: an action more that does."""

from dataclasses import replace
from typing import Iterator, List, Optional, Tuple

from asklib.files import Action, File, List_, atom_of, negated, words_of
from pkslib import Expression, written

from .changes import Change, Rank, changed_heads, found_heads, located, places_of, target


def unmade(file: File) -> Iterator[Change]:
    """Of each fact and value that is asked for and that no action makes so: an action that does."""
    for who, query, literal in asked(file):
        atom = atom_of(literal)
        reason = unassigned(file, atom) if atom[0] == '=' else unset(file, who, literal)
        if reason is not None:
            rank, why = reason
            more = maker(file, places_of(atom)[0] if atom[0] == '=' else atom, literal[0] == 'not')
            yield Change(rank, replace(file, actions=(*file.actions, more)), 'add an action that makes it so, such as',
                         (written(more.expression()),), f'{who} asks for {written(query)}{why}.')


def asked(file: File) -> Iterator[Tuple[str, Expression, Expression]]:
    """Who asks for a literal by `k`, the query, and the literal with each parameter as its type."""
    for aim in file.goal:
        if aim[0] == 'k':
            yield 'The goal', aim, aim[1]
    for action in file.actions:
        for query in action.pre:
            if query[0] == 'k':
                yield f'`{action.name}`', query, located(query[1], action.parameters)


def makes(file: File, literal: Expression, surely: bool = False) -> List[str]:
    """The actions that make such a fact so, or assign such a value, whatever the arguments; surely, or on a condition."""
    atom = atom_of(literal)
    wanted = [place[0] for place in places_of(atom)] or [atom[0]]
    heads = ('assign',) if atom[0] == '=' else ('unset', 'clear') if literal[0] == 'not' else ('set',)
    return [action.name for action in file.actions
            if any(target(effect)[0] in heads and target(effect)[1][0] in wanted for effect in action.effects
                   if not surely or effect[0] != 'when')]


def unset(file: File, who: str, literal: Expression) -> Optional[Tuple[Rank, str]]:
    """What is said of a fact that no action makes so; None where one does, or where the start says enough of it."""
    if makes(file, literal):
        return None
    against, atom = makes(file, negated(literal)), atom_of(literal)
    known = [item[1] for item in file.init if item[0] == 'kf' and atom_of(item[1])[0] == atom[0]]
    if against and (known or atom[0] not in found_heads(file)):
        makes_other = ' and makes it otherwise' if who == f'`{against[0]}`' else f', `{against[0]}` makes it otherwise'
        is_likely = known and makes(file, negated(literal), surely=True)
        return (Rank.MAKE if is_likely else Rank.MAKE_LATE), f'{makes_other}, and no action makes it so'
    if not against and len(atom) == 1 and not any(atom[0] in words_of(item) for item in file.init):
        return Rank.MAKE_LATE, ', and no action makes it so'
    if not against and negated(literal) in known:
        return Rank.MAKE_LATE, f', `init` says {written(negated(literal))}, and no action changes it'
    return None


def unassigned(file: File, equation: List_) -> Optional[Tuple[Rank, str]]:
    """What is said of a value that no action assigns and that is another one at the start; else None."""
    for place, value in (equation[1:], equation[:0:-1]):
        if isinstance(place, str) or not isinstance(value, str) or value not in file.kinds \
                or place[0] in changed_heads(file):
            continue
        for item in file.init:
            other = item[1] if item[0] == 'kf' else ()
            if other[:1] == ('=',) and place in other and value not in other:
                return Rank.MAKE, f', `init` says {written(other)}, and no action changes it'
    return None


def maker(file: File, place: List_, is_negative: bool) -> Action:
    """An action that makes a fact so, or assigns a value, and does nothing else."""
    head = str(place[0])
    names = {action.name for action in file.actions}
    begun = f'make-not-{head}' if is_negative else f'make-{head}'
    name = next(name for name in (begun, *(f'make{n}' for n in range(len(names) + 1))) if name not in names)
    kinds = file.arguments[head] + ((file.results[head],) if head in file.results else ())
    params = tuple((f'?x{n}', kind) for n, kind in enumerate(kinds, 1))
    variables = tuple(variable for variable, _ in params)
    atom: Expression = (head, *variables)
    if head in file.results:
        own = (head, *variables[:-1])
        return Action(name, params=params, effects=(('assign', own, variables[-1]),),
                      knows=(('kf', ('=', own, variables[-1])),))
    effect, fact = ('unset', ('not', atom)) if is_negative else ('set', atom)
    return Action(name, params=params, effects=((effect, atom),), knows=(('kf', fact),))
