"""What would make a goal known, and what each action lacks that would: a tree, one level back and then again."""

from dataclasses import dataclass, replace
from typing import Dict, Iterator, List, Optional, Set, Tuple

from asklib.files import Action, File, List_, atom_of, negated, put_in, words_of
from pkslib import Expression, written

from .changes import item_of, target
from .questions import Asking, Outcome

Given = Tuple[Tuple[str, Expression], ...]
"""Terms for parameters."""

LEVELS = 3
"""How many levels back are looked at."""

MOST_FACTS = 6
"""How many facts of the start are shown."""

OTHER_MEMBERS = 'has other members, so by itself it doesn\'t tell it'


@dataclass(frozen=True)
class Maker:
    """An action that may make a query answered, with the terms that its parameters must be, and how it does."""

    action: Action
    given: Given
    how: str
    queries: List_ = ()
    """The queries under which it tells it."""


def makers(file: File, query: Expression) -> Iterator[Maker]:
    """All that may make a query answered: adds, and what isn't told of effects and senses; what tells least is last."""
    wanted = query[1]
    for action in file.actions:
        items = [(item_of(add), '', tuple(add[1]) if add[0] == 'if' else ()) for add in action.knows]
        items += [(item, how, ()) for item, how in untold(action)]
        seen: Set[Given] = set()
        for item, how, queries in sorted(items, key=lambda entry: is_joint(entry[0])):
            found = matched(file, action, item, query)
            if found is not None and not is_seen(found[0], seen, bool(how)):
                seen.add(found[0])
                yield Maker(action, found[0], how or found[1] or 'tells it', tuple(queries))
        for condition in conditions(action):
            given = unified(file, action, atom_of(condition), atom_of(wanted)) if query[0] in ('k', 'kw') else None
            if given is not None and given not in seen:
                seen.add(given)
                yield Maker(action, given, 'has an effect that hangs on it: what comes of that may tell, on a branch')


def is_seen(given: Given, seen: Set[Given], may_be_wider: bool) -> bool:
    """Whether these terms were met before, perhaps with more of them beside."""
    return given in seen or may_be_wider and any(set(given) <= set(own) for own in seen)


def conditions(action: Action) -> Iterator[Expression]:
    """The literals on which effects of an action hang."""
    for effect in action.effects:
        if effect[0] == 'when':
            yield from effect[1]


SENSED = {'sense': 'kw', 'sense-value': 'kv', 'sense-all': 'kw'}
"""By what each sense is told."""


def untold(action: Action) -> Iterator[Tuple[List_, str]]:
    """The effects and the senses of an action as items that `knows` would have to tell, each with a word on it."""
    told = [item_of(add) for add in action.knows]
    for effect in action.effects:
        done = target(effect)
        item: Optional[List_] = {'set': ('kf', done[1]), 'unset': ('kf', ('not', done[1])),
                                      'assign': ('kf', ('=', *done[1:]))}.get(str(done[0]))
        if item is not None and item not in told:
            yield item, 'makes it so, and its `knows` doesn\'t tell'
    for sense in action.senses:
        item = (SENSED[str(sense[0])], *sense[1:])
        if item not in told:
            yield item, 'senses it, and its `knows` doesn\'t tell'


def is_joint(item: Expression) -> bool:
    """Whether an item tells of several literals together."""
    return item[0] == 'kw' and len(item) > 2


def matched(file: File, action: Action, item: Expression, query: Expression) -> Optional[Tuple[Given, str]]:
    """How an item meets a query: the terms of the parameters, and a word on how; None where it doesn't."""
    head, wanted = str(query[0]), query[1]
    if is_joint(item) and head in ('k', 'kw'):
        return matched_jointly(file, action, item, query)
    if item[0] == 'kf' and head in ('k', 'kw'):
        sides = [item[1]] if head == 'k' else [item[1], negated(item[1])]
        return next(((found, '') for found in (unified(file, action, side, wanted) for side in sides)
                     if found is not None), None)
    if item[0] == 'kw' and head in ('k', 'kw') and len(item) == 2:
        found = unified(file, action, atom_of(item[1]), atom_of(wanted))
        how = 'finds out whether it is so, so a branch may tell' if head == 'k' else 'finds out'
        return (found, how) if found is not None else None
    if item[0] == 'kv' and head in ('k', 'kv'):
        places = [wanted] if head == 'kv' else list(atom_of(wanted)[1:]) if atom_of(wanted)[0] == '=' else []
        for place in places:
            found = unified(file, action, item[1], place) if not isinstance(place, str) else None
            if found is not None:
                return found, 'finds out the value, so cases may tell' if head == 'k' else 'finds out the value'
    return None


def matched_jointly(file: File, action: Action, item: Expression, query: Expression) -> Optional[Tuple[Given, str]]:
    """The same of an item that tells of several literals together: of all that are asked, or of one of them."""
    whole = unified(file, action, item, query)
    if whole is not None:
        return whole, 'finds out'
    for literal in item[1:]:
        found = unified(file, action, atom_of(literal), atom_of(query[1]))
        if found is not None:
            parts = ' '.join(written(put_in(part, dict(found))) for part in item[1:])
            return found, f'finds out only whether all of these are true together: {parts}'
    return None


def unified(file: File, action: Action, own: Expression, wanted: Expression) -> Optional[Given]:
    """The terms of an action's parameters with which its expression is the one that is wanted; None where none are.

    A word with a `?` in what is wanted may be anything, and so may what stands where the action has a `_`.
    """
    given: Dict[str, Expression] = {}
    if not met(file, action, own, wanted, given):
        return None
    return tuple((name, term) for name, term in given.items() if not (isinstance(term, str) and term[0] == '?'))


def met(file: File, action: Action, own: Expression, wanted: Expression, given: Dict[str, Expression]) -> bool:
    """Whether an expression of an action may be what is wanted; fills in the parameters."""
    if isinstance(own, str) and own in action.parameters:
        kind = file.type_of(wanted) if not (isinstance(wanted, str) and wanted.startswith('?')) else None
        if kind is not None and not file.fits(kind, action.parameters[own]):
            return False
        return given.setdefault(own, wanted) == wanted
    if own == '_' or isinstance(wanted, str) and wanted.startswith('?'):
        return True
    if isinstance(own, str) or isinstance(wanted, str):
        return own == wanted
    return len(own) == len(wanted) and own[0] == wanted[0] and all(
        met(file, action, a, b, given) for a, b in zip(own[1:], wanted[1:]))


def may_be(member: Expression, wanted: Expression) -> bool:
    """Whether a member of a group may be what a query asks about, of either sign."""
    one, other = atom_of(member), atom_of(wanted)
    if one[0] != '=':
        return are_alike(one, other)
    if other[0] != '=':
        return wanted in one[1:]
    return any(not isinstance(place, str) and not isinstance(asked, str)
               and are_alike(place, asked) and are_alike(value, expected)
               for place, value in (one[1:], one[:0:-1]) for asked, expected in (other[1:], other[:0:-1]))


def are_alike(own: Expression, wanted: Expression) -> bool:
    """Whether two terms may be the same: a parameter may be anything, and a value any object."""
    if isinstance(own, str) and isinstance(wanted, str):
        return own == wanted or wanted.startswith('?')
    if isinstance(own, str) or isinstance(wanted, str):
        return True
    return len(own) == len(wanted) and own[0] == wanted[0] and all(map(are_alike, own[1:], wanted[1:]))


# Asking

class Tree:
    """The lines of what would make queries answered."""

    def __init__(self, file: File, depth: int, asking: Asking, seconds: float) -> None:
        self.file, self.depth, self.asking, self.seconds = file, depth, asking, seconds
        self.lines: List[str] = []
        self.seen: Set[Tuple[str, str]] = set()

    def put(self, query: Expression, level: int = 0) -> None:
        """Adds what would make a query answered."""
        indent = '    ' * level
        found = list(makers(self.file, query))
        start = list(self.of_start(query))
        self.lines += [f'{indent}{line}' for line in start]
        if not found and not start:
            self.lines.append(f'{indent}No add, no sense, no effect and no item of `init` is about it.')
        elif not found:
            self.lines.append(f'{indent}No add, no sense and no effect is about it.')
        for maker in found:
            self.put_maker(maker, query, level)

    def of_start(self, query: Expression) -> Iterator[str]:
        """What `init` has that is about a query."""
        heads = {word for word in words_of(query[1]) if word in self.file.arguments}
        items = [item for item in self.file.init if heads & set(words_of(item))]
        for head, how in (('kx', 'tells it where the others are known'), ('kw', 'says that it will be known whether'),
                          ('kv', 'says that the value will be known, so cases may tell')):
            for item in items:
                if item[0] == head:
                    is_other = head == 'kx' and not any(may_be(member, query[1]) for member in item[1:])
                    yield f'{written(item)} in `init` {OTHER_MEMBERS if is_other else how}.'
        facts = [written(item) for item in items if item[0] in ('kf', 'lcw')]
        if facts:
            more = ' ..' if len(facts) > MOST_FACTS else ''
            yield f'About it there is in `init` {" ".join(facts[:MOST_FACTS])}{more}.'

    def put_maker(self, maker: Maker, query: Expression, level: int) -> None:
        """Adds an action, whether it can be done, and what it lacks."""
        indent = '    ' * level
        given = dict(maker.given)
        shown = written((maker.action.name, *(given.get(name, name) for name in maker.action.parameters)))
        begun = f'{indent}{shown} {maker.how}'
        if (shown, written(query)) in self.seen:
            self.lines.append(f'{begun} (see above).')
            return
        self.seen.add((shown, written(query)))
        outcome = self.can_be_done(maker, maker.action.pre)
        if outcome.depth is not None:
            steps = f'after {outcome.depth - 1} steps' if outcome.depth != 2 else 'after one step'
            when = steps if outcome.depth > 1 else 'at once'
            self.lines.append(f'{begun}. It can be done {when}{self.told_under(maker)}.')
        elif outcome.is_none:
            self.lines.append(f'{begun}. No plan to depth {self.depth - 1} leads to it on every side.')
            self.put_lacking(maker, level)
        else:
            self.lines.append(f'{begun}. Whether it can be done isn\'t known, the search didn\'t end in its time.')

    def told_under(self, maker: Maker) -> str:
        """On what it hangs that the action tells it."""
        queries = [written(put_in(query, dict(maker.given))) for query in maker.queries]
        return f'; what it tells hangs on {" ".join(queries)}' if queries else ''

    def put_lacking(self, maker: Maker, level: int) -> None:
        """Adds which queries of an action aren't answered, each by asking without it, and what would make it so."""
        lacking = []
        for query in maker.action.pre:
            others = tuple(other for other in maker.action.pre if other != query)
            if self.asking.left() < 1:
                return
            if self.can_be_done(maker, others).depth is not None:
                lacking.append(query)
                self.put_query(maker, query, level, 'It lacks {}: without that it could.')
        for query in maker.action.pre if not lacking and len(maker.action.pre) > 1 else ():
            if self.asking.left() > 1 and self.can_be_done(maker, (query,)).is_none:
                self.put_query(maker, query, level, f'No plan to depth {self.depth - 1} leads to {{}} by itself.')

    def put_query(self, maker: Maker, query: Expression, level: int, said: str) -> None:
        """Adds a sentence on a query of an action, and what would make it answered."""
        asked = put_in(query, dict(maker.given))
        self.lines.append(f'{"    " * level}  {said.format(written(asked))}')
        if level + 1 < LEVELS and asked[0] in ('k', 'kw', 'kv'):
            self.put(asked, level + 1)

    def can_be_done(self, maker: Maker, pre: List_) -> Outcome:
        """Whether an action can be done, with these terms and this precondition; the depth counts it too."""
        done = self.free(set(self.file.arguments))
        fixed = tuple(('k', ('=', name, term)) for name, term in maker.given)
        last = replace(maker.action, name=self.free({action.name for action in self.file.actions}), pre=fixed + pre,
                       effects=(('set', (done,)),), senses=(), knows=(('kf', (done,)),))
        asked = replace(self.file, predicates=self.file.predicates + ((done,),), actions=self.file.actions + (last,),
                        goal=(('k', (done,)),))
        return self.asking.ask(asked, self.depth, self.seconds)

    @staticmethod
    def free(taken: Set[str]) -> str:
        """A name that isn't taken."""
        return next(name for name in ('done', *(f'done{n}' for n in range(len(taken) + 1))) if name not in taken)
