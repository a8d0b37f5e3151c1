"""Finds a world that fits the start of a file: all known facts are so, of each group one, of each region no others."""

import difflib
from typing import Dict, Iterable, Iterator, List, NamedTuple, Optional, Sequence, Set, Tuple, Union

from .files import File
from .forms import Expression, written
from .trees import Literal, Term
from .worlds import Fact, World


class NoWorld(ValueError):
    """No world fits, or what is wanted of it isn't of the file."""


class Known(NamedTuple):
    """A literal that must be true."""

    literal: Literal


class Group(NamedTuple):
    """Literals of which exactly one must be true."""

    members: Tuple[Literal, ...]


class Region(NamedTuple):
    """A pattern, and the atoms that alone may be true of those that meet it."""

    pattern: Expression
    listed: Tuple[Expression, ...]


Need = Union[Known, Group, Region]
"""Something that a world must be like."""


def _need_term(file: File, term: Expression) -> str:
    """The type of a term without parameters; NoWorld, with a sentence, where it isn't one of the file."""
    if isinstance(term, str):
        if term not in file.objects:
            raise NoWorld(f'`{term}` is no object of the file{_meant(term, file.objects)}')
        return file.objects[term]
    function = file.functions.get(str(term[0])) if term else None
    if function is None or len(function.arguments) != len(term) - 1:
        raise NoWorld(f'`{written(term)}` is no term of the file{_meant(str(term[0]), file.functions) if term else ""}')
    _need_arguments(file, term, function.arguments, 'term')
    return function.result


def _need_arguments(file: File, list_: Expression, kinds: Sequence[str], what: str) -> None:
    """NoWorld, with a sentence, where the arguments of a list aren't terms of the file or aren't of these types."""
    for term, kind in zip(list_[1:], kinds):
        own = _need_term(file, term)
        if not file.fits(own, kind):
            declared = written((list_[0], *kinds))
            raise NoWorld(f'`{written(list_)}` is no {what} of the file: `{written(term)}` is a `{own}`, and '
                          f'`{list_[0]}` is declared as `{declared}`')


def need_literal(file: File, literal: Expression) -> None:
    """NoWorld, with a sentence, where a literal without parameters isn't one of the file."""
    head = str(literal[0]) if not isinstance(literal, str) and literal else ''
    if head == 'not' and len(literal) == 2:
        need_literal(file, literal[1])
        return
    kinds = file.predicates.get(head)
    terms = 2 if head == '=' else len(kinds) if kinds is not None else -1
    if isinstance(literal, str) or len(literal) - 1 != terms:
        raise NoWorld(f'`{written(literal)}` is no literal of the file{_instead(file, literal)}')
    if kinds is not None:
        _need_arguments(file, literal, kinds, 'literal')
    for term in literal[1:] if kinds is None else ():
        _need_term(file, term)


def _instead(file: File, literal: Expression) -> str:
    """What is said of a list that is no literal of the file, behind a colon."""
    if isinstance(literal, str) or not literal or not isinstance(literal[0], str):
        return ''
    head = literal[0]
    if head in file.functions:
        count = len(file.functions[head].arguments)
        value = written(literal[1 + count]) if len(literal) == 2 + count else 'VALUE'
        return f': a value is said by `(= {written(literal[:1 + count])} {value})`'
    if head in ('k', 'kf') and len(literal) == 2 and not isinstance(literal[1], str):
        return f': what is so stands by itself, as `{written(literal[1])}`'
    if head not in file.predicates:
        return _meant(head, (*file.predicates, *file.functions))
    declared = written((head, *file.predicates[head]))
    return f': `{head}` is declared as `{declared}`'


def _meant(word: str, names: Iterable[str]) -> str:
    """What is said, behind a colon, of a word that isn't declared where one of these names looks like it."""
    close = difflib.get_close_matches(word, list(names), 1)
    return f': is `{close[0]}` meant?' if close else ''


def _need_pattern(file: File, pattern: Expression) -> None:
    """NoWorld, with a sentence, where a pattern isn't one of the file."""
    kinds = None if isinstance(pattern, str) or not pattern else file.predicates.get(str(pattern[0]))
    if kinds is None or len(kinds) != len(pattern) - 1:
        raise NoWorld(f'`{written(pattern)}` is no pattern of the file')
    for slot in pattern[1:]:
        if slot != '_':
            _need_term(file, slot)


def needs(file: File) -> List[Need]:
    """What the start of a file asks of a world; NoWorld where it has something that isn't of the file."""
    known, rest = [], []
    for item in file.init:
        head, parts = (item[0], item[1:]) if not isinstance(item, str) and item else ('', ())
        if head in ('kf', 'kx') and parts:
            for literal in parts:
                need_literal(file, literal)
        if head == 'kf' and len(parts) == 1:
            known.append(parts[0])
        elif head == 'kx' and parts:
            rest.append(item)
        elif head == 'lcw' and len(parts) == 1:
            _need_pattern(file, parts[0])
            rest.append(item)
        elif head not in ('kw', 'kv'):
            raise NoWorld(f'`{written(item)}` is no item of a start')
    needed: List[Need] = [Known(literal) for literal in known]
    for item in rest:
        is_group = item[0] == 'kx'
        listed = () if is_group else tuple(atom for atom in known if atom[0] == item[1][0])
        needed.append(Group(tuple(item[1:])) if is_group else Region(item[1], listed))
    return needed


class _Open(Exception):
    """A place has no value yet."""


class _Clash(Exception):
    """What is so far can't be."""


class _Partial:
    """A world in the making: some values, some truths, and values that places can't have."""

    def __init__(self, file: File) -> None:
        self.file = file
        self.values: Dict[Fact, str] = {}
        self.truth: Dict[Fact, bool] = {}
        self.excluded: Dict[Fact, Set[str]] = {}
        self.results = {name: file.objects_of(function.result) for name, function in file.functions.items()}

    def copy(self) -> '_Partial':
        """The same world, to be filled in another way."""
        other = _Partial.__new__(_Partial)
        other.file, other.results = self.file, self.results
        other.values, other.truth = dict(self.values), dict(self.truth)
        other.excluded = {place: set(out) for place, out in self.excluded.items()}
        return other

    # ---- looking

    def place(self, term: Expression) -> Fact:
        """An atom or an application with the values of its arguments; _Open where one has none yet."""
        return (str(term[0]),) + tuple(self.value(part) for part in term[1:])

    def value(self, term: Term) -> str:
        """The value of a term; _Open where one is missing."""
        if isinstance(term, str):
            return term
        place = self.place(term)
        if place not in self.values:
            raise _Open
        return self.values[place]

    def options(self, place: Fact) -> List[str]:
        """The values that a place may still have."""
        out = self.excluded.get(place, set())
        return [name for name in self.results[place[0]] if name not in out]

    def holds(self, literal: Literal) -> Optional[bool]:
        """Whether a literal is true; None where that is open."""
        if literal[0] == 'not':
            inner = self.holds(literal[1])
            return None if inner is None else not inner
        try:
            if literal[0] == '=':
                return self._are_equal(literal[1], literal[2])
            return self.truth.get(self.place(literal))
        except _Open:
            return None

    def _sides(self, left: Term, right: Term) -> Tuple[List[str], List[Fact]]:
        """The values of two terms as far as there are any, and the places that have none."""
        known: List[str] = []
        places: List[Fact] = []
        for side in (left, right):
            own = side if isinstance(side, str) else self.values.get(self.place(side))
            if own is None:
                places.append(self.place(side))
            else:
                known.append(own)
        return known, places

    def _are_equal(self, left: Term, right: Term) -> Optional[bool]:
        """Whether two terms have one value; None where that is open."""
        known, places = self._sides(left, right)
        if not places:
            return known[0] == known[1]
        if len(places) == 2:
            return True if places[0] == places[1] else None
        options = self.options(places[0])
        return None if known[0] in options and len(options) > 1 else known[0] in options

    # ---- putting

    def give(self, place: Fact, value: str) -> None:
        """Gives a place its value; _Clash where it can't have it."""
        if value not in self.options(place) or self.values.get(place, value) != value:
            raise _Clash
        self.values[place] = value

    def make(self, literal: Literal, wanted: bool) -> bool:
        """Makes an open literal true or false; whether that could be done without choosing a value."""
        if literal[0] == 'not':
            return self.make(literal[1], not wanted)
        try:
            if literal[0] != '=':
                self.truth[self.place(literal)] = wanted
                return True
            return self._make_equal(literal[1], literal[2], wanted)
        except _Open:
            return False

    def _make_equal(self, left: Term, right: Term, wanted: bool) -> bool:
        """Gives the one side that is open the value of the other, or excludes it."""
        known, places = self._sides(left, right)
        if len(known) != 1:
            return False
        if wanted:
            self.give(places[0], known[0])
            return True
        self.excluded.setdefault(places[0], set()).add(known[0])
        options = self.options(places[0])
        if not options:
            raise _Clash
        if len(options) == 1:
            self.give(places[0], options[0])
        return True

    # ---- what is open

    def open_in_term(self, term: Term) -> Optional[Fact]:
        """The first place without a value that a term stands on."""
        if isinstance(term, str):
            return None
        found = self.open_in_terms(term[1:])
        if found is None and self.place(term) not in self.values:
            found = self.place(term)
        return found

    def open_in_terms(self, terms: Sequence[Term]) -> Optional[Fact]:
        """The same of several terms."""
        return next((place for place in map(self.open_in_term, terms) if place is not None), None)

    def open_in_literal(self, literal: Literal) -> Optional[Fact]:
        """The same of a literal."""
        return self.open_in_literal(literal[1]) if literal[0] == 'not' else self.open_in_terms(literal[1:])

    def open_in_literals(self, literals: Sequence[Literal]) -> Optional[Fact]:
        """The same of several literals, a pattern being read as one."""
        return next((place for place in map(self.open_in_literal, literals) if place is not None), None)


class _Fitting:
    """The search for a world: what must be is made so, then one choice after another is tried."""

    def worlds(self, partial: _Partial, left: Sequence[Need]) -> Iterator[_Partial]:
        """The worlds that are like a partial one and meet all needs."""
        try:
            left = self.settle(partial, left)
        except _Clash:
            return
        choices = [need for need in left if not isinstance(need, Region)]
        regions = [need for need in left if isinstance(need, Region)]
        if choices:
            for option in self.options(partial, choices[0]):
                yield from self.worlds(option, left)
            return
        for region in regions:
            place = self.open_place(partial, region)
            if place is not None:
                for option in self.values(partial, place):
                    yield from self.worlds(option, left)
                return
        yield partial

    def settle(self, partial: _Partial, left: Sequence[Need]) -> List[Need]:
        """Makes so what must be, until nothing more must; gives the needs that are still open."""
        changed = True
        while changed:
            changed, rest = False, []
            for need in left:
                before = len(partial.values) + len(partial.truth)
                if not self.is_met(partial, need):
                    rest.append(need)
                changed = changed or len(partial.values) + len(partial.truth) != before
            changed = changed or len(rest) < len(left)
            left = rest
        return list(left)

    def is_met(self, partial: _Partial, need: Need) -> bool:
        """Whether a need is met for good, where it can be made so without a choice."""
        if isinstance(need, Known):
            return self.is_known(partial, need.literal, True)
        if isinstance(need, Region):
            self.need_closed(partial, need)
            return False
        holding = [(member, partial.holds(member)) for member in need.members]
        true = sum(holds is True for _, holds in holding)
        open_members = [member for member, holds in holding if holds is None]
        if true > 1 or not true and not open_members:
            raise _Clash
        if true:
            return all([self.is_known(partial, member, False) for member in open_members])
        return len(open_members) == 1 and self.is_known(partial, open_members[0], True)

    @staticmethod
    def is_known(partial: _Partial, literal: Literal, wanted: bool) -> bool:
        """Whether a literal is as it must be, and no value had to be chosen for it; _Clash where it can't be."""
        holds = partial.holds(literal)
        if holds is None:
            return partial.make(literal, wanted)
        if holds != wanted:
            raise _Clash
        return True

    @staticmethod
    def open_place(partial: _Partial, region: Region) -> Optional[Fact]:
        """A place without a value that the region names, or None."""
        return partial.open_in_literals([region.pattern, *region.listed])

    def need_closed(self, partial: _Partial, region: Region) -> None:
        """_Clash where an atom is true that meets the pattern and isn't listed."""
        if self.open_place(partial, region) is not None:
            return
        listed = {partial.place(atom) for atom in region.listed}
        slots = [None if slot == '_' else partial.value(slot) for slot in region.pattern[1:]]
        for atom, is_true in partial.truth.items():
            meets = atom[0] == region.pattern[0] and all(s in (None, o) for s, o in zip(slots, atom[1:]))
            if is_true and meets and atom not in listed:
                raise _Clash

    def options(self, partial: _Partial, need: Need) -> Iterator[_Partial]:
        """The worlds in the making that differ by one choice which a need leaves open."""
        if isinstance(need, Group) and not any(partial.holds(member) for member in need.members):
            may_be = [member for member in need.members if partial.holds(member) is None]
            for member in may_be:
                yield from self.made(partial, member)
            return
        literals = need.members if isinstance(need, Group) else (need.literal,) if isinstance(need, Known) else ()
        place = partial.open_in_literals(literals)
        if place is not None:
            yield from self.values(partial, place)

    def made(self, partial: _Partial, literal: Literal) -> Iterator[_Partial]:
        """The worlds in the making in which a literal is true."""
        option = partial.copy()
        try:
            if option.holds(literal) is None and not option.make(literal, True):
                place = option.open_in_literal(literal)
                for other in self.values(option, place) if place else ():
                    yield from self.made(other, literal)
            elif option.holds(literal):
                yield option
        except _Clash:
            return

    @staticmethod
    def values(partial: _Partial, place: Fact) -> Iterator[_Partial]:
        """The world with each value that a place may have."""
        for value in partial.options(place):
            option = partial.copy()
            option.give(place, value)
            yield option


def _asked(file: File, wanted: Sequence[Literal]) -> List[Need]:
    """What the start and these literals ask of a world; NoWorld where a literal isn't one of the file."""
    for literal in wanted:
        need_literal(file, literal)
    return [Known(literal) for literal in wanted] + needs(file)


def fitting_world(file: File, wanted: Sequence[Literal] = ()) -> World:
    """A world that fits the start of a file and in which these literals are true.

    A fact that nothing makes true is false, and a place that nothing gives a value has the first object of its type.
    Of a group the first member is true that can be. NoWorld where none fits, or a literal isn't one of the file.
    """
    found = next(_Fitting().worlds(_Partial(file), _asked(file, wanted)), None)
    if found is None:
        said = ' and '.join(f'`{written(literal)}`' for literal in wanted)
        own = ' and '.join(f'`{_item(need)}`' for need in _contrary(file, wanted))
        raise NoWorld(f'no world fits the start{" and " + said if said else ""}{", since `init` has " + own if own else ""}')
    values = {}
    for place in file.places():
        options = found.options(place)
        if not options:
            raise NoWorld(f'no object may be the value of `{written(place)}`')
        values[place] = found.values.get(place, options[0])
    return World((atom for atom, is_true in found.truth.items() if is_true), values)


MOST_TRIED = 100
"""So many items of a start are left out one by one, to find those that are against something."""


def _contrary(file: File, wanted: Sequence[Literal]) -> List[Need]:
    """Items of the start that no world fits together with these literals, none too many; none where they are many."""
    left = needs(file)
    if len(left) > MOST_TRIED:
        return []
    for need in list(left):
        rest = [other for other in left if other is not need]
        if next(_Fitting().worlds(_Partial(file), [*map(Known, wanted), *rest]), None) is None:
            left = rest
    return left


def _item(need: Need) -> str:
    """An item of the start as it is written."""
    if isinstance(need, Group):
        return written(('kx', *need.members))
    return written(('kf', need.literal) if isinstance(need, Known) else ('lcw', need.pattern))


class Choices(NamedTuple):
    """What the start leaves open: of each group the members that may be true, and the values of each place."""

    groups: List[Tuple[Literal, ...]]
    places: List[Tuple[Fact, List[str]]]


def choices(file: File, wanted: Sequence[Literal] = ()) -> Choices:
    """What the start and these literals leave open; NoWorld as `fitting_world`."""
    partial, fitting = _Partial(file), _Fitting()
    try:
        left = fitting.settle(partial, _asked(file, wanted))
    except _Clash:
        raise NoWorld('no world fits the start') from None
    groups = [tuple(member for member in need.members if partial.holds(member) is None)
              for need in left if isinstance(need, Group)]
    places = [(place, partial.options(place)) for place in file.places() if place not in partial.values]
    return Choices([group for group in groups if group], [pair for pair in places if len(pair[1]) > 1])
