"""The cures of several faults, each told against the file with the cures of those before it."""

from bisect import bisect_right
from itertools import islice
from typing import Callable, Iterator, List, Optional, Set, Tuple

from pkslib import Code, Refusal, Text, read_refusal

from .cures import MOST, Cure, Edit, Outcome, Patient
from .further import Draft, Fault
from .names import Names

Find = Callable[[Refusal, Text], Optional[Outcome]]
"""What finds a cure for a refusal of a text, or None."""

Rank = Tuple[int, int, int, int]
ABOVE = ['It is mended above.']


def rank(code: int, place: Tuple[int, int]) -> Rank:
    """What refusals are ordered by: of two faults of a file the program tells that of the lesser rank."""
    if code < Code.VERSION:
        return (code // 10, 0, *place)
    if code <= Code.FORM:
        return (12, code, *place)
    group = {Code.ADD: 26, Code.CLASH: 27, Code.WORLD_FORM: 30, Code.WORLD_NO_VALUE: 32}
    return (group.get(Code(code), 20 if code < Code.ADD else 31), 0, *place)


class Mending:
    """A file with the cures of the faults that were told so far."""

    def __init__(self, text: Text, check: Callable[[bytes], str], find: Find) -> None:
        self.draft, self.check, self.find = Draft(text), check, find
        self.done: List[Edit] = []
        """The changes so far, at their places in the file as it is."""

    def is_accepted(self) -> bool:
        """Whether the file is accepted as far as it is mended."""
        return not self.check(self.draft.data).startswith('refused')

    def left(self, told: Set[Refusal]) -> Iterator[Fault]:
        """The faults that show when those that were told are mended, as long as each has a cure."""
        before = b''
        while self.draft.data != before and not self.is_accepted():
            before = self.draft.data
            refusal, text = read_refusal(self.check(before)), Text(before)
            line, column = self.draft.place(text, refusal)
            is_told = any((refusal.code, line, column) == (each.code, each.line, each.column) for each in told)
            if is_told or not self.is_as_it_was(text, refusal, (line, column)):
                return
            yield Fault(refusal, text, line, column, self.draft.origins)

    def sentences(self, fault: Fault) -> List[str]:
        """What mends a fault beside what mends those before it, and how far that leads."""
        if self.is_accepted():
            return ABOVE
        refusal, text = read_refusal(self.check(self.draft.data)), Text(self.draft.data)
        place = self.draft.place(text, refusal)
        own, first = rank(fault.refusal.code, (fault.line, fault.column)), rank(refusal.code, place)
        outcome = self.find(refusal, text) if own == first and refusal.code == fault.refusal.code else None
        if outcome is not None:
            return self.next(outcome)
        if first[0] > own[0] or first > own and self.is_as_it_was(text, refusal, place):
            return ABOVE
        return self.apart(self.find(fault.refusal, fault.text), fault)

    def is_as_it_was(self, text: Text, refusal: Refusal, place: Tuple[int, int]) -> bool:
        """Whether the form at a refusal stands in the file as it is, so that its place there is known."""
        first = self.draft.first
        now, was = text.form_at(text.at(refusal.line, refusal.column)), first.form_at(first.at(*place))
        return now is not None and was is not None and now.text() == was.text()

    def next(self, outcome: Outcome) -> List[str]:
        """The cure of the fault that the program tells of the file as far as it is mended."""
        by = 'With this and what is mended above' if self.done else 'With it'
        self.take(outcome.cure)
        return outcome.sentences(by)

    def take(self, cure: Cure) -> None:
        """Makes the changes of a cure."""
        self.done += self.from_here(cure.edits)
        self.draft.take(cure.edits)

    def apart(self, outcome: Optional[Outcome], fault: Fault) -> List[str]:
        """The cure of a fault beside one that has none, found where that is set aside."""
        edits = self.at_first(outcome.cure.edits, fault) if outcome is not None else None
        new = [edit for edit in edits or [] if edit not in self.done]
        if edits and not new:
            return ABOVE
        if not new or self.is_changed(new):
            return []
        cure = self.wider(Cure([(self.here(start), self.here(end), text) for start, end, text in new]), fault)
        self.take(cure)
        return [*Outcome(cure, self.draft.data, '').shown(), 'With it this fault is gone.']

    def wider(self, cure: Cure, fault: Fault) -> Cure:
        """The same cure also where something was set aside: a word is changed wherever it stands."""
        text, own = Text(self.draft.data), set(cure.edits)
        line, column = text.place(self.here(self.draft.first.at(fault.line, fault.column)))
        patient = Patient(text, Names(text), fault.refusal._replace(line=line, column=column))
        for other in islice(patient.cures(), MOST):
            is_same = {new for _, _, new in other.edits} == {new for _, _, new in own}
            if is_same and own < set(other.edits) and not self.is_changed(self.from_here(other.edits)):
                return other
        return cure

    def is_changed(self, edits: List[Edit]) -> bool:
        """Whether one of some changes, at their places in the file as it is, meets one that was made."""
        return any(start <= other[1] and other[0] <= end for start, end, _ in edits for other in self.done)

    def from_here(self, edits: List[Edit]) -> List[Edit]:
        """Changes of the file as far as it is mended, at their places in the file as it is."""
        origins = self.draft.origins
        return [(origins[start], origins[end], new) for start, end, new in edits]

    def at_first(self, edits: List[Edit], fault: Fault) -> Optional[List[Edit]]:
        """Changes at their places in the file as it is; None where one replaces what isn't as it was."""
        found, was = [], self.draft.first.data
        for start, end, new in edits:
            begin, stop = fault.origins[start], fault.origins[end]
            if fault.text.data[start:end] != was[begin:stop]:
                return None
            found.append((begin, stop, new))
        return found

    def here(self, at: int) -> int:
        """Where a place of the file as it is stands in the mended one."""
        return bisect_right(self.draft.origins, at) - 1
