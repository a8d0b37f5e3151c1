"""All faults of a file that can be found by themselves: each is set aside, and the file is looked at again."""

import re
from dataclasses import dataclass
from typing import Callable, Iterator, List, Optional

from pkslib import Code, Form, Refusal, Text, read_refusal

from . import cures, repair, shape, start
from .names import Names

MOST = 40
PARTS = ('pre', 'effects', 'senses', 'knows', 'init', 'true', 'values')
WHOLE = ('params', 'cost')


@dataclass
class Fault:
    """A fault in what is left of a file, with its place in the file as it is."""

    refusal: Refusal
    text: Text
    line: int
    column: int
    origins: List[int]
    """Where each byte of what is left stood at first."""


class Draft:
    """A text that is changed, which knows where each byte stood at first."""

    def __init__(self, text: Text) -> None:
        self.first, self.data = text, text.data
        self.origins: List[int] = list(range(len(text.data) + 1))

    def take(self, edits: List[cures.Edit]) -> None:
        """Makes the changes."""
        for begin, end, new in sorted(edits, reverse=True):
            origin = self.origins[min(begin, len(self.data))]
            self.data = self.data[:begin] + new.encode('ascii', 'replace') + self.data[end:]
            self.origins = self.origins[:begin] + [origin] * len(new) + self.origins[end:]

    def blank(self, forms: List[Form]) -> None:
        """Puts blanks in the place of some forms."""
        self.data = start.without(Text(self.data), forms)

    def place(self, text: Text, refusal: Refusal) -> 'tuple[int, int]':
        """The line and the column at which a place stood at first."""
        at = text.at(refusal.line, refusal.column)
        return self.first.place(min(self.origins[min(at, len(self.data))], len(self.first.data)))


def faults(text: Text, check: Callable[[bytes], str]) -> Iterator[Fault]:
    """The faults of a file, one after another, as far as each can be set aside."""
    draft = Draft(text)
    for _ in range(MOST):
        said = check(draft.data)
        if not said.startswith('refused'):
            return
        refusal, now = read_refusal(said), Text(draft.data)
        if refusal.code == Code.WORLD_NO_VALUE and values_in(now) < values_in(text):
            return
        yield Fault(refusal, now, *draft.place(now, refusal), draft.origins)
        before = draft.data
        set_aside(draft, now, refusal, check)
        if draft.data == before:
            return


def values_in(text: Text) -> int:
    """How many values the world of a text has."""
    names = Names(text)
    return len(names.section(names.world, 'values'))


def set_aside(draft: Draft, text: Text, refusal: Refusal, check: Callable[[bytes], str]) -> None:
    """Changes the draft so that this fault isn't met again, and nothing that hangs on it; or leaves it as it is."""
    names = Names(text)
    form = text.form_at(text.at(refusal.line, refusal.column))
    if refusal.code in (Code.UNCLOSED, Code.UNOPENED):
        outcome = repair.found(text, refusal.code, shape.suspect(text), check)
        draft.take(outcome.cure.edits if outcome else [])
    elif form is not None and form.word and form.word in '<>':
        draft.blank(aside(names, form))
    elif refusal.code in (Code.ASCII, Code.BAD_BYTE):
        letter = text.text[text.at(refusal.line, refusal.column)]
        pattern = '[\x80-\xff]' if refusal.code == Code.ASCII else re.escape(letter)
        source = text.text if refusal.code == Code.ASCII else text.code()
        outcome = cures.found(text, names, refusal, check) if refusal.code == Code.BAD_BYTE else None
        draft.take(outcome.cure.edits if outcome else [(m.start(), m.end(), ' ') for m in re.finditer(pattern, source)])
    elif refusal.code == Code.CLASH:
        kept = start.conflict(text, names, check)
        draft.blank(kept[:1] if kept else [])
    elif refusal.code == Code.ADD and form is not None:
        draft.blank([form])
    else:
        blanked = aside(names, form) if form is not None else []
        aim = aim_of(form)
        if blanked:
            draft.blank(blanked)
        elif aim is not None and aim.parent is not None and len(aim.parent.parts) > 2:
            draft.blank([aim])
        elif aim is not None and names.objects:
            draft.take([(aim.start, aim.end or aim.start, '(k (= {0} {0}))'.format(next(iter(names.objects))))])
        else:
            outcome = cures.found(text, names, refusal, check)
            draft.take(outcome.cure.edits if outcome else [])
            if outcome is None and refusal.code == Code.WORLD and form is not None:
                draft.blank([form])


def aim_of(form: Optional[Form]) -> Optional[Form]:
    """The part of the goal in which a form stands, or None."""
    while form is not None and (form.parent is None or form.parent.head() != 'goal'):
        form = form.parent
    return form


def aside(names: Names, form: Form) -> List[Form]:
    """The least part of the file around a fault on which nothing else hangs; nothing where there is none."""
    part: Optional[Form] = form
    while part is not None and part.parent is not None:
        head, above = part.parent.head(), part.parent
        if head in PARTS and part.index() > 0:
            return [part] + told_by(names, part, str(head))
        if head == 'action' and part.index() > 0:
            known = part.head() in WHOLE or part.word is not None
            return [above] if known else [part] + told_by(names, part, str(part.head()))
        part = above
    return []


def told_by(names: Names, part: Form, head: str) -> List[Form]:
    """What the action tells, where a part of it is set aside on which that may rest."""
    action = names.action_of(part)
    return list(names.section(action, 'knows')) if action is not None and head != 'knows' else []
