"""Looks for the parenthesis that makes a file with a missing one, or one too many, acceptable again."""

import time
from typing import Callable, Iterator, List, Optional

from pkslib import Code, Text, read_refusal

from .cures import Cure, Outcome

SECONDS = 8.0
Check = Callable[[bytes], str]


def in_order(text: Text, is_missing: bool, first: Optional[int]) -> List[int]:
    """The lines in which to look, the likely ones first."""
    balance = text.balance()
    wrong = [n for n, more in balance.items() if more and (more > 0) == is_missing]
    likely = ([first] if first else []) + wrong
    return likely + [n for n in balance if n not in set(likely)]


def at_ends(text: Text, is_missing: bool, first: Optional[int]) -> Iterator[Cure]:
    """A parenthesis more, or one less, at the end of each line."""
    for number in in_order(text, is_missing, first):
        end = text.code_end(number)
        if is_missing:
            yield Cure([(end, end, ')')])
        elif text.data[end - 1:end] == b')':
            yield Cure([(end - 1, end, '')])


def within(text: Text, is_missing: bool) -> Iterator[Cure]:
    """A parenthesis more between two lists, or one less where two stand together, anywhere."""
    code = text.code()
    for at in text.closing:
        if not is_missing and code[at + 1:at + 2] != ')' and code[at - 1:at] == ')':
            yield Cure([(at, at + 1, '')])
        if is_missing and code[at + 1:].lstrip()[:1] == '(':
            yield Cure([(at + 1, at + 1, ')')])


def guided(text: Text, check: Check) -> Iterator[Cure]:
    """Parentheses before those forms at which the file is refused when all open lists are closed at its end."""
    code = text.code()
    end, places = len(code.rstrip()), []
    for _ in text.open:
        cure = Cure([(at, at, ')') for at in places] + [(end, end, ')' * (len(text.open) - len(places)))])
        data = cure.done(text.data)
        said = check(data)
        if not said.startswith('refused') or read_refusal(said).code >= Code.LONG_NAME:
            yield cure
            return
        refusal = read_refusal(said)
        at = Text(data).at(refusal.line, refusal.column)
        at -= sum(place < at for place in places)
        place = len(code[:at].rstrip())
        if place in places or not place:
            return
        places.append(place)
    yield Cure([(at, at, ')') for at in places])


def found(text: Text, code: int, first: Optional[int], check: Check) -> Optional[Outcome]:
    """A cure after which the program finds no fault of text or shape, or None."""
    start, is_missing = time.monotonic(), code == Code.UNCLOSED
    ways = [at_ends(text, is_missing, first), guided(text, check) if is_missing else iter(()), within(text, is_missing)]
    for cure in (cure for way in ways for cure in way):
        if time.monotonic() - start > SECONDS:
            return None
        data = cure.done(text.data)
        said = check(data)
        if said.startswith('accepted') or read_refusal(said).code >= Code.LONG_NAME:
            return Outcome(cure, data, said)
    return None
