"""Explains 270: which items of `init` contradict each other."""

from typing import Callable, Iterable, List, Optional

from pkslib import Code, Form, Text, read_refusal

from .names import Names

MOST_CALLS = 400


def without(text: Text, forms: Iterable[Form]) -> bytes:
    """The file without some forms; they become blanks, so that all places stay."""
    data = bytearray(text.data)
    for form in forms:
        for at in range(form.start, form.end):
            if data[at] != 10:
                data[at] = 32
    return bytes(data)


def clashes(said: str) -> bool:
    """Whether what `check` says is that the start contradicts itself."""
    return said.startswith('refused') and read_refusal(said).code == Code.CLASH


def conflict(text: Text, names: Names, check: Callable[[bytes], str]) -> Optional[List[Form]]:
    """Items that contradict each other and of which none can be left out, or None."""
    items = names.init()
    kept, step, calls = list(items), max(1, len(items) // 2), 0
    while True:
        at, shrunk = 0, False
        while at < len(kept):
            tried = kept[:at] + kept[at + step:]
            gone = [i for i in items if not any(i is k for k in tried)]
            calls += 1
            if calls > MOST_CALLS:
                return None
            if clashes(check(without(text, gone))):
                kept, shrunk = tried, True
            else:
                at += step
        if step == 1 and not shrunk:
            return kept
        step = max(1, step // 2)


def explain(text: Text, names: Names, check: Callable[[bytes], str]) -> List[str]:
    """What is said of a start that contradicts itself."""
    items = names.init()
    kept = conflict(text, names, check)
    if kept is None:
        return ['The items of `init` contradict each other. There are too many to say which: take '
                'out half of them, and look in which half it is.']
    said = ['These items of `init` contradict each other, and without any one of them the rest '
            'doesn\'t:']
    for form in kept:
        number = next(i for i, x in enumerate(items) if x is form) + 1
        said.append(f'    item {number}, line {text.place(form.start)[0]}: {form.short(100)}')
    said.append('Take one of them away.')
    if any(f.head() == 'lcw' for f in kept):
        said.append('An `lcw` says that no atom that meets its pattern is true but those that '
                    'stand in `init` as `(kf ..)`.')
    if any(f.head() == 'kx' for f in kept):
        said.append('Of a group `(kx ..)` exactly one member is true.')
    if any('(= ' in f.text() for f in kept):
        said.append('A function has one value, which is an object of its type.')
    return said
