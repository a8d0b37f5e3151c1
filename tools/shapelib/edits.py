"""The edits that must be refused: what each turns, and whether it can reach the prover."""

import glob
import os
import re
from typing import Iterator, List, NamedTuple, Set

from shapelib.crates import TOP, read

# A name of a type, a variant or a constant that isn't written by a path.
NAME = re.compile(r'(?<![\w:])[A-Z]\w*')

# Names that need no import.
KNOWN = {'Box', 'Err', 'None', 'Ok', 'Option', 'Result', 'Self', 'Some', 'String', 'Vec'}


class Turn(NamedTuple):
    """A line of an edit: the file, what stands there, and what is to stand in its place."""

    file: str
    old: str
    new: str


def turns(edit: str) -> Iterator[Turn]:
    """The lines that an edit turns, as `rt` reads them."""
    crate = os.path.dirname(os.path.dirname(edit))
    file = old = ''
    for line in read(edit).split('\n'):
        word, colon, text = line.partition(': ')
        if word == 'file' and colon:
            file = os.path.join(crate, text.strip())
        elif word == 'old' and colon:
            old = text
        elif line.startswith('new:'):
            yield Turn(file, old, line[len('new:'):].removeprefix(' '))


def bad_edits() -> Iterator[str]:
    """Edits that `rt ci` can't try and yet lets pass: of a text that doesn't stand there once, or with a name that isn't there."""
    for path in sorted(glob.glob(os.path.join(TOP, 'crates', '*', 'must-fail', '*.edit'))):
        edit = os.path.relpath(path, TOP)
        found = list(turns(edit))
        imported = {name for turn in found if turn.new.startswith('use ') for name in NAME.findall(turn.new)}
        for turn in found:
            yield from (f'{edit}: {fault}' for fault in faults(turn, KNOWN | imported))


def faults(turn: Turn, known: Set[str]) -> List[str]:
    """What is wrong with a line of an edit."""
    text = read(turn.file)
    count = text.count(turn.old)
    found = [f'its old text stands {count} times in {turn.file}'] if count != 1 else []
    names = {name for name in NAME.findall(turn.new) if name not in known}
    return found + [f'{turn.file} has no name {name}' for name in sorted(names) if not re.search(rf'\b{name}\b', text)]
