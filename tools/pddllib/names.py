"""Names that the planner's format takes, and which names had to be changed."""

import re
from typing import Dict, List, Optional, Tuple

from pkslib.limits import NAME_BYTES
from whylib.names import near

from .text import Form


def fitting(word: str) -> str:
    """The name in letters, digits, `-` and `_`, beginning with a letter."""
    name = re.sub(r'[^a-z0-9_-]+', '-', word.lower())
    name = name.strip('-') or 'x'
    if not name[0].isalpha():
        name = 'x' + name.lstrip('_')
    return name[:NAME_BYTES]


class Names:
    """For each kind of names those of PDDL, in small letters, and what they are called here."""

    def __init__(self) -> None:
        self.known: Dict[str, Dict[str, str]] = {}
        self.changes: List[Tuple[str, str, str]] = []

    def declare(self, kind: str, form: Form) -> str:
        """Takes a name; none of the kind is given twice."""
        known = self.known.setdefault(kind, {})
        name = self.unused(kind, fitting(form.word))
        known[form.word] = name
        if name != form.raw and (kind, form.raw, name) not in self.changes:
            self.changes.append((kind, form.raw, name))
        return name

    def unused(self, kind: str, name: str) -> str:
        """The name, with a number behind it where it is taken."""
        taken, wanted, number = set(self.known.get(kind, {}).values()), name, 2
        while name in taken:
            end = f'-{number}'
            name, number = wanted[:NAME_BYTES - len(end)] + end, number + 1
        return name

    def extra(self, kind: str, name: str) -> str:
        """A name for something that has none in PDDL."""
        name = self.unused(kind, name)
        self.known.setdefault(kind, {})['; ' + name] = name
        return name

    def find(self, kind: str, word: Optional[str]) -> Optional[str]:
        """What a name of PDDL is called here, or None."""
        return self.known.get(kind, {}).get(word)

    def cure(self, kind: str, word: str, where: str) -> str:
        """What to do with a name of PDDL that isn't declared: the one that looks like it, else to declare it."""
        meant = near(word, (name for name in self.known.get(kind, {}) if not name.startswith(';')))
        return f'Is `{meant}` meant? Else add it to {where}.' if meant else f'Add it to {where}.'

    def table(self) -> List[str]:
        """A line for each name that was changed."""
        return [f'  {kind} {was} is {name}' for kind, was, name in self.changes]
