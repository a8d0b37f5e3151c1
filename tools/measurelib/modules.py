"""Where the time of a check goes: by when it kept each module of a crate."""

import os
import re
from typing import Dict, Iterator, List, Tuple

SHOWN = 20
"""How many modules are shown, the dearest first."""

FILE = re.compile(r'(?:Rattle-\w+-(?:proofs|specs)\.)?(.*?)(?:\.decls)?\.oantt')

KINDS = {'Lts': 'the steps of a body as the prover reads them', 'Proof': 'that a body meets its contract',
         'other': 'all else'}
"""What modules are told apart by, and what is in them."""


def kept(folder: str) -> List[Tuple[float, str]]:
    """When each file of a folder was kept, and the module that it is of, in order."""
    found = []
    for at, _, names in os.walk(folder):
        for name in names:
            match = FILE.fullmatch(name)
            if match:
                found.append((os.stat(os.path.join(at, name)).st_mtime, match.group(1)))
    return sorted(found)


def seconds(folder: str) -> Dict[str, float]:
    """The seconds between a module's files and those that were kept before them."""
    found: Dict[str, float] = {}
    files = kept(folder)
    for (before, _), (at, name) in zip(files, files[1:]):
        found[name] = found.get(name, 0.0) + at - before
    return found


def kind_of(name: str) -> str:
    """What a module is told apart by."""
    parts = name.split('.')
    if any(part == 'Lts' or part.startswith('Lts-') for part in parts):
        return 'Lts'
    return 'Proof' if parts[-1] == 'Proof' else 'other'


def table(folder: str) -> Iterator[str]:
    """The seconds by kind, and the dearest modules."""
    taken = seconds(folder)
    yield '| Module | Seconds |'
    yield '|---|---|'
    for kind, what in KINDS.items():
        own = sum(time for name, time in taken.items() if kind_of(name) == kind)
        yield f'| `{kind}`: {what} | {own:.0f} |'
    for name, time in sorted(taken.items(), key=lambda item: (-item[1], item[0]))[:SHOWN]:
        yield f'| `{name}` | {time:.1f} |'
