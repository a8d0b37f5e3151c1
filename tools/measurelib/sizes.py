"""The lines of the crates, by layer."""

import os
from typing import Dict, Iterable, List, NamedTuple

from shapelib.crates import TOP, crates, layer_of


class Size(NamedTuple):
    """A layer, how many crates it has, and their lines; edits are files."""

    layer: str
    crates: int
    code: int
    specs: int
    proofs: int
    edits: int


def lines(folder: str) -> int:
    """The lines of all files below a folder."""
    found = 0
    for at, _, names in os.walk(folder):
        for name in names:
            with open(os.path.join(at, name), 'rb') as file:
                found += file.read().count(b'\n')
    return found


def edits(folder: str) -> int:
    """The edits that must fail."""
    return len([name for name in os.listdir(folder) if name.endswith('.edit')]) if os.path.isdir(folder) else 0


def by_layer() -> List[Size]:
    """The layers in their order."""
    layers: Dict[str, List[str]] = {}
    for name in crates():
        layers.setdefault(layer_of(name), []).append(name)
    return [size(layer, [os.path.join(TOP, 'crates', name) for name in names]) for layer, names in layers.items()]


def size(layer: str, folders: List[str]) -> Size:
    """The size of a layer of these crates."""
    code, specs, proofs = (sum(lines(os.path.join(folder, part)) for folder in folders)
                           for part in ('src', 'specs', 'proofs'))
    return Size(layer, len(folders), code, specs, proofs,
                sum(edits(os.path.join(folder, 'must-fail')) for folder in folders))


def total(sizes: Iterable[Size]) -> Size:
    """All layers together."""
    return Size('all', *map(sum, zip(*(size[1:] for size in sizes))))
