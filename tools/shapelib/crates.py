"""The crates, what each stands on, and the layers that their names tell."""

import os
from typing import Dict, List, Set, Tuple

TOP = os.path.dirname(os.path.dirname(os.path.dirname(os.path.abspath(__file__))))

# The names with which those of crates begin, the longest that fits telling the layer.
LAYERS = """pks_io pks_terms pks_laws pks_world pks_text pks_reader pks_pmap pks_kf pks_kw pks_kv pks_kx pks_lcw pks_query
pks_justify pks_progress pks_branch pks_history pks_postdict pks_past pks_plan pks_exec pks_search pks_recall pks_proof
pks_explain pks_derive pks_dag pks_agent pks_run pks pks_tests""".split()


def read(path: str) -> str:
    """The text of a file of the repository."""
    with open(os.path.join(TOP, path), encoding='utf-8') as f:
        return f.read()


def crates() -> Dict[str, List[str]]:
    """Each crate of crates.txt with the crates of the repository that it names, in the file's order."""
    found: Dict[str, List[str]] = {}
    for line in read('crates.txt').split('\n'):
        name, colon, below = line.split('#')[0].partition(':')
        if colon:
            found[name.strip()] = below.split()
    return {name: [b for b in below if b in found] for name, below in found.items()}


def belongs(name: str, layer: str) -> bool:
    """Whether a crate's name begins with a layer's: `pks` is the program's alone."""
    return name == layer or (layer != 'pks' and name.startswith(layer + '_'))


def layer_of(name: str) -> str:
    """The layer that a crate's name tells, or '' where it tells none."""
    return max((layer for layer in LAYERS if belongs(name, layer)), key=len, default='')


def first_line(name: str) -> str:
    """The first sentence of a crate's doc comment, with what of it stands on further lines."""
    for file in ('lib.rt', 'main.rt'):
        path = os.path.join('crates', name, 'src', file)
        if os.path.exists(os.path.join(TOP, path)):
            lines = [line[3:].strip() for line in read(path).split('\n') if line.startswith('//!')]
            sentence, stop, _ = ' '.join(lines).partition('. ')
            return sentence + stop.strip()
    return ''


def needed(edges: Dict[str, List[str]]) -> Set[Tuple[str, str]]:
    """The edges of a graph without cycles that don't follow from others."""
    below: Dict[str, Set[str]] = {}

    def reach(name: str) -> Set[str]:
        if name not in below:
            below[name] = set().union(*({b} | reach(b) for b in edges[name]))
        return below[name]
    return {(n, b) for n in edges for b in edges[n] if not any(b in reach(c) for c in edges[n] if c != b)}
