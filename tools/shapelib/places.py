"""All places that a new kind of effect, query, add or reason comes to."""

import glob
import os
import re
from dataclasses import dataclass
from typing import Dict, List

from .crates import TOP, crates


@dataclass(frozen=True)
class Kind:
    """What may have a new kind: its type in code, some of its constructors in definitions, a word of its own in scripts."""
    type: str
    constructors: str
    word: str


KINDS = {
    'effect': Kind('Target', 'Unset|Clear', 'unset|clear'),
    'query': Kind('Query', 'KnowWhether|KnowValue', 'not-derived|kw'),
    'add': Kind('Item', 'ItemKf|ItemKw|ItemKv|ItemLcw', 'knows|lcw'),
    'reason': Kind('Reason', r'By(?:Given|Side|Same|Swap|Only|Others|Range|Closed|Keep|Back|Effect|Must|Cannot|Grow)',
                   'cannot|grow'),
}


def found(pattern: str, files: str) -> List[str]:
    """The files in which a pattern stands, in order."""
    word = re.compile(pattern)
    paths = sorted(f for f in glob.glob(os.path.join(TOP, files), recursive=True) if os.path.isfile(f))
    return [os.path.relpath(f, TOP) for f in paths if word.search(open(f, encoding='utf-8', errors='replace').read())]


def by_crate(paths: List[str]) -> Dict[str, List[str]]:
    """The names of files by their crates, in the order of crates.txt."""
    return {crate: names for crate in crates()
            for names in [[os.path.basename(p) for p in paths if p.split('/')[1] == crate]] if names}


def code(kind: Kind) -> Dict[str, List[str]]:
    """The crates whose code has the type or variants of it, with the files."""
    return by_crate(found(rf'\b{kind.type}::[A-Z]|\benum {kind.type}\b', 'crates/*/src/**/*.rt'))


def definitions(kind: Kind) -> Dict[str, List[str]]:
    """The crates whose definitions have constructors, with the files."""
    return by_crate(found(rf'\b(?:{kind.constructors})\b', 'crates/*/specs/**/*.antt'))


def proofs(kind: Kind) -> Dict[str, List[str]]:
    """The crates whose proofs have constructors, with the files."""
    return by_crate(found(rf'\b(?:{kind.constructors})\b', 'crates/*/proofs/**/*.antt'))


def scripts(kind: Kind) -> List[str]:
    """The scripts that have a word of the kind in quotes or between spaces."""
    paths = found(rf'(?<![\w-])(?:{kind.word})(?![\w-])', 'tools/**/*')
    return [p for p in paths if p.endswith('.py') or '.' not in os.path.basename(p)]
