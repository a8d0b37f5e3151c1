"""What `--all` asks at each step: whether each fact and each value is known, over all objects of the file."""

from dataclasses import dataclass
from typing import Dict, List, Tuple

from asklib.files import File, List_
from pkslib import Expression, written

from .asking import State

MOST = 600
"""How many facts or values are asked of a predicate or a function at most."""


@dataclass
class Everything:
    """The queries over the file's own predicates and functions."""

    file: File

    def queries(self) -> List_:
        """All queries: of each fact `kw`, and that it is known to be false; of each place `kv`."""
        queries: List[List_] = [('kw', atom) for atom in self.facts()]
        queries += [('k', ('not', atom)) for atom in self.facts()]
        queries += [('kv', place) for place in self.places()]
        return tuple(queries)

    def facts(self) -> List[List_]:
        """Each predicate at each choice of objects."""
        return [atom for name in self.heads() if name not in self.file.results for atom in self.file.instances(name)]

    def places(self) -> List[List_]:
        """Each function at each choice of objects."""
        return [place for name in self.heads() if name in self.file.results for place in self.file.instances(name)]

    def heads(self) -> List[str]:
        """The predicates and functions that aren't too many to ask."""
        return [name for name, types in self.file.arguments.items() if self.file.count(types) <= MOST]

    def left_out(self) -> List[str]:
        """Those that are too many."""
        own = self.heads()
        return [name for name in self.file.arguments if name not in own]

    def news(self, before: State, state: State) -> List[Tuple[str, List[str]]]:
        """What is answered now and wasn't before, beside the known literals."""
        known = set(state.known)
        whether: List[List_] = [('kw', atom) for atom in self.facts() if ('k', ('not', atom)) not in state.answered
                   and written(atom) not in known]
        closed: List[List_] = [('k', ('not', atom)) for atom in self.facts() if written(('not', atom)) not in known]
        values: List[List_] = [('kv', place) for place in self.places()
                  if not any(text.startswith(f'(= {written(place)} ') for text in known)]
        return [(name, [written(query[1]) for query in queries
                        if query in state.answered and query not in before.answered])
                for name, queries in (('known whether', whether), ('known by a closed world', closed),
                                      ('known value', values))]
