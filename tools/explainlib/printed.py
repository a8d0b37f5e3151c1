"""What `explain` prints: a tree and the paths in it, and entries with their proofs."""

from typing import Iterable, List, Tuple

from explainlib.paths import Path
from explainlib.problem import Literal, Problem, literal_at
from explainlib.reasons import Line
from pkslib import Act, Branch, Cases, Goal, ProofLine, Tree, read_explained, sides

Owed = Tuple[Path, Literal]
"""A literal that is owed at the end of a path."""

Entry = Tuple[Literal, List[Line]]
"""A literal with its proof."""


class Owing:
    """What a tree owes, listed in the order in which it is printed: paths with literals."""

    def __init__(self, problem: Problem) -> None:
        self.problem = problem
        self.owed: List[Owed] = []

    def owes(self, path: Path, literals: Iterable[Literal]) -> None:
        """The tree owes these literals at the end of a path."""
        self.owed += [(path, literal) for literal in literals]

    def walk(self, tree: Tree, path: Path) -> None:
        """Lists what a tree owes that stands at the end of a path."""
        p = self.problem
        if isinstance(tree, Goal):
            self.owes(path, p.goals)
        elif isinstance(tree, Act):
            action = p.actions[p.acts[tree.name]]
            given = [p.term(t) for t in tree.arguments]
            self.owes(path, [literal_at(l, given) for l in action.needed])
            self.walk(tree.next, path.acted([e.at(given) for e in action.effects]))
        elif isinstance(tree, Branch):
            on = [p.literal(l) for l in tree.literals]
            for side, child in sides(tree):
                self.walk(child, path.taken('branch', on, side))
        elif isinstance(tree, Cases):
            for side, child in tree.sides:
                self.walk(child, path.taken('cases', p.term(tree.term), p.term(side)))


def read_text(problem: Problem, text: str) -> Tuple[List[Owed], List[Entry]]:
    """The owed literals with their paths, and the entries: literals with their proofs."""
    if not text.endswith('\n'):
        raise ValueError('no line feed at the end')
    said = read_explained(text)
    owing = Owing(problem)
    owing.walk(said.tree, Path())
    return owing.owed, [(problem.literal(entry.literal), [of_problem(problem, line) for line in entry.proof])
                        for entry in said.entries]


def of_problem(problem: Problem, line: ProofLine) -> Line:
    """A line of a proof, its fact over the numbers of the problem."""
    return Line(line.moment, problem.fact(line.fact), line.reason, line.told, line.cites)
