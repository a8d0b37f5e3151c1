"""Plans as one means them: printed ones, and ones that end early or have sides left out."""

from dataclasses import dataclass
from typing import List, Sequence, Tuple

from pkslib import Act, Branch, Cases, Expression, Goal, Impossible, Leaf, Malformed, Tree, expressions, need_no_other


@dataclass(frozen=True)
class Stop(Leaf):
    """A way ends here because the text says no more."""


class _Lines:
    """The lines of a plan that are neither blank nor comments, with their indentation and number."""

    def __init__(self, text: str) -> None:
        self.lines: List[Tuple[int, str, int]] = []
        for number, line in enumerate(text.expandtabs().splitlines(), 1):
            said = line.split(';')[0].rstrip()
            if said.strip() and not said.startswith('plan depth '):
                self.lines.append((len(said) - len(said.lstrip()), said.strip(), number))
        self.at = 0

    def peek(self, least: int) -> str:
        """The next line where it is indented at least so much; else nothing."""
        if self.at < len(self.lines) and self.lines[self.at][0] >= least:
            return self.lines[self.at][1]
        return ''

    def fault(self, what: str) -> Malformed:
        """What is wrong at the next line."""
        number = self.lines[min(self.at, len(self.lines) - 1)][2] if self.lines else 1
        return Malformed(what, number)

    def parsed(self, text: str) -> Tuple[Expression, ...]:
        """The expressions of the next line."""
        try:
            return tuple(expressions(text))
        except Malformed as fault:
            raise self.fault(fault.what) from None


def read_meant(text: str) -> Tree:
    """The tree of a plan; Malformed, with the line, where a line is none of a plan.

    The first line `plan depth D` may be missing. Where the text ends, and on a side that it leaves out, stands Stop.
    """
    need_no_other(text)
    lines = _Lines(text)
    tree = _body(lines, 0)
    if lines.at < len(lines.lines):
        line, before = lines.lines[lines.at][1], lines.lines[lines.at - 1][1] if lines.at else ''
        side = {'branch': '`true` or `false`', 'cases': '`case VALUE`'}.get(before.split()[0] if before else '')
        raise lines.fault(f'behind `{before}` stands {side}, and here is `{line}`' if side
                          else f'the plan has ended, and here is `{line}`')
    return tree


def _body(lines: _Lines, least: int) -> Tree:
    acts: List[Sequence[Expression]] = []
    while lines.peek(least).startswith('('):
        acts.append(_act(lines, lines.peek(least)))
        lines.at += 1
    tree = _end(lines, least)
    for act in reversed(acts):
        tree = Act(str(act[0]), tuple(act[1:]), tree)
    return tree


def _act(lines: _Lines, line: str) -> Sequence[Expression]:
    parsed = lines.parsed(line)
    if len(parsed) != 1 or isinstance(parsed[0], str) or not parsed[0] or not isinstance(parsed[0][0], str):
        raise lines.fault(f'no action: `{line}`')
    return parsed[0]


def _end(lines: _Lines, least: int) -> Tree:
    line = lines.peek(least)
    own = lines.lines[lines.at][0] if line else 0
    if line in ('goal', 'impossible'):
        lines.at += 1
        return Goal() if line == 'goal' else Impossible()
    if line.startswith('branch '):
        literals = lines.parsed(line[len('branch '):])
        lines.at += 1
        return _branch(lines, literals, own)
    if line.startswith('cases '):
        terms = lines.parsed(line[len('cases '):])
        if len(terms) != 1:
            raise lines.fault('cases have one term')
        lines.at += 1
        return _cases(lines, terms[0], own)
    if line and line not in ('true', 'false') and not line.startswith('case '):
        raise lines.fault(f'no line of a plan: `{line}`. A line is an action in parentheses, `branch LITERAL` with `true` '
                          'and `false`, `cases TERM` with `case VALUE`, `goal` or `impossible`')
    return Stop()  # type: ignore[return-value]


def _branch(lines: _Lines, literals: Tuple[Expression, ...], own: int) -> Tree:
    sides = {}
    for name in ('true', 'false'):
        if lines.peek(own) == name and lines.lines[lines.at][0] == own:
            lines.at += 1
            sides[name] = _body(lines, own + 1)
    stop: Tree = Stop()  # type: ignore[assignment]
    return Branch(literals, sides.get('true', stop), sides.get('false', stop))


def _cases(lines: _Lines, term: Expression, own: int) -> Tree:
    found = []
    while lines.peek(own).startswith('case ') and lines.lines[lines.at][0] == own:
        value = lines.peek(own)[len('case '):].strip()
        lines.at += 1
        found.append((value, _body(lines, own + 1)))
    return Cases(term, tuple(found))
