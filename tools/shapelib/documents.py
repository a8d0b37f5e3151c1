"""The shape of the documents: cells of tables, numbered decisions, the picture of the layers."""

import re
from typing import Dict, Iterator, List, Set, Tuple

Cells = List[str]


def rows(text: str) -> Iterator[Tuple[int, Cells]]:
    """The rows of all tables, each with the number of its line, but for heads and rules."""
    lines = text.split('\n')
    for number, line in enumerate(lines, 1):
        behind = lines[number] if number < len(lines) else ''
        if line.startswith('| ') and not behind.startswith('|---'):
            yield number, [cell.strip() for cell in line.strip().strip('|').split(' | ')]


def rows_under(text: str, head: str) -> Iterator[Tuple[int, Cells]]:
    """The rows below a heading, up to the next one of its depth."""
    start = text.index(head + '\n')
    end = text.find('\n' + head.split(' ')[0] + ' ', start + 1)
    part = '\n' * text.count('\n', 0, start) + text[start:end if end >= 0 else len(text)]
    return rows(part)


def decisions(text: str) -> Iterator[Tuple[int, str, str]]:
    """The numbered paragraphs: the number of the line, the decision's number, its words."""
    for number, line in enumerate(text.split('\n'), 1):
        found = re.match(r'- (?:\*\*(\d+)\.\*\* )?(.*)', line)
        if found:
            yield number, found.group(1) or '', found.group(2)


def picture(text: str) -> Tuple[Dict[str, List[str]], Set[Tuple[str, str]]]:
    """The nodes of a mermaid picture with the names that their labels have, or their own, and its edges."""
    drawn = re.findall(r'```mermaid\n(.*?)```', text, re.S)[0]
    labels = dict(re.findall(r'(\w+)\["([^"]*)"\]', drawn))
    edges: Set[Tuple[str, str]] = set()
    nodes: Set[str] = set()
    for line in re.sub(r'\["[^"]*"\]', '', drawn).split('\n'):
        if line.split() and line.split()[0] not in ('graph', 'subgraph', 'end'):
            sides = [[name.strip() for name in side.split('&')] for side in line.split('-->')]
            nodes |= {name for side in sides for name in side}
            edges |= {(upper, lower) for upper in sides[0] for lower in sides[-1] if len(sides) == 2}
    return {node: labels.get(node, node).split(' ') for node in sorted(nodes)}, edges
