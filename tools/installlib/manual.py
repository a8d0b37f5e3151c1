"""docs/manual.txt, the source of `pks help`, of the man page and of the completion.

Sections begin with `= NAME`, the words of the command with `== WORD ..` and their summary in the next line.
"""

import re
from dataclasses import dataclass, field
from typing import List


@dataclass
class Section:
    """A heading, its depth (1 or 2), and the lines below it."""

    heading: str
    depth: int
    lines: List[str] = field(default_factory=list)


def sections(text: str) -> List[Section]:
    """The sections of the manual, in order; ValueError where a line stands before the first."""
    found: List[Section] = []
    for line in text.splitlines():
        head = re.match(r'(==?) (.*)$', line)
        if head:
            found.append(Section(head[2], len(head[1])))
        elif found:
            found[-1].lines.append(line)
        elif line.strip():
            raise ValueError(f'the manual has a line before its first section: {line}')
    return found


def words(found: List[Section]) -> List[str]:
    """The words of the command, without their numbers."""
    return [section.heading.split()[0] for section in found if section.depth == 2]


def topics(found: List[Section]) -> List[str]:
    """All that `help` takes."""
    return words(found) + [section.heading.lower() for section in found if section.depth == 1]


# The man page

def roff(text: str) -> str:
    """A line of text for man, with what stands in backquotes bold."""
    plain = text.replace('\\', '\\e').replace('-', '\\-')
    plain = re.sub(r'`([^`]*)`', r'\\fB\1\\fR', plain)
    return '\\&' + plain if plain[:1] in ('.', "'") else plain


def block(lines: List[str]) -> List[str]:
    """The lines of a section for man: paragraphs, indented commands, and lists of a name, two blanks and a text."""
    made: List[str] = []
    for line in lines:
        entry = re.match(r'(\S+) {2,}(.*)$', line)
        if not line:
            made.append('.PP')
        elif line.startswith('    '):
            made += ['.nf', '.RS 4', roff(line.strip()), '.RE', '.fi']
        elif entry:
            made += ['.TP', f'.B {roff(entry[1])}', roff(entry[2])]
        else:
            made.append(roff(line))
    while made and made[-1] == '.PP':
        made.pop()
    return made


def man_page(found: List[Section], version: str) -> str:
    """The whole man page."""
    made = [f'.TH PKS 1 "" "pks {version}" "pks"']
    for section in found:
        made.append(('.SH ' if section.depth == 1 else '.SS ') + roff(section.heading))
        made += block(section.lines)
    return '\n'.join(made) + '\n'


# The completion

COMPLETION = '''# Completes the words of pks, in bash.
_pks() {{
    local word=${{COMP_WORDS[COMP_CWORD]}} before=${{COMP_WORDS[COMP_CWORD-1]}} mode=${{COMP_WORDS[1]}}
    case $before in
        '<' | '>' | '>>' | '2>') COMPREPLY=($(compgen -f -- "$word")); return ;;
    esac
    if [ "$COMP_CWORD" -eq 1 ]; then
        COMPREPLY=($(compgen -W '{words}' -- "$word"))
    elif [ "$COMP_CWORD" -eq 2 ]; then
        case $mode in
            {depths}) COMPREPLY=($(compgen -W "$(seq 0 {depth})" -- "$word")) ;;
            bench) COMPREPLY=($(compgen -W "$(seq 1 {bench})" -- "$word")) ;;
            help) COMPREPLY=($(compgen -W '{topics}' -- "$word")) ;;
        esac
    fi
}}
complete -o default -F _pks pks
'''


def completion(found: List[Section], depth: int, bench: int) -> str:
    """The completion for bash; `depth` and `bench` are the greatest numbers of these words."""
    depths = [section.heading.split()[0] for section in found if section.depth == 2 and section.heading.endswith(' D')]
    return COMPLETION.format(words=' '.join(words(found)), depths=' | '.join(depths), depth=depth, bench=bench,
                             topics=' '.join(topics(found)))
