"""Where a parenthesis is missing, or one is too many, by the indentation of the lines."""

from typing import List, Optional, Tuple

from .forms import Form, Text


def lost_parenthesis(text: Text) -> Optional[Tuple[Form, int, Form]]:
    """A list that should have been closed before a line, by the line's indentation.

    Gives the list, the line and the list that begins there, or None.
    """
    open_lists: List[Tuple[int, Form]] = []
    for form in text.lists:
        column = text.begins_line(form)
        if column is None:
            continue
        open_lists = [(c, f) for c, f in open_lists if f.end is None or f.end > form.start]
        for own, outer in open_lists:
            if own >= column:
                return outer, form.line, form
        open_lists.append((column, form))
    return None


def gained_parenthesis(text: Text) -> Optional[Tuple[Form, int]]:
    """A list that was closed before a line that is indented as one of its parts.

    Gives the list and the line, or None.
    """
    less_indented: List[Tuple[int, Form]] = []
    for form in text.lists:
        column = text.begins_line(form)
        if column is None:
            continue
        less_indented = [(c, f) for c, f in less_indented if c < column]
        outer = less_indented[-1][1] if less_indented else None
        if outer is not None and outer.end is not None and outer.end <= form.start:
            return outer, form.line
        less_indented.append((column, form))
    return None
