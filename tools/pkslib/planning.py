"""Calls of the program that make a plan."""

from typing import Optional, Union

from . import program as calling
from .errors import NoPlan
from .files import costs
from .trees import Tree, read_plan


def plan(text: Union[bytes, str], depth: int, seconds: Optional[float] = None,
         program: Optional[str] = None) -> Optional[Tree]:
    """The best plan of at most this depth, with the costs of the file, or None where none is derived.

    Refused where the file is refused; TimedOut where it isn't found within these seconds; NoProgram, Failed.
    """
    try:
        printed = calling.ask(['plan', str(depth)], text, seconds, program)
    except NoPlan:
        return None
    return read_plan(printed, costs(text))
