"""What can go wrong with the program, as exceptions."""

from typing import Optional

from . import limits


class PksError(Exception):
    """The class of all that is raised of the program and what it answers."""


class NoProgram(PksError, FileNotFoundError):
    """There is no program, or it doesn't run."""

    def __str__(self) -> str:
        return str(self.args[0])


class TimedOut(PksError, TimeoutError):
    """The program didn't end in time, and was stopped; `seconds` is the time that it was given."""

    def __init__(self, words: str, seconds: float) -> None:
        super().__init__(f'`{words}` did not end in {seconds:g} s')
        self.seconds = seconds

    def __str__(self) -> str:
        return str(self.args[0])


class Refused(PksError, ValueError):
    """The file, its world or an answer is refused; `refusal` has the place and the code."""

    def __init__(self, refusal: limits.Refusal) -> None:
        super().__init__(f'{refusal}: {refusal.title()}')
        self.refusal = refusal

    @property
    def line(self) -> int:
        """The line of the place, from 1."""
        return self.refusal.line

    @property
    def column(self) -> int:
        """The column of the place in bytes, from 1."""
        return self.refusal.column

    @property
    def code(self) -> int:
        """The code, as docs/CODES.md has them."""
        return self.refusal.code


class NoPlan(PksError):
    """No plan of at most this depth is derived."""

    def __init__(self, depth: int) -> None:
        super().__init__(f'none to depth {depth}')
        self.depth = depth


class Failed(PksError):
    """The program ended in another way than with an answer; `status` is its status, negative for a signal."""

    def __init__(self, words: str, status: int, what: Optional[str] = None) -> None:
        known = status in set(limits.Status)
        said = limits.STATUSES[limits.Status(status)] if known else 'it was ended by a signal' if status < 0 else ''
        super().__init__(f'`{words}` ended with status {status}' + (f': {what or said}' if what or said else ''))
        self.status = status
