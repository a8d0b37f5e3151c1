#!/usr/bin/env python3
"""Proves crates side by side, with the scheduler of `rt ci`.

    prove.py CRATE                proves and builds the program CRATE, and puts it into its crate's out/
    prove.py --libraries CRATE    proves the libraries below CRATE as `rt check` takes them

`rt run` and `rt check` take one crate after another. Here a crate is proved once those below it are, as many at a time as
there are processors and memory, first those with the longest chain above them. A processor that no crate can use takes a part
of another's proofs.

The program goes through the steps of `rt ci`, but for edits, tests and its second compiler: each crate is proved over the statements of those below,
and libraries are kept where `rt ci` keeps them, so that the gate takes those that this proved, and this all that the gate proved.
The program, which one compiler alone has built, isn't kept there.
`rt check` and `rt try` keep libraries of their own, whole ones, in each crate's out/. The first fault ends either.

All this replaces parts of the toolchain's script, which is made for one kit. Each part is looked for first: where one is missing or
takes other parameters, a line says so, and plain `rt run` or `rt lib` does the work, one crate after another.
"""

import contextlib
import inspect
import os
import shutil
import signal
import subprocess
import sys
import tempfile
import threading
import time
from importlib.machinery import SourceFileLoader
from importlib.util import module_from_spec, spec_from_loader
from typing import IO, Callable, Dict, List, NoReturn, Optional, Protocol, Sequence, Tuple, cast

sys.dont_write_bytecode = True
sys.path.insert(0, os.path.dirname(os.path.realpath(__file__)))

from pkslib import commands  # noqa: E402
from shapelib.crates import crates  # noqa: E402

TOP = os.path.dirname(os.path.dirname(os.path.realpath(__file__)))

# What this replaces of rt, and what it calls, with the parameters of each. (It replaces the text STORE, too.)
TAKEN = {
    "Crate.ci": "self flags tests", "Crate.compile_by": "self backend words to", "Crate.has_tests": "self", "Kept.give": "self crate tests key",
    "edits_of": "crate", "in_lanes": "tasks", "run": "crate tests ending", "say": "text out",
    "Crate.below": "self", "free": "", "main": "words", "need": "crate", "processors": "", "share_work": "is_alone",
    "rtlib.Crate.build_rlib": "self flags anew", "rtlib.Crate.is_built": "self", "rtlib.guarded": "", "rtlib.lock": "crates",
    "rtlib.root_above": "folder",
}

# What the slow crates take, and what each other one is taken for, in processor seconds: for the order alone. (`pks_agent`, of which
# little stands above, is to be done when the last but one begins.)
SECONDS = {
    "pks": 150, "pks_agent": 250, "pks_branch": 130, "pks_dag": 90, "pks_derive": 110, "pks_exec": 100,
    "pks_explain": 170, "pks_explain_effects": 120, "pks_explain_lines": 220, "pks_explain_moment": 150,
    "pks_explain_replay": 200, "pks_history": 70, "pks_history_forget": 100, "pks_justify": 70, "pks_plan": 110,
    "pks_pmap": 220, "pks_postdict": 110, "pks_postdict_rules": 130, "pks_progress": 170, "pks_progress_adds": 80,
    "pks_proof": 130, "pks_proof_cited": 140, "pks_query": 160, "pks_query_closing": 240, "pks_query_lookup": 170,
    "pks_query_uses": 70, "pks_reader_declared": 150, "pks_reader_names": 110, "pks_reader_problem": 200,
    "pks_reader_world": 100, "pks_recall": 80, "pks_run": 110, "pks_run_answer": 130, "pks_run_words": 70,
    "pks_search": 160, "pks_search_distance": 130, "pks_search_witness": 80, "pks_terms": 70, "pks_world": 90,
}
SECONDS_OF_OTHERS = 30

# From how many processor seconds of work on the time that is left is told by it.
EARLY = 300

# Seconds for those crates to begin that begin with another.
MOMENT = 0.2


Key = Tuple[str, str]
"""A crate's name, and what is done with it: `proof` or `tests`."""

Given = Dict[Key, object]
"""What each task gave."""

Task = Tuple[Sequence[Key], int, int, Callable[[Given, int], object]]
"""What it waits for, its work, its memory, and the call that does it with what was given and so many processes."""


class Crate(Protocol):
    """What this takes of a crate, as rt knows it."""

    name: str
    folder: str
    out: IO[str]

    def below(self) -> "List[Crate]":
        """The libraries below it, each after those that it uses."""

    def is_built(self) -> bool:
        """Whether its library stands in its folder."""

    def build_rlib(self, flags: Sequence[str], anew: bool) -> int:
        """Proves its library, and gives the status."""


class CrateType(Protocol):
    """The class of rt's crates: the steps of the gate, which are replaced here."""

    ci: Callable[[Crate, Sequence[str], bool], int]
    compile_by: Callable[[Crate, str, Sequence[str], str], int]
    has_tests: Callable[[Crate], bool]


class KeptType(Protocol):
    """The class of what rt keeps of earlier proofs."""

    give: "Callable[[KeptType, Crate, bool, str], bool]"


class Library(Protocol):
    """What this takes of the module of rt's own."""

    Crate: Callable[[str, Optional[str], Dict[str, Crate]], Crate]

    def root_above(self, folder: str) -> Optional[str]:
        """The repository's root at or above a folder."""

    def lock(self, crates: Sequence[Crate]) -> List[int]:
        """Keeps other commands of rt out of these crates' folders until what it gives is closed."""

    def guarded(self) -> List[str]:
        """Has all that rt starts end when this ends."""


class Toolchain(Protocol):
    """The toolchain's command as a module: what this calls of it, and what it replaces."""

    STORE: str
    Crate: CrateType
    Kept: KeptType
    rtlib: Library
    edits_of: Callable[[Crate], Tuple[List[str], List[str]]]
    in_lanes: Callable[[Dict[Key, Task]], Given]
    run: Callable[..., bool]
    say: Callable[..., None]

    def free(self) -> int:
        """The free memory in bytes."""

    def main(self, words: Sequence[str]) -> int:
        """Runs a command of rt, and gives its status."""

    def need(self, crate: Crate) -> int:
        """The memory that a crate's proofs are likely to take."""

    def processors(self) -> int:
        """How many processors there are."""

    def share_work(self, is_alone: bool) -> None:
        """Shares what is kept with other checkouts."""


def say(text: str) -> None:
    """Prints a line on standard error."""
    print(f"pks: {text}", file=sys.stderr, flush=True)


class Progress:
    """How many crates are done, and about how long the others will take: one line, in its place on a terminal."""

    def __init__(self, names: Sequence[str], processors: int) -> None:
        self.left = {name: seconds(name) for name in names}
        self.number, self.work = len(self.left), 0
        self.rate, self.start = processors, time.monotonic()

    def minutes(self) -> int:
        """The minutes that are left, by what the work so far took; at first by the number of processors."""
        passed = time.monotonic() - self.start
        rate = self.work / passed if self.work >= EARLY and passed > 0 else self.rate
        return max(1, round(sum(self.left.values()) / max(rate, 0.1) / 60))

    def done(self, name: str, is_proved: bool = True) -> None:
        """Counts a crate that was proved now, or was before."""
        work = self.left.pop(name, 0)
        self.work += work if is_proved else 0

    def show(self, ends: bool = False) -> None:
        """Prints the line; with `ends` nothing is printed in its place again."""
        many = self.minutes()
        left = f", about {many} minute{'s' if many > 1 else ''}" if self.left else ""
        text = f"pks: {self.number - len(self.left)} of {self.number}{left}"
        is_terminal = sys.stderr.isatty()
        sys.stderr.write(f"\r\033[K{text}" if is_terminal else f"{text}\n")
        if is_terminal and (ends or not self.left):
            sys.stderr.write("\n")
        sys.stderr.flush()


class Unfit(Exception):
    """Says in what the toolchain's command isn't as this takes it."""


def misfit(rt: object) -> str:
    """What rt has not, or has in another form; nothing where all is as this takes it."""
    for path, wanted in TAKEN.items():
        found = rt
        for name in path.split("."):
            found = getattr(found, name, None)
        try:
            parameters = " ".join(inspect.signature(found).parameters) if callable(found) else None
        except (TypeError, ValueError):
            parameters = None
        if parameters != wanted:
            return f"has no {path}({', '.join(wanted.split())})"
    return "" if isinstance(getattr(rt, "STORE", None), str) else "has no text STORE"


def load_rt(path: str) -> Toolchain:
    """The toolchain's command as a module; Unfit where it isn't as this takes it."""
    loader = SourceFileLoader("rt", os.path.realpath(path))
    module = module_from_spec(spec_from_loader("rt", loader))
    try:
        loader.exec_module(module)
    except (Exception, SystemExit):
        raise Unfit("isn't a script that can be read") from None
    if misfit(module):
        raise Unfit(misfit(module))
    return cast(Toolchain, module)


def seconds(name: str) -> int:
    """About what the crate's proofs take, in processor seconds."""
    return SECONDS.get(name, SECONDS_OF_OTHERS)


class Room:
    """A folder for all that is made on the way, which goes when this command ends, however it ends."""

    def __init__(self) -> None:
        self.path = tempfile.mkdtemp(prefix="pks-prove-")
        tempfile.tempdir = self.path
        for it in (signal.SIGHUP, signal.SIGINT, signal.SIGTERM):
            signal.signal(it, lambda number, _: self.end(128 + number))

    def remove(self) -> None:
        """Takes the folder away."""
        shutil.rmtree(self.path, ignore_errors=True)

    def end(self, status: int) -> NoReturn:
        """Ends this command, and with it all that it runs."""
        self.remove()
        os._exit(status)

    def end_unless(self, status: int, said: IO[str]) -> None:
        """Ends where a step failed: with what the toolchain said of it, which is what it said last."""
        if status:
            said.seek(0)
            text = said.read()
            sys.stderr.write(text[text.rfind("\n== ") + 1 :])
            sys.stderr.flush()
            self.end(status if 0 < status < 128 else 1)


class Lanes:
    """The scheduler of `rt ci`, told what crates take; and how far it is."""

    def __init__(self, rt: Toolchain) -> None:
        self.rt, self.real, self.turn = rt, rt.in_lanes, threading.Lock()
        self.begun, self.done, self.progress = 0, 0, Progress([], 1)

    def run(self, tasks: Dict[Key, Task]) -> Given:
        """Runs the tasks by the scheduler, with what each crate takes."""
        if any(len(key) != 2 or len(task) != 4 for key, task in tasks.items()):
            raise Unfit("has other tasks for in_lanes(tasks)")
        self.progress = Progress([name for name, what in tasks if what == "proof"], self.rt.processors())
        self.progress.show()
        work = lambda key: seconds(key[0]) if key[1] == "proof" else 0
        return self.real({key: (waits, work(key), *rest) for key, (waits, _, *rest) in tasks.items()})

    def flags_of(self, crate: Crate, flags: Sequence[str]) -> List[str]:
        """How many processes prove the crate: as many as the scheduler says, and those that no other crate can use."""
        # (what begins with it has begun)
        time.sleep(MOMENT)
        with self.turn:
            idle = self.rt.processors() - (self.begun - self.done)
        if [*flags[:1], *flags[2:]] != ["--jobs"]:
            return [*flags]
        jobs = int(flags[1])
        return ["--jobs", str(max(jobs, 1 + idle) if 2 * self.rt.need(crate) < self.rt.free() else jobs)]

    def prove(self, crate: Crate, flags: Sequence[str], call: Callable[[List[str]], int]) -> int:
        """Proves the crate by this call, and tells how many are done; returns the call's status."""
        with self.turn:
            self.begun += 1
        status = call(self.flags_of(crate, flags))
        with self.turn:
            if not status:
                self.done += 1
                self.progress.done(crate.name)
            self.progress.show(ends=bool(status))
        return status

    def skip(self, crate: Crate) -> None:
        """Counts a crate that was proved before."""
        with self.turn:
            self.begun, self.done = self.begun + 1, self.done + 1
            self.progress.done(crate.name, is_proved=False)
            self.progress.show()


def build_program(rt: Toolchain, room: Room, name: str) -> None:
    """Runs `rt ci CRATE` without edits and tests, and takes the program, as LLVM builds it, from the copy that it works on."""
    lanes, prove, compile_by, give, run, tell = Lanes(rt), rt.Crate.ci, rt.Crate.compile_by, rt.Kept.give, rt.run, rt.say
    to, said, made = f"{TOP}/crates/{name}/out", tempfile.TemporaryFile("w+", errors="replace"), []

    def proving(crate: Crate, flags: Sequence[str], tests: bool) -> int:
        return lanes.prove(crate, flags, lambda flags: prove(crate, flags, tests))

    def compiling(crate: Crate, backend: str, words: Sequence[str], to: str) -> int:
        return compile_by(crate, backend, words, to) if backend == "llvm" else 0

    def giving(kept: KeptType, crate: Crate, tests: bool, key: str) -> bool:
        is_given = give(kept, crate, tests, key)
        if is_given:
            lanes.skip(crate)
        return is_given

    def running(crate: Crate, tests: bool, ending: str = "") -> bool:
        is_well = run(crate, tests, ending)
        if is_well and not ending:
            os.makedirs(to, exist_ok=True)
            shutil.copy(f"{crate.folder}/out/{name}", f"{to}/{name}.new")
            os.replace(f"{to}/{name}.new", f"{to}/{name}")
            made.append(name)
        return is_well

    def telling(text: str, out: Optional[IO[str]] = None) -> None:
        tell(text, out)
        room.end_unless("NOT PROVED" in text, said)

    rt.Crate.ci, rt.Crate.compile_by, rt.Crate.has_tests, rt.edits_of = proving, compiling, lambda crate: False, lambda crate: ([], [])
    rt.Kept.give, rt.run, rt.say, rt.in_lanes = giving, running, telling, lanes.run
    if not os.access(os.path.dirname(rt.STORE), os.W_OK):
        rt.STORE = f"{to}/kept"
    # (there it is said that a part of the gate isn't the gate)
    os.environ.pop("CI", None)
    os.chdir(TOP)
    with contextlib.redirect_stdout(said):
        status = rt.main(["ci", name])
    room.end_unless(status, said)
    if is_program(name) and not made:
        raise Unfit("gives no program by run(crate, tests, ending)")


def build_libraries(rt: Toolchain, room: Room, name: str) -> None:
    """Proves the libraries below the crate as `rt lib` does, and keeps them in their folders."""
    folder, lanes = f"{TOP}/crates/{name}", Lanes(rt)
    crate = rt.rtlib.Crate(folder, rt.rtlib.root_above(folder), {})
    # (each crate's folder is locked, as by every command of rt)
    held = rt.rtlib.lock([*crate.below(), crate])
    rt.share_work(True)
    left = [it for it in crate.below() if not it.is_built()]

    def prove(it: Crate, jobs: int) -> None:
        with tempfile.TemporaryFile("w+", errors="replace") as it.out:
            status = lanes.prove(it, ["--jobs", str(jobs)], lambda flags: it.build_rlib(flags, anew=False))
            room.end_unless(status, it.out)

    tasks = {}
    for it in left:
        waits = [(below.name, "proof") for below in it.below() if below in left]
        tasks[it.name, "proof"] = waits, 0, rt.need(it), lambda given, jobs, it=it: prove(it, jobs)
    lanes.run(tasks)
    for it in held:
        os.close(it)


def is_program(name: str) -> bool:
    """Whether the crate is a program."""
    return os.path.isfile(f"{TOP}/crates/{name}/src/main.rt")


def call_rt(verb: str, name: str) -> int:
    """The status of plain rt in the crate's folder; it ends when this is told to."""
    folder = f"{TOP}/crates/{name}"
    child = subprocess.Popen(["rt", verb], cwd=folder, stdin=subprocess.DEVNULL, stdout=sys.stderr if verb == "lib" else subprocess.DEVNULL)
    for it in (signal.SIGHUP, signal.SIGINT, signal.SIGTERM):
        signal.signal(it, lambda number, _: child.send_signal(number))
    return child.wait()


def prove_plainly(name: str, libraries: bool) -> int:
    """Has plain rt do the same, one crate after another, and gives the status."""
    if not libraries and is_program(name):
        program = f"{TOP}/crates/{name}/out/{name}"
        with contextlib.suppress(FileNotFoundError):
            os.remove(program)
        # (the status is that of the program, which is run without words)
        call_rt("run", name)
        return 0 if os.path.isfile(program) else 1
    for it in crates()[name] if libraries else [name]:
        status = call_rt("lib", it)
        if status:
            return status
    return 0


def main(words: List[str]) -> int:
    """Proves what the words name, and gives the status."""
    reader = commands.parser(__doc__ or "")
    reader.add_argument("--libraries", action="store_true", help="the libraries below the crate, and no program")
    reader.add_argument("crate", metavar="CRATE", help="the name of a crate")
    given = reader.parse_args(words)
    path = shutil.which("rt")
    if path is None or given.crate not in crates():
        say("rt, the toolchain's command, isn't on the PATH." if path is None else f"crates.txt has no crate {given.crate}.")
        return 2
    room, status = Room(), 0
    try:
        rt = load_rt(path)
        # (what rt starts ends when this does; it has to be called before there are threads)
        rt.rtlib.guarded()
        (build_libraries if given.libraries else build_program)(rt, room, given.crate)
    except Unfit as fault:
        say(f"this rt isn't of the kit that README.md names: it {fault}. So it proves one crate after another, which takes far longer.")
        status = prove_plainly(given.crate, given.libraries)
    room.remove()
    return status


if __name__ == "__main__":
    sys.exit(main(sys.argv[1:]))
