"""The reasons of `docs/REASONS.md`: when a line is allowed, and when a proof is accepted."""

from typing import Callable, Dict, Iterator, List, NamedTuple, Optional, Sequence, Tuple, TypeVar

from explainlib.paths import Path
from explainlib.problem import (WILD, Effect, Fact, Literal, Literals, Pattern, Problem, Target, Term, Terms,
                                applications, equation, is_application, is_object, negated, terms_of)


class Line(NamedTuple):
    """A line of a proof: a fact of a moment, its reason, the number behind `given` and `side`, and what it cites."""

    moment: int
    fact: Fact
    reason: str
    told: Optional[int]
    cites: Sequence[int]


class Cited:
    """The facts that a line cites, by their moments."""

    def __init__(self, lines: Sequence[Line], cites: Sequence[int]) -> None:
        self.facts: Dict[int, List[Fact]] = {}
        for c in cites:
            self.facts.setdefault(lines[c - 1].moment, []).append(lines[c - 1].fact)

    def at(self, moment: int, kind: str) -> List[Fact]:
        """The cited facts of a kind at a moment."""
        return [f for f in self.facts.get(moment, []) if f[0] == kind]

    def literals(self, moment: int) -> List[Literal]:
        """The cited literals of a moment."""
        return [f[1] for f in self.at(moment, 'lit')]

    def has(self, moment: int, literal: Literal) -> bool:
        """A literal of a moment is cited."""
        return ('lit', literal) in self.facts.get(moment, [])

    def equal(self, moment: int, t: Term, u: Term) -> bool:
        """The equation of two terms is cited."""
        return self.has(moment, equation(t, u, False))

    def apart(self, moment: int, t: Term, u: Term) -> bool:
        """Two different objects, or a cited difference."""
        return (is_object(t) and is_object(u) and t != u) or self.has(moment, equation(t, u, True))


class Step:
    """An action between a moment and the next: what its effects may do, by what is cited at the moment before."""

    def __init__(self, cited: Cited, before: int, effects: Sequence[Effect]) -> None:
        self.cited = cited
        self.before = before
        self.effects = tuple(effects)

    # ---- effects that meet a fact

    def meets(self, ts: Terms, us: Terms) -> bool:
        """At no position the two terms are apart; an open slot meets each term."""
        return all(WILD in (t, u) or not self.cited.apart(self.before, t, u) for t, u in zip(ts, us))

    def is_denied(self, effect: Effect) -> bool:
        """The negation of one of the conditions is cited."""
        return any(self.cited.has(self.before, negated(c)) for c in effect.conditions)

    def writes(self, effect: Effect, kinds: Sequence[str], predicate: int, ts: Terms) -> bool:
        """The effect isn't barred from being one of these kinds on an atom that meets these terms."""
        return (effect.kind in kinds and effect.target[0] == predicate
                and self.meets(effect.target[1], ts) and not self.is_denied(effect))

    def assigns(self, effect: Effect, place: Term) -> bool:
        """The effect isn't barred from giving this application a value."""
        return (effect.kind == 'assign' and effect.target[0][1] == place[1]
                and self.meets(effect.target[0][2], place[2]) and not self.is_denied(effect))

    def is_steady(self, t: Term) -> bool:
        """No effect may give an application in the term another value."""
        return not any(self.assigns(e, a) for a in applications(t) for e in self.effects)

    def are_steady(self, ts: Terms) -> bool:
        """All terms are steady."""
        return all(self.is_steady(t) for t in ts if t != WILD)

    def makes_false(self, effect: Effect, literal: Literal) -> bool:
        """The effect may make the literal false."""
        if literal[0] == 1:
            return False
        kinds = ('set',) if literal[3] else ('unset', 'clear')
        return self.writes(effect, kinds, literal[1], literal[2])

    def keeps(self, literal: Literal) -> bool:
        """No effect may make the literal false or change what it is about."""
        return (self.are_steady(terms_of(literal))
                and not any(self.makes_false(e, literal) for e in self.effects))

    # ---- terms of effects, replaced by equations

    def same_arguments(self, t: Term, u: Term) -> bool:
        """The second term is the first, but for arguments replaced by one equation each."""
        if not (is_application(t) and is_application(u) and t[1] == u[1]):
            return t == u
        return all(a == b or self.cited.equal(self.before, a, b) for a, b in zip(t[2], u[2]))

    def equations(self) -> Iterator[Tuple[Term, Term]]:
        """The cited equations before the action, in both directions."""
        for l in self.cited.literals(self.before):
            if l[0] == 1 and not l[3]:
                yield l[1], l[2]
                yield l[2], l[1]

    def may_become(self, t: Term, u: Term) -> bool:
        """The second term is the first, but for what cited equations replace."""
        return self.same_arguments(t, u) or any(
            self.same_arguments(t, x) and self.same_arguments(y, u) for x, y in self.equations())

    def all_may_become(self, ts: Terms, us: Terms) -> bool:
        """The same of each two terms; open slots stay open."""
        return all(WILD == t == u or (WILD not in (t, u) and self.may_become(t, u)) for t, u in zip(ts, us))

    def is_target(self, effect: Effect, kind: str, target: Target) -> bool:
        """The target is that of the effect, its terms replaced and steady."""
        if effect.kind != kind:
            return False
        if kind == 'assign':
            (place, value), (wanted, given) = effect.target, target
            return (place[1] == wanted[1] and self.all_may_become(place[2], wanted[2])
                    and self.may_become(value, given)
                    and self.are_steady(wanted[2]) and self.is_steady(given))
        return (effect.target[0] == target[0] and self.all_may_become(effect.target[1], target[1])
                and self.are_steady(target[1]))

    def undoes(self, effect: Effect, kind: str, target: Target) -> bool:
        """The effect may undo what one of this kind does."""
        if kind == 'assign':
            return self.assigns(effect, target[0])
        return self.writes(effect, ('unset', 'clear') if kind == 'set' else ('set',), *target)

    def makes_too(self, effect: Effect, kind: str, target: Target) -> bool:
        """The effect may make the target so as well."""
        if kind == 'assign':
            return (self.assigns(effect, target[0])
                    and not self.cited.has(self.before, equation(effect.target[1], target[1], True)))
        return self.writes(effect, ('set',) if kind == 'set' else ('unset', 'clear'), *target)


def targets_of(literal: Literal) -> List[Tuple[str, Target]]:
    """What an effect does that makes the literal true: (kind, target)."""
    if literal[0] == 0:
        return [('unset' if literal[3] else 'set', literal[1:3])]
    if literal[3]:
        return []
    sides = [(literal[1], literal[2]), (literal[2], literal[1])]
    return [('assign', sides) for sides in sides if is_application(sides[0])]


# Reasons within a moment

def given(problem: Problem, number: int, moment: int, fact: Fact) -> bool:
    """The item of the start with this number."""
    if moment != 0 or not 1 <= number <= len(problem.items):
        return False
    item = problem.items[number - 1]
    if item is None or item[0] != 'lcw':
        return item == fact
    return fact == item + (problem.first_list(item[1][0]),)


def side(path: Path, cited: Cited, number: int, moment: int, literal: Literal) -> bool:
    """What the side with this number says."""
    if not 1 <= number <= len(path.sides):
        return False
    at, kind, on, taken = path.sides[number - 1]
    if at != moment:
        return False
    if kind == 'cases':
        return literal == equation(on, taken, False)
    if taken == 'true':
        return literal in on
    return any(literal == negated(l) and all(cited.has(moment, k) for k in on if k != l) for l in on)


def same(problem: Problem, literal: Literal) -> bool:
    """A term equals itself; two objects, or a place and what is never its value, differ."""
    if literal[0] == 0:
        return False
    left, right = literal[1:3]
    if not literal[3]:
        return bool(left == right)
    if is_object(left):
        return bool(left != right)
    return is_object(right) and not problem.fits(problem.object_types[right[1]], problem.results[left[1]])


def one_replaced(cited: Cited, moment: int, t: Term, u: Term) -> bool:
    """One term in the first is replaced, by a cited equation, by another."""
    if cited.equal(moment, t, u):
        return True
    return (is_application(t) and is_application(u) and t[1] == u[1]
            and one_of_each(cited, moment, t[2], u[2]))


def one_of_each(cited: Cited, moment: int, ts: Terms, us: Terms) -> bool:
    """In one position one term is replaced, and all others are the same."""
    return len(ts) == len(us) and any(
        one_replaced(cited, moment, ts[i], us[i]) and without(ts, i) == without(us, i)
        for i in range(len(ts)) if WILD not in (ts[i], us[i]))


def literal_replaced(cited: Cited, moment: int, k: Literal, l: Literal) -> bool:
    """One term of a literal is replaced."""
    if k[0] != l[0] or k[3] != l[3]:
        return False
    if k[0] == 0:
        return bool(k[1] == l[1]) and one_of_each(cited, moment, k[2], l[2])
    return (one_of_each(cited, moment, k[1:3], l[1:3])
            or one_of_each(cited, moment, k[1:3], (l[2], l[1])))


Part = TypeVar('Part')


def without(xs: Sequence[Part], i: int) -> Tuple[Part, ...]:
    """All but the one at this place."""
    return (*xs[:i], *xs[i + 1:])


def group_replaced(cited: Cited, moment: int, g: Literals, h: Literals) -> bool:
    """One term of a group is replaced."""
    return list(h) == sorted(h) and any(
        literal_replaced(cited, moment, g[i], l) and sorted(without(g, i) + (l,)) == list(h)
        for i in range(len(g)) for l in h)


def region_replaced(cited: Cited, moment: int, e: Fact, r: Fact) -> bool:
    """One term of a region is replaced."""
    (pattern, atoms), (wanted, listed) = e[1:], r[1:]
    if pattern[0] != wanted[0]:
        return False
    if atoms == listed and one_of_each(cited, moment, pattern[1], wanted[1]):
        return True
    return pattern == wanted and any(
        atoms[i][0] == a[0] and one_of_each(cited, moment, atoms[i][1], a[1])
        and sorted(set(without(atoms, i) + (a,))) == list(listed)
        for i in range(len(atoms)) for a in listed)


def swap(cited: Cited, moment: int, fact: Fact) -> bool:
    """One term of a cited fact is replaced."""
    if fact[0] == 'lit':
        return any(literal_replaced(cited, moment, k, fact[1]) for k in cited.literals(moment))
    if fact[0] == 'kx':
        return any(group_replaced(cited, moment, f[1], fact[1]) for f in cited.at(moment, 'kx'))
    return any(region_replaced(cited, moment, f, fact) for f in cited.at(moment, 'lcw'))


def only(cited: Cited, moment: int, literal: Literal) -> bool:
    """The last of a group whose others are out."""
    return any(g[i] == literal and all(cited.has(moment, negated(k)) for k in without(g, i))
               for _, g in cited.at(moment, 'kx') for i in range(len(g)))


def others(cited: Cited, moment: int, literal: Literal) -> bool:
    """One of a group is in, so this one is out."""
    return any(negated(g[i]) == literal and any(cited.has(moment, k) for k in without(g, i))
               for _, g in cited.at(moment, 'kx') for i in range(len(g)))


def in_range(problem: Problem, cited: Cited, moment: int, literal: Literal) -> bool:
    """The last object that may be the value."""
    if literal[0] == 0 or literal[3] or not is_object(literal[2]):
        return False
    t, d = literal[1:3]
    objects = problem.objects_of(problem.type_of(t))
    return d in objects and all(cited.has(moment, equation(t, e, True)) for e in objects if e != d)


def closed(cited: Cited, moment: int, literal: Literal) -> bool:
    """A region doesn't list the atom, so it is false."""
    if literal[0] == 1 or not literal[3]:
        return False
    return any(
        pattern[0] == literal[1] and all(s in (WILD, t) for s, t in zip(pattern[1], literal[2]))
        and all(any(cited.apart(moment, t, u) for t, u in zip(literal[2], a[1])) for a in atoms)
        for _, pattern, atoms in cited.at(moment, 'lcw'))


# Reasons between two moments

def region_terms(pattern: Pattern, atoms: Sequence[Pattern]) -> List[Term]:
    """All terms of a region."""
    return list(pattern[1]) + [t for a in atoms for t in a[1]]


def keep(step: Step, fact: Fact) -> bool:
    """The action leaves the fact as it was."""
    if fact not in step.cited.facts.get(step.before, []):
        return False
    if fact[0] == 'lit':
        return step.keeps(fact[1])
    if fact[0] == 'kx':
        return all(step.keeps(l) and step.keeps(negated(l)) for l in fact[1])
    pattern, atoms = fact[1:]
    return (step.are_steady(region_terms(pattern, atoms))
            and not any(step.writes(e, ('set',), *pattern) for e in step.effects))


def back(step: Step, literal: Literal) -> bool:
    """It is so afterwards, and the action didn't make it so."""
    return step.cited.has(step.before + 1, literal) and step.keeps(negated(literal))


def effect(step: Step, literal: Literal) -> bool:
    """An effect of the action makes it so, and none undoes it."""
    return any(
        step.is_target(e, kind, target) and all(step.cited.has(step.before, c) for c in e.conditions)
        and not any(step.undoes(x, kind, target) for x in step.effects[i + 1:])
        for kind, target in targets_of(literal) for i, e in enumerate(step.effects))


def must(step: Step, literal: Literal) -> bool:
    """Something changed that one effect alone changes: so its conditions held."""
    def shows(e: Effect, i: int, k: Literal) -> bool:
        return any(step.is_target(e, kind, target)
                   and not any(step.makes_too(x, kind, target) for x in without(step.effects, i))
                   for kind, target in targets_of(k))
    after = [k for k in step.cited.literals(step.before + 1) if step.cited.has(step.before, negated(k))]
    return any(literal in e.conditions and any(shows(e, i, k) for k in after)
               for i, e in enumerate(step.effects))


def cannot(step: Step, literal: Literal) -> bool:
    """Something wasn't changed that the effect changes: so a condition didn't hold."""
    def shows(e: Effect, i: int, k: Literal) -> bool:
        return any(step.is_target(e, kind, target)
                   and not any(step.undoes(x, kind, target) for x in step.effects[i + 1:])
                   for kind, target in targets_of(negated(k)))
    return any(
        negated(literal) in e.conditions
        and all(step.cited.has(step.before, c) for c in e.conditions if c != negated(literal))
        and any(shows(e, i, k) for k in step.cited.literals(step.before + 1))
        for i, e in enumerate(step.effects))


def grow(step: Step, fact: Fact) -> bool:
    """A region lists what the action adds to it."""
    _, pattern, listed = fact
    joining = [e for e in step.effects if step.writes(e, ('set',), *pattern)]
    return any(
        old == pattern and step.are_steady(region_terms(pattern, atoms))
        and set(atoms) <= set(listed) and list(listed) == sorted(set(listed))
        and all(any(step.is_target(e, 'set', a) for a in listed) for e in joining)
        and all(a in atoms or any(step.is_target(e, 'set', a) for e in joining) for a in listed)
        for _, old, atoms in step.cited.at(step.before, 'lcw'))


def clear(step: Step, fact: Fact) -> bool:
    """The action empties a region."""
    _, pattern, listed = fact
    return listed == () and step.are_steady(pattern[1]) and any(
        e.kind == 'clear' and not e.conditions and e.target[0] == pattern[0]
        and step.all_may_become(e.target[1], pattern[1])
        and not any(step.writes(x, ('set',), *pattern) for x in step.effects[i + 1:])
        for i, e in enumerate(step.effects))


# Lines and proofs

OF_LITERALS = 'side same only others range closed back effect must cannot'.split()
OF_REGIONS = 'grow clear'.split()
NUMBERED = 'given side'.split()


def is_allowed(problem: Problem, path: Path, cited: Cited, line: Line) -> bool:
    """The line is allowed by its reason and by what it cites."""
    reason, fact, moment = line.reason, line.fact, line.moment
    wrong_kind = (reason in OF_LITERALS and fact[0] != 'lit') or (reason in OF_REGIONS and fact[0] != 'lcw')
    if wrong_kind or moment > path.moment() or (line.told is not None) != (reason in NUMBERED):
        return False
    of = fact[1]
    if reason in ('keep', 'effect', 'grow', 'clear'):
        if moment == 0:
            return False
        step = Step(cited, moment - 1, path.effects[moment - 1])
        told = {'keep': keep, 'effect': effect, 'grow': grow, 'clear': clear}[reason]
        return told(step, of if reason == 'effect' else fact)
    if reason in ('back', 'must', 'cannot'):
        if moment >= path.moment():
            return False
        return {'back': back, 'must': must, 'cannot': cannot}[reason](Step(cited, moment, path.effects[moment]), of)
    within: Dict[str, Callable[[], bool]] = {
        'given': lambda: given(problem, line.told or 0, moment, fact),
        'side': lambda: side(path, cited, line.told or 0, moment, of),
        'same': lambda: same(problem, of),
        'swap': lambda: swap(cited, moment, fact),
        'only': lambda: only(cited, moment, of),
        'others': lambda: others(cited, moment, of),
        'range': lambda: in_range(problem, cited, moment, of),
        'closed': lambda: closed(cited, moment, of),
    }
    return reason in within and within[reason]()


def faults(problem: Problem, path: Path, literal: Literal, lines: Sequence[Line]) -> List[str]:
    """What keeps the proof from being accepted for the literal."""
    found = []
    used = {c for line in lines for c in line.cites}
    for n, line in enumerate(lines, 1):
        if not all(1 <= c < n for c in line.cites):
            found.append(f'line {n} cites what is not before it')
        elif not is_allowed(problem, path, Cited(lines, line.cites), line):
            found.append(f'line {n} is not allowed')
        if n < len(lines) and n not in used:
            found.append(f'line {n} is not cited')
    if not lines or lines[-1].moment != path.moment() or lines[-1].fact != ('lit', literal):
        found.append('the last line is not the literal at the last moment')
    return found
