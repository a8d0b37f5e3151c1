"""Goes along a plan, and tells at each step what is newly known and what can't be done."""

import functools
from dataclasses import dataclass, field
from typing import Callable, Iterator, List, Optional, Sequence, Tuple

from asklib.files import OVER_TIME, Action, File, List_, negated, put_in, words_of
from pkslib import Act, Branch, Cases, Expression, Goal, Impossible, Tree, limits, written

from .asking import Asker, Lost, State, Way
from .everything import Everything
from .staged import Closed, Fork, Left, Question, Step, TooMany, branched, chosen, taken_apart

SHOWN = 12


@dataclass
class Walk:
    """A walk along a plan; what is said of it is printed line by line."""

    file: File
    asker: Asker
    asked: List_ = ()
    everything: Optional[Everything] = None
    faults: List[str] = field(default_factory=list)
    done: int = 0
    """How many steps could be done."""
    met: int = 0
    """How many goals were met."""
    say_to: Callable[[str], object] = print
    """Takes each line that is said."""

    def say(self, indent: str, line: str) -> None:
        """Says a line."""
        self.say_to(indent + line)

    # The nodes

    def walk(self, tree: Tree, way: Way, before: State, told: List_, indent: str) -> Optional[Question]:
        """Goes on at the end of a way; `told` are the queries that the last step may have made answered.

        Gives the rest of the plan as a question, or None where it can't be gone whole.
        """
        if isinstance(tree, Act) and self.fault_of_words(tree):
            state = self.arrive(way, before, told, (), indent)
            return self.fault(indent, tree.text(), self.fault_of_words(tree), ())
        needs = self.needs(tree)
        state = self.arrive(way, before, told, needs, indent)
        if state is None:
            return None
        if state.impossible != isinstance(tree, Impossible):
            return self.other_end(tree, state, indent)
        if isinstance(tree, Impossible):
            self.say(indent, 'impossible')
            return Closed()
        if isinstance(tree, Act):
            return self.act(tree, way, state, indent)
        if isinstance(tree, Branch):
            return self.branch(tree, way, state, indent)
        if isinstance(tree, Cases):
            return self.cases(tree, way, state, indent)
        if isinstance(tree, Goal):
            return self.goal(state, indent)
        self.say(indent, '(the plan says no more here)')
        return None

    def arrive(self, way: Way, before: State, told: List_, needs: List_, indent: str) -> Optional[State]:
        """Asks at the end of a way, and prints what is new there; None where it can't be asked."""
        every = self.everything.queries() if self.everything else ()
        try:
            state = self.asker.at(way, (*needs, *told, *self.asked, *every))
        except (Lost, TooMany) as fault:
            self.say(indent, f'    not asked: {fault}')
            self.faults.append(f'not asked: {fault}')
            return None
        if state.otherwise != before.otherwise:
            self.say(indent, f'    (the program tests {state.otherwise} on this way, in place of what is written)')
        if not state.impossible:
            self.news(before, state, told, not way, indent)
        return state

    def news(self, before: State, state: State, told: List_, first: bool, indent: str) -> None:
        """Prints what is known now and wasn't before, and the answers to what the caller asks."""
        old, new = set(before.known), set(state.known)
        gained = [text for text in state.known if text not in old]
        if first:
            self.say(indent, 'at the start')
        self.listed(indent, 'known', gained, None if self.everything else SHOWN)
        self.listed(indent, 'no longer known', [text for text in before.known if text not in new],
                    None if self.everything else SHOWN)
        for head, name in () if self.everything else (('kw', 'known whether'), ('kv', 'known value')):
            texts = [' '.join(map(written, query[1:])) for query in told
                     if query[0] == head and query in state.answered]
            self.listed(indent, name, list(dict.fromkeys(texts)), None)
        for query in self.asked:
            self.say(indent, f'    {written(query)} {"is" if query in state.answered else "is not"} answered')
        if self.everything:
            for name, texts in self.everything.news(before, state):
                self.listed(indent, name, texts, None)

    def listed(self, indent: str, name: str, texts: Sequence[str], most: Optional[int]) -> None:
        """Prints a list of literals where there is one."""
        if texts:
            more = f' and {len(texts) - most} more' if most and len(texts) > most else ''
            between = ', ' if name == 'known whether' else ' '
            self.say(indent, f'    {name}: {between.join(texts[:most])}{more}')

    def fault(self, indent: str, step: str, what: str, lines: Sequence[str]) -> Optional[Question]:
        """Prints why a step can't be done, and gives that the plan can't be gone whole."""
        self.say(indent, f'{step}    CAN\'T BE DONE')
        for line in (what, *lines):
            self.say(indent, f'    {line}')
        self.faults.append(f'{step}: {what}')
        return None

    def other_end(self, tree: Tree, state: State, indent: str) -> Optional[Question]:
        """Where the plan and the program differ on whether a run comes to a side."""
        if state.impossible:
            self.say(indent, '(impossible: what would be known here contradicts itself, so no run comes here)')
            return Closed()
        return self.fault(indent, 'impossible', 'what is known here doesn\'t contradict itself', ())

    # Actions

    def fault_of_words(self, act: Act) -> str:
        """What is wrong with the words of an action, or nothing."""
        own = self.file.action(act.name)
        if own is None:
            return f'the file has no action `{act.name}`'
        if len(act.arguments) != len(own.parameters):
            form = written((act.name, *own.parameters))
            return f'`{act.name}` has {len(own.parameters)} parameters, and not {len(act.arguments)}: `{form}`'
        for term, (name, kind) in zip(act.arguments, own.parameters.items()):
            fault = self.fault_of_argument(term, name, kind)
            if fault:
                return fault
        return ''

    def fault_of_argument(self, term: Expression, name: str, kind: str) -> str:
        """What is wrong with an argument, or nothing."""
        own = self.file.type_of(term)
        if own is None:
            return f'`{written(term)}` is no object, and no value of a function'
        if not self.file.fits(own, kind):
            return f'`{written(term)}` is a {own}, and {name} wants a {kind}'
        if not isinstance(term, str) and any(not isinstance(part, str) for part in term[1:]):
            return f'`{written(term)}` is a value of a value, which is no argument: assign it to a function of its own'
        return ''

    def needs(self, tree: Tree) -> List_:
        """The queries on which it hangs whether a step can be done, or a goal is met."""
        if isinstance(tree, Act):
            own = self.file.action(tree.name)
            assert own is not None
            values = tuple(('kv', term) for term in tree.arguments if not isinstance(term, str))
            return values + tuple(own.with_args(query, tree.arguments) for query in own.pre)
        if isinstance(tree, Branch):
            singles = tuple(query for literal in tree.literals
                            for query in (('k', literal), ('k', negated(literal)), ('kw', literal)))
            return singles + (('kw', *tree.literals),)
        if isinstance(tree, Cases):
            return (('kv', tree.term),) + tuple(('k', negated(('=', tree.term, value))) for value in self.values(tree))
        return tuple(aim for aim in self.file.goal if aim[0] not in OVER_TIME) if isinstance(tree, Goal) else ()

    def act(self, act: Act, way: Way, state: State, indent: str) -> Optional[Question]:
        """An action: its preconditions, and what follows."""
        missing = [query for query in self.needs(act) if query not in state.answered]
        if missing:
            lines = [line for query in missing for line in self.about(query, way, state)]
            verb = 'isn\'t' if len(missing) == 1 else 'aren\'t'
            return self.fault(indent, act.text(), f'{" ".join(map(written, missing))} {verb} answered', lines)
        self.say(indent, act.text())
        self.done += 1
        own = self.file.action(act.name)
        assert own is not None
        items = (add[2] if add[0] == 'if' else add for add in own.knows)
        told = tuple(own.with_args(item, act.arguments) for item in items if item[0] in ('kw', 'kv'))
        step = functools.partial(Step, act.name, act.arguments)
        rest = self.walk(act.next, (*way, step), state, told, indent)
        return Step(act.name, act.arguments, rest) if rest is not None else None

    def about(self, query: Expression, way: Way, state: State) -> List[str]:
        """What is known of the terms of a query that isn't answered."""
        plain = query[1] if query[0] == 'not-derived' else query
        if query[0] == 'not-derived':
            return [f'{written(plain)} is answered there']
        atoms = [literal[1] if literal[0] == 'not' else literal for literal in plain[1:]]
        heads = {word for atom in atoms for word in words_of(atom)} & set(self.file.arguments)
        asked = tuple(asking for atom in atoms if plain[0] != 'kv'
                      for asking in (('k', atom), ('k', ('not', atom)), ('kw', atom)))
        places = tuple(('kv', place) for atom in atoms for place in self.places(atom))
        try:
            answered = self.asker.at(way, asked + places).answered
        except (Lost, TooMany):
            answered = frozenset()
        lines = [f'answered there: {written(q)}' for q in (*asked, *places) if q in answered]
        objects = {word for atom in atoms for word in words_of(atom)} & set(self.file.kinds)
        known = [text for text in state.known if heads & set(words_in(text))]
        near = [text for text in known if objects & set(words_in(text))] or known
        sides = {written(place) for _, place in places}
        values = [text for text in known if any(text.startswith(f'(= {side} ') for side in sides)]
        near = list(dict.fromkeys((*values, *near)))
        return lines + [f'known there: {" ".join(near[:SHOWN])}' if near
                        else f'nothing is known there of {", ".join(sorted(heads))}']

    def places(self, atom: Expression) -> Iterator[List_]:
        """The places of functions in an atom or a term."""
        if not isinstance(atom, str):
            if atom[0] in self.file.results:
                yield atom
            for part in atom[1:]:
                yield from self.places(part)

    # Sides

    def branch(self, tree: Branch, way: Way, state: State, indent: str) -> Optional[Question]:
        """A branch: whether it is a choice, and its two sides."""
        text = f'branch {tree.text()}'
        opened = tuple(l for l in tree.literals if ('k', l) not in state.answered)
        denied = [l for l in tree.literals if ('k', negated(l)) in state.answered]
        if denied:
            return self.fault(indent, text, f'{written(denied[0])} is known to be false there', ())
        if not opened:
            return self.fault(indent, text, f'{tree.text()} is known there', ())
        if ('kw', *tree.literals) not in state.answered:
            query = ('kw', *tree.literals)
            return self.fault(indent, text, f'{written(query)} isn\'t answered', self.about(query, way, state))
        alone = len(opened) > 1 and all(('kw', literal) in state.answered for literal in opened)
        self.say(indent, text)
        self.done += 1
        self.say(indent, 'true')
        true = self.walk(tree.true, (*way, self.true_side(tree, opened, alone)), state, (), indent + '  ')
        self.say(indent, 'false')
        # (where each literal is known whether by itself, nothing is learnt on this side)
        denying: Way = () if alone else (lambda rest: branched(tree.literals, opened, Left(), rest),)
        false = self.walk(tree.false, way + denying, state, (), indent + '  ')
        return None if alone or true is None or false is None else branched(tree.literals, opened, true, false)

    def true_side(self, tree: Branch, opened: List_, alone: bool) -> Callable[[Question], Question]:
        """The side of a branch on which all is true, as a step."""
        if alone:
            return functools.partial(taken_apart, opened)
        return lambda rest: branched(tree.literals, opened, rest, Left())

    def values(self, tree: Cases) -> List[str]:
        """The objects that the term may have as its value, by its type."""
        kind = self.file.type_of(tree.term)
        return self.file.of_type(kind) if kind else []

    def cases(self, tree: Cases, way: Way, state: State, indent: str) -> Optional[Question]:
        """Cases: whether they are a choice, which objects are left, and each side."""
        text = f'cases {tree.text()}'
        left = [v for v in self.values(tree) if ('k', negated(('=', tree.term, v))) not in state.answered]
        if ('kv', tree.term) not in state.answered:
            return self.fault(indent, text, f'{written(("kv", tree.term))} isn\'t answered',
                              self.about(('kv', tree.term), way, state))
        if len(left) > limits.CASES:
            return self.fault(indent, text, f'{len(left)} objects are left, and {limits.CASES} are the most', ())
        self.say(indent, text)
        self.done += 1
        sides: List[Tuple[List_, Question]] = []
        whole = True
        for value, child in tree.sides:
            self.say(indent, f'case {value}')
            if value not in left:
                denial = written(negated(('=', tree.term, value)))
                self.say(indent, f'  ({denial} is known, so this case doesn\'t come)')
                continue
            step = functools.partial(chosen, tree.term, self.file.type_of(tree.term), value)
            rest = self.walk(child, (*way, step), state, (), indent + '  ')
            whole = whole and rest is not None
            sides.append(((('k', ('=', tree.term, value)),), rest or Closed()))
        given = [value for value, _ in tree.sides]
        for value in left:
            if value not in given:
                self.say(indent, f'case {value}')
                self.say(indent, '  (the plan has no such case, and this object is left)')
                whole = False
        return Fork((tree.term,), tuple(sides)) if whole else None

    # Goals

    def goal(self, state: State, indent: str) -> Optional[Question]:
        """A goal: the aims of the last moment."""
        missing = [aim for aim in self.needs(Goal()) if aim not in state.answered]
        if missing:
            lines = [line for aim in missing for line in self.about(aim, (), state)]
            verb = 'isn\'t' if len(missing) == 1 else 'aren\'t'
            self.say(indent, 'goal    NOT MET')
            for line in (f'{" ".join(map(written, missing))} {verb} answered', *lines):
                self.say(indent, f'    {line}')
            self.faults.append(f'goal: {" ".join(map(written, missing))} {verb} answered')
            return None
        self.say(indent, 'goal')
        self.met += 1
        return Left()

    def over_time(self, question: Optional[Question]) -> None:
        """Asks of the aims over time whether the whole plan meets them."""
        for aim in self.file.goal:
            if aim[0] not in OVER_TIME:
                continue
            if question is None:
                self.say('', f'{written(aim)} was not asked: it is asked of a whole plan')
                continue
            try:
                if self.asker.whole(question, aim):
                    self.say('', f'{written(aim)} is met')
                else:
                    self.say('', f'{written(aim)} IS NOT MET at one of the ends')
                    self.faults.append(f'{written(aim)} is not met')
            except TooMany as fault:
                self.say('', f'{written(aim)} was not asked: {fault}')


def words_in(text: str) -> List[str]:
    """The words of a printed literal."""
    return text.replace('(', ' ').replace(')', ' ').split()
