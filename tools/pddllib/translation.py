"""A domain and a problem, read and written."""

from typing import List, NoReturn, Optional, Sequence

from pkslib import Code, commands, read_refusal

from . import knows, layout, limits, order
from .actions import UNSAID, Action, read_actions, written_out
from .conditions import Literal, OneOf, Queries, Scope
from .declared import Declared, sections
from .fixed import Fixed, growing
from .start import Start
from .text import Form, Refusal, Source, definition, listed

SECTIONS = (':domain', ':requirements', ':objects', ':init', ':goal', ':metric')


class Translation:
    """What a domain and a problem say, in the words of the planner's format."""

    def __init__(self, sources: Sequence[Source], name: Optional[str] = None, is_known: bool = False) -> None:
        """Of the files the first domain and the last problem, or the one of this name; `is_known` adds guards."""
        self.is_known = is_known
        self.warnings: List[str] = []
        self.domain = definition(sources, 'domain')
        self.problem = definition(sources, 'problem', name)
        self.sources = self.domain.source, self.problem.source
        self.check_sections()
        self.declared = Declared(self.domain, self.problem)
        self.minimizes = self.declared.minimizes = self.read_metric()
        self.start = self.read_start()
        self.declared.fixed = Fixed(self.declared, sections(self.domain, ':action'), self.start)
        self.actions = read_actions(self.domain, self.declared)
        order.arrange(self.declared, self.actions)
        self.goals = self.read_goal()
        self.declared.check_types(self.domain)

    def check_sections(self) -> None:
        """Refuses what a problem can't have."""
        for form in self.problem.rest()[1:]:
            if form.head() in UNSAID:
                raise Refusal(form, *UNSAID[form.head()])
            if form.head() not in SECTIONS:
                raise Refusal(form, f'a problem can\'t have `{form.shown()}`',
                              'It has `:domain`, `:objects`, `:init`, `:goal` and `:metric`.')

    def read_metric(self) -> bool:
        """Whether costs count."""
        for form in sections(self.problem, ':metric'):
            if [p.text().lower() for p in form.rest()] not in (
                    ['minimize', '(total-cost)'], ['minimize', 'total-cost']):
                raise Refusal(form, 'this metric can\'t be said',
                              'Write `(:metric minimize (total-cost))`, or take it out.')
            return True
        return False

    def read_start(self) -> Start:
        """What is known at the start."""
        start = Start(self.declared, growing(self.declared, sections(self.domain, ':action')))
        for section in sections(self.problem, ':init'):
            for form in section.rest():
                start.read(form)
        start.finish()
        return start

    def read_goal(self) -> List[str]:
        """The queries of the goal."""
        found = Queries('goal')
        goals = sections(self.problem, ':goal')
        try:
            for form in goals:
                for part in form.rest():
                    found.read(part, Scope(self.declared))
        except OneOf as refusal:
            return self.read_end(goals, refusal)
        place = goals[0] if goals else self.problem
        if not found.texts:
            raise Refusal(place, 'there is no goal', 'Write `(:goal (p))`.')
        limits.at_most(limits.GOALS, len(found.texts), place, 'a goal has at most {} parts',
                       'Let an action with these preconditions set a fact, and ask for that.')
        return found.texts

    def read_end(self, goals: Sequence[Form], refusal: OneOf) -> List[str]:
        """A goal that asks for one of several alternatives: an action for each way ends a plan, and sets a fact."""
        names, at = self.declared.names, refusal.form
        made = lambda word=None: Form(at.source, at.line, at.column, word)
        aim = listed(made(), [made('and'), *(part for form in goals for part in form.rest())])
        done = listed(made(), [made(names.unused('predicate', 'finished'))])
        fact = names.declare('predicate', done.parts[0])
        self.declared.predicates[fact] = []
        self.start.negatives.append(Literal(False, fact, ()))
        action = listed(made(), [made(':action'), made(names.unused('action', 'finish')), made(':precondition'), aim,
                                 made(':effect'), done])
        found = written_out(action, self.declared, refusal)
        limits.at_most(limits.ACTIONS, len(self.actions) + len(found), refusal.form,
                       'there are at most {} actions, with one for each way to meet the goal', refusal.instead)
        limits.at_most(limits.PREDICATES, len(self.declared.predicates), refusal.form,
                       'there are at most {} predicates, with one for the goal', refusal.instead)
        for one in found:
            one.remarks = ['The goal in PDDL can be met in more than one way: this ends the plan, where it is known that one is.']
        self.actions += found
        return [f'(k ({fact}))']

    # What is written

    def version(self) -> int:
        """The version that the file needs."""
        parents = any(self.declared.kinds().values())
        many = len(self.declared.objects) > limits.OBJECTS_OF_VERSION_1
        return 2 if parents or many or self.minimizes else 1

    def heading(self) -> List[str]:
        """The comments with which the file begins."""
        domain, problem = self.sources
        said = problem.first_comment()
        paths = dict.fromkeys([domain.path, problem.path])
        said.append(f'Written by {commands.spoken("tools/from-pddl")} from {" and ".join(paths)}, to be read and changed.')
        table = self.declared.names.table()
        return said + (['Names that were changed:'] + table if table else [])

    def cost(self, action: Action) -> int:
        """What an action costs; 0 where costs don't count."""
        return action.did.cost if self.minimizes else 0

    def with_adds(self, adds: Sequence[List[str]]) -> str:
        """The file where each action has these adds."""
        actions = []
        for action, own in zip(self.actions, adds):
            kept, left_out = knows.chosen(own)
            remarks = [*action.remarks, *knows.remarks(action, own, left_out), *order.remarks(self.declared, action)]
            if self.minimizes and not action.did.cost:
                remarks.append('It costs nothing in PDDL, and 1 here: no cost is less.')
            actions.append((action, self.cost(action), kept, remarks))
        return layout.written(self.heading(), self.version(), self.declared, actions,
                              (self.start, self.goals))

    def written(self) -> str:
        """The file, which the planner accepts; warnings are kept in `warnings`."""
        bare = self.with_adds([[] for _ in self.actions])
        self.check_size(bare)
        adds = self.derived(bare)
        if self.is_known and self.guard(adds):
            adds = self.derived(self.with_adds([[] for _ in self.actions]))
        self.warnings = [line for action, own in zip(self.actions, adds)
                         for line in knows.warnings(action, own, self.declared.fixed)]
        text = self.with_adds(adds)
        self.check_size(text)
        said = knows.answer(['check'], text)
        if said.startswith('refused'):
            self.refuse(said)
        return text

    def derived(self, bare: str) -> List[List[str]]:
        """The adds of each action of a file without adds."""
        refused, adds = knows.derived(bare)
        if refused:
            self.refuse(refused)
        return adds

    def guard(self, adds: Sequence[List[str]]) -> bool:
        """Adds to the preconditions what excludes equal arguments, where nothing is lost by it; whether there is any."""
        found = False
        for action, own in zip(self.actions, adds):
            for text in knows.guards(action, own, self.declared.fixed):
                if len(action.queries.texts) < limits.PRECONDITIONS and text not in action.queries.texts:
                    action.queries.add(text)
                    action.remarks.append(f'{text} was added by --known: in PDDL nothing is done where they are the same.')
                    found = True
        return found

    def check_size(self, text: str) -> None:
        """Refuses a file that is too long."""
        limits.at_most(limits.BYTES, len(text), self.problem, 'a file has at most {:,} bytes',
                       'Take fewer objects.')

    def refuse(self, said: str) -> NoReturn:
        """What the planner doesn't accept."""
        inits = sections(self.problem, ':init')
        if read_refusal(said.splitlines()[0]).code == Code.CLASH:
            raise Refusal(inits[0] if inits else self.problem, 'the start contradicts itself',
                          'Look for a fact that is true and false, or a `oneof` of which none, or '
                          'more than one, can be true.')
        raise Refusal(self.problem, f'what was written is not accepted: {said.strip()}',
                      'This is a fault of tools/from-pddl itself.')
