"""What a journal says about the plan: every entry changes a world, and the world shows goals, activities and telemetry."""
from dataclasses import dataclass, field
from typing import Dict, List, Optional

from .failure import Failure
from .journal import read_entry
from .messages import Goal, Halt, Telemetry, Tick, Until, read_message
from .model import Kind


@dataclass
class Activity:
    id: int
    kind: Kind
    start: int
    parent: Optional['Activity'] = None
    slot: Optional[int] = None            # the number of its slot in its parent's alternative
    goal: Optional[int] = None            # the number of the goal that a root stands for
    chosen: Dict[str, int] = field(default_factory=dict)     # values that a preset or a repair has set
    alternative: Optional[int] = None
    measured: Optional[int] = None        # its end, where a message told it
    children: List['Activity'] = field(default_factory=list)

    def subtree(self):
        """The activity itself and all that it contains."""
        found = [self]
        for activity in found:
            found.extend(activity.children)
        return found

    def root(self):
        return self if self.parent is None else self.parent.root()

    def slot_of_parent(self):
        return self.parent.kind.alternatives[self.parent.alternative].slots[self.slot]


@dataclass
class Told:
    """A value that telemetry gave for a timeline."""
    entry: int
    moment: int
    timeline: str
    value: object


@dataclass
class Round:
    """A message and what followed it up to the close."""
    entry: int
    message: str
    reply: str
    now: int
    fixes: Dict[str, int] = field(default_factory=dict)       # how many repairs of each conflict code
    rest: Optional[str] = None
    committed: Optional[int] = None
    held: int = 0                                             # how many commits were refused
    closed: bool = False


class World:
    """The state of a run behind some entry of its journal."""

    def __init__(self, model):
        self.model = model
        self.entries = 0
        self.now = 0
        self.committed = 0
        self.next_id = 1
        self.goals = {}           # number -> Goal, in the order of acceptance
        self.goal_entry = {}      # number -> the entry that accepted it
        self.dropped = set()
        self.serving = {}         # number of a goal -> the root that stands for it
        self.activities = {}      # id -> Activity, of those that stand
        self.told = []
        self.commands = []        # the dispatched commands, as they stand in the journal
        self.sent_at = {}         # id -> the moment at which its command was sent
        self.rounds = []
        self.history = {}         # id -> the numbers of the entries that concern the activity
        self.done = False

    # ------------------------------------------------------------ what is true of it

    def floor(self):
        return max(self.now + 1, self.committed)

    def is_committed(self, activity):
        return activity.start < self.committed

    def goal_state(self, number):
        """served, dropped or open; the last also of a goal that was missed."""
        if number in self.serving:
            return 'served'
        return 'dropped' if number in self.dropped else 'open'

    def is_missed(self, number):
        return self.goal_state(number) == 'open' and self.goals[number].latest < self.floor()

    # ------------------------------------------------------------ how entries change it

    def follow(self, lines):
        """Applies the lines of a journal in turn."""
        for line in lines:
            self.apply(read_entry(line))
        return self

    def apply(self, entry):
        if entry.number != self.entries:
            raise Failure('entry %d of the journal has the number %d' % (self.entries, entry.number))
        try:
            getattr(self, 'on_' + entry.event)(entry)
        except (KeyError, IndexError, ValueError, AttributeError):
            raise Failure('entry %d does not fit the model or the entries before it' % entry.number)
        self.entries += 1

    def on_open(self, entry):
        pass

    def on_eof(self, entry):
        self.done = True

    def on_in(self, entry):
        self.rounds.append(Round(entry.number, entry.message, entry.reply, self.now))
        if entry.reply == 'end':
            self.done = True
            self.rounds.pop()
        if entry.reply != 'ok':
            return
        message = read_message(entry.message)
        if isinstance(message, Goal):
            self.goals[message.number] = message
            self.goal_entry[message.number] = entry.number
        elif isinstance(message, Telemetry):
            self.told.append(Told(entry.number, self.now, message.timeline, message.value))
        elif isinstance(message, Tick):
            self.now = self.rounds[-1].now = message.moment
        elif isinstance(message, Until):
            self.activities[message.number].measured = message.moment
            self.remember(message.number, entry)
        elif isinstance(message, Halt):
            self.committed = min(self.committed, self.now + 1)

    def on_rest(self, entry):
        self.rounds[-1].rest = entry.reply

    def on_commit(self, entry):
        if entry.reply == 'ok':
            self.committed = self.rounds[-1].committed = entry.moment
        else:
            self.rounds[-1].held += 1

    def on_dispatch(self, entry):
        number = int(entry.command[0])
        self.commands.append(' '.join(entry.command))
        self.sent_at[number] = self.now
        self.remember(number, entry)

    def on_close(self, entry):
        self.rounds[-1].closed = True

    def on_fix(self, entry):
        if entry.conflict.of_activity():
            self.remember(entry.conflict.subject, entry)
        if entry.reply != 'ok':
            return
        fixes = self.rounds[-1].fixes
        fixes[entry.conflict.code] = fixes.get(entry.conflict.code, 0) + 1
        getattr(self, 'do_' + entry.move[0])(entry, *entry.move[1:])

    def do_add(self, entry, kind, start, word=None, goal=None):
        activity = self.create(entry, self.model.kind_named[kind], int(start))
        if goal is not None:
            activity.goal = int(goal)
            activity.chosen = dict(self.goals[activity.goal].presets)
            self.serving[activity.goal] = activity

    def do_delete(self, entry, number):
        self.remove(entry, self.activities[int(number)])

    def do_shift(self, entry, number, start):
        activity = self.activities[int(number)]
        distance = int(start) - activity.start
        for each in activity.subtree():
            each.start += distance
            self.remember(each.id, entry)

    def do_detail(self, entry, number, alternative):
        activity = self.activities[int(number)]
        activity.alternative = int(alternative)
        self.remember(activity.id, entry)
        slots = activity.kind.alternatives[activity.alternative].slots
        offsets = self.model.offsets(activity.kind, activity.alternative)
        for slot, (its_slot, offset) in enumerate(zip(slots, offsets)):
            child = self.create(entry, self.model.kind_named[its_slot.kind], activity.start + offset)
            child.parent, child.slot = activity, slot
            activity.children.append(child)

    def do_abstract(self, entry, number):
        activity = self.activities[int(number)]
        self.remember(activity.id, entry)
        for child in activity.children:
            self.remove(entry, child)
        activity.alternative, activity.children = None, []

    def do_assign(self, entry, number, param, value):
        activity = self.activities[int(number)]
        activity.chosen[activity.kind.params[int(param)].name] = int(value)
        for each in activity.subtree():
            self.remember(each.id, entry)

    def do_drop(self, entry, goal):
        self.dropped.add(int(goal))

    def create(self, entry, kind, start):
        activity = Activity(self.next_id, kind, start)
        self.activities[self.next_id] = activity
        self.next_id += 1
        self.remember(activity.id, entry)
        return activity

    def remove(self, entry, activity):
        for each in activity.subtree():
            self.remember(each.id, entry)
            del self.activities[each.id]
        if activity.goal is not None:
            self.serving.pop(activity.goal, None)

    def remember(self, number, entry):
        numbers = self.history.setdefault(number, [])
        if not numbers or numbers[-1] != entry.number:
            numbers.append(entry.number)
