"""The report of a plan: made from a snapshot as the program makes it, and read back."""
from dataclasses import dataclass, field
from typing import Dict, List, Optional

from .conflicts import conflicts
from .failure import Failure
from .journal import Conflict, read_conflict


def report_of(snapshot, found=None):
    """The text that the program's `report` writes of the same journal; `found` are the conflicts, where they are known."""
    world = snapshot.world
    found = conflicts(snapshot) if found is None else found
    lines = ['report entries %d now %d committed %d dispatched %d conflicts %d' % (
        world.entries, world.now, world.committed, len(world.commands), len(found))]
    for goal in world.goals.values():
        state = world.goal_state(goal.number)
        served = ' %d' % world.serving[goal.number].id if state == 'served' else ''
        lines.append('goal %d %s %d %d %s %s%s' % (
            goal.number, goal.kind, goal.earliest, goal.latest, 'must' if goal.must else 'may', state, served))
    for _, activity in sorted(world.activities.items()):
        end = snapshot.end(activity)
        lines.append('activity %d %s %d %s %s %s' % (
            activity.id, activity.kind.name, activity.start, '-' if end is None else end,
            'root' if activity.parent is None else 'in %d' % activity.parent.id,
            'committed' if world.is_committed(activity) else 'planned'))
    lines += ['conflict ' + str(conflict) for conflict in found]
    lines += ['command %s' % command for command in world.commands]
    return ''.join(line + '\n' for line in lines)


@dataclass
class GoalLine:
    number: int
    kind: str
    earliest: int
    latest: int
    must: bool
    state: str
    by: Optional[int]


@dataclass
class ActivityLine:
    id: int
    kind: str
    start: int
    end: Optional[int]
    parent: Optional[int]
    committed: bool


@dataclass
class CommandLine:
    id: int
    kind: str
    start: int
    values: Dict[str, int]


@dataclass
class Report:
    entries: int = 0
    now: int = 0
    committed: int = 0
    dispatched: int = 0
    goals: List[GoalLine] = field(default_factory=list)
    activities: List[ActivityLine] = field(default_factory=list)
    conflicts: List[Conflict] = field(default_factory=list)
    commands: List[CommandLine] = field(default_factory=list)

    def goals_that_are(self, state):
        return [goal for goal in self.goals if goal.state == state]


def read_report(text, name='the report'):
    """The report of a text; a Failure where a line is none of a report's."""
    report = Report()
    for number, line in enumerate(text.split('\n'), 1):
        parts = line.split()
        if not parts:
            continue
        try:
            READERS[parts[0]](report, parts[1:])
        except (KeyError, IndexError, ValueError, TypeError):
            raise Failure('%s, line %d: this is no line of a report: %s' % (name, number, line[:100]))
    return report


def read_head(report, parts):
    report.entries, report.now, report.committed, report.dispatched = (int(parts[at]) for at in (1, 3, 5, 7))


def read_goal(report, parts):
    by = int(parts[6]) if len(parts) > 6 else None
    report.goals.append(GoalLine(int(parts[0]), parts[1], int(parts[2]), int(parts[3]), parts[4] == 'must', parts[5], by))


def read_activity(report, parts):
    end = None if parts[3] == '-' else int(parts[3])
    parent = int(parts[5]) if parts[4] == 'in' else None
    report.activities.append(ActivityLine(int(parts[0]), parts[1], int(parts[2]), end, parent, parts[-1] == 'committed'))


def read_command(report, parts):
    values = dict(part.split('=') for part in parts[3:])
    report.commands.append(CommandLine(int(parts[0]), parts[1], int(parts[2]), {name: int(value) for name, value in values.items()}))


READERS = {
    'report': read_head,
    'goal': read_goal,
    'activity': read_activity,
    'conflict': lambda report, parts: report.conflicts.append(read_conflict(parts)),
    'command': read_command,
}
