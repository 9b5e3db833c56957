"""Messages: goals, telemetry, ticks, measured ends, halts and the end, as docs/JOURNAL.md explains them."""
from dataclasses import dataclass
from typing import Dict, Union

from .tokens import words


@dataclass
class Goal:
    number: int
    kind: str
    earliest: int
    latest: int
    must: bool
    presets: Dict[str, int]


@dataclass
class Telemetry:
    timeline: str
    value: Union[int, str]


@dataclass
class Tick:
    moment: int


@dataclass
class Until:
    """The activity of this number ends at this moment."""
    number: int
    moment: int


@dataclass
class Halt:
    """What is committed and has not begun is withdrawn."""


def read_message(text):
    """The message of a line that the program has accepted; None for the end line."""
    parts = words(text)
    if parts[0] == 'goal':
        presets = {parts[at]: int(parts[at + 2]) for at in range(6, len(parts), 3)}
        return Goal(int(parts[1]), parts[2], int(parts[3]), int(parts[4]), parts[5] == 'must', presets)
    if parts[0] == 'tele':
        return Telemetry(parts[1], int(parts[2]) if parts[2].isdigit() else parts[2])
    if parts[0] == 'tick':
        return Tick(int(parts[1]))
    if parts[0] == 'until':
        return Until(int(parts[1]), int(parts[2]))
    if parts[0] == 'halt':
        return Halt()
    return None


def goal_line(goal):
    """The message that states a goal."""
    presets = ''.join(' %s=%d' % preset for preset in goal.presets.items())
    return 'goal %d %s %d %d %s%s' % (goal.number, goal.kind, goal.earliest, goal.latest, 'must' if goal.must else 'may', presets)
