"""How capacities, levels and states run over time, by the plan and by telemetry."""
from bisect import bisect_right
from dataclasses import dataclass, field
from typing import List

from .values import evaluate_all


@dataclass
class Mark:
    """Telemetry as a picture shows it: what was told, and what the plan had come to until then."""
    entry: int
    moment: int
    told: object
    thought: object


@dataclass
class Profile:
    """A timeline's value from moment 0 on: the value from each of these moments up to the next one."""
    moments: List[int]
    values: List[object]
    marks: List[Mark] = field(default_factory=list)

    def at(self, moment):
        return self.values[max(0, bisect_right(self.moments, moment) - 1)]

    def pieces(self, first, last):
        """(from, to, value) of each stretch of one value between two moments, from `first` up to but not at `last`."""
        at = max(0, bisect_right(self.moments, first) - 1)
        while at < len(self.moments) and first < last:
            end = self.moments[at + 1] if at + 1 < len(self.moments) else last
            if end > first:
                yield first, min(end, last), self.values[at]
                first = end
            at += 1

    def spans(self, first, last, wrong):
        """The longest stretches between two moments in which `wrong(value)` holds throughout."""
        found = []
        for start, end, value in self.pieces(first, last):
            if not wrong(value):
                continue
            if found and found[-1][1] == start:
                found[-1] = (found[-1][0], end)
            else:
                found.append((start, end))
        return found


@dataclass
class Use:
    activity: object
    start: int
    end: int
    amount: int


@dataclass
class Change:
    """A raise or lower of a level, or a set of a state."""
    moment: int
    activity: object
    reservation: int
    value: object          # the signed amount, or the state


@dataclass
class Need:
    activity: object
    reservation: int
    state: str
    start: int
    end: int


@dataclass
class BadStep:
    change: Change
    before: str


class Snapshot:
    """What follows from a world: the values of its activities, and how its timelines run."""

    def __init__(self, world):
        self.world = world
        self.model = world.model
        self.evaluations = evaluate_all(world)
        self.uses = {line.name: [] for line in self.model.timelines}
        self.changes = {line.name: [] for line in self.model.timelines}
        self.needs = {line.name: [] for line in self.model.timelines}
        self.bad_steps = []
        for activity in world.activities.values():
            if self.evaluations[activity.id].firm:
                self.gather(activity)
        self.profiles = {line.name: self.profile(line) for line in self.model.timelines}

    def end(self, activity):
        """The first moment behind an activity, as it was measured or else by its duration; None where it is not firm."""
        evaluation = self.evaluations[activity.id]
        if not evaluation.firm:
            return None
        return activity.start + evaluation.duration if activity.measured is None else activity.measured

    def gather(self, activity):
        """What a firm activity asks of each timeline."""
        end = self.end(activity)
        amounts = self.evaluations[activity.id].amounts
        for number, each in enumerate(activity.kind.reservations):
            moment = activity.start if each.point == 'start' else end
            if each.verb == 'use':
                self.uses[each.timeline].append(Use(activity, activity.start, end, amounts[number]))
            elif each.verb == 'must':
                self.needs[each.timeline].append(Need(activity, number, each.state, activity.start, end))
            elif moment < self.model.horizon:
                value = each.state if each.verb == 'set' else amounts[number] if each.verb == 'raise' else -amounts[number]
                self.changes[each.timeline].append(Change(moment, activity, number, value))

    def profile(self, line):
        if line.sort == 'capacity':
            return self.profile_of_capacity(line)
        told = [each for each in self.world.told if each.timeline == line.name]
        return self.profile_of_changes(line, told)

    def profile_of_capacity(self, line):
        steps = {}
        for use in self.uses[line.name]:
            steps[use.start] = steps.get(use.start, 0) + use.amount
            steps[use.end] = steps.get(use.end, 0) - use.amount
        moments, values, now = [0], [0], 0
        for moment in sorted(steps):
            if steps[moment]:
                now += steps[moment]
                moments.append(moment)
                values.append(now)
        return Profile(moments, values)

    def profile_of_changes(self, line, told):
        """Changes count one after the other; telemetry of a moment replaces what changes up to that moment have made."""
        events = [(change.moment, 0, change.activity.id, change.reservation, change) for change in self.changes[line.name]]
        events += [(each.moment, 1, number, 0, each) for number, each in enumerate(told)]
        events.sort(key=lambda event: event[:4])
        base = told[-1].moment if told else -1
        value = line.start
        profile = Profile([0], [value])
        for moment, is_told, _, _, event in events:
            if is_told:
                profile.marks.append(Mark(event.entry, moment, event.value, value))
                value = event.value
            elif line.sort == 'level':
                value += event.value
            else:
                if moment > base and moment >= self.world.now and not line.allows(value, event.value):
                    self.bad_steps.append(BadStep(event, value))
                value = event.value
            if profile.moments[-1] == moment:
                profile.values[-1] = value
            else:
                profile.moments.append(moment)
                profile.values.append(value)
        return profile
