"""What part of a plan is drawn, and where on the page its moments lie."""
from dataclasses import dataclass, field
from typing import Set

from ..clock import Clock
from .style import LABELS, MARGIN


@dataclass
class View:
    """`first` and `last` bound the moments that are drawn; `hidden` holds kinds and timelines that are not."""
    first: int
    last: int
    width: int = 1200
    clock: Clock = field(default_factory=Clock)
    title: str = ''
    hidden: Set[str] = field(default_factory=set)
    pointed: bool = False            # whether a page follows the mouse, so that activities carry their numbers

    @property
    def left(self):
        return LABELS

    @property
    def right(self):
        return self.width - MARGIN

    def x(self, moment):
        """Where a moment lies; those out of view lie at the edge."""
        inside = min(max(moment, self.first), self.last)
        return self.left + (inside - self.first) * (self.right - self.left) / (self.last - self.first)

    def shows(self, first, last=None):
        return first <= self.last and (first if last is None else last) >= self.first

    def shows_name(self, name):
        return name not in self.hidden

    def times(self, first, last):
        """The clock times of two moments, in brackets, where there is a clock."""
        return ' (%s to %s)' % (self.clock.label(first), self.clock.label(last)) if self.clock else ''


@dataclass
class Lane:
    """A strip of the picture: what stands at its left (the note in lines), how high it is, and its drawing."""
    label: str
    note: str
    height: float
    canvas: object


def default_range(plan, hidden=()):
    """From 0 to a little behind the last thing that happens."""
    world = plan.world
    shown = [each for each in world.activities.values() if each.kind.name not in hidden]
    last = max([world.now, world.committed, 1] + [each.start for each in shown] + [conflict.moment for conflict in plan.conflicts]
               + [goal.latest for goal in world.goals.values() if goal.kind not in hidden])
    # One activity that is much longer than all else does not shrink the rest.
    ends = [plan.snapshot.end(each) or 0 for each in shown]
    last = max([last] + [end for end in ends if end <= 1.1 * last])
    return 0, min(plan.model.horizon, last + max(1, last // 50))


def packed(items):
    """Rows for (left, right, thing), each in the first row with room; the rows' things are in order from the left."""
    rows, ends = [], []
    for left, right, thing in sorted(items, key=lambda item: (item[0], item[1])):
        row = next((number for number, end in enumerate(ends) if end <= left), None)
        if row is None:
            row = len(rows)
            rows.append([])
            ends.append(0)
        rows[row].append(thing)
        ends[row] = right
    return rows


def round_step(span, wanted):
    """A round number such that about `wanted` steps of it cover the span."""
    raw = max(1, span / max(1, wanted))
    size = 10 ** (len(str(int(raw))) - 1)
    return next(int(factor * size) for factor in (1, 2, 5, 10) if factor * size >= raw)
