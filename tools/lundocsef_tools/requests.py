"""Goals from tables: the wishes of a day, and what nobody on board decides, such as eclipses."""
import math

from .failure import Failure
from .messages import Goal, goal_line
from .tables import GOAL_COLUMNS, gaps, read_table, read_windows


class Requests:
    """Collects goals for a model, checks them against it, and numbers them."""

    def __init__(self, model, clock, number=1, length='length', first=None):
        self.model, self.clock, self.number, self.length = model, clock, number, length
        self.first = max(1, model.lead if first is None else first)      # what comes before it is committed by the first message
        self.taken, self.skies, self.wishes, self.remarks = set(), [], [], []

    def lines(self):
        """The messages: gains before losses, then pins, then the wishes. The planner repairs after each message, and would
        add a charge for a loss whose gain it does not know yet."""
        ordered = sorted(self.skies, key=lambda goal: self.rank(self.model.kind_named[goal.kind]))
        return [goal_line(goal) for goal in ordered + self.wishes]

    def rank(self, kind):
        verbs = {each.verb for each in kind.reservations}
        if kind.links and not verbs:
            return 2
        return 0 if 'raise' in verbs and 'lower' not in verbs else 1

    # ------------------------------------------------------------ wishes

    def read_goals(self, path):
        for row in read_table(path, ('kind', 'earliest', 'latest')):
            self.add_row(row)

    def add_row(self, row):
        kind = self.kind(row.wanted('kind'), row)
        earliest, latest = row.time('earliest', self.clock), row.time('latest', self.clock)
        word = row.get('must', 'must')
        if word not in ('must', 'may'):
            raise Failure('%s: the column must holds `must` or `may`, and not %s' % (row.place, word))
        presets = self.presets(kind, {name: cell for name, cell in row.cells.items() if name and name not in GOAL_COLUMNS and cell}, row)
        number = row.number('number')
        for count, shift in enumerate(self.shifts(row, earliest)):
            # A window that falls between moments is made smaller, so that it holds only what was asked for.
            low, high = math.ceil(earliest + shift), math.floor(latest + shift)
            self.check_window(row, low, high)
            its_number = self.next_number(row, None if number is None else number + count)
            self.wishes.append(Goal(its_number, kind.name, low, high, word == 'must', presets))

    def shifts(self, row, earliest):
        """How much later than the first each recurrence is, the first included."""
        every, times = row.get('every'), row.number('times')
        if not every:
            return [0]
        step = self.clock.read_length(every)
        if step <= 0:
            raise Failure('%s: a recurrence comes after some time; every is %s' % (row.place, every))
        last = row.time('until', self.clock) if row.get('until') else self.model.horizon - 1
        count = int((last - earliest) // step) + 1
        if times is not None:
            count = min(count, times)
        return [step * number for number in range(max(0, count))]

    def check_window(self, row, low, high):
        if low > high:
            raise Failure('%s: the window from %d to %d is empty' % (row.place, low, high))
        if high >= self.model.horizon:
            raise Failure('%s: the window ends at %d, and the horizon is %d' % (row.place, high, self.model.horizon))
        if high < self.first:
            self.remarks.append('%s: the window ends at %d, and the first message commits the plan up to %d, so this goal is too late '
                                'unless it is the first' % (row.place, high, self.first))

    # ------------------------------------------------------------ what nobody on board decides

    def read_during(self, kind_name, path):
        """A goal of a kind for each window, at its start alone."""
        for window in read_windows(path, self.clock):
            self.add_window(kind_name, window)

    def read_between(self, kind_name, path, last=None):
        """The same for the time between the windows."""
        for window in gaps(read_windows(path, self.clock), self.first, self.model.horizon if last is None else last):
            self.add_window(kind_name, window)

    def add_window(self, kind_name, window):
        kind = self.kind(kind_name, window.row)
        start, end = max(window.start, self.first), min(window.end, self.model.horizon)
        if start >= end:
            return
        given = {name: cell for name, cell in window.presets.items() if kind.param(name)}
        if kind.param(self.length) and self.length not in given:
            given[self.length] = str(end - start)
        self.skies.append(Goal(self.next_number(window.row), kind.name, start, start, True, self.presets(kind, given, window.row)))

    def pin(self, kind_name, pin_name):
        """A goal of a second kind, at the same moment, for each goal of the first that comes from a window."""
        row = None
        pin = self.kind(pin_name, row)
        for goal in [goal for goal in self.skies if goal.kind == kind_name]:
            self.skies.append(Goal(self.next_number(row), pin.name, goal.earliest, goal.latest, True, {}))

    # ------------------------------------------------------------ checks

    def kind(self, name, row):
        if name not in self.model.kind_named:
            raise Failure('%sthe model has no kind %s' % (row.place + ': ' if row else '', name))
        return self.model.kind_named[name]

    def presets(self, kind, cells, row):
        found = {}
        for name, cell in cells.items():
            param = kind.param(name)
            if param is None or param.formula is not None:
                raise Failure('%s: %s has no parameter %s that can be set' % (row.place, kind.name, name))
            if not (cell.isascii() and cell.isdigit()) or not param.low <= int(cell) <= param.high:
                raise Failure('%s: %s is %s, and has to be from %d to %d' % (row.place, name, cell, param.low, param.high))
            found[name] = int(cell)
        return {param.name: found[param.name] for param in kind.params if param.name in found}

    def next_number(self, row, wanted=None):
        if wanted is None:
            while self.number in self.taken:
                self.number += 1
            wanted = self.number
        if wanted in self.taken:
            raise Failure('%s: the number %d is taken' % (row.place, wanted))
        self.taken.add(wanted)
        return wanted
