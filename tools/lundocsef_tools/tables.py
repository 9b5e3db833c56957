"""Tables of goals, and of windows such as eclipses and passes, as CSV files."""
import csv
import io
import math
from dataclasses import dataclass, field
from typing import Dict

from .failure import Failure
from .plan import read_text

GOAL_COLUMNS = ('number', 'kind', 'earliest', 'latest', 'must', 'every', 'times', 'until')
WINDOW_COLUMNS = ('start', 'end')


@dataclass
class Row:
    place: str                    # the file and line, for messages
    cells: Dict[str, str]

    def get(self, name, default=''):
        return self.cells.get(name) or default

    def wanted(self, name):
        if not self.get(name):
            raise Failure('%s: the column %s is empty' % (self.place, name))
        return self.get(name)

    def time(self, name, clock):
        """The moment of a cell, as a fraction."""
        try:
            return clock.read(self.wanted(name))
        except Failure as failure:
            raise Failure(str(failure) if str(failure).startswith(self.place) else '%s: %s' % (self.place, failure))

    def number(self, name, default=None):
        text = self.get(name)
        if not text:
            return default
        if not (text.isascii() and text.isdigit()):
            raise Failure('%s: %s is %s, and has to be a number' % (self.place, name, text))
        return int(text)


def read_table(path, wanted):
    """The rows of a CSV file whose first line names the columns; `#` begins a line that is not read."""
    text = read_text(path).encode('latin-1').decode('utf-8-sig', 'replace')
    lines = [(number, line) for number, line in enumerate(text.splitlines(), 1) if line.strip() and not line.lstrip().startswith('#')]
    if not lines:
        raise Failure('%s is empty; its first line has to name the columns' % path)
    cells = [[cell.strip() for cell in row] for row in csv.reader(io.StringIO('\n'.join(line for _, line in lines)))]
    names = cells[0]
    missing = [name for name in wanted if name not in names]
    if missing:
        raise Failure('%s: the first line names no column %s' % (path, ', '.join(missing)))
    return [Row('%s, line %d' % (path, number), dict(zip(names, row))) for (number, _), row in zip(lines[1:], cells[1:])]


@dataclass
class Window:
    """A stretch of time from a table, in moments: `start` up to but not at `end`."""
    row: Row
    start: int
    end: int
    presets: Dict[str, str] = field(default_factory=dict)


def read_windows(path, clock):
    """The windows of a table in the order of their starts; where they fall between moments they are made larger."""
    windows = []
    for row in read_table(path, WINDOW_COLUMNS):
        start, end = math.floor(row.time('start', clock)), math.ceil(row.time('end', clock))
        if end <= start:
            raise Failure('%s: the end is not after the start' % row.place)
        others = {name: cell for name, cell in row.cells.items() if name not in WINDOW_COLUMNS and cell}
        windows.append(Window(row, start, end, others))
    return sorted(windows, key=lambda window: window.start)


def gaps(windows, first, last):
    """The stretches between `first` and `last` that no window covers."""
    found, free = [], first
    for window in windows:
        if window.start > free:
            found.append(Window(window.row, free, min(window.start, last)))
        free = max(free, window.end)
    if free < last:
        found.append(Window(Row('behind the last window', {}), free, last))
    return [gap for gap in found if gap.start < gap.end]
