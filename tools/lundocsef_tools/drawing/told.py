"""Telemetry: a diamond where the value counts from, and above it what was told and how far the plan was off."""
from .canvas import width_of
from .style import SMALL, TOLD
from .view import packed

STRIP = 12


def label_of(mark):
    if isinstance(mark.told, int):
        return 'told %d (%+d)' % (mark.told, mark.told - mark.thought) if mark.told != mark.thought else 'told %d' % mark.told
    return 'told %s' % mark.told + (', not %s' % mark.thought if mark.told != mark.thought else '')


def title_of(line, mark):
    return 'telemetry at %d: %s is %s; by the plan it was %s' % (mark.moment, line.name, mark.told, mark.thought)


def told_strip(view, marks, line, canvas):
    """Draws the labels of the marks in view in rows at the top; returns the height of the rows."""
    items = []
    for mark in marks:
        if view.shows(mark.moment):
            wide = width_of(label_of(mark), SMALL) + 6
            left = min(view.x(mark.moment), view.right - wide)
            items.append((left, left + wide, (left, mark)))
    rows = packed(items)[:4]
    for number, row in enumerate(rows):
        for left, mark in row:
            canvas.open_group(title_of(line, mark), class_='told')
            canvas.text(left + 3, STRIP * number + 10, label_of(mark), SMALL, TOLD)
            canvas.line(view.x(mark.moment), STRIP * number + 2, view.x(mark.moment), STRIP * len(rows) + 2, TOLD, 0.8)
            canvas.close_group()
    return STRIP * len(rows)
