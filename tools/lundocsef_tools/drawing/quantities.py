"""Lanes of capacities and levels: a curve with its limits, and where it is outside them."""
from ..sentences import sentence
from .canvas import Canvas, tidy, width_of
from .style import DIM, FAINT, INK, SMALL, TOLD, WRONG, full, pale
from .told import title_of, told_strip
from .view import Lane, packed

HEIGHT = 50


def quantity_lane(plan, view, line):
    if line.sort == 'capacity' and line.most == 1:
        return users_lane(plan, view, line)
    canvas, profile = Canvas(), plan.snapshot.profiles[line.name]
    strip = told_strip(view, profile.marks, line, canvas)
    frame = Frame(view, line, profile, strip + 5)
    canvas.rect(view.left, frame.top - 3, view.right - view.left, HEIGHT + 6, 'none', stroke=FAINT)
    now = min(max(plan.world.now, view.first), view.last)
    frame.curve(canvas, view.first, now, '#c4ccd4', INK)
    frame.curve(canvas, now, view.last, '#dfe9f5', '#2a5d9c')
    frame.limits(canvas)
    for conflict in plan.conflicts:
        if conflict.code in ('over', 'low', 'high') and conflict.subject == line.number and view.shows(conflict.a, conflict.b):
            x = view.x(conflict.a)
            canvas.rect(x, frame.top - 3, view.x(conflict.b) - x, HEIGHT + 6, 'url(#wrong)', sentence(plan, conflict), stroke=WRONG)
    for mark in profile.marks:
        if view.shows(mark.moment):
            frame.mark(canvas, mark)
    note = 'of %d' % line.most if line.sort == 'capacity' else '%d to %d' % (line.least, line.most)
    return Lane(line.name, note, strip + HEIGHT + 12, canvas)


class Frame:
    """The drawing of one curve: which values lie in it, and where."""

    def __init__(self, view, line, profile, top):
        self.view, self.line, self.profile, self.top = view, line, profile, top
        values = [value for _, _, value in profile.pieces(view.first, view.last)]
        values += [value for mark in profile.marks if view.shows(mark.moment) for value in (mark.told, mark.thought)]
        self.least, self.most = min(values), max(values)
        self.bottom_value, self.top_value = 0, max(line.most, self.most)
        if line.sort == 'level':
            self.fit_level(max(self.most - self.least, 1))
        if self.top_value == self.bottom_value:
            self.top_value += 1

    def fit_level(self, height):
        """A limit that is much farther from all values than they are from each other is not drawn."""
        near_most = self.most <= self.line.most <= self.most + 3 * height
        near_least = self.least - 3 * height <= self.line.least <= self.least
        self.top_value = self.line.most if near_most else self.most
        self.bottom_value = self.line.least if near_least else self.least - (height // 4 if self.least > self.line.least else 0)

    def y(self, value):
        return self.top + HEIGHT - (value - self.bottom_value) * HEIGHT / (self.top_value - self.bottom_value)

    def curve(self, canvas, first, last, fill, stroke):
        if first >= last:
            return
        pieces = list(self.profile.pieces(first, last))
        steps = 'M%s %s' % (tidy(self.view.x(first)), tidy(self.y(pieces[0][2])))
        for start, _, value in pieces[1:]:
            steps += 'H%sV%s' % (tidy(self.view.x(start)), tidy(self.y(value)))
        steps += 'H%s' % tidy(self.view.x(last))
        floor = tidy(self.top + HEIGHT)
        canvas.path('%sV%sH%sZ' % (steps, floor, tidy(self.view.x(first))), fill=fill)
        canvas.path(steps, fill='none', stroke=stroke, stroke_width=1.5)

    def limits(self, canvas):
        """Dashed lines with their numbers, and the greatest and least value where there is room for them."""
        taken = []
        for name in ('most', 'least'):
            limit = getattr(self.line, name, None)
            if limit is None:
                continue
            if self.bottom_value <= limit <= self.top_value:
                if limit != self.bottom_value or name == 'most' or limit > 0:
                    canvas.line(self.view.left, self.y(limit), self.view.right, self.y(limit), WRONG, 1, '5 3')
                self.number(canvas, limit, WRONG, taken)
            else:
                y, where = (self.top + 8, 'above') if name == 'most' else (self.top + HEIGHT - 3, 'below')
                canvas.text(self.view.right - 4, y, 'the %s, %d, is far %s' % (name, limit, where), SMALL, DIM, 'end')
        for value in (self.most, self.least):
            if all(abs(self.y(value) - y) > 9 for y in taken):
                self.number(canvas, value, DIM, taken)

    def number(self, canvas, value, colour, taken):
        canvas.text(self.view.left - 4, self.y(value) + 3, '%d' % value, SMALL, colour, 'end')
        taken.append(self.y(value))

    def mark(self, canvas, mark):
        x = self.view.x(mark.moment)
        canvas.line(x, self.y(mark.thought), x, self.y(mark.told), TOLD, 2)
        canvas.diamond(x, self.y(mark.told), TOLD, title_of(self.line, mark))


def users_lane(plan, view, line):
    """A capacity of one: who has it when."""
    canvas, items = Canvas(), []
    for use in plan.snapshot.uses[line.name]:
        if use.amount and view.shows(use.start, use.end):
            items.append((view.x(use.start), max(view.x(use.end), view.x(use.start) + 1), use))
    rows = packed(items)[:6] or [[]]
    canvas.rect(view.left, 2, view.right - view.left, 13 * len(rows), 'none', stroke=FAINT)
    for number, row in enumerate(rows):
        for use in row:
            left, right, kind = view.x(use.start), view.x(use.end), use.activity.kind
            title = '%s is used by #%d %s from %d to %d' % (line.name, use.activity.id, kind.name, use.start, use.end)
            canvas.rect(left, 3 + 13 * number, right - left, 11, pale(kind.number), title, stroke=full(kind.number), stroke_width=0.8)
            if width_of(kind.name, SMALL) + 4 < right - left:
                canvas.text(left + 3, 12 + 13 * number, kind.name, SMALL, INK)
    for conflict in plan.conflicts:
        if conflict.code == 'over' and conflict.subject == line.number and view.shows(conflict.a, conflict.b):
            x = view.x(conflict.a)
            canvas.rect(x, 2, view.x(conflict.b) - x, 13 * len(rows), 'url(#wrong)', sentence(plan, conflict), stroke=WRONG)
    return Lane(line.name, 'one user at a time', 13 * len(rows) + 5, canvas)
