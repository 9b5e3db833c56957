"""Lanes of states: a row for each state, filled while the timeline is in it; a frame where an activity needs it."""
from ..sentences import sentence
from .canvas import Canvas
from .style import DIM, FAINT, SMALL, TOLD, WRONG
from .told import title_of, told_strip
from .view import Lane

STEP = 11
PAST_FILL, AHEAD_FILL = '#5c6b7a', '#8fa9c9'


def state_lane(plan, view, line):
    canvas, profile = Canvas(), plan.snapshot.profiles[line.name]
    pieces = [piece for piece in profile.pieces(view.first, view.last)]
    needs = [need for need in plan.snapshot.needs[line.name] if view.shows(need.start, need.end)]
    shown = [state for state in line.states if any(state == piece[2] for piece in pieces) or any(state == need.state for need in needs)]
    strip = told_strip(view, profile.marks, line, canvas)
    rows = {state: strip + 3 + STEP * number for number, state in enumerate(shown)}
    canvas.rect(view.left, strip + 1, view.right - view.left, STEP * len(shown) + 2, 'none', stroke=FAINT)
    for state, y in rows.items():
        canvas.text(view.left - 4, y + 8, state[:14], SMALL, DIM, 'end')
        canvas.line(view.left, y + 4.5, view.right, y + 4.5, FAINT, 0.6)
    for start, end, state in pieces:
        draw_stretch(plan, view, canvas, line, (start, end, state), rows[state])
    for need in needs:
        draw_need(plan, view, canvas, line, need, rows[need.state])
    for step in plan.snapshot.bad_steps:
        each = step.change.activity.kind.reservations[step.change.reservation]
        if each.timeline == line.name and view.shows(step.change.moment):
            text = '#%d sets %s to %s, and there is no step to it from %s' % (step.change.activity.id, line.name, each.state, step.before)
            canvas.warning(view.x(step.change.moment), rows.get(each.state, strip + 3) - 1, WRONG, 10, text)
    for mark in profile.marks:
        if view.shows(mark.moment):
            canvas.diamond(view.x(mark.moment), rows.get(mark.told, strip + 3) + 4, TOLD, title_of(line, mark))
    left_out = len(line.states) - len(shown)
    return Lane(line.name, '%d of %d states' % (len(shown), len(line.states)) if left_out else '', strip + STEP * len(shown) + 6, canvas)


def draw_stretch(plan, view, canvas, line, piece, y):
    start, end, state = piece
    now, title = plan.world.now, '%s is %s from %d to %d' % (line.name, state, start, end)
    for first, last, fill in ((start, min(end, now), PAST_FILL), (max(start, now), end, AHEAD_FILL)):
        if first < last:
            canvas.rect(view.x(first), y + 1, view.x(last) - view.x(first), STEP - 4, fill, title)


def draw_need(plan, view, canvas, line, need, y):
    wrong = [conflict for conflict in plan.wrong.get(need.activity.id, [])
             if conflict.code == 'must' and conflict.detail == need.reservation]
    left, right = view.x(need.start), view.x(need.end)
    title = '#%d %s needs %s %s from %d to %d' % (need.activity.id, need.activity.kind.name, line.name, need.state, need.start, need.end)
    canvas.rect(left, y - 1, right - left, STEP - 1, 'none', title, stroke=WRONG if wrong else '#000', stroke_width=1.1,
                pointer_events='all')
    for conflict in wrong:
        x = view.x(conflict.a)
        canvas.rect(x, y - 1, view.x(conflict.b) - x, STEP - 1, 'url(#wrong)', sentence(plan, conflict), stroke=WRONG, stroke_width=2)
