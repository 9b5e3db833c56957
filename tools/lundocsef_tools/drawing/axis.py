"""The axis of moments, the present, and how far the plan is committed."""
from .canvas import width_of
from .style import COMMITTED, DIM, FAINT, INK, PAST, SERVED, SMALL, TEXT, WRONG
from .view import round_step

HALO = dict(stroke='white', stroke_width=3, paint_order='stroke')     # keeps words readable where a line runs through them


def shade(plan, view, canvas, top, bottom):
    """The past and what is committed, behind everything else."""
    now, committed = plan.world.now, plan.world.committed
    if now > view.first:
        canvas.rect(view.left, top, view.x(now) - view.left, bottom - top, PAST)
    if committed > now and view.shows(now, committed):
        canvas.rect(view.x(now), top, view.x(committed) - view.x(now), bottom - top, COMMITTED)


def round_moments(view):
    """The moments that have a line and a label, and whether their clock times need seconds."""
    wanted = (view.right - view.left) / 80
    if view.clock:
        return view.clock.ticks(view.first, view.last, wanted)
    step = round_step(view.last - view.first, wanted)
    return range(-(-view.first // step) * step, view.last + 1, step), False


def draw_axis(view, canvas, top, bottom):
    """Lines at round moments, or at round clock times."""
    for moment in round_moments(view)[0]:
        canvas.line(view.x(moment), top - 4, view.x(moment), bottom, FAINT, 0.7)


def draw_labels(view, canvas, top):
    """The labels of these lines."""
    moments, seconds = round_moments(view)
    for moment in moments:
        canvas.text(view.x(moment), top - 8, '%d' % moment, SMALL, DIM, 'middle', **HALO)
        if view.clock:
            canvas.text(view.x(moment), top - 19, view.clock.label(moment, seconds), TEXT, INK, 'middle', **HALO)


def draw_moments(plan, view, canvas, y, bottom):
    """The lines of the present and of the committed part, with words above the axis."""
    now, committed = plan.world.now, plan.world.committed
    words_of_now = 'now %d%s' % (now, ' (%s)' % view.clock.label(now) if view.clock else '')
    stopped = committed <= now
    words = 'nothing is committed from %d on' % committed if stopped else 'committed to %d' % committed
    to_right = not stopped and view.x(committed) + width_of(words) + 4 < view.width
    # Words that reach back over the line of the present stand above the words of the present.
    above = not stopped and not to_right
    if view.shows(now):
        at_left = view.x(now) - width_of(words_of_now) > 8
        flag(view, canvas, now, words_of_now, INK, (y, bottom), 1 if above else 0, at_left)
    if view.shows(committed):
        flag(view, canvas, committed, words, WRONG if stopped else SERVED, (y, bottom), 1 if stopped else 0, not to_right, '6 3')


def flag(view, canvas, moment, words, colour, ends, row, at_left, dash=None):
    """A line down the picture at a moment, with words beside its top, in the first or second row above the axis."""
    x, (y, bottom) = view.x(moment), ends
    canvas.line(x, y + 14 + 13 * row, x, bottom, colour, 1.7, dash)
    canvas.text(x - 4 if at_left else x + 4, y + 11 + 13 * row, words, TEXT, colour, 'end' if at_left else None, font_weight='bold', **HALO)
