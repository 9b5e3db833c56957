"""Conflicts: a lane of flags at the moments from which they count, and sentences below the picture."""
from ..sentences import sentence
from .canvas import Canvas, width_of
from .style import DIM, INK, SMALL, TEXT, WRONG
from .view import Lane, packed

ROWS, SENTENCES = 8, 12


def conflict_lane(plan, view):
    """The flags, conflicts of one code and moment together; None where nothing is wrong in view."""
    groups = {}
    for conflict in plan.conflicts:
        if view.shows(conflict.moment):
            groups.setdefault((conflict.moment, conflict.code), []).append(conflict)
    if not groups:
        return None
    items = []
    for (moment, code), group in groups.items():
        label = code if len(group) == 1 else '%d %s' % (len(group), code)
        x, wide = view.x(moment), width_of(label, SMALL) + 14
        at_left = x + wide > view.width
        items.append((x - wide if at_left else x, x + 6 if at_left else x + wide, (x, at_left, label, group)))
    rows, canvas = packed(items)[:ROWS], Canvas()
    for number, row in enumerate(rows):
        for x, at_left, label, group in row:
            y = 3 + 13 * number
            canvas.open_group('\n'.join('from %d: %s' % (each.moment, sentence(plan, each)) for each in group[:20]), class_='conflict')
            canvas.warning(x, y, WRONG, 10)
            canvas.text(x - 8 if at_left else x + 8, y + 9, label, SMALL, WRONG, 'end' if at_left else None, font_weight='bold')
            canvas.close_group()
    return Lane('what is wrong', '%d conflict%s' % (len(plan.conflicts), 's' * (len(plan.conflicts) != 1)), 13 * len(rows) + 6, canvas)


def conflict_sentences(plan, view):
    """The conflicts in words, for the foot of the picture, as a canvas and its height."""
    canvas, y = Canvas(), 14
    if not plan.conflicts:
        return canvas, 0
    canvas.text(12, y, 'What is wrong', 12, WRONG, font_weight='bold')
    # Those that count from a moment in view come first.
    ordered = sorted(plan.conflicts, key=lambda conflict: not view.shows(conflict.moment))
    for conflict in ordered[:SENTENCES]:
        y += 15
        canvas.text(20, y, 'from %d: %s (%s)' % (conflict.moment, sentence(plan, conflict), conflict.code), TEXT, INK)
    if len(ordered) > SENTENCES:
        y += 15
        canvas.text(20, y, 'and %d more' % (len(ordered) - SENTENCES), TEXT, DIM)
    return canvas, y + 10
