"""One picture of a plan."""
from .activities import activity_lanes
from .axis import draw_axis, draw_labels, draw_moments, shade
from .canvas import Canvas, width_of
from .goals import goal_lane, state_of
from .legend import draw_legend
from .quantities import quantity_lane
from .rounds import round_lane
from .states import state_lane
from .style import DIM, FAINT, FONT, INK, SMALL, WRONG
from .wrong import conflict_lane, conflict_sentences

HEAD = 48             # the height of the title
AXIS, CLOCK = 46, 13  # of the axis below it, and of clock times above the moments
HATCH = ('<defs><pattern id="wrong" width="5" height="5" patternUnits="userSpaceOnUse" patternTransform="rotate(45)">'
         '<rect width="5" height="5" fill="%s" fill-opacity="0.12"/>'
         '<line x1="0" y1="0" x2="0" y2="5" stroke="%s" stroke-width="1.6"/></pattern></defs>' % (WRONG, WRONG))


def lanes_of(plan, view):
    lanes = [conflict_lane(plan, view), goal_lane(plan, view)] + activity_lanes(plan, view)
    for line in plan.model.timelines:
        if view.shows_name(line.name):
            lanes.append(state_lane(plan, view, line) if line.sort == 'state' else quantity_lane(plan, view, line))
    lanes.append(round_lane(plan, view))
    return [lane for lane in lanes if lane is not None]


def summary(plan):
    """The plan in numbers, in two lines."""
    world = plan.world
    states = [state_of(plan, goal) for goal in world.goals.values()]
    goals = ', '.join('%d %s' % (states.count(state), state) for state in ('served', 'open', 'missed', 'dropped'))
    rests = [each.rest for each in world.rounds]
    rounds = ', '.join('%d %s' % (rests.count(rest), rest) for rest in ('clear', 'spent', 'stuck'))
    return '%d goals: %s · %d activities, %d commands sent · %d conflicts · rounds: %s' % (
        len(states), goals, len(world.activities), len(world.commands), len(plan.conflicts), rounds)


def picture(plan, view):
    """The SVG text."""
    lanes, canvas = lanes_of(plan, view), Canvas()
    canvas.text(12, 22, view.title or plan.model.title or 'A plan', 16, INK, font_weight='bold')
    canvas.text(12, 40, summary(plan), 10.5, DIM)
    top = HEAD + AXIS + (CLOCK if view.clock else 0)
    bottom = top + sum(lane.height + 3 for lane in lanes)
    shade(plan, view, canvas, top, bottom)
    draw_axis(view, canvas, top, bottom)
    y = top
    for lane in lanes:
        draw_lane(view, canvas, lane, y)
        y += lane.height + 3
    draw_moments(plan, view, canvas, HEAD, bottom)
    draw_labels(view, canvas, top)
    sentences, height = conflict_sentences(plan, view)
    place(canvas, sentences, bottom + 6)
    legend, legend_height = draw_legend(view)
    place(canvas, legend, bottom + 6 + height)
    total = bottom + 6 + height + legend_height
    return ('<svg xmlns="http://www.w3.org/2000/svg" width="%d" height="%d" viewBox="0 0 %d %d" font-family="%s">\n%s\n'
            '<rect width="100%%" height="100%%" fill="white"/>\n%s\n</svg>\n' % (view.width, total, view.width, total, FONT, HATCH, canvas.text_of()))


def draw_lane(view, canvas, lane, y):
    canvas.line(0, y + lane.height + 1.5, view.width, y + lane.height + 1.5, FAINT, 0.8)
    canvas.text(8, y + 12, lane.label[:22], 11, INK, font_weight='bold')
    if lane.note and lane.height >= 26:
        for number, note in enumerate(lane.note.split('\n')):
            canvas.text(8, y + 24 + 12 * number, note, SMALL, DIM)
    elif lane.note and width_of(lane.label, 12) + width_of(lane.note, SMALL) + 20 < view.left:
        canvas.text(view.left - 6, y + 12, lane.note, SMALL, DIM, 'end')
    place(canvas, lane.canvas, y)


def place(canvas, piece, y):
    if piece.pieces:
        canvas.open_group(transform='translate(0 %s)' % round(y, 1))
        canvas.add(piece.text_of())
        canvas.close_group()
