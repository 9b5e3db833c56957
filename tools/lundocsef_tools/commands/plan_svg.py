"""plan-svg: one picture of a plan."""
from ..command import write
from ..drawing.picture import picture
from ..options import add_plan_arguments, add_view_arguments, parser_of, paths_of, view_of
from ..page import page
from ..plan import load_plan
from ..terminal import terminal

DESCRIPTION = """Draws the plan behind a journal: goals and their windows, activities, capacities, levels, states,
telemetry, and what is wrong. The program checks the journal first."""
EXAMPLES = """examples:
  plan-svg examples/camera.txt examples/camera.journal > plan.svg
  plan-svg --html camera.txt camera.journal -o plan.html
  plan-svg --text --entry 12 camera.txt camera.journal
"""


def main(arguments):
    parser = parser_of('plan-svg', DESCRIPTION, EXAMPLES)
    add_plan_arguments(parser)
    parser.add_argument('-o', '--output', metavar='FILE', help='where to write (default: standard output)')
    parser.add_argument('--entry', type=int, metavar='N', help='draw the plan as it stood behind entry N of the journal')
    form = parser.add_mutually_exclusive_group()
    form.add_argument('--html', action='store_true', help='a page that shows values at the mouse, and the story of an activity at a click')
    form.add_argument('--text', action='store_true', help='a plan for a terminal')
    parser.add_argument('--columns', type=int, default=100, help='the columns of the terminal (default: 100)')
    add_view_arguments(parser)
    given = parser.parse_args(arguments)
    plan = load_plan(paths_of(given), given.program, given.entry)
    view = view_of(given, plan)
    if given.text:
        write(given.output, terminal(plan, view, given.columns))
    else:
        write(given.output, page(plan, view) if given.html else picture(plan, view))
    return 0
