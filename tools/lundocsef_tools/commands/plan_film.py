"""plan-film: a picture for each round, with a slider."""
from ..command import write
from ..film import film
from ..options import add_plan_arguments, add_view_arguments, parser_of, paths_of, view_of
from ..plan import load_plan

DESCRIPTION = """Makes a page with one picture for each round of a journal and a slider over the rounds: how the plan came to be.
The program checks the journal first."""
EXAMPLES = """example:
  plan-film examples/camera.txt examples/camera.journal > film.html
"""


def main(arguments):
    parser = parser_of('plan-film', DESCRIPTION, EXAMPLES)
    add_plan_arguments(parser)
    parser.add_argument('-o', '--output', metavar='FILE', help='where to write (default: standard output)')
    parser.add_argument('--most', type=int, default=200, metavar='N',
                        help='the most pictures; of more rounds, N are taken evenly (default: 200)')
    add_view_arguments(parser)
    given = parser.parse_args(arguments)
    if given.most < 1:
        parser.error('--most is at least 1')
    plan = load_plan(paths_of(given), given.program)
    write(given.output, film(plan, view_of(given, plan), given.most))
    return 0
