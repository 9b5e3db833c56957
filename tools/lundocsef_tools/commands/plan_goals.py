"""plan-goals: tables to messages, and a plan back to tables."""
import math
import sys

from ..command import write
from ..exports import WHAT, as_csv, as_json
from ..model_reader import read_model, split_at_begin
from ..options import add_clock_arguments, add_plan_arguments, clock_of, parser_of, paths_of
from ..plan import load_plan, read_text
from ..requests import Requests

DESCRIPTION = """`messages` makes goals of a table of wishes, and of tables of windows such as eclipses and passes.
`table` makes tables of a plan."""
EXAMPLES = """examples:
  plan-goals messages model.txt wishes.csv --moment 10 --epoch 2026-11-29T00:00Z \\
      --during eclipse eclipses.csv --pin eclipse pin --between no_view passes.csv > messages.txt
  plan-goals table model.txt day.journal --moment 10 --epoch 2026-11-29T00:00Z > commands.csv
  plan-goals table model.txt day.journal --json > plan.json

A table of wishes names its columns in its first line: kind, earliest, latest, and, as far as wanted, number, must (must or
may), every, times, until, and parameters of the kind. A table of windows has start and end, and parameters.

  kind,earliest,latest,must,every,times,frames
  observation,07:40,07:57,must,,,12
  beacon,2026-11-29T08:00Z,2026-11-29T08:10Z,may,95m,5,

Times are moments (1200), times of day (07:40) or UTC (2026-11-29T07:40:00Z); lengths are moments (570) or 95m, 1h30m, 90s.
"""


def main(arguments):
    parser = parser_of('plan-goals', DESCRIPTION, EXAMPLES)
    commands = parser.add_subparsers(dest='command', metavar='COMMAND', required=True)
    add_messages(commands.add_parser('messages', help='make messages of tables', description='Makes messages of tables.'))
    add_table(commands.add_parser('table', help='make a table of a plan', description='Makes a table of a plan.'))
    given = parser.parse_args(arguments)
    return messages(given) if given.command == 'messages' else table(given)


def add_messages(parser):
    parser.add_argument('model', metavar='MODEL', help='a file with the model')
    parser.add_argument('goals', metavar='TABLE', nargs='?', help='a table of wishes')
    parser.add_argument('--during', nargs=2, action='append', default=[], metavar=('KIND', 'TABLE'),
                        help='a goal of KIND at the start of each window, with the length of the window and its other columns as presets')
    parser.add_argument('--between', nargs=2, action='append', default=[], metavar=('KIND', 'TABLE'),
                        help='the same for the time between the windows')
    parser.add_argument('--pin', nargs=2, action='append', default=[], metavar=('KIND', 'PIN'),
                        help='a goal of the kind PIN beside each such goal of KIND')
    parser.add_argument('--length', default='length', metavar='NAME',
                        help='the parameter that takes the length of a window (default: length)')
    parser.add_argument('--number', type=int, default=1, metavar='N', help='the first number for goals that have none (default: 1)')
    parser.add_argument('--first', metavar='TIME',
                        help='where windows begin to count (default: the lead; the first message commits the plan up to it)')
    parser.add_argument('--last', metavar='TIME', help='where the time behind the last window of --between ends (default: the horizon)')
    parser.add_argument('-o', '--output', metavar='FILE', help='where to write (default: standard output)')
    add_clock_arguments(parser)


def add_table(parser):
    add_plan_arguments(parser)
    parser.add_argument('--what', choices=WHAT, default='commands', help='which table (default: commands)')
    parser.add_argument('--json', action='store_true', help='all tables, as JSON')
    parser.add_argument('--entry', type=int, metavar='N', help='the plan behind entry N of the journal')
    parser.add_argument('-o', '--output', metavar='FILE', help='where to write (default: standard output)')
    add_clock_arguments(parser)


def messages(given):
    clock = clock_of(given)
    model = read_model(split_at_begin(read_text(given.model))[0])
    first = None if given.first is None else math.ceil(clock.read(given.first))
    requests = Requests(model, clock, given.number, given.length, first)
    for kind, path in given.during:
        requests.read_during(kind, path)
    for kind, path in given.between:
        requests.read_between(kind, path, None if given.last is None else math.floor(clock.read(given.last)))
    for kind, pin in given.pin:
        requests.pin(kind, pin)
    if given.goals:
        requests.read_goals(given.goals)
    write(given.output, ''.join(line + '\n' for line in requests.lines()))
    for remark in requests.remarks:
        sys.stderr.write('plan-goals: %s\n' % remark)
    return 0


def table(given):
    plan, clock = load_plan(paths_of(given), given.program, given.entry), clock_of(given)
    write(given.output, as_json(plan, clock) if given.json else as_csv(plan, clock, given.what))
    return 0
