"""plan-best: several plans of one input, and the best of them."""
import argparse

from .. import program
from ..command import write_bytes
from ..failure import Failure
from ..model_reader import split_at_begin
from ..options import parser_of
from ..plan import Source, read_text
from ..trials import table_of, try_all, words_of

DESCRIPTION = """Plans one input with several numbers of repairs and several seeds, and lists the plans, the best first: most goals
that must be met, most goals served, then few open ones, few conflicts, few activities. For plans that are made on the ground:
a plan with a seed comes of two threads and may differ from run to run, so keep the journal."""
EXAMPLES = """example:
  plan-best examples/camera.txt --turns 2,4,8,16 --seeds 1-20 -o best.journal
"""


def main(arguments):
    parser = parser_of('plan-best', DESCRIPTION, EXAMPLES)
    parser.add_argument('model', metavar='MODEL', help='a file with the model, and, behind a line `begin`, the messages')
    parser.add_argument('messages', metavar='MESSAGES', nargs='?', help='a file with the messages (`-`: standard input)')
    parser.add_argument('--turns', type=numbers, default=[2, 4, 8, 16], metavar='LIST',
                        help='the most repairs for a message (default: 2,4,8,16)')
    parser.add_argument('--seeds', type=numbers, default=[], metavar='LIST', help='seeds, such as 1-20 or 3,7,9 (default: none)')
    parser.add_argument('--jobs', type=int, default=1, metavar='N', help='how many plans are made at a time (default: 1)')
    parser.add_argument('-o', '--output', metavar='FILE', help='write the journal of the best plan to this file')
    program.add_program_option(parser)
    given = parser.parse_args(arguments)
    model, lines = split_at_begin(read_text(given.model))
    if given.messages:
        lines = read_text(given.messages).split('\n')
    if lines is None:
        raise Failure('%s has no line `begin`, so it holds no messages; name them as a second file' % given.model)
    text = Source(model, lines, given.model).text()
    trials = try_all(program.find_program(given.program), text, model, words_of(given.turns, given.seeds), max(1, given.jobs))
    for line in table_of(trials):
        print(line)
    if given.output:
        write_bytes(given.output, trials[0].journal.encode('latin-1'))
    return 0


def numbers(text):
    """The numbers of a list such as 2,4,10-20."""
    found = []
    for part in text.split(','):
        low, dash, high = part.partition('-')
        if not low.isdigit() or (dash and not (high.isdigit() and int(low) <= int(high))):
            raise argparse.ArgumentTypeError('%s is no list of numbers' % text)
        found += range(int(low), int(high or low) + 1)
    return found
