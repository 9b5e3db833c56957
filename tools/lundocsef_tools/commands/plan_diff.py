"""plan-diff: two plans side by side."""
from .. import program
from ..difference import compare_reports
from ..failure import Failure
from ..options import parser_of
from ..plan import read_source, read_text, verdict
from ..report import read_report

DESCRIPTION = """Shows where two plans differ: numbers, goals, activities, conflicts, commands.
Each is a report of the program, or, with --model, a journal."""
EXAMPLES = """examples:
  plan-diff monday.report tuesday.report
  plan-diff --model camera.txt turns8.journal turns16.journal

status: 0 whether they differ or not, 1 where a file cannot be read.
"""


def main(arguments):
    parser = parser_of('plan-diff', DESCRIPTION, EXAMPLES)
    parser.add_argument('first', metavar='FIRST', help='a report, or a journal')
    parser.add_argument('second', metavar='SECOND', help='another one')
    parser.add_argument('--model', metavar='MODEL', help='a file with the model of the journals')
    program.add_program_option(parser)
    given = parser.parse_args(arguments)
    reports = [report_of_file(path, given) for path in (given.first, given.second)]
    for line in compare_reports(reports[0], reports[1], (given.first, given.second)):
        print(line)
    return 0


def report_of_file(path, given):
    """The report in a file, or that of the journal in it."""
    if given.model:
        return read_report(verdict(program.find_program(given.program), read_source([given.model, path])))
    text = read_text(path)
    if not text.startswith('report entries '):
        raise Failure('%s is no report; of a journal, name the model by --model' % path)
    return read_report(text, path)
