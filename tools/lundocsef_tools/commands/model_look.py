"""model-look: where the fault of a model is, what a model means for repair, and why a journal went as it did."""
from .. import program
from ..faults import explain
from ..hints import additions, warnings
from ..model_reader import read_model, split_at_begin
from ..options import parser_of
from ..plan import Source, read_source, read_text, verdict
from ..refusals import remarks

DESCRIPTION = """Looks at a model. Where the program refuses it: file, line and column, a caret at the place, the cause, and what to do.
Where it accepts it: what a repair may add by itself, and what can never work.
With a journal: why each refused message was refused, and which rounds repaired in vain."""
EXAMPLES = """examples:
  model-look examples/camera.txt
  model-look camera.txt --fault "model: unexpected at 214"
  model-look camera.txt camera.journal

status: 0 where the model is accepted, 1 where it (or the journal) is refused.
"""


NOTHING = 'No message was refused, and every round came to rest with nothing wrong.'


def main(arguments):
    parser = parser_of('model-look', DESCRIPTION, EXAMPLES)
    parser.add_argument('model', metavar='MODEL', help='a file with the model; what stands behind its line `begin` is not read')
    parser.add_argument('journal', metavar='JOURNAL', nargs='?', help='a file with a journal of this model')
    parser.add_argument('--fault', metavar='LINE', help='a fault line of the program, to be explained without calling it')
    program.add_program_option(parser)
    given = parser.parse_args(arguments)
    text = read_text(given.model)
    if given.fault:
        return say(explain(given.model, before_begin(text), given.fault), 1)
    if given.journal:
        source = read_source([given.model, given.journal])
        verdict(program.find_program(given.program), source)
        return say(list(remarks(read_model(source.model), source.lines)) or [NOTHING], 0)
    fault = fault_of(program.find_program(given.program), text)
    if fault:
        return say(explain(given.model, before_begin(text), fault), 1)
    return say(look(read_model(before_begin(text))), 0)


def before_begin(text):
    return split_at_begin(text)[0]


def fault_of(path, text):
    """The program's fault line; None where it accepts the model."""
    model, lines = split_at_begin(text)
    if lines is None:
        model += '' if model.endswith('\n') else '\n'
    status, output = program.call(path, ['check'], Source(model, [], '').text())
    if status == 0:
        return None
    return output.strip() if status == 3 else program.explain(status, output)


def look(model):
    lines = ['What a repair may add by itself, where:'] + ['  ' + each for each in additions(model)]
    found = list(warnings(model))
    return lines + (['What to look at:'] + ['  ' + each for each in found] if found else ['Nothing else stands out.'])


def say(lines, status):
    for line in lines:
        print(line)
    return status
