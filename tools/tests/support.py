"""What several tests share."""
import contextlib
import io
import os
import sys
import unittest

TOOLS = os.path.dirname(os.path.dirname(os.path.abspath(__file__)))
EXAMPLES = os.path.join(os.path.dirname(TOOLS), 'examples')
sys.path[:0] = [path for path in (TOOLS, os.path.dirname(os.path.abspath(__file__))) if path not in sys.path]

from lundocsef_tools.failure import Failure
from lundocsef_tools.model_reader import read_model, split_at_begin
from lundocsef_tools.plan import plan_of
from lundocsef_tools.program import find_program

CAMERA = os.path.join(EXAMPLES, 'camera.txt'), os.path.join(EXAMPLES, 'camera.journal')


def program():
    """The planner's path; the test is left out where there is none."""
    try:
        return find_program()
    except Failure as failure:
        raise unittest.SkipTest(str(failure))


def text_of(path):
    with open(path, encoding='latin-1') as file:
        return file.read()


def camera_plan(entries=None):
    """The plan of the camera example behind some of its entries, without asking the program."""
    model = read_model(split_at_begin(text_of(CAMERA[0]))[0])
    return plan_of(model, text_of(CAMERA[1]).splitlines()[:entries])


def plan_from(model, *lines):
    """The plan of a model's text and the lines of a journal without their numbers."""
    return plan_of(read_model(model), ['%d %s' % each for each in enumerate(('open',) + lines)])


def run(main, *arguments):
    """(status, output) of a command; what it refuses is a Failure."""
    out = io.StringIO()
    with contextlib.redirect_stdout(out):
        status = main(list(arguments))
    return status, out.getvalue()
