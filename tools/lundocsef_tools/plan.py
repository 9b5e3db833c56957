"""A plan from files: the model, the journal, what the program says of them, and the world that they make."""
import sys
from concurrent.futures import ThreadPoolExecutor
from dataclasses import dataclass
from typing import Dict, List

from . import program
from .conflicts import conflicts
from .failure import Failure
from .journal import Conflict, lines_of
from .model import Model
from .model_reader import read_model, split_at_begin
from .report import report_of
from .timelines import Snapshot
from .tokens import words
from .world import World


@dataclass
class Source:
    """A model's text and the lines behind its `begin` line, or those of a second file."""
    model: str
    lines: List[str]
    name: str

    def text(self):
        return self.model + 'begin\n' + ''.join(line + '\n' for line in self.lines)


@dataclass
class Plan:
    model: Model
    lines: List[str]              # of the journal
    world: World
    snapshot: Snapshot
    conflicts: List[Conflict]
    wrong: Dict[int, List[Conflict]]      # the conflicts of each activity that has some


def read_text(path):
    """The bytes of a file, one character for each; `-` is standard input."""
    try:
        if path == '-':
            return sys.stdin.buffer.read().decode('latin-1')
        with open(path, 'rb') as file:
            return file.read().decode('latin-1')
    except OSError as error:
        raise Failure('%s cannot be read: %s' % (path, error.strerror))


def read_source(paths):
    """One file with a model, `begin` and more; or a file with the model and a second one with what stands behind `begin`."""
    model, behind = split_at_begin(read_text(paths[0]))
    if len(paths) == 1:
        if behind is None:
            raise Failure('%s has no line `begin`, so it holds no journal; name the journal as a second file' % paths[0])
        return Source(model, lines_of(behind), paths[0])
    text = read_text(paths[1])
    separate_model, separate = split_at_begin(text)
    return Source(model, lines_of(text.split('\n') if separate is None else separate), paths[1])


def verdict(path, source):
    """The program's report of a journal; a Failure that says what the program answers where it refuses it."""
    status, output = program.call(path, ['report'], source.text())
    if status == 0:
        return output
    advice = ''
    if status == 3:
        advice = '. `model-look` shows the place and the cause'
    elif status == 8 and looks_like_messages(source.lines):
        advice = '. These lines are messages; a journal comes of them by `lundocsef-x run`'
    subject = 'the model is refused' if status == 3 else '%s is not a legal journal of this model' % source.name
    raise Failure('%s; the program says: %s%s' % (subject, program.explain(status, output), advice))


def looks_like_messages(lines):
    first = words(lines[0]) if lines else []
    return bool(first) and first[0] in ('goal', 'tele', 'tick', 'until', 'halt', 'end')


def load_plan(paths, given_program=None, entry=None):
    """The plan behind a journal, or behind one of its entries, checked by the program."""
    source = read_source(paths)
    if entry is not None:
        if source.lines and not 0 <= entry < len(source.lines):
            raise Failure('%s has the entries 0 to %d, and no entry %d' % (source.name, len(source.lines) - 1, entry))
        source.lines = source.lines[:entry + 1]
    path = program.find_program(given_program)
    with ThreadPoolExecutor(max_workers=1) as pool:
        answer = pool.submit(verdict, path, source)       # the program reads the journal while the tools do
        try:
            plan = plan_of(read_model(source.model), source.lines)
        except Failure:
            answer.result()                               # where the program refuses it too, its verdict is what counts
            raise
    if report_of(plan.snapshot, plan.conflicts) != answer.result():
        raise Failure('the tools and the program read this journal in different ways; please report this, with both files')
    return plan


def plan_of(model, lines):
    """The plan that the lines of a journal make, without asking the program."""
    world = World(model).follow(lines)
    return plan_of_world(world, lines)


def plan_of_world(world, lines):
    snapshot = Snapshot(world)
    found, wrong = conflicts(snapshot), {}
    for conflict in found:
        if conflict.of_activity():
            wrong.setdefault(conflict.subject, []).append(conflict)
    return Plan(world.model, lines, world, snapshot, found, wrong)
