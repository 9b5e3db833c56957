"""A page with one picture for each round of a journal, and a slider over the rounds."""
import os
from xml.sax.saxutils import escape

from .drawing.picture import picture
from .journal import read_entry
from .page import filled, for_script
from .plan import plan_of_world
from .readable import readable
from .world import World

TEMPLATE = os.path.join(os.path.dirname(os.path.abspath(__file__)), 'film.html')


def closes(lines):
    """The numbers of the entries with which rounds close; the last entry where none does."""
    found = [number for number, line in enumerate(lines) if line.endswith(' close')]
    return found or [len(lines) - 1]


def chosen(numbers, most):
    """At most so many of them, evenly from the first to the last."""
    if len(numbers) <= most:
        return numbers
    return [numbers[at * (len(numbers) - 1) // (most - 1)] for at in range(most)] if most > 1 else numbers[-1:]


def frames(plan, view, most):
    """For each chosen round: its entries, and the picture of the plan behind it."""
    world, found, first = World(plan.model), [], 0
    wanted = set(chosen(closes(plan.lines), most))
    for number, line in enumerate(plan.lines):
        entry = read_entry(line)
        if entry.event == 'in':
            first = number
        world.apply(entry)
        if number in wanted:
            svg = picture(plan_of_world(world, plan.lines[:number + 1]), view)
            entries = [readable(each) for each in plan.lines[first + 1:number + 1]]
            found.append({'message': readable(plan.lines[first]), 'entries': entries, 'picture': svg})
    return found


def film(plan, view, most):
    title = view.title or plan.model.title or 'A plan'
    return filled(TEMPLATE, TITLE=escape(title), FRAMES=for_script(frames(plan, view, most)))
