"""A picture in a page: values at the mouse, the story of an activity at a click, and a list of what is wrong."""
import json
import os
import re
from xml.sax.saxutils import escape

from .drawing.picture import picture
from .readable import readable
from .sentences import sentence

TEMPLATE = os.path.join(os.path.dirname(os.path.abspath(__file__)), 'page.html')


def for_script(data):
    """A value as a script reads it; no text in it can end the script."""
    return json.dumps(data, separators=(',', ':')).replace('</', '<\\/').replace('<!--', '<\\!--')


def data_of(plan, view):
    """What the page shows beside the picture, as the script reads it."""
    clock = view.clock
    return {
        'from': view.first, 'to': view.last, 'left': view.left, 'right': view.right, 'width': view.width,
        'now': plan.world.now, 'committed': plan.world.committed,
        'moment': clock.moment, 'epoch': clock.second_of_start(),
        'lines': [line_data(plan, line) for line in plan.model.timelines],
        'activities': [activity_data(plan, each) for each in plan.world.activities.values()],
        'conflicts': [{'from': conflict.moment, 'code': conflict.code, 'text': sentence(plan, conflict),
                       'id': conflict.subject if conflict.of_activity() else None} for conflict in plan.conflicts],
    }


def line_data(plan, line):
    profile = plan.snapshot.profiles[line.name]
    limits = {'capacity': lambda: 'of %d' % line.most, 'level': lambda: '%d to %d' % (line.least, line.most), 'state': lambda: ''}
    return {'name': line.name, 'limits': limits[line.sort](), 'moments': profile.moments, 'values': profile.values}


def activity_data(plan, activity):
    end = plan.snapshot.end(activity)
    return {'id': activity.id, 'kind': activity.kind.name, 'start': activity.start, 'end': end,
            'values': plan.snapshot.evaluations[activity.id].text(), 'story': story(plan, activity)}


def story(plan, activity):
    """The lines of the journal that concern an activity: its goal, what made, moved and set it, what was wrong, its command."""
    numbers = set(plan.world.history.get(activity.id, []))
    root = activity.root()
    if root.goal is not None:
        numbers.add(plan.world.goal_entry[root.goal])
    return [readable(plan.lines[number]) for number in sorted(numbers)]


def page(plan, view):
    view.pointed = True
    title = view.title or plan.model.title or 'A plan'
    return filled(TEMPLATE, TITLE=escape(title), PICTURE=picture(plan, view), DATA=for_script(data_of(plan, view)))


def filled(path, **parts):
    """A template with its parts in the places of their marks, such as @TITLE@."""
    with open(path, encoding='utf-8') as file:
        return re.sub('@([A-Z]+)@', lambda mark: parts[mark.group(1)], file.read())
