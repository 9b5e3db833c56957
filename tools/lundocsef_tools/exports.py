"""A plan as tables: CSV, or JSON with all of it."""
import csv
import io
import json

from .drawing.goals import state_of
from .sentences import sentence, standing

WHAT = ('commands', 'activities', 'goals', 'conflicts')


def rows_of(plan, clock, what):
    return {'commands': command_rows, 'activities': activity_rows, 'goals': goal_rows, 'conflicts': conflict_rows}[what](plan, clock)


def timed(row, clock, **moments):
    """Adds moments to a row, and their times where there is a clock."""
    for name, moment in moments.items():
        row[name] = moment
        if clock:
            row[name + '_time'] = None if moment is None else clock.text(moment)
    return row


def command_rows(plan, clock):
    rows = []
    for command in plan.world.commands:
        number, kind, start, *values = command.split(' ')
        row = timed({'id': int(number), 'kind': kind}, clock, start=int(start), sent_at=plan.world.sent_at[int(number)])
        row['values'] = {name: int(value) for name, value in (pair.split('=') for pair in values)}
        rows.append(row)
    return rows


def activity_rows(plan, clock):
    rows = []
    for _, activity in sorted(plan.world.activities.items()):
        row = timed({'id': activity.id, 'kind': activity.kind.name}, clock, start=activity.start, end=plan.snapshot.end(activity))
        row.update(standing=standing(plan, activity), parent=activity.parent.id if activity.parent else None,
                   slot=activity.slot_of_parent().name if activity.parent else None, goal=activity.goal,
                   values=plan.snapshot.evaluations[activity.id].values,
                   wrong=[sentence(plan, conflict) for conflict in plan.wrong.get(activity.id, [])])
        rows.append(row)
    return rows


def goal_rows(plan, clock):
    rows = []
    for goal in plan.world.goals.values():
        root = plan.world.serving.get(goal.number)
        row = timed({'number': goal.number, 'kind': goal.kind}, clock, earliest=goal.earliest, latest=goal.latest)
        row.update(must='must' if goal.must else 'may', state=state_of(plan, goal), served_by=root.id if root else None)
        timed(row, clock, start=root.start if root else None)
        row['values'] = goal.presets
        rows.append(row)
    return rows


def conflict_rows(plan, clock):
    return [dict(timed({'code': each.code}, clock, **{'from': each.moment}), subject=each.subject, detail=each.detail, a=each.a, b=each.b,
                 sentence=sentence(plan, each)) for each in plan.conflicts]


def cell(value):
    if value is None:
        return ''
    if isinstance(value, dict):
        return ' '.join('%s=%s' % pair for pair in value.items())
    return '; '.join(value) if isinstance(value, list) else value


def as_csv(plan, clock, what):
    """One of the tables, with the names of its columns in the first line."""
    rows, out = rows_of(plan, clock, what), io.StringIO()
    writer = csv.writer(out, lineterminator='\n')
    if rows:
        writer.writerow(rows[0])
    for row in rows:
        writer.writerow([cell(value) for value in row.values()])
    return out.getvalue()


def as_json(plan, clock):
    world = plan.world
    data = timed({'entries': world.entries}, clock, now=world.now, committed=world.committed)
    data.update({what: rows_of(plan, clock, what) for what in WHAT})
    return json.dumps(data, indent=1) + '\n'
