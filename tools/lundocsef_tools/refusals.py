"""Why the messages of a journal were refused, and which rounds repaired in vain."""
from collections import Counter

from .faults import nearest, strange
from .journal import read_entry
from .messages import Goal, Tick, Until, read_message
from .readable import readable
from .tokens import BLANKS, RESERVED, TOKEN, words
from .world import World

FORMS = {
    'goal': 'goal NUMBER KIND EARLIEST LATEST must (or may), then NAME=VALUE for each preset',
    'tele': 'tele TIMELINE VALUE',
    'tick': 'tick MOMENT',
    'until': 'until ID MOMENT',
    'halt': 'halt',
    'end': 'end',
}


def remarks(model, lines):
    """Sentences on the messages and rounds of a journal, each with its entry."""
    world, round_fixes = World(model), []
    for line in lines:
        entry = read_entry(line)
        if entry.event == 'in':
            round_fixes = []
            text = of_refused(world, entry) if entry.reply not in ('ok', 'end') else of_taken(world, entry)
            if text:
                yield 'entry %d: `%s`: %s' % (entry.number, readable(entry.message.strip()), text)
        elif entry.event == 'fix':
            round_fixes.append(pattern(world, entry))
        elif entry.event == 'rest' and entry.reply != 'clear':
            yield 'entry %d: %s' % (entry.number, of_round(world, entry, round_fixes))
        world.apply(entry)


def pattern(world, entry):
    """A repair without its moments and numbers, so that repairs of one sort can be counted."""
    verb, target = entry.move[0], entry.move[1]
    if verb == 'drop':
        what = 'goal %s' % target
    elif verb == 'add':
        what = target
    else:
        activity = world.activities.get(int(target))
        what = activity.kind.name if activity else target
    return '`%s %s` for `%s`' % (verb, what, entry.conflict.code)


def of_round(world, entry, fixes):
    message = readable(world.rounds[-1].message.strip())
    why = {'spent': 'its repairs are spent', 'stuck': 'nothing that is wrong can be repaired'}[entry.reply]
    text = 'the round of `%s` rests %s: %s' % (message, entry.reply, why)
    often = [(each, count) for each, count in Counter(fixes).most_common(3) if count > 1]
    if often:
        text += '; it went round with ' + ', '.join('%s (%d times)' % each for each in often)
    return text


def of_taken(world, entry):
    """What is worth knowing of a message that was taken."""
    message = read_message(entry.message)
    lead = world.model.lead
    if isinstance(message, Tick) and message.moment - world.now >= lead:
        return ('it comes %d moments after the tick before, and the lead is %d; what is to start from %d to %d cannot be committed in time'
                % (message.moment - world.now, lead, world.now + lead, message.moment))
    if isinstance(message, Goal) and not message.must:
        kind = world.model.kind_named[message.kind]
        free = [name for name in kind.without_value() if name not in message.presets]
        if kind.alternatives:
            return 'it may be dropped, and %s has alternatives, so it is dropped at once' % kind.name
        if free:
            return 'it may be dropped, and it gives no value for %s, so it is dropped at once' % ', '.join(free)
    return None


def of_refused(world, entry):
    text = REASONS[entry.reply](world, words(entry.message), entry.message)
    return '%s: %s' % (entry.reply, text) if text else entry.reply


def meant(word, words_there):
    near = nearest(word, list(words_there))
    return '; did you mean `%s`?' % near if near else ''


def bad_line(world, parts, line):
    bare = line.split('#', 1)[0]
    bad = [letter for letter in bare if letter not in BLANKS and not TOKEN.match(letter)]
    if bad:
        return strange(bad[0])
    first = parts[0] if parts else ''
    if first.lower() in FORMS and first not in FORMS:
        return 'small and capital letters differ; did you mean `%s`?' % first.lower()
    if first not in FORMS:
        return 'a message begins with goal, tele, tick, until, halt or end' + meant(first, FORMS)
    if first == 'goal':
        return 'its form is: %s%s' % (FORMS['goal'], what_of_goal(parts))
    return 'its form is: %s' % FORMS[first]


def what_of_goal(parts):
    if 'must' not in parts and 'may' not in parts:
        return '; `must` or `may` is missing'
    if '-' in parts:
        return '; numbers have no sign'
    if len(parts) > 2 and parts[2] in RESERVED:
        return '; `%s` is a reserved word' % parts[2]
    names = parts[6::3]
    twice = next((name for name in names if names.count(name) > 1), None)
    return '; %s is preset twice' % twice if twice else ''


def unknown_name(world, parts, line):
    model = world.model
    if parts[0] == 'tele':
        timeline = model.timeline_named.get(parts[1])
        if timeline is None:
            return 'the model has no timeline %s%s' % (parts[1], meant(parts[1], model.timeline_named))
        if timeline.sort == 'capacity':
            return '%s is a capacity, and a capacity has no telemetry' % parts[1]
        return '%s has no state %s, but %s' % (parts[1], parts[2], ', '.join(timeline.states))
    kind = model.kind_named.get(parts[2])
    if kind is None:
        return 'the model has no kind %s%s' % (parts[2], meant(parts[2], model.kind_named))
    for name in parts[6::3]:
        param = kind.param(name)
        if param is None:
            return '%s has no parameter %s%s' % (kind.name, name, meant(name, [each.name for each in kind.params]))
        if param.formula is not None:
            return '%s of %s follows from other parameters and cannot be preset' % (name, kind.name)
    return None


def out_of_range(world, parts, line):
    if parts[0] == 'tele':
        return '%s is a level; its value is a number, up to 1000000000000' % parts[1]
    goal = read_message(line)
    if isinstance(goal, Until):
        return 'an activity ends at the horizon, %d, at the latest' % world.model.horizon
    if not 1 <= goal.number <= 10 ** 9:
        return 'the number of a goal is from 1 to 1000000000'
    if goal.earliest > goal.latest:
        return 'the earliest start, %d, is after the latest, %d' % (goal.earliest, goal.latest)
    if goal.latest >= world.model.horizon:
        return 'the latest start, %d, is not before the horizon, %d' % (goal.latest, world.model.horizon)
    for name, value in goal.presets.items():
        param = world.model.kind_named[goal.kind].param(name)
        if not param.low <= value <= param.high:
            return '%s is from %d to %d' % (name, param.low, param.high)
    return None


def too_late(world, parts, line):
    if int(parts[4]) == 0:
        return 'no activity can start at 0'
    return 'the latest start, %s, lies before %d, the first moment that is still open (now %d, committed to %d)' % (
        parts[4], world.floor(), world.now, world.committed)


def duplicate(world, parts, line):
    return 'entry %d has taken this number, and a goal can be neither changed nor taken back' % world.goal_entry[int(parts[1])]


def not_begun(world, parts, line):
    activity = world.activities.get(int(parts[1]))
    if activity is None:
        return 'the plan has no activity %s' % parts[1]
    if activity.start > world.now:
        return 'it starts at %d, and the present is %d' % (activity.start, world.now)
    if not world.is_committed(activity):
        return 'it was to start at %d, and it is not committed' % activity.start
    return 'without all its values it has no end'


def end_back(world, parts, line):
    return 'it starts at %d, and it ends after its start' % world.activities[int(parts[1])].start


REASONS = {
    'bad-line': bad_line, 'unknown-name': unknown_name, 'range': out_of_range, 'too-late': too_late, 'duplicate-goal': duplicate,
    'too-many-goals': lambda world, parts, line: 'the run has as many goals as it may have',
    'tick-back': lambda world, parts, line: 'the present is %d already' % world.now,
    'tick-beyond': lambda world, parts, line: 'the horizon is %d' % world.model.horizon,
    'not-begun': not_begun, 'end-back': end_back,
}
