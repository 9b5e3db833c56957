"""What the tools compute of a journal, compared with the program's own report, over journals made at random.

The report names every activity with its end, every conflict (so every span of a capacity, level or state that is wrong),
and every command with its values; the tools' report of the same journal has to be the same text.
"""
import glob
import os
import random

from lundocsef_tools.failure import Failure
from lundocsef_tools.journal import lines_of, read_entry
from lundocsef_tools.model_reader import read_model, split_at_begin
from lundocsef_tools.plan import plan_of, read_text
from lundocsef_tools.program import call
from lundocsef_tools.report import report_of
from lundocsef_tools.timelines import Snapshot
from lundocsef_tools.world import World
from random_inputs import random_input

JOURNALS = 100
CUTS = 3


def compare_examples(program, folder, seed=1):
    """The same of the inputs and journals that stand in a folder, or in folders within it."""
    chance, done, cuts, faults = random.Random(seed), 0, 0, []
    for path in sorted(glob.glob(os.path.join(folder, '**', '*.txt'), recursive=True)):
        model_text, behind = split_at_begin(read_text(path))
        lines = journal_of(program, path, model_text, lines_of(behind or []))
        if not lines:
            continue
        done += 1
        cuts += compare_cuts(chance, program, model_text, lines, faults)
    return done, cuts, faults


def journal_of(program, path, model_text, behind):
    """The journal beside an input, or in it, or that the program writes of it; none where its model is refused."""
    beside = path[:-len('txt')] + 'journal'
    if os.path.isfile(beside):
        return lines_of(read_text(beside).split('\n'))
    if behind and behind[0].startswith('0 open '):
        return behind
    status, journal = call(program, ['run', 'solo', '8'], model_text + 'begin\n' + ''.join(line + '\n' for line in behind))
    return lines_of(journal.split('\n')) if status == 0 else []


def places(chance, length, count):
    """The end, and so many places at random."""
    return sorted({length} | {chance.randint(1, length) for _ in range(count)})


def words_of(chance):
    """A run of one thread, most often; else of a pair, or of several planners."""
    if chance.random() < 0.8:
        return ['run', 'solo', str(chance.choice((1, 4, 16)))]
    seed = str(chance.randint(1, 99))
    return ['run', 'pair', '6', seed] if chance.random() < 0.5 else ['run', 'crew', '6', str(chance.randint(2, 8)), seed]


def compare(program, journals=JOURNALS, seed=1):
    """(journals compared, cuts compared, the first differences found)"""
    chance, done, cuts, faults = random.Random(seed), 0, 0, []
    while done < journals and len(faults) < 5:
        text = random_input(chance)
        words = words_of(chance)
        status, journal = call(program, words, text)
        if status == 3:
            continue            # the chance has made no model, such as one whose orders cannot be met
        if status != 0:
            faults.append('run ended with status %d:\n%s' % (status, text))
        model_text, _ = split_at_begin(text)
        lines = lines_of(journal.split('\n'))
        done += 1
        cuts += compare_cuts(chance, program, model_text, lines, faults)
    return done, cuts, faults


def compare_cuts(chance, program, model_text, lines, faults):
    """Compares a journal, whole and cut at random places, adds the differences to the faults, and answers how many places there were."""
    lengths = places(chance, len(lines), CUTS)
    for length in lengths:
        faults += difference(program, model_text, lines[:length])
    faults += wrong_commands(model_text, lines)
    return len(lengths)


def difference(program, model_text, lines):
    status, expected = call(program, ['report'], model_text + 'begin\n' + ''.join(line + '\n' for line in lines))
    try:
        found = report_of(plan_of(read_model(model_text), lines).snapshot)
    except Failure as failure:
        found = str(failure)
    if status == 0 and found == expected:
        return []
    theirs, ours = expected.split('\n'), found.split('\n')
    first = next((pair for pair in zip(theirs, ours) if pair[0] != pair[1]), (expected[-80:], found[-80:]))
    return ['behind %d entries the program says `%s`, the tools `%s` (status %d):\n%s' % (len(lines), first[0], first[1], status, model_text)]


def wrong_commands(model_text, lines):
    """The values of each command, worked out just before it is sent, beside those that the journal gives."""
    world = World(read_model(model_text))
    for line in lines:
        entry = read_entry(line)
        if entry.event == 'dispatch':
            number = int(entry.command[0])
            activity = world.activities[number]
            values = Snapshot(world).evaluations[number].values
            shown = [str(number), activity.kind.name, str(activity.start)] + ['%s=%d' % pair for pair in values.items() if pair[1] is not None]
            if shown != entry.command:
                return ['the journal sends `%s`, the tools find `%s`:\n%s' % (' '.join(entry.command), ' '.join(shown), model_text)]
        world.apply(entry)
    return []
