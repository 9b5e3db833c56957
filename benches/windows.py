#!/usr/bin/env python3
"""Times `flex 1` beside `report`, over the same journals.

    windows.py [--program PROGRAM] [JOURNAL..]

PROGRAM is where the program is (crates/lundocsef/out/lundocsef by default). A JOURNAL is a file with a model, `begin` and a
journal. Beside these files, nine journals are made here: a chain of 10,000 activities, each linked to the next, with the ids
in the order of the chain, against it and shuffled; and

  met    the plan keeps all limits
  late   a tick has come that some activities should have started after, and the whole chain has to move
  never  the same, but the goals' windows leave no room for it, so that there is no schedule

For each journal one line is printed: the seconds and the megabytes of `report` and of `flex 1`, the least of three runs, and
the first line of what `flex 1` writes.
"""
import os
import random
import tempfile

from beside_report import options, show

COMMAND = ['flex', '1']
ORDERS = ('in order', 'against it', 'shuffled')
SORTS = ('met', 'late', 'never')
ACTIVITIES, FIRST, APART, HORIZON = 10000, 1000, 5, 1000000


def places(order):
    """Where in the chain the activity of each id stands."""
    all_places = list(range(ACTIVITIES))
    if order == 'against it':
        all_places.reverse()
    if order == 'shuffled':
        random.Random(5).shuffle(all_places)
    return all_places


def chain(order, sort):
    lines = ['horizon %d lead 10 kind obs { duration 5 link end obs start 0 3 }' % HORIZON, 'begin']
    entries = ['open turns 1 live 10000 goals 20000 entries 250000']
    for number, place in enumerate(places(order), 1):
        start = FIRST + APART * place
        latest = start + 50 if sort == 'never' else HORIZON - 100
        entries.append('in ok : goal %d obs %d %d must' % (number, start, latest))
        entries.append('fix %d open-goal %d 0 %d %d by add obs %d goal %d : ok' % (latest, number, start, latest, start, number))
        entries.append('rest spent')
        if number == 1:
            entries.append('commit 10 : ok')
        entries.append('close')
    if sort != 'met':
        entries.append('in ok : tick %d' % (FIRST + 100))
    return '\n'.join(lines + ['%d %s' % numbered for numbered in enumerate(entries)]) + '\n'


def main():
    given = options(__doc__, '*')
    for path in given.journals:
        show(os.path.basename(path), given.program, COMMAND, path, path)
    with tempfile.TemporaryDirectory() as folder:
        path = os.path.join(folder, 'chain')
        for order in ORDERS:
            for sort in SORTS:
                with open(path, 'w', encoding='ascii') as file:
                    file.write(chain(order, sort))
                show('%s, %s' % (order, sort), given.program, COMMAND, path, path)


if __name__ == '__main__':
    main()
