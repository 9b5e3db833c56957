"""Plans of one input with several numbers of repairs and seeds, and which of them is best."""
from concurrent.futures import ThreadPoolExecutor
from dataclasses import dataclass

from . import program
from .failure import Failure
from .plan import Source
from .report import read_report


@dataclass
class Trial:
    words: tuple                  # what the program was called with
    status: int
    journal: str = ''
    report: object = None

    def name(self):
        return ' '.join(self.words[1:])

    def rank(self):
        """The best plan comes first: all of the input planned, most must goals served, most goals served, then few goals
        left open, few conflicts, few activities."""
        goals = self.report.goals_that_are('served')
        return (self.status != 0, -sum(goal.must for goal in goals), -len(goals), len(self.report.goals_that_are('open')),
                len(self.report.conflicts), len(self.report.activities))


def words_of(turns, seeds):
    """The command lines to try: each number of repairs alone, and with each seed."""
    solo = [('run', 'solo', str(number)) for number in turns]
    return solo + [('run', 'pair', str(number), str(seed)) for seed in seeds for number in turns]


def try_all(path, text, model, all_words, jobs):
    """The trials, the best first."""
    with ThreadPoolExecutor(max_workers=jobs) as pool:
        trials = list(pool.map(lambda words: try_one(path, text, model, words), all_words))
    return sorted(trials, key=Trial.rank)


def try_one(path, text, model, words):
    status, journal = program.call(path, list(words), text)
    if status not in (0, 7):
        raise Failure('the program, called with `%s`, answers: %s' % (' '.join(words), program.explain(status, journal)))
    source = Source(model, journal.split('\n'), 'the journal')
    reported, report = program.call(path, ['report'], source.text())
    if reported != 0:
        raise Failure('the program does not take its own journal of `%s`: %s' % (' '.join(words), program.explain(reported, report)))
    return Trial(words, status, journal, read_report(report))


def table_of(trials):
    """The trials in lines, the best first."""
    lines = ['%-14s %6s %6s %6s %8s %9s %10s %8s' % ('run', 'served', 'open', 'dropped', 'commands', 'conflicts', 'activities', 'entries')]
    for trial in trials:
        report, full = trial.report, '  the journal is full' if trial.status == 7 else ''
        lines.append('%-14s %6d %6d %7d %8d %9d %10d %8d%s' % (
            trial.name(), len(report.goals_that_are('served')), len(report.goals_that_are('open')), len(report.goals_that_are('dropped')),
            report.dispatched, len(report.conflicts), len(report.activities), report.entries, full))
    return lines
