#!/usr/bin/env python3
"""Measures planners side by side: how many goals each serves, and in what time.

    planners.py [--report CMD] [--judge CMD] [--goals-and-ticks] [--rows] CMD.. -- INPUT..

Each CMD in front of `--` is a planner's command line, as 'lundocsef run solo 8' or 'lookahead run 20 2000'. It gets each INPUT,
a model with messages, on its standard input. For each planner one line is printed, the sums over all inputs; with --rows one
for each input too.

  accepted   goals that were accepted
  served     of these the goals that have an activity at the end
  dropped    goals that repair dropped
  clean      goals that are still served once activities were taken away until no conflict is left; only with --judge, a
             program that reads a model with its journal and prints `clean N` among other words
  open       goals that are neither, and whose window may be past
  left       conflicts that stand at the end, beside goals that are open
  seconds    processor time of the planner, and that of the input that took longest
  status     how often each status other than 0 came

--report names the program that reports on a journal ('lundocsef report' by default). --goals-and-ticks leaves out all messages
but goals, ticks and the end.
"""
import argparse
import os
import resource
import subprocess
import sys


def words_of(line):
    return line.split(b'#')[0].split()


def split_input(text):
    """The model with its `begin` line, and the messages."""
    lines = text.split(b'\n')
    for place, line in enumerate(lines):
        if words_of(line) == [b'begin']:
            return lines[:place + 1], lines[place + 1:]
    return lines, []


def goals_and_ticks(text):
    model, messages = split_input(text)
    kept = [line for line in messages if words_of(line)[:1] in ([b'goal'], [b'tick'], [b'end'])]
    return b'\n'.join(model + kept) + b'\n'


def run(command, text):
    """Output, status and processor time of a command."""
    before = resource.getrusage(resource.RUSAGE_CHILDREN)
    done = subprocess.run(command.split(), input=text, stdout=subprocess.PIPE, stderr=subprocess.DEVNULL)
    after = resource.getrusage(resource.RUSAGE_CHILDREN)
    spent = after.ru_utime + after.ru_stime - before.ru_utime - before.ru_stime
    return done.stdout, done.returncode, spent


def reported(command, journal):
    """Goals accepted, served, dropped and open, and conflicts left, by a report."""
    lines = [line.split() for line in run(command, journal)[0].split(b'\n')]
    goals = [line for line in lines if line[:1] == [b'goal']]
    conflicts = [line for line in lines if line[:1] == [b'conflict']]
    return {
        'accepted': len(goals),
        'served': sum(b'served' in goal for goal in goals),
        'dropped': sum(b'dropped' in goal for goal in goals),
        'open': sum(b'open' in goal for goal in goals),
        'left': sum(conflict[2] != b'open-goal' for conflict in conflicts),
    }


def clean_by(command, journal):
    found = run(command, journal)[0].split()
    return int(found[found.index(b'clean') + 1]) if b'clean' in found else 0


def measured(planner, text, options):
    journal, status, spent = run(planner, text)
    model, _ = split_input(text)
    whole = b'\n'.join(model) + b'\n' + journal
    numbers = reported(options.report, whole)
    if options.judge:
        numbers['clean'] = clean_by(options.judge, whole)
    return numbers, status, spent


def shown(numbers, options):
    names = ['accepted', 'served', 'dropped', 'open'] + (['clean'] if options.judge else []) + ['left']
    return ' '.join(f'{name} {numbers.get(name, 0)}' for name in names)


def measure(planner, inputs, options):
    total, statuses, spent, longest = {}, {}, 0.0, 0.0
    for path in inputs:
        with open(path, 'rb') as file:
            text = file.read()
        if options.goals_and_ticks:
            text = goals_and_ticks(text)
        numbers, status, seconds = measured(planner, text, options)
        for name, number in numbers.items():
            total[name] = total.get(name, 0) + number
        if status:
            statuses[status] = statuses.get(status, 0) + 1
        spent, longest = spent + seconds, max(longest, seconds)
        if options.rows:
            print(f'  {os.path.basename(path)}: {shown(numbers, options)} seconds {seconds:.2f} status {status}')
    told = ' '.join(f'status {status}: {count}' for status, count in sorted(statuses.items()))
    print(f'{planner}: {shown(total, options)} seconds {spent:.2f} longest {longest:.2f} {told}'.rstrip())


def main():
    words = sys.argv[1:]
    if '--' not in words:
        sys.exit(__doc__)
    place = words.index('--')
    parser = argparse.ArgumentParser(add_help=False)
    parser.add_argument('--report', default='lundocsef report')
    parser.add_argument('--judge')
    parser.add_argument('--goals-and-ticks', action='store_true')
    parser.add_argument('--rows', action='store_true')
    parser.add_argument('planners', nargs='+')
    options = parser.parse_args(words[:place])
    for planner in options.planners:
        measure(planner, words[place + 1:], options)


if __name__ == '__main__':
    main()
