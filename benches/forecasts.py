#!/usr/bin/env python3
"""Times `forecast` with 64 rates beside `report`, over the same journals.

    forecasts.py [--program PROGRAM] JOURNAL..

PROGRAM is where the program is (crates/lundocsef/out/lundocsef by default). A JOURNAL is a file with a model, `begin` and a
journal. The rates are half drifts and half rates of the kinds, in turn, over all levels. For each journal one line is printed:
the seconds and the megabytes of `report` and of `forecast`, the least of three runs, and the first line of the forecast.
"""
import re

from beside_report import show_with_lines

RATES = 64


def rates(model, journal):
    """Lines of rates for the model's levels and kinds."""
    bare = re.sub(r'#.*', '', model)
    levels = re.findall(r'\blevel\s+([a-z_][a-z0-9_]*)', bare)
    kinds = re.findall(r'\bkind\s+([a-z_][a-z0-9_]*)', bare)
    for number in range(RATES):
        level, change = levels[number % len(levels)], number % 7 - 3
        if number % 2:
            yield 'drift %s %d' % (level, change)
        else:
            yield 'rate %s %s %d' % (kinds[number // 2 % len(kinds)], level, change)


if __name__ == '__main__':
    show_with_lines(['forecast'], rates, __doc__)
