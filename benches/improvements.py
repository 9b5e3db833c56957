#!/usr/bin/env python3
"""Times `improve 20` with four preferences beside `report`, over the same journals.

    improvements.py [--program PROGRAM] JOURNAL..

PROGRAM is where the program is (crates/lundocsef/out/lundocsef by default). A JOURNAL is a file with a model, `begin` and a
journal. One preference is of each form, over the kinds that the journal adds most often and the model's first level. For each
journal one line is printed: the seconds and the megabytes of `report` and of `improve 20`, the least of three runs, and the first
line of what `improve` says.
"""
import collections
import re

from beside_report import show_with_lines


def preferences(model, journal):
    """A preference of each form, as far as the model has what it names."""
    bare = re.sub(r'#.*', '', model)
    added = collections.Counter(re.findall(r' by add ([a-z_][a-z0-9_]*) ', journal))
    kinds = [kind for kind, _ in added.most_common()] or re.findall(r'\bkind\s+([a-z_][a-z0-9_]*)', bare)
    values = dict(re.findall(r'\bkind\s+([a-z_][a-z0-9_]*)\s*\{\s*param\s+([a-z_][a-z0-9_]*)', bare))
    yield 'prefer %s early 3' % kinds[0]
    yield 'prefer %s late 2' % kinds[min(1, len(kinds) - 1)]
    yield from ['prefer %s value %s 1' % (kind, values[kind]) for kind in kinds if kind in values][:1]
    yield from ['prefer level %s 5' % level for level in re.findall(r'\blevel\s+([a-z_][a-z0-9_]*)', bare)][:1]


if __name__ == '__main__':
    show_with_lines(['improve', '20'], preferences, __doc__)
