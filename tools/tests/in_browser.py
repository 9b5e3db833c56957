#!/usr/bin/env python3
"""Opens the page of a plan in a browser without a window, moves the mouse over many moments, clicks activities, and compares
what the page shows with the program's report and with the journal. Not a part of `check`, since it needs a browser.

usage: in_browser.py CHROMIUM MODEL JOURNAL
"""
import html
import json
import os
import re
import subprocess
import sys
import tempfile

from support import program
from lundocsef_tools.drawing.view import View, default_range
from lundocsef_tools.page import page, story
from lundocsef_tools.plan import load_plan
from lundocsef_tools.report import read_report, report_of

# What the browser does: it moves the mouse to each moment, then clicks each activity, and leaves what it saw in the page.
SCRIPT = '''<script>
const seen = { moments: [], stories: {} }, box = svg.getBoundingClientRect();
for (const moment of %s) {
  const x = box.left + (data.left + (moment + 0.5 - data.from) * (data.right - data.left) / (data.to - data.from)) * box.width / data.width;
  svg.dispatchEvent(new MouseEvent("mousemove", { clientX: x, clientY: 200, bubbles: true }));
  seen.moments.push(values.textContent);
}
for (const group of svg.querySelectorAll(".activity")) {
  group.querySelector("rect").dispatchEvent(new MouseEvent("click", { bubbles: true }));
  seen.stories[group.dataset.id] = story.textContent;
}
seen.conflicts = [...wrong.querySelectorAll("button")].map(button => button.textContent);
document.body.innerHTML = "<pre id=seen></pre>";
document.getElementById("seen").textContent = JSON.stringify(seen);
</script></html>'''


def seen_by(browser, text, moments):
    """What the browser saw, as the script tells it."""
    with tempfile.TemporaryDirectory() as folder:
        path = os.path.join(folder, 'page.html')
        with open(path, 'w', encoding='utf-8') as file:
            file.write(text.replace('</html>', SCRIPT % json.dumps(moments)))
        words = [browser, '--headless', '--no-sandbox', '--disable-gpu', '--window-size=1400,900', '--user-data-dir=' + folder, '--dump-dom', 'file://' + path]
        shown = subprocess.run(words, stdout=subprocess.PIPE, stderr=subprocess.DEVNULL, timeout=300).stdout.decode('utf-8')
    found = re.search(r'<pre id="seen">(.*?)</pre>', shown, re.S)
    if not found:
        sys.exit('the browser shows no page: %s' % shown[:300])
    return json.loads(html.unescape(found.group(1)))


def wrong_moments(plan, report, seen):
    """Values and activities that the page shows at a moment and that are not so."""
    for text in seen:
        lines = text.split('\n')
        moment = int(lines[0].split()[1])
        shown = {line.split()[0]: line.split()[1] for line in lines[1:] if not line.startswith('#')}
        for line in plan.model.timelines:
            if shown[line.name] != str(plan.snapshot.profiles[line.name].at(moment)):
                yield '%s at %d: the page says %s' % (line.name, moment, shown[line.name])
        running = {'#%d %s' % (each.id, each.kind) for each in report.activities if each.end is not None and each.start <= moment < each.end}
        listed = {' '.join(line.split()[:2]) for line in lines[1:] if line.startswith('#')}
        if len(lines) < 40 and not running <= listed:
            yield 'at %d the page does not list %s' % (moment, ', '.join(running - listed))
        for conflict in report.conflicts:
            yield from wrong_limits(plan, conflict, moment, shown)


def wrong_limits(plan, conflict, moment, shown):
    """A value that is within its limits where the report says that it is not."""
    if conflict.code in ('over', 'high', 'low') and conflict.a <= moment < conflict.b:
        line = plan.model.timelines[conflict.subject]
        value = int(shown[line.name])
        if value >= line.least if conflict.code == 'low' else value <= line.most:
            yield '%s at %d is %d, and the report has a conflict `%s`' % (line.name, moment, value, conflict)


def main():
    browser, paths = sys.argv[1], sys.argv[2:]
    plan = load_plan(paths, program())
    report = read_report(report_of(plan.snapshot, plan.conflicts))
    first, last = default_range(plan)
    moments = sorted({moment for profile in plan.snapshot.profiles.values() for at in profile.moments for moment in (at - 1, at) if first <= moment < last})
    moments = moments[::max(1, len(moments) // 200)]
    seen = seen_by(browser, page(plan, View(first, last)), moments)
    faults = list(wrong_moments(plan, report, seen['moments']))
    for number, text in seen['stories'].items():
        if text.split('\n')[1:] != story(plan, plan.world.activities[int(number)]):
            faults.append('the story of #%s is another one' % number)
    if len(seen['conflicts']) != len(report.conflicts):
        faults.append('%d conflicts are listed, and the report has %d' % (len(seen['conflicts']), len(report.conflicts)))
    for fault in faults:
        print(fault)
    print('%d moments, %d activities, %d conflicts: %d differences' % (len(moments), len(seen['stories']), len(seen['conflicts']), len(faults)))
    return 1 if faults else 0


if __name__ == '__main__':
    sys.exit(main())
