"""Runs the snippets of the docs that are marked to be run. tools/README.md says how they are marked."""
import os
import re
import shlex
import subprocess
import tempfile

from lundocsef_tools import program as programs
from lundocsef_tools.model_reader import split_at_begin

FENCE = re.compile(r'^( *)(```+)([^`\n]*)\n(.*?)^\1\2 *$', re.M | re.S)
HORIZON, LEAD, TURNS = 1000, 100, 8
RESULTS = ('journal', 'report', 'fault')


class Block:
    def __init__(self, indent, mark, text, line):
        words = shlex.split(mark)
        self.language = words[0] if words else ''
        self.options = dict(word.partition('=')[::2] for word in words[1:])
        self.text = re.sub('^' + indent, '', text, flags=re.M)
        self.line = line

    def lines(self):
        return [line for line in self.text.split('\n') if line]


def blocks_of(text):
    return [Block(match.group(1), match.group(3), match.group(4), text.count('\n', 0, match.start()) + 1) for match in FENCE.finditer(text)]


def run_document(path, program, tools):
    """(what a snippet is, its fault or None) for each marked snippet of a document."""
    with open(path, encoding='utf-8') as file:
        blocks = blocks_of(file.read())
    with tempfile.TemporaryDirectory() as folder:
        shell = Shell(folder, program, tools)
        written = None
        for block in blocks:
            name = '%s:%d' % (os.path.basename(path), block.line)
            if block.language == 'lundocsef' and ('run' in block.options or 'check' in block.options):
                written = Written(block, program)
                yield name, written.fault
            elif block.language in RESULTS and written is not None and 'of' not in block.options:
                yield name, written.lacks(block)
            elif 'file' in block.options:
                yield name, shell.keep(block)
            elif block.language == 'console' and 'run' in block.options:
                yield name, shell.run(block)


class Written:
    """A model with messages, and what the program writes of it."""

    def __init__(self, block, program):
        self.program, self.fault = program, None
        model, messages = split_at_begin(block.text)
        if not re.match(r'(\s|#[^\n]*\n)*horizon\b', model):
            model = 'horizon %s lead %s\n%s' % (block.options.get('horizon', HORIZON), block.options.get('lead', LEAD), model)
        self.model = model
        status, said = programs.call(program, ['check'], self.input([]))
        self.results = {'fault': said.split('\n')}
        if block.options.get('check') == 'fault':
            self.fault = None if status == 3 else 'the model was to be refused, and the program says: %s' % said
        elif status != 0:
            self.fault = said.strip()
        elif 'run' in block.options:
            self.plan(block.options['run'] or str(TURNS), messages or [])

    def input(self, lines):
        return (self.model if self.model.endswith('\n') else self.model + '\n') + 'begin\n' + '\n'.join(lines) + '\n'

    def plan(self, turns, messages):
        status, journal = programs.call(self.program, ['run', 'solo', turns], self.input(messages))
        if status != 0:
            self.fault = 'run solo %s ended with status %d: %s' % (turns, status, journal[-200:])
            return
        self.results['journal'] = journal.split('\n')
        self.results['report'] = programs.call(self.program, ['report'], self.input(journal.split('\n')))[1].split('\n')

    def lacks(self, block):
        """The first line of the block that does not come, in its turn, in what the program wrote."""
        lines = iter(self.results.get(block.language, []))
        for wanted in block.lines():
            if wanted != '...' and wanted not in lines:
                return 'this line does not come, or not in this order: %s' % wanted
        return None


class Shell:
    """Commands of console snippets, run in a folder in which the snippets of files stand."""

    def __init__(self, folder, program, tools):
        self.folder = folder
        names = os.path.join(folder, '.names')
        os.mkdir(names)
        os.symlink(program, os.path.join(names, 'lundocsef'))
        self.lookahead = programs.find_lookahead()
        if self.lookahead:
            os.symlink(self.lookahead, os.path.join(names, 'lookahead'))
        os.symlink(os.path.join(os.path.dirname(tools), 'examples'), os.path.join(folder, 'examples'))
        self.environment = dict(os.environ, LUNDOCSEF=program, PATH=os.pathsep.join([names, tools, os.environ['PATH']]), COLUMNS='100')

    def keep(self, block):
        path = os.path.join(self.folder, os.path.normpath('/' + block.options['file']).lstrip('/'))
        with open(path, 'a' if 'more' in block.options else 'w', encoding='utf-8') as file:
            file.write(block.text)
        return None

    def run(self, block):
        """Runs each `$ ` line, and compares what it writes with the lines below it. Without the program `lookahead`, lines
        that call it are left out."""
        for command, wanted in self.commands(block):
            if re.search(r'\blookahead run\b', command) and not self.lookahead:
                continue
            done = subprocess.run(['bash', '-c', command], cwd=self.folder, env=self.environment, stdin=subprocess.DEVNULL,
                                  stdout=subprocess.PIPE, stderr=subprocess.STDOUT, timeout=120)
            found = done.stdout.decode('utf-8', 'replace').rstrip('\n').split('\n') if done.stdout.strip() else []
            if done.returncode:
                found.append('(status %d)' % done.returncode)
            if not fits(wanted, found):
                return '`%s` writes:\n%s' % (command, '\n'.join(found[:30]))
        return None

    def commands(self, block):
        found = []
        for line in block.text.rstrip('\n').split('\n'):
            if line.startswith('$ '):
                found.append((line[2:], []))
            elif found and not found[-1][1] and found[-1][0].endswith('\\'):
                found[-1] = (found[-1][0] + '\n' + line, [])
            elif found:
                found[-1][1].append(line)
        return found


def fits(wanted, found):
    """Whether the lines are those that are wanted; a line `...` stands for any number of lines."""
    pattern = ''.join('(.*\\n)*' if line == '...' else re.escape(line.rstrip()) + '\\n' for line in wanted)
    return re.fullmatch(pattern, ''.join(line.rstrip() + '\n' for line in found)) is not None
