"""Pages of the manual, in the form that `man` reads, made from the docs."""
import re

HEADING = re.compile(r'(#{1,6}) +(.*?) *#*$')
FENCE = re.compile(r' *(```+)')
ITEM = re.compile(r'( *)([-*]|\d+\.) +(.*)')
SEPARATOR = re.compile(r' *\|?[ :|-]*-[ :|-]*$')


def page(name, section, about, text, see, forms=()):
    """A page of the manual from a text in Markdown; `about` is one line, `forms` are command lines, `see` other pages."""
    lines = ['.TH "%s" %d "" "Lundocsef" "Lundocsef"' % (name.upper(), section), '.nh', '.ad l']
    lines += ['.SH NAME', '%s \\- %s' % (escape(name), inline(about))]
    if forms:
        lines += ['.SH SYNOPSIS'] + '\n.br\n'.join('\\fB%s\\fR %s' % (escape(name), escape(form)) for form in forms).split('\n')
    lines += body(text)
    lines += ['.SH SEE ALSO', ', '.join('\\fB%s\\fR(%d)' % (escape(other), number) for other, number in see)]
    return '\n'.join(lines) + '\n'


def escape(text):
    """Text as `man` shows it unchanged."""
    text = text.replace('\\', '\\e').replace('-', '\\-')
    return '\\&' + text if text[:1] in ('.', "'") else text


def inline(text):
    """Code, stress and links of a line; code stays as it is."""
    parts = re.split(r'(`+)(.+?)\1', text)
    out = []
    for number in range(0, len(parts), 3):
        out.append(stressed(parts[number]))
        if number + 2 < len(parts):
            out.append('\\fB%s\\fR' % escape(parts[number + 2].strip()).replace('\\&', '') if parts[number + 2].strip() else '')
    line = ''.join(out)
    return '\\&' + line if line[:1] in ('.', "'") else line


def stressed(text):
    text = re.sub(r'\[([^\]]*)\]\(([^)]*)\)', r'\1', text)
    text = text.replace('\\|', '|')
    text = escape(text).replace('\\&', '') if text else ''
    text = re.sub(r'\*\*(.+?)\*\*', r'\\fB\1\\fR', text)
    return re.sub(r'(?<![\w*])\*(?! )(.+?)\*(?![\w*])', r'\\fI\1\\fR', text)


def body(text):
    """The lines of a page below its name."""
    lines, found, at = text.split('\n'), [], 0
    while at < len(lines):
        line = lines[at]
        if FENCE.match(line):
            at = fenced(lines, at, found)
        elif HEADING.match(line):
            heading(line, found)
            at += 1
        elif line.lstrip().startswith('|') and at + 1 < len(lines) and SEPARATOR.match(lines[at + 1]):
            at = table(lines, at, found)
        elif ITEM.match(line):
            at = item(lines, at, found)
        elif not line.strip():
            at += 1
        else:
            at = paragraph(lines, at, found)
    return found


def heading(line, found):
    depth, text = HEADING.match(line).groups()
    if len(depth) == 1:
        found.append('.SH DESCRIPTION')          # the title of a text; the page has its own
    else:
        found.append('.%s %s' % ('SH' if len(depth) == 2 else 'SS', inline(text.upper() if len(depth) == 2 else text)))


def fenced(lines, at, found):
    """A block of code, up to its closing fence."""
    mark, indent = FENCE.match(lines[at]).group(1), len(lines[at]) - len(lines[at].lstrip())
    found += ['.PP', '.RS 4', '.nf']
    at += 1
    while at < len(lines) and not lines[at].strip().startswith(mark):
        found.append(escape(lines[at][indent:] if not lines[at][:indent].strip() else lines[at]) or '\\&')
        at += 1
    found += ['.fi', '.RE']
    return at + 1


def cells(line):
    """The cells of a row; a bar within code or behind a backslash separates nothing."""
    row = line.strip()
    row = re.sub(r'`[^`]*`', lambda code: code.group(0).replace('\\|', '|').replace('|', '\0'), row).replace('\\|', '\0')
    return [cell.strip().replace('\0', '|') for cell in row.strip('|').split('|')]


def table(lines, at, found):
    """A table as a list: the first cell is the word that is explained, the others explain it."""
    names = cells(lines[at])
    at += 2
    while at < len(lines) and lines[at].lstrip().startswith('|'):
        row = cells(lines[at])
        rest = [cell for cell in row[1:2] if cell]
        rest += ['*%s*: %s' % (name, cell) if name else cell for name, cell in zip(names[2:], row[2:]) if cell]
        found += ['.TP', inline(row[0]) or '\\&', '.br\n'.join(inline(cell) + '\n' for cell in rest).rstrip('\n') or '\\&']
        at += 1
    return at


def item(lines, at, found):
    """An item of a list, with the lines that belong to it."""
    indent, mark, text = ITEM.match(lines[at]).groups()
    inner = len(indent) + len(mark) + 1
    parts, at = [text], at + 1
    while at < len(lines) and not lines[at][:inner].strip() and not is_item(lines[at], len(indent)):
        parts.append(lines[at][inner:])
        at += 1
    content = body('\n'.join(parts))
    if content and content[0] == '.PP':
        content = content[1:]
    found += ['.IP %s 4' % ('\\(bu' if mark in '-*' else mark)] + nested(content)
    return at


def is_item(line, most):
    """Whether a line begins an item that is at most so far in."""
    match = ITEM.match(line)
    return match is not None and len(match.group(1)) <= most


def nested(content):
    """The lines of an item; its later paragraphs stay as far in as the first."""
    if '.PP' not in content:
        return content
    first = content.index('.PP')
    return content[:first] + ['.RS 4'] + content[first:] + ['.RE']


def begins_a_block(line):
    return bool(FENCE.match(line) or HEADING.match(line) or ITEM.match(line)) or line.lstrip().startswith('|')


def paragraph(lines, at, found):
    text = []
    while at < len(lines) and lines[at].strip() and not begins_a_block(lines[at]):
        text.append(lines[at].strip())
        at += 1
    if not text:                                  # a line that begins like something else and is not
        text, at = [lines[at].strip()], at + 1
    found += ['.PP', inline(' '.join(text))]
    return at


def without_sections(text, unwanted):
    """A text without the sections whose headings hold one of these words."""
    kept, keeping = [], True
    for line in text.split('\n'):
        match = HEADING.match(line)
        if match and len(match.group(1)) <= 2:
            keeping = not any(word in match.group(2).lower() for word in unwanted)
        if keeping:
            kept.append(line)
    return '\n'.join(kept)
