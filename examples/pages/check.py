#!/usr/bin/env python3
"""Compares docs/MODEL.md and docs/JOURNAL.md with the program.

    python3 examples/pages/check.py [PROGRAM]

PROGRAM is crates/lundocsef/out/lundocsef unless another is named. The inputs of the examples are run, and each line of a
journal that the two pages show has to be among the lines that come out. Each model that they show has to be accepted.
Each command that they show behind a dollar sign is run by bash in the top folder, and has to print what stands below it.
"""
import pathlib
import re
import subprocess
import sys

TOP = pathlib.Path(__file__).resolve().parents[2]
PAGES = [TOP / "docs/MODEL.md", TOP / "docs/JOURNAL.md"]
ENTRY = re.compile(r"\d+ (?:open turns \d|in|fix|rest|commit|dispatch|close)\b.*")
MODEL = re.compile(r"(?:#.*\n)?horizon \d")


def run(program, words, text):
    """What the program prints for these words and this input."""
    return subprocess.run([program, *words], input=text.encode(), capture_output=True).stdout.decode()


def blocks(text):
    """The fenced blocks of a page, without what indents them."""
    for indent, body in re.findall(r"^( *)```\w*\n(.*?)^ *```$", text, re.M | re.S):
        yield "\n".join(line.removeprefix(indent) for line in body.splitlines())


def lines_of_examples(program):
    """All lines of the journals of the examples, and complaints about journals that `replay` refuses."""
    lines, complaints = set(), []
    for path in [*TOP.glob("examples/*.txt"), *TOP.glob("examples/pages/*.txt")]:
        lines.update(run(program, ["run", "solo", "8"], path.read_text()).splitlines())
    lines.update((TOP / "examples/lookahead/imager.journal").read_text().splitlines())
    for path in TOP.glob("examples/pages/replay/*.txt"):
        verdict = run(program, ["replay"], path.read_text())
        if not verdict.startswith("journal ok"):
            complaints.append(f"{path.name}: {verdict}")
        lines.update(path.read_text().splitlines())
    return lines, complaints


def entries_not_printed(text, known):
    """The lines of journals in a page, in blocks and between backticks, that no example prints."""
    shown = [line for block in blocks(text) for line in block.splitlines()] + re.findall(r"`([^`\n]+)`", text)
    return [f"no example prints: {line}" for line in shown if ENTRY.fullmatch(line) and line not in known]


def models_refused(program, text):
    """The models in a page that the program refuses."""
    for block in filter(MODEL.match, blocks(text)):
        said = run(program, ["check"], block if "\nbegin" in block else block + "\nbegin\n")
        if not said.startswith("model ok"):
            yield f"{said}{block}"


def commands_that_differ(program, text):
    """The commands in a page that print something else than the page says."""
    for block in filter(lambda block: block.startswith("$ "), blocks(text)):
        command, _, wanted = block.removeprefix("$ ").partition("\n")
        script = f'lundocsef() {{ "{program}" "$@"; }}\n{command}'
        said = subprocess.run(["bash", "-c", script], cwd=TOP, capture_output=True, text=True)
        if said.stdout.strip() != wanted.strip():
            yield f"$ {command}\n{said.stdout}{said.stderr}"


def main():
    program = str(pathlib.Path(sys.argv[1]).resolve() if len(sys.argv) > 1 else TOP / "crates/lundocsef/out/lundocsef")
    known, complaints = lines_of_examples(program)
    for page in PAGES:
        text = page.read_text()
        for complaint in [*entries_not_printed(text, known), *models_refused(program, text), *commands_that_differ(program, text)]:
            complaints.append(f"{page.name}: {complaint}")
    print("\n".join(complaints) or "all is as shown")
    return bool(complaints)


if __name__ == "__main__":
    sys.exit(main())
