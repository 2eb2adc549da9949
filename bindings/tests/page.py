"""Prints what a page says to do, as lines for a shell, from its beginning to a heading: `page_file NAME TEXT` for a block after a line that ends with the
file's name, `page_command COMMAND OUTPUT` for each command of a block, with the lines that follow it as what it prints.

usage: page.py PAGE HEADING
"""

import pathlib
import re
import shlex
import sys


def steps(before, block):
    """The steps of an indented block, with the line of text before it."""
    name = re.search(r"`([\w./]+)`:$", before)
    if not block.startswith("$ "):
        return [("page_file", name[1], block)] if name else []
    shown = re.findall(r"^\$ (.*)\n((?:(?!\$ ).*\n)*)", block, flags=re.MULTILINE)
    return [("page_command", command, output) for command, output in shown]


def main(page, heading):
    text = pathlib.Path(page).read_text()
    text = text[: text.index(f"\n{heading}\n")]
    for before, block in re.findall(r"^(\S.*)\n\n((?: {4}.*\n|\n)+)", text, flags=re.MULTILINE):
        lines = re.sub(r"^ {4}", "", block, flags=re.MULTILINE).strip("\n")
        for step in steps(before, f"{lines}\n"):
            print(shlex.join(step))


main(*sys.argv[1:])
