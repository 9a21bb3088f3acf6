#!/usr/bin/env python3
"""Writes the table of library/README.md from the comments of the library's texts: each name, what it is, and its name in Faust's
libraries. With --check it writes nothing, and says whether the table is right."""
import importlib.machinery
import importlib.util
import os
import re
import sys

sys.dont_write_bytecode = True
FOLDER = os.path.dirname(os.path.realpath(__file__))
PAGE = os.path.join(FOLDER, "README.md")
BEGIN, END = "<!-- made by make_table.py -->\n", "<!-- end of the table -->\n"


def link_module():
    loader = importlib.machinery.SourceFileLoader("link", os.path.join(FOLDER, "../bin/link"))
    module = importlib.util.module_from_spec(importlib.util.spec_from_loader("link", loader))
    loader.exec_module(module)
    return module


def field(comment, name, until):
    """What a comment says in one of its fields, as one line."""
    found = re.search(rf"^{name}: (.*?)^{until}:", "\n".join(comment) + "\n", re.S | re.M)
    return " ".join(found[1].split()) if found else ""


def table(library):
    lines, path = [], None
    for definition in library.public():
        if definition.path != path:
            path = definition.path
            name = os.path.basename(path)
            lines += ["", f"**[`{name}`]({name})**", "", "| call | what it is | in Faust |", "|---|---|---|"]
        call, _, what = definition.comment[0].partition(": ")
        cells = [f"`{call}`", what, field(definition.comment, "Faust", "Use")]
        lines.append("| " + " | ".join(cell.replace("|", "\\|") for cell in cells) + " |")
    return "\n".join(lines).lstrip("\n") + "\n"


def page(library):
    """The page with its table made anew."""
    with open(PAGE, encoding="ascii") as file:
        head, begin, rest = file.read().partition(BEGIN)
    _, end, foot = rest.partition(END)
    if not begin or not end:
        sys.exit(f"make_table.py: {PAGE} has not the lines that the table stands between")
    return head + begin + "\n" + table(library) + "\n" + end + foot


def fault(library):
    """What is wrong with the table, or None."""
    with open(PAGE, encoding="ascii") as file:
        return None if file.read() == page(library) else "its table is not that of the comments: call library/make_table.py"


if __name__ == "__main__":
    whole = link_module().library()
    if sys.argv[1:] == ["--check"]:
        sys.exit(fault(whole))
    text = page(whole)
    with open(PAGE, "w", encoding="ascii") as page_file:
        page_file.write(text)
