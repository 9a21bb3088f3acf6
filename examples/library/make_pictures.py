#!/usr/bin/env python3
"""Draws for each example of `list.txt` a picture of its input, where it has one, of its output, and how high the output sounds, as
`../make_pictures.py` draws them: `NAME.png`. Needs Python 3.9 or later with its zlib, and the sounds that lie here."""
import importlib.util
import os

FOLDER = os.path.dirname(os.path.abspath(__file__))


def pictures():
    """The module that draws, for this folder: wider at the left, and with windows for a rate of 44100."""
    spec = importlib.util.spec_from_file_location("pictures", os.path.join(FOLDER, "../make_pictures.py"))
    module = importlib.util.module_from_spec(spec)
    spec.loader.exec_module(module)
    module.FOLDER, module.LEFT, module.WINDOW = FOLDER, 86, 2048
    return module


def main():
    drawing = pictures()
    with open(os.path.join(FOLDER, "list.txt")) as examples:
        shown = [line.split()[:2] for line in examples]
    drawing.PITCHED = {name for name, _ in shown}
    for name, source in shown:
        drawing.draw(name, source)


if __name__ == "__main__":
    main()
