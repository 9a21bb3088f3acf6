#!/usr/bin/env python3
"""Writes the sounds of the examples: `pluck.wav`, two plucks of a string, one channel of 16 bits at 8000 frames a second, and
for each line of `list.txt` what its program has to give, by an interpreter apart from faustvec. A line has the example's
name, its input or `-`, and options, as faustvec takes them. Its program is `NAME.dsp`, or a file of jobs, `NAME.rack`."""
import array
import math
import os
import sys
import wave

FOLDER = os.path.dirname(os.path.abspath(__file__))
sys.path.insert(0, os.path.join(FOLDER, "..", "tests"))

import interpreter

RATE = 8000


def path(name):
    return os.path.join(FOLDER, name)


def write(name, rate, frames):
    with wave.open(path(name), "wb") as file:
        file.setparams((len(frames[0]), 2, rate, 0, "NONE", ""))
        samples = (max(-32768, min(32767, sample)) for frame in frames for sample in frame)
        file.writeframes(array.array("h", samples).tobytes())


def read(name):
    with wave.open(path(name)) as file:
        samples = memoryview(file.readframes(file.getnframes())).cast("h").tolist()
        channels = file.getnchannels()
    return [samples[start : start + channels] for start in range(0, len(samples), channels)]


def changes_of(name):
    with open(path(name)) as script:
        lines = [line.rstrip("\n") for line in script if line.strip() and not line.startswith("#")]
    return [(int(line.split(" ")[0]), line.split(" ", 1)[1].rsplit(" ", 1)[0], int(line.split(" ")[-1])) for line in lines]


def example(name, source, *words):
    options = dict(zip(words[::2], words[1::2]))
    frames = [[]] * int(options["--frames"]) if source == "-" else read(source)
    changes = changes_of(options["--controls"]) if "--controls" in options else []
    is_rack = os.path.exists(path(name + ".rack"))
    with open(path(name + (".rack" if is_rack else ".dsp"))) as file:
        program = (interpreter.Rack if is_rack else interpreter.Program)(file.read())
    write(name + ".wav", int(options.get("--rate", RATE)), program.play(frames, changes))


pluck = [int(14000 * math.exp(-(t % RATE) / 2500) * math.sin(2 * math.pi * 220 * t / RATE)) for t in range(2 * RATE)]
write("pluck.wav", RATE, [[sample] for sample in pluck])
with open(path("list.txt")) as examples:
    for line in examples:
        example(*line.split())
