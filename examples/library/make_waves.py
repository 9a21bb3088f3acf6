#!/usr/bin/env python3
"""Writes the sounds of these examples, with samples that Python computes apart from faustvec: `NAME.wav` for each line of `list.txt`,
whose program `bin/link` makes of `NAME.dsp`, and `stems.wav`, three of the sounds as one file of three channels. The language is that
of tests/interpreter.py; what it evaluates is played by straight_line.py, and the first frames by itself too, which have to be the same.

    make_waves.py [NAME..]            writes all of them, or these
    make_waves.py --check [NAME..]    compares instead, and says what differs"""
import array
import concurrent.futures
import os
import subprocess
import sys
import wave

FOLDER = os.path.dirname(os.path.abspath(__file__))
TOP = os.path.join(FOLDER, "../..")
sys.path.insert(0, os.path.join(TOP, "tests"))

import interpreter
import straight_line

RATE = 44100
# So many frames the interpreter plays too.
CHECKED = 300
# The channels of `stems.wav`: the sound of one example each, its channels added and halved.
STEMS = ["karplus", "sequencer", "drum_machine"]
STEM_FRAMES = 66150


def path(name):
    return os.path.join(FOLDER, name)


def read(name):
    with wave.open(path(name)) as file:
        samples = array.array("h", file.readframes(file.getnframes()))
        channels = file.getnchannels()
    return [samples[start : start + channels].tolist() for start in range(0, len(samples), channels)]


def written(name, frames, is_checked):
    """Writes a sound, or says whether it is the one that is there."""
    frames = [[max(-32768, min(32767, sample)) for sample in frame] for frame in frames]
    if is_checked:
        return f"{name}: " + ("the same" if read(name) == frames else "OTHER SAMPLES")
    with wave.open(path(name), "wb") as file:
        file.setparams((len(frames[0]), 2, RATE, 0, "NONE", ""))
        file.writeframes(array.array("h", (sample for frame in frames for sample in frame)).tobytes())
    return f"{name}: {len(frames)} frames"


def stems():
    sounds = [read(name + ".wav")[:STEM_FRAMES] for name in STEMS]
    return [[sum(sample) >> (len(sample) - 1) for sample in frame] for frame in zip(*sounds)]


def changes_of(name):
    with open(path(name)) as script:
        lines = [line.rstrip("\n") for line in script if line.strip() and not line.startswith("#")]
    return [(int(line.split(" ")[0]), line.split(" ", 1)[1].rsplit(" ", 1)[0], int(line.split(" ")[-1])) for line in lines]


def example(is_checked, name, source, *words):
    """The sound of one line of the list."""
    options = dict(zip(words[::2], words[1::2]))
    linked = subprocess.run([os.path.join(TOP, "bin/link"), path(name + ".dsp")], stdout=subprocess.PIPE, check=True).stdout
    frames = [[]] * int(options["--frames"]) if source == "-" else read(source)
    changes = changes_of(options["--controls"]) if "--controls" in options else []
    program = interpreter.Program(linked.decode("latin-1"))
    played = straight_line.play(program, frames, changes)
    if program.play(frames[:CHECKED], changes) != played[:CHECKED]:
        sys.exit(f"make_waves.py: {name}: straight_line.py and tests/interpreter.py differ")
    return written(name + ".wav", played, is_checked)


def main(words):
    is_checked = words[:1] == ["--check"]
    with open(path("list.txt")) as listed:
        lines = [line.split() for line in listed]
    chosen = set(words[is_checked:]) or {line[0] for line in lines}
    unknown = chosen - {line[0] for line in lines}
    if unknown:
        sys.exit(f"make_waves.py: there is no example {sorted(unknown)[0]}")
    # What others are made from comes first.
    waves = [[line for line in lines if line[0] in chosen and (line[1] == "-") == first] for first in (True, False)]
    with concurrent.futures.ProcessPoolExecutor() as pool:
        for part in waves:
            for done in concurrent.futures.as_completed([pool.submit(example, is_checked, *line) for line in part]):
                print(done.result(), flush=True)
            if part and part[0][1] == "-":
                print(written("stems.wav", stems(), is_checked), flush=True)


if __name__ == "__main__":
    main(sys.argv[1:])
