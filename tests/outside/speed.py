#!/usr/bin/env python3
"""Outside the gate: how fast programs run. Prints a table for docs/SPEED.md.

    tests/outside/speed.py instructions [NAME..]    instructions a frame, at six shapes, counted by valgrind --tool=callgrind
    tests/outside/speed.py workers [NAME..]         four workers against one, by the clock, each at the shape that bin/faustvec chooses
    tests/outside/speed.py faust [NAME..]           instructions a frame at 512 and 512, beside the scalar C++ of Grame's Faust, whose
                                                    bytes have to be the same
    tests/outside/speed.py list                     the programs that have names

All measure the whole command on mono noise of 16 bits, a long file minus a short one, so that starting counts nothing. The program is the
carried one, or the one that the variable FAUSTVEC names. Times differ from day to day; say when and on which machine they were taken."""
import os
import re
import shutil
import statistics
import struct
import subprocess
import sys
import tempfile
import time

sys.dont_write_bytecode = True
sys.path.insert(0, os.path.join(os.path.dirname(os.path.abspath(__file__)), ".."))
from part import PROGRAM, TOP, need_program

SHAPES = [(64, 1), (512, 8), (512, 32), (512, 512), (1024, 1024), (4096, 512)]
VOICE = "voice(i) = + ~ (@(i*37+1) : *(i+3) : /(8));"
# The biquad of examples/FROM_FAUST.md.
BIQUAD = """biquad(b0, b1, b2, a1, a2) = _ <: *(b0), (mem : *(b1)), (mem : mem : *(b2)) :> (+ : /(8192)) ~ back
with { back = _ <: *(-a1), (mem : *(-a2)) :> _; };"""
POLE = "pole = + ~ (_ <: _, >>(8) : -) : >>(8);"
GATES = """follower = abs : <<(12) : max ~ (_ <: _, >>(10) : -) : >>(12);
gate(t) = _ <: (follower > t) * _;
rises = _ <: _ > mem;
counter = rises : + ~ _;
hold(n, x) = (\\(last).(select2((counter(x) % n) == 0, last, x))) ~ _;"""
RESONATOR = """smooth(n) = + ~ (_ <: _, >>(n) : -) : >>(n);
resonator(b, c) = + ~ (_ <: (*(b) : /(16384)), (mem : *(c) : /(16384)) : -);"""
# Freeverb: the comb of examples/FROM_FAUST.md eight times, and the allpass filter of examples/reverb.dsp four times.
FREEVERB = """damped(d) = *(32 - d) : + ~ (*(d) : /(32)) : /(32);
comb(n) = (+ : @(n)) ~ (damped(6) : *(27) : /(32));
allpass(n) = (+ <: @(n - 1), /(2)) ~ /(-2) : mem, _ : +;
lengths = case { (0) => 202; (1) => 216; (2) => 232; (3) => 246; (4) => 258; (5) => 271; (6) => 282; (7) => 294; };"""


def example(name):
    with open(os.path.join(TOP, "examples", f"{name}.dsp"), encoding="utf-8") as file:
        return file.read()


def programs():
    """Each program that is measured: its name and its text."""
    return {
        "wire": "process = _;",
        "louder": "process = _ * 2 + 1;",
        "echo": example("echo"),
        "voice": f"{VOICE} process = voice(0);",
        "voices16": f"{VOICE} process = _ <: par(i,16,voice(i)) :> _;",
        "voices64": f"{VOICE} process = _ <: par(i,64,voice(i)) :> _;",
        "taps64": "process = _ <: par(i, 64, @(7 * i + 1) : *(i - 31)) :> /(64);",
        "mems64": "process = _ <: seq(i,64,mem), _ :> _;",
        "biquads16": f"{BIQUAD} process = seq(i, 16, biquad(800 + i, 1600, 800, -7724, 2731));",
        "biquads31": f"{BIQUAD} process = _ <: par(i, 31, biquad(800 + i, 1600, 800, -7724, 2731)) :> _;",
        "poles16": f"{POLE} process = seq(i, 16, pole);",
        "poles100": f"{POLE} process = seq(i, 100, pole);",
        "gates24": f"{GATES} process = _ <: par(i, 24, *(i + 1) : gate(1000 + 10 * i) : hold(3 + i)) :> /(24);",
        "resonators64": f"{RESONATOR} process = _ / 8 <: par(i, 64, resonator(30000 - 100 * i, 16056) : smooth(6 + i % 4)) :> /(64);",
        "freeverb": f"{FREEVERB} process = _ / 16 <: par(i, 8, comb(lengths(i))) :> seq(i, 4, allpass(42 * (i + 1)));",
        "reverb": example("reverb"),
        "shaper": example("shaper"),
        "vibrato": example("vibrato"),
        "limiter": example("limiter"),
        "table": "process = rwtable(4000,0,(+(1) ~ _) % 3999,_,((+(1) ~ _) + 1) % 3999);",
    }


def noise(path, frames):
    """Writes a mono WAV file of noise of 16 bits."""
    state, samples = 1, []
    for _ in range(frames):
        state = (1103515245 * state + 12345) % 2**31
        samples.append((state >> 15) - 32768)
    data = struct.pack(f"<{frames}h", *samples)
    form = struct.pack("<IHHIIHH", 16, 1, 1, 44100, 88200, 2, 16)
    with open(path, "wb") as file:
        file.write(b"RIFF" + struct.pack("<I", 36 + len(data)) + b"WAVEfmt " + form + b"data" + struct.pack("<I", len(data)) + data)


def ended(words, folder):
    """What a command says that ends well."""
    done = subprocess.run(words, cwd=folder, stdin=subprocess.DEVNULL, stdout=subprocess.PIPE, stderr=subprocess.STDOUT, text=True, check=False)
    if done.returncode:
        sys.exit(f"{' '.join(words)}: status {done.returncode}: {done.stdout.strip()}")
    return done.stdout


def instructions_of(words, folder):
    """The instructions of a command."""
    said = ended(["valgrind", "--tool=callgrind", "--callgrind-out-file=/dev/null", *words], folder)
    return int(re.search(r"Collected : (\d+)", said)[1])


def counted(folder, frames, block, vector):
    """The instructions of one run."""
    return instructions_of([PROGRAM, "run", "p.dsp", f"{frames}.wav", "out.wav", "--block", str(block), "--vector", str(vector)], folder)


def instructions(names, folder):
    """Prints the instructions a frame of each program at each shape."""
    if not shutil.which("valgrind"):
        sys.exit("tests/outside/speed.py: there is no valgrind: apt-get install valgrind")
    few, many = 4096, 12288
    for frames in few, many:
        noise(os.path.join(folder, f"{frames}.wav"), frames)
    print("| block, vector |" + "".join(f" {block}, {vector} |" for block, vector in SHAPES) + "\n|" + "---|" * (len(SHAPES) + 1))
    for name, text in names.items():
        with open(os.path.join(folder, "p.dsp"), "w", encoding="utf-8") as file:
            file.write(text)
        print(f"| {name} |", end="", flush=True)
        for shape in SHAPES:
            cost = (counted(folder, many, *shape) - counted(folder, few, *shape)) / (many - few)
            print(f" {cost:,.0f} |", end="", flush=True)
        print()


# What Faust's text has before a program: its own `/` makes floats, so quotients of integers are a function of C++.
QUOTIENT = """quotient = ffunction(int faust_quotient(int, int), "quotient.h", "");
over(n) = \\(x).(quotient(x, n));
"""
# What runs the code that Faust makes over a WAV file of mono samples of 16 bits.
PLAYER = """#include <cstdio>
#include <cstdint>
#include <vector>
#define FAUSTFLOAT int
struct Meta { void declare(const char*, const char*) {} };
struct UI { void openVerticalBox(const char*) {} void closeBox() {} };
struct dsp {};
static inline int faust_quotient(int x, int y) { return x / y; }
#include "made.h"
int main() {
    FILE* in = fopen("in.wav", "rb");
    FILE* out = fopen("faust.wav", "wb");
    char head[44];
    if (fread(head, 44, 1, in) == 1) fwrite(head, 44, 1, out);
    static Made made;
    made.init(44100);
    int16_t bytes[512];
    int samples[512];
    int* channels[1] = { samples };
    for (size_t n; (n = fread(bytes, 2, 512, in)) > 0;) {
        for (size_t i = 0; i < n; i++) samples[i] = bytes[i];
        made.compute(n, channels, channels);
        for (size_t i = 0; i < n; i++) bytes[i] = samples[i] > 32767 ? 32767 : samples[i] < -32768 ? -32768 : samples[i];
        fwrite(bytes, 2, n, out);
    }
    fclose(out);
}
"""


def for_faust(text):
    """The program for Grame's Faust, where its quotients are all of the forms `/(N)` and `_ / N`; else none."""
    text = re.sub(r"_ / (\d+)(?= <:)", r"_ : over(\1)", re.sub(r"//.*", "", text))
    text = re.sub(r"(?<![\w)] )/\(([^()]*)\)", r"over(\1)", text)
    return None if "/" in text else QUOTIENT + text.replace("process = ", "whole = ") + "\nprocess = int(_) : whole;\n"


def compiled(folder, text):
    """Compiles the scalar C++ that Faust makes of a program."""
    with open(os.path.join(folder, "faust.dsp"), "w", encoding="utf-8") as file:
        file.write(text)
    for name, body in ("player.cpp", PLAYER), ("quotient.h", ""):
        with open(os.path.join(folder, name), "w", encoding="utf-8") as file:
            file.write(body)
    ended(["faust", "-lang", "cpp", "-cn", "Made", "-o", "made.h", "faust.dsp"], folder)
    ended(["g++", "-O2", "-fwrapv", "-o", "player", "player.cpp"], folder)


def faust(names, folder):
    """Prints the instructions a frame of each program, those of the C++ that Faust makes of it, and how many times as many they are."""
    for tool in "valgrind", "faust", "g++":
        if not shutil.which(tool):
            sys.exit(f"tests/outside/speed.py: there is no {tool}: apt-get install {tool}")
    few, many = 4096, 12288
    print("| program | faustvec | C++ | times |\n|---|---|---|---|")
    ratios = []
    for name, text in names.items():
        if not (other := for_faust(text)):
            continue
        with open(os.path.join(folder, "p.dsp"), "w", encoding="utf-8") as file:
            file.write(text)
        compiled(folder, other)
        costs = []
        for frames in few, many:
            noise(os.path.join(folder, "in.wav"), frames)
            costs.append([instructions_of([PROGRAM, "run", "p.dsp", "in.wav", "out.wav", "--vector", "512"], folder),
                instructions_of(["./player"], folder)])
        with open(os.path.join(folder, "out.wav"), "rb") as ours, open(os.path.join(folder, "faust.wav"), "rb") as theirs:
            if ours.read() != theirs.read():
                sys.exit(f"tests/outside/speed.py: {name}: the samples are not those of Faust")
        own, scalar = [(long - short) / (many - few) for short, long in zip(*costs)]
        ratios.append(own / scalar)
        print(f"| {name} | {own:,.0f} | {scalar:,.0f} | {own / scalar:.1f} |", flush=True)
    print(f"\nThe geometric mean of the last column is {statistics.geometric_mean(ratios):.2f}.")


def seconds(folder, frames, count):
    """The seconds by the clock of one run by this many workers, at the shape that the caller chooses."""
    begun = time.monotonic()
    ended([os.path.join(TOP, "bin/faustvec"), "run", "p.dsp", f"{frames}.wav", "out.wav", "--workers", str(count)], folder)
    return time.monotonic() - begun


def workers(names, folder):
    """Prints the nanoseconds a frame of each program by one worker and by four, the least of five, and how many times sooner four are."""
    few, many = 44100, 441000
    for frames in few, many:
        noise(os.path.join(folder, f"{frames}.wav"), frames)
    print(f"The load was {os.getloadavg()[0]:.1f} when it began.\n\n| program | 1 worker | 4 workers | gain | middle |\n|---|---|---|---|---|")
    for name, text in names.items():
        with open(os.path.join(folder, "p.dsp"), "w", encoding="utf-8") as file:
            file.write(text)
        costs = {}
        for count in 1, 4:
            runs = [seconds(folder, many, count) - seconds(folder, few, count) for _ in range(5)]
            costs[count] = [1e9 * it / (many - few) for it in (min(runs), statistics.median(runs))]
        gains = [one / four for one, four in zip(costs[1], costs[4])]
        print(f"| {name} | {costs[1][0]:,.0f} | {costs[4][0]:,.0f} | {gains[0]:.2f} | {gains[1]:.2f} |", flush=True)


def main():
    what, wanted, known = sys.argv[1:2], sys.argv[2:], programs()
    if what == ["list"] and not wanted:
        for name, text in known.items():
            print(f"# {name}\n{text.strip()}\n")
        return
    measures = {"instructions": instructions, "workers": workers, "faust": faust}
    if not what or what[0] not in measures or not set(wanted) <= set(known):
        sys.exit(__doc__.strip() + f"\n\nThe names: {' '.join(known)}")
    need_program()
    with tempfile.TemporaryDirectory(prefix="faustvec-speed-") as folder:
        measures[what[0]]({name: text for name, text in known.items() if not wanted or name in wanted}, folder)


main()
