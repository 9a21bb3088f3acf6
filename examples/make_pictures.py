#!/usr/bin/env python3
"""Draws sounds: the waves of each channel with a scale of level, and where it helps some milliseconds of them at large, and a
spectrogram: time to the right, frequency upwards, the darker, the louder.

    make_pictures.py            a picture NAME.png for each example of list.txt, its input above its output
    make_pictures.py FILE..     a picture of each of these WAV files, beside it: out.png of out.wav

Levels are in dB below full scale. Needs Python 3.8 or later with its zlib, and for the examples the sounds that make_waves.py
makes; takes half a minute for them."""
import cmath
import collections
import math
import os
import struct
import sys
import wave

if sys.version_info < (3, 8):
    sys.exit("make_pictures.py needs Python 3.8 or later")
try:
    import zlib
except ImportError:
    sys.exit("make_pictures.py needs zlib, which packs a picture, and this Python was built without it")

FOLDER = os.path.dirname(os.path.abspath(__file__))
# Examples of which one hears how high they sound.
PITCHED = {"vibrato", "resonator", "string", "sequencer", "wavetable", "bank", "lowpass"}
# Examples of noise, which is as loud up to half the rate.
NOISY = {"noise", "rhythm", "trio"}
# Examples whose shape is the point, with the seconds at which some of it begins and ends at large.
SHAPES = {
    "louder": (0.05, 0.07),
    "fuzz": (0.05, 0.07),
    "smooth": (1.11, 1.17),
    "limiter": (0.05, 0.07),
    "crusher": (0.05, 0.07),
    "shaper": (0.0, 0.02),
    "sequencer": (0.24, 0.26),
    "wavetable": (0.24, 0.26),
    "bank": (0.0, 0.02),
}
# What the channels of an example are, where they are no left and right.
CHANNELS = {"trio": ["string", "bass", "hiss"], "stems": ["guitar", "bass", "drums"]}

LEFT, WIDTH, RIGHT, HEIGHT, GAP, FOOT = 62, 440, 50, 72, 14, 30
# The height of a spectrogram, which goes up to a quarter of the rate, and of one of noise up to half of it.
TALL = 96
GREY, BLUE, BLACK, WHITE = (119, 119, 119), (31, 111, 178), (0, 0, 0), (255, 255, 255)
PALE, LIGHT = (221, 221, 221), (255, 240, 204)
# Samples of one column of a spectrogram.
WINDOW = 512
# What the head of a wave stands for, as a part of full scale: a little more than 1.
HEAD = 1.04

# Letters of five by seven dots, a number of five bits a row.
FONT = {
    "a": "00.00.0e.01.0f.11.0f", "b": "10.10.16.19.11.11.1e", "c": "00.00.0e.10.10.11.0e", "d": "01.01.0d.13.11.11.0f",
    "e": "00.00.0e.11.1f.10.0e", "f": "06.09.08.1c.08.08.08", "g": "00.0f.11.11.0f.01.0e", "h": "10.10.16.19.11.11.11",
    "i": "04.00.0c.04.04.04.0e", "j": "02.00.06.02.02.12.0c", "k": "10.10.12.14.18.14.12", "l": "0c.04.04.04.04.04.0e",
    "m": "00.00.1a.15.15.11.11", "n": "00.00.16.19.11.11.11", "o": "00.00.0e.11.11.11.0e", "p": "00.00.1e.11.1e.10.10",
    "q": "00.00.0d.13.0f.01.01", "r": "00.00.16.19.10.10.10", "s": "00.00.0e.10.0e.01.1e", "t": "08.08.1c.08.08.09.06",
    "u": "00.00.11.11.11.13.0d", "v": "00.00.11.11.11.0a.04", "w": "00.00.11.11.15.15.0a", "x": "00.00.11.0a.04.0a.11",
    "y": "00.00.11.11.0f.01.0e", "z": "00.00.1f.02.04.08.1f", "0": "0e.11.13.15.19.11.0e", "1": "04.0c.04.04.04.04.0e",
    "2": "0e.11.01.02.04.08.1f", "3": "1f.02.04.02.01.11.0e", "4": "02.06.0a.12.1f.02.02", "5": "1f.10.1e.01.01.11.0e",
    "6": "06.08.10.1e.11.11.0e", "7": "1f.01.02.04.08.08.08", "8": "0e.11.11.0e.11.11.0e", "9": "0e.11.11.0f.01.02.0c",
    ".": "00.00.00.00.00.0c.0c", "_": "00.00.00.00.00.00.1f", "-": "00.00.00.0e.00.00.00", "?": "0e.11.01.02.04.00.04",
    "H": "11.11.11.1f.11.11.11", "B": "1e.11.11.1e.11.11.1e", " ": "00.00.00.00.00.00.00",
}

# A sound: its frames a second, and of each channel the samples, as parts of full scale.
Sound = collections.namedtuple("Sound", "rate channels")


class Picture:
    """Rows of dots, of three bytes each."""

    def __init__(self, width, height):
        self.width, self.rows = width, [bytearray(b"\xff" * 3 * width) for _ in range(height)]

    def dot(self, x, y, colour):
        self.rows[y][3 * x : 3 * x + 3] = bytes(colour)

    def column(self, x, top, bottom, colour):
        for y in range(top, bottom + 1):
            self.dot(x, y, colour)

    def level(self, x, y, width, colour):
        for at in range(x, x + width):
            self.dot(at, y, colour)

    def frame(self, x, y, width, height):
        self.level(x - 1, y - 1, width + 2, BLACK)
        self.level(x - 1, y + height, width + 2, BLACK)
        self.column(x - 1, y - 1, y + height, BLACK)
        self.column(x + width, y - 1, y + height, BLACK)

    def text(self, x, y, text, right=False):
        """The text from there on, or up to there."""
        x -= 6 * len(text) if right else 0
        for letter in text:
            rows = FONT.get(letter) or FONT.get(letter.lower()) or FONT["?"]
            for down, row in enumerate(rows.split(".")):
                for over in range(5):
                    if int(row, 16) >> (4 - over) & 1:
                        self.dot(x + over, y + down, BLACK)
            x += 6

    def save(self, path):
        def chunk(kind, body):
            return struct.pack(">I", len(body)) + kind + body + struct.pack(">I", zlib.crc32(kind + body))

        head = struct.pack(">IIBBBBB", self.width, len(self.rows), 8, 2, 0, 0, 0)
        body = zlib.compress(b"".join(b"\0" + bytes(row) for row in self.rows), 9)
        with open(path, "wb") as file:
            file.write(b"\x89PNG\r\n\x1a\n" + chunk(b"IHDR", head) + chunk(b"IDAT", body) + chunk(b"IEND", b""))


# ---- sounds


def sound_of(path):
    """A WAV file of whole numbers; one that cannot be read, or has no frames, is an error or a wave.Error."""
    with wave.open(path, "rb") as file:
        count, width, rate = file.getnchannels(), file.getsampwidth(), file.getframerate()
        data = file.readframes(file.getnframes())
    if width == 1:
        samples = [(byte - 128) / 128 for byte in data]
    else:
        full = 1 << (8 * width - 1)
        samples = [int.from_bytes(data[at : at + width], "little", signed=True) / full for at in range(0, len(data) - width + 1, width)]
    channels = [samples[channel::count] for channel in range(count)]
    if not channels[-1]:
        raise wave.Error("there are no frames in it")
    return Sound(rate, channels)


def named(name, channels):
    """The name of each channel, in two lines: that of the sound, and what the channel is."""
    if len(channels) == 1:
        return [[name]]
    names = CHANNELS.get(name) or (["left", "right"] if len(channels) == 2 else [f"channel {at}" for at in range(1, len(channels) + 1)])
    return [[name, channel] for channel in names]


# ---- what stands in a picture


def row_of(part, head=HEAD):
    """How far below its head a wave has this part of full scale, where its head stands for that one."""
    return max(0, min(HEIGHT - 1, round((1 - part / head) * (HEIGHT - 1) / 2)))


def draw_scale(picture, y, head=HEAD):
    """Pale lines at the three highest levels that are multiples of 6 dB, named at the right where there is room, and at 0."""
    highest = 6 * math.floor(20 * math.log10(min(head, 1)) / 6 + 1e-9)
    free = 0
    for level in range(highest, highest - 18, -6):
        part = 10 ** (level / 20)
        for sign in (1, -1):
            picture.level(LEFT, y + row_of(sign * part, head), WIDTH, PALE)
        row = row_of(part, head)
        if row >= free:
            picture.text(LEFT + WIDTH + 6, y + row - 3, f"{level} dB" if level == highest else str(level))
            free = row + 8
    picture.level(LEFT, y + row_of(0, head), WIDTH, PALE)


def draw_labels(picture, y, height, lines):
    """Lines of text at the left, as far as there is room."""
    most = (LEFT - 8) // 6
    for at, line in enumerate(lines):
        shown = line if len(line) <= most else line[: most - 2] + ".."
        picture.text(LEFT - 6, y + height // 2 - 5 * len(lines) + 1 + 10 * at, shown, right=True)


def draw_wave(picture, y, samples, colour):
    """The least and the greatest sample of each column."""
    for x in range(WIDTH):
        part = samples[x * len(samples) // WIDTH : (x + 1) * len(samples) // WIDTH + 1] or samples[-1:]
        picture.column(LEFT + x, y + row_of(max(part)), y + row_of(min(part)), colour)


def draw_line(picture, y, samples, span, head, colour):
    """The samples from one place to another, as a line from each to the next."""
    first, last = span
    rows = []
    for x in range(WIDTH):
        at = first + (last - first) * x / (WIDTH - 1)
        place = min(int(at), len(samples) - 1)
        before, after = samples[place], samples[min(place + 1, len(samples) - 1)]
        rows.append(y + row_of(before + (after - before) * (at - place), head))
    for x, (before, now) in enumerate(zip(rows[:1] + rows, rows)):
        picture.column(LEFT + x, min(before, now), max(before, now), colour)


def transform(numbers):
    """The discrete Fourier transform of a list whose length is a power of two (Cooley and Tukey 1965)."""
    if len(numbers) == 1:
        return numbers
    even, odd = transform(numbers[0::2]), transform(numbers[1::2])
    turned = [cmath.exp(-2j * math.pi * k / len(numbers)) * odd[k] for k in range(len(odd))]
    return [a + b for a, b in zip(even, turned)] + [a - b for a, b in zip(even, turned)]


def draw_spectrogram(picture, y, samples, share):
    """Up to this share of the rate; from the loudest down to a thousandth of it."""
    weights = [math.sin(math.pi * k / WINDOW) ** 2 for k in range(WINDOW)]
    samples = samples + [0.0] * max(0, WINDOW - len(samples))
    columns = []
    for x in range(WIDTH):
        start = max(0, min(len(samples) - WINDOW, x * len(samples) // WIDTH - WINDOW // 2))
        lines = transform([weight * sample for weight, sample in zip(weights, samples[start:])])
        columns.append([abs(line) for line in lines[: round(WINDOW * share)]])
    loudest = max(map(max, columns)) or 1
    for x, column in enumerate(columns):
        for row in range(TALL):
            low, high = ((TALL - row - k) * len(column) // TALL for k in (1, 0))
            loud = 1 + max(math.log10(max(column[low : max(high, low + 1)]) / loudest + 1e-9), -3) / 3
            picture.dot(LEFT + x, y + row, tuple(round(255 + loud * (part - 255)) for part in (8, 48, 107)))


def step_of(seconds):
    """A round time that goes between three and eight times into this one."""
    step = 10 ** math.floor(math.log10(seconds / 3))
    return next(factor * step for factor in (5, 2, 1) if seconds / (factor * step) >= 3)


def draw_time(picture, y, first, last):
    """The axis below a picture's part, from one time to another."""
    step = step_of(last - first)
    places = max(0, -math.floor(math.log10(step) + 1e-9))
    for at in range(math.ceil(first / step - 1e-6), math.floor(last / step + 1e-6) + 1):
        x = LEFT + min(WIDTH - 1, round((at * step - first) / (last - first) * WIDTH))
        picture.column(x, y + 1, y + 4, BLACK)
        text = f"{at * step:.{places}f}"
        picture.text(x - 3 * len(text) + 1, y + 8, text)
    picture.text(LEFT + WIDTH + 22, y + 8, "s")


class Wave:
    """A channel over its whole time."""

    height = HEIGHT

    def __init__(self, label, samples, colour):
        self.label, self.samples, self.colour = label, samples, colour

    def draw(self, picture, y):
        draw_scale(picture, y)
        draw_wave(picture, y, self.samples, self.colour)
        draw_labels(picture, y, HEIGHT, self.label)


class Spectrogram:
    """How high a sound is, over its whole time."""

    height = TALL

    def __init__(self, label, samples, rate, share):
        self.label, self.samples, self.rate, self.share = label, samples, rate, share

    def draw(self, picture, y):
        picture.text(LEFT - 6, y, f"{round(self.rate * self.share)} Hz", right=True)
        picture.text(LEFT - 6, y + TALL - 7, "0", right=True)
        draw_labels(picture, y, TALL, self.label)
        draw_spectrogram(picture, y, self.samples, self.share)


class Shape:
    """Some milliseconds at large, of the output over the input, scaled to the loudest of them."""

    height = HEIGHT

    def __init__(self, lists, rate, span):
        self.lists, self.rate, self.span = lists, rate, span

    def draw(self, picture, y):
        first, last = (second * self.rate for second in self.span)
        shown = [samples[int(first) : int(last) + 2] for samples, _ in self.lists]
        head = HEAD * max(0.001, *(abs(sample) for samples in shown for sample in samples))
        draw_scale(picture, y, head)
        for samples, colour in self.lists:
            draw_line(picture, y, samples, (first, last), head, colour)
        draw_labels(picture, y, HEIGHT, ["zoom"])


def shade(picture, top, bottom, span, seconds):
    """Marks the time that is drawn at large."""
    first, last = (LEFT + min(WIDTH - 1, round(at / seconds * WIDTH)) for at in span)
    for x in range(first, max(first + 1, last) + 1):
        for y in range(top, bottom + 1):
            if picture.rows[y][3 * x : 3 * x + 3] == bytes(WHITE):
                picture.dot(x, y, LIGHT)


def drawn(panels, shape, seconds):
    """A picture of parts on one axis of time, and of a part at large below them, where there is one."""
    high = sum(panel.height + GAP for panel in panels) + FOOT
    picture, y = Picture(LEFT + WIDTH + RIGHT, GAP + high + (HEIGHT + FOOT if shape else 0)), GAP
    for panel in panels:
        panel.draw(picture, y)
        if shape and isinstance(panel, Wave):
            shade(picture, y, y + HEIGHT - 1, shape.span, seconds)
        picture.frame(LEFT, y, WIDTH, panel.height)
        y += panel.height + GAP
    draw_time(picture, y - GAP, 0, seconds)
    if shape:
        y += FOOT - GAP // 2
        shape.draw(picture, y)
        picture.frame(LEFT, y, WIDTH, HEIGHT)
        draw_time(picture, y + HEIGHT, *shape.span)
    return picture


def draw(name, source):
    """The picture of an example: its input above its output, on one axis of time, and below it how high the output sounds."""
    panels, lists = [], []
    for label, colour in [(source, GREY)] * (source != "-") + [(name + ".wav", BLUE)]:
        sound = sound_of(os.path.join(FOLDER, label))
        labels = named(label[:-4] if label.endswith(".wav") else label, sound.channels)
        panels += [Wave(words, samples, colour) for words, samples in zip(labels, sound.channels)]
        lists.append((sound.channels[0], colour))
    if name in PITCHED | NOISY:
        panels.append(Spectrogram(labels[-1][1:], sound.channels[-1], sound.rate, 0.5 if name in NOISY else 0.25))
    shape = Shape(lists, sound.rate, SHAPES[name]) if name in SHAPES else None
    drawn(panels, shape, len(sound.channels[-1]) / sound.rate).save(os.path.join(FOLDER, name + ".png"))


def draw_file(path):
    """The picture of a file: its channels, and all of them together as a spectrogram and, where that is loudest, at large."""
    sound = sound_of(path)
    stem = path[:-4] if path.lower().endswith(".wav") else path
    panels = [Wave(words, samples, BLUE) for words, samples in zip(named(os.path.basename(stem), sound.channels), sound.channels)]
    mixed = [sum(frame) / len(frame) for frame in zip(*sound.channels)]
    panels.append(Spectrogram([], mixed, sound.rate, 0.5))
    seconds = len(mixed) / sound.rate
    loudest = max(range(len(mixed)), key=lambda at: abs(mixed[at])) / sound.rate
    first = max(0.0, min(loudest - 0.01, seconds - 0.02))
    shape = Shape([(mixed, BLUE)], sound.rate, (first, min(seconds, first + 0.02)))
    drawn(panels, shape, seconds).save(stem + ".png")
    print(stem + ".png")


def draw_files(paths):
    """The status: 1 where one of the files could not be drawn."""
    status = 0
    for path in paths:
        try:
            draw_file(path)
        except (OSError, EOFError, wave.Error) as fault:
            print(f"make_pictures.py: {path}: {getattr(fault, 'strerror', None) or str(fault) or 'it ends too early'}", file=sys.stderr)
            status = 1
    return status


def draw_examples():
    with open(os.path.join(FOLDER, "list.txt")) as examples:
        shown = [line.split()[:2] for line in examples]
    sounds = {name + ".wav" for name, _ in shown} | {source for _, source in shown if source != "-"}
    missing = sorted(sound for sound in sounds if not os.path.exists(os.path.join(FOLDER, sound)))
    if missing:
        sys.exit(f"make_pictures.py needs {', '.join(missing)} beside it, which make_waves.py makes")
    for name, source in shown:
        draw(name, source)


def main(words):
    if words and words[0] in ("-h", "--help"):
        print(__doc__)
        return 0
    return draw_files(words) if words else draw_examples()


if __name__ == "__main__":
    sys.exit(main(sys.argv[1:]))
