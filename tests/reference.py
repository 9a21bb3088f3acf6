"""A second reading of the command, apart from faustvec: its words, its files, the order of its refusals, the bytes that it
writes. It shares nothing with faustvec but docs/FORMATS.md; the language is that of tests/interpreter.py.

`answer(words, files, folders)` says what the command has to answer to these words, in a folder with these files."""
import os
import re
import struct

import interpreter
from interpreter import Refused, wrap

MOST_BYTES = 4_294_967_258
MOST_CHUNKS = 4_096
STATUSES = {1: 2, 2: 1, 3: 1, 39: 2, 40: 5}
PLAIN_SAMPLES = bytes.fromhex("0100000000001000800000aa00389b71")
OPTIONS = ["--controls", "--block", "--vector", "--workers", "--bits", "--frames", "--rate"]


def status_of(number, fields):
    if number in STATUSES:
        return STATUSES[number]
    return 4 if number in range(30, 39) or number in (44, 45) or (number == 4 and "controls" in fields) else 3


class Answer:
    """The line on standard output, the exit status, and the output's name with the bytes that it may have; none, if it is not
    begun. Of an input that is cut short only a part of the output is there, up to the last frame or the last whole block."""

    def __init__(self, line, status, name=None, outputs=()):
        self.line, self.status, self.name, self.outputs = line, status, name, outputs


def usage(cause):
    return Refused(1, "Usage", cause)


# ---- words


def cut(words):
    """Plain words, and options with their values."""
    plain, options, words = [], [], list(words)
    while words:
        word = words.pop(0)
        if word == "--":
            return plain + words, options
        if word[:1] != "-" or word == "-":
            plain.append(word)
        elif "=" in word:
            options.append(tuple(word.split("=", 1)))
        elif words:
            options.append((word, words.pop(0)))
        else:
            raise usage("form")
    return plain, options


def number_of(word):
    if not re.fullmatch("[0-9]{1,10}", word):
        raise usage("number")
    return int(word)


def ranged(number, least, most):
    if number is not None and not least <= number <= most:
        raise usage("range")
    return number


class Settings:
    def __init__(self, given):
        numbers = {name: number_of(given["--" + name]) for name in ("block", "vector", "workers", "bits", "frames", "rate") if "--" + name in given}
        self.block = ranged(numbers.get("block", 512), 1, 4096)
        self.vector = ranged(numbers.get("vector", self.block if self.block < 32 else max(32, -(-self.block // 64))), 1, self.block)
        ranged(numbers.get("workers"), 1, 16)
        self.bits = numbers.get("bits")
        if self.bits not in (None, 8, 16, 24, 32):
            raise usage("range")
        self.frames = ranged(numbers.get("frames"), 0, 2**32 - 1)
        self.rate = ranged(numbers.get("rate"), 1, 2**32 - 1)
        if -(-self.block // self.vector) > 64:
            raise usage("vectors")


class Command:
    """What the words ask for."""

    def __init__(self, words):
        try:
            words = [os.fsencode(word).decode() for word in words]
        except UnicodeDecodeError:
            raise usage("form") from None
        if not words:
            raise usage("form")
        self.kind, (plain, options) = words[0], cut(words[1:])
        given = dict(options)
        widths = {"run": 3, "au": 3, "rack": 3, "check": 1, "make": 3}
        allowed = OPTIONS if self.kind in ("run", "au", "rack") else []
        if self.kind not in widths or len(plain) != widths[self.kind] or len(given) < len(options) or not set(given) <= set(allowed):
            raise usage("form")
        if self.kind == "make":
            self.made = [number_of(word) for word in plain]
            for number, most in zip(self.made, (64, 262_144, 16)):
                ranged(number, 1, most)
            return
        self.program = plain[0]
        if self.kind == "check":
            return
        self.input, self.output = plain[1:]
        self.script = given.get("--controls")
        self.settings = Settings(given)
        if self.input != "-" and (self.settings.frames is not None or self.settings.rate is not None):
            raise usage("together")
        if self.output in (self.program, self.input, self.script):
            raise usage("same")


# ---- scripts

LINE = re.compile(rb"([0-9]{1,10}) (.+) (-?[0-9]{1,10})", re.DOTALL)


def changes_of(text, controls):
    """The changes of a script: frame, label, value."""
    if len(text) > interpreter.LONGEST_TEXT:
        raise Refused(4, "TextTooLong", "controls")
    controls = {control.label: control for control in controls}
    changes, least = [], 0
    for number, line in enumerate(text.split(b"\n"), 1):
        line = line[:-1] if line.endswith(b"\r") else line
        if not line or line.startswith(b"#"):
            continue
        match = LINE.fullmatch(line)
        frame, value = (int(match[1]), int(match[3])) if match else (0, 0)
        if not match or frame >= 2**32 or not -(2**31) <= value < 2**31:
            raise Refused(30, "ControlLine", number)
        label = match[2].decode("latin-1")
        if label not in controls:
            raise Refused(31, "ControlUnknown", number)
        if not controls[label].least <= value <= controls[label].greatest:
            raise Refused(32, "ControlRange", number)
        if frame < least:
            raise Refused(33, "ControlOrder", number)
        least = frame
        changes.append((frame, label, value))
    return changes


# ---- sound files


class Sound:
    """The form of a file of samples, how many frames it states, and those that are there."""

    def __init__(self, channels, rate, bits, frames, data, is_au=False):
        self.channels, self.rate, self.bits, self.frames, self.is_au = channels, rate, bits, frames, is_au
        width, size = bits // 8, channels * bits // 8
        order = "big" if is_au else "little"
        self.there = []
        for at in range(0, min(frames, len(data) // size) * size, size):
            samples = (data[place : place + width] for place in range(at, at + size, width))
            unsigned = bits == 8 and not is_au
            self.there.append([byte[0] - 128 if unsigned else int.from_bytes(byte, order, signed=True) for byte in samples])


class Bytes:
    """Takes the bytes of a file in their order. Where one is needed and not there, the file is refused at its end."""

    def __init__(self, data):
        self.data, self.place = data, 0

    def take(self, count):
        if len(self.data) - self.place < count:
            raise Refused(35, "WaveTruncated", len(self.data))
        self.place += count
        return self.data[self.place - count : self.place]

    def number(self, count):
        return int.from_bytes(self.take(count), "little")


def wave(data):
    file = Bytes(data)
    form = file.take(12)
    if form[:4] != b"RIFF" or form[8:] != b"WAVE":
        raise Refused(34, "NotWave", 0)
    shape, chunks = None, 0
    while True:
        place = file.place
        name = file.take(4)
        if (name == b"fmt " and shape) or (name == b"data" and not shape):
            raise Refused(36, "WaveFormat", place)
        if name != b"data" and chunks == MOST_CHUNKS:
            raise Refused(37, "WaveChunks", place)
        chunks += 1
        size = file.number(4)
        if name == b"data":
            break
        start = file.place
        if name == b"fmt ":
            shape = shape_of(file, size)
        file.take(size + size % 2 - (file.place - start))
    if size == 2**32 - 1:
        raise Refused(36, "WaveFormat", file.place - 4)
    channels, rate, bits = shape
    return Sound(channels, rate, bits, size // (channels * bits // 8), data[file.place :])


def shape_of(file, size):
    """The channels, the rate and the bits that the body of a `fmt ` states."""
    start = file.place

    def rule(holds, place):
        if not holds:
            raise Refused(36, "WaveFormat", place)

    rule(size >= 16, start - 4)
    tag = file.number(2)
    rule(tag in (1, 65534), start)
    rule(tag == 1 or size >= 40, start - 4)
    channels = file.number(2)
    rule(1 <= channels <= 256, start + 2)
    rate, _, align, bits = file.number(4), file.number(4), file.number(2), file.number(2)
    rule(bits in (8, 16, 24, 32), start + 14)
    rule(align == channels * bits // 8, start + 12)
    if tag == 65534:
        file.take(8)
        rule(file.take(16) == PLAIN_SAMPLES, start + 24)
    return channels, rate, bits


def au(data):
    def field(place):
        if len(data) < place + 4:
            raise Refused(45, "AuTruncated", len(data))
        return int.from_bytes(data[place : place + 4], "big")

    def rule(holds, place):
        if not holds:
            raise Refused(44, "AuFormat", place)

    offset = field(4)
    rule(offset >= 24, 4)
    encoding = field(12)
    rule(2 <= encoding <= 5, 12)
    channels = field(20)
    rule(1 <= channels <= 256, 20)
    if len(data) < offset:
        raise Refused(45, "AuTruncated", len(data))
    size, bits = field(8), encoding * 8 - 8
    samples = data[offset:]
    return Sound(channels, field(16), bits, (len(samples) if size == 2**32 - 1 else size) // (channels * bits // 8), samples, True)


def head(is_au, channels, rate, bits, size):
    align = channels * bits // 8
    if is_au:
        return b".snd" + struct.pack(">5I", 24, size, bits // 8 + 1, rate, channels)
    form = struct.pack("<IHHIIHH", 16, 1, channels, rate, rate * align % 2**32, align, bits)
    return b"RIFF" + struct.pack("<I", 36 + size + size % 2) + b"WAVEfmt " + form + b"data" + struct.pack("<I", size)


def coded(is_au, bits, samples):
    least, greatest = -(2 ** (bits - 1)), 2 ** (bits - 1) - 1
    shift, order = (128, "little") if bits == 8 and not is_au else (0, "big" if is_au else "little")
    return b"".join((min(max(x, least), greatest) + shift).to_bytes(bits // 8, order, signed=shift == 0) for x in samples)


# ---- the command


def read(files, name, role):
    if name not in files:
        raise Refused(2, "ReadFault", role)
    return files[name]


def make(voices, frames):
    text = f"v(i) = + ~ (@(i*37+1) : *(i+3) : /(8));\nprocess = _ <: par(i,{voices},v(i)) :> _;\n"
    noise, state = [], voices
    for _ in range(frames):
        state = wrap(state * 1103515245 + 12345)
        noise.append([state >> 16])
    total = wrap(sum(sum(frame) for frame in interpreter.play(text, noise)))
    return Answer(f"made {voices} voices, {frames} frames, sum {total}", 0)


def frames_in_blocks(there, total, block, changes):
    """How many of the frames that are there lie in whole blocks."""
    done = 0
    while done < total:
        ends = [done + block, total] + [frame for frame, _, _ in changes if frame > done]
        if min(ends) > there:
            break
        done = min(ends)
    return done


def sound_in(command, files, program):
    if command.input == "-":
        if program.inputs:
            raise Refused(29, "Channels", 0, program.inputs)
        if command.settings.frames is None:
            raise Refused(39, "FramesNeeded")
        return None
    data = read(files, command.input, "input")
    sound = au(data) if command.kind == "au" and data[:4] == b".snd" else wave(data)
    if sound.channels != program.inputs:
        raise Refused(29, "Channels", sound.channels, program.inputs)
    return sound


def play(command, files, folders, program, patience):
    changes = changes_of(read(files, command.script, "controls"), program.controls) if command.script is not None else []
    sound = sound_in(command, files, program)
    frames = sound.frames if sound else command.settings.frames
    rate = sound.rate if sound else command.settings.rate or 44100
    bits = command.settings.bits or (sound.bits if sound else 16)
    channels = program.outputs
    size = frames * channels * (bits // 8)
    if size > MOST_BYTES:
        raise Refused(38, "OutputTooLong", size)
    if command.output in folders or os.path.dirname(command.output) not in folders or not command.output:
        raise Refused(3, "WriteFault", "output")
    is_au = command.kind == "au" and command.output.endswith(".au")
    if patience is not None and not sound and frames > patience:
        raise interpreter.TooMuch()
    there = sound.there if sound else [[] for _ in range(frames)]
    frames_out = [coded(is_au, bits, frame) for frame in program.play(there, changes)]
    whole = head(is_au, channels, rate, bits, size)
    if len(there) == frames:
        pad = b"\0" * (size % 2 if not is_au else 0)
        return Answer(f"done {frames} frames", 0, command.output, [whole + b"".join(frames_out) + pad])
    in_blocks = frames_in_blocks(len(there), frames, command.settings.block, changes)
    refused = Refused(*((45, "AuTruncated") if sound.is_au else (35, "WaveTruncated")), len(files[command.input]))
    return Answer(str(refused), 4, command.output, [whole + b"".join(frames_out), whole + b"".join(frames_out[:in_blocks])])


def obeyed(words, files, folders, patience):
    command = Command(words)
    if command.kind == "make":
        return make(*command.made[:2])
    text = read(files, command.program, "program").decode("latin-1")
    program = interpreter.Rack(text, patience) if command.kind == "rack" else interpreter.Program(text, patience)
    if command.kind == "check":
        diagram = program.diagram
        numbers = [program.inputs, program.outputs, len(program.controls), diagram.size, program.delays]
        return Answer("inputs {} outputs {} controls {} size {} delays {}".format(*numbers), 0)
    return play(command, files, folders, program, patience)


def answer(words, files, folders, patience=None):
    """What the command has to answer; the output's folder is among the folders, of which '' is the one that it runs in."""
    try:
        return obeyed(words, files, folders, patience)
    except Refused as refused:
        return Answer(str(refused), status_of(refused.number, str(refused).split()))
