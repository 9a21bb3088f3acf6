"""Rows of the tables of tests/check-program: the words of a run and its files, and how it ends.

Each is run in a folder of its own that has just these files. Afterwards they are as they were, and beside them stands the output
alone, where there is one."""
import collections
import struct

Row = collections.namedtuple("Row", "words files status line output")

RUN = "run p.dsp in.wav out.wav"
RACK = "rack p.dsp in.wav out.wav"
CHECK = "check p.dsp"

WIRE = "process = _;"
GAIN = 'process = _ * hslider("g",1,0,10,1);'

# the scripts that words name
SCRIPTS = {
    "c.txt": b"2 g 3\n3 g 0\n",
    "on.txt": b"1 on 1",
    "low.txt": b"0 g 0\n1 g 10",
    "high.txt": b"0 g 11",
    "back.txt": b"3 g 1\n2 g 1\n",
    "nothing.txt": b"# nothing\n\r\n",
    "form.txt": b"x g 1",
    "label.txt": b"\n0 h 1",
    "value.txt": b"0 h 2147483648",
    "blank.txt": b"0 my gain 3",
    "second.txt": b"1 1/g 3",
    "twelfth.txt": b"1 11/g 3\n1 1/g 2\n",
}


def wave_head(channels, bits, size, rate=44100, tag=1):
    """The head of a WAV file of so many bytes of samples, as it is written."""
    align = channels * bits // 8
    form = struct.pack("<IHHIIHH", 16, tag, channels, rate, rate * align, align, bits)
    return b"RIFF" + struct.pack("<I", 36 + size + size % 2) + b"WAVEfmt " + form + b"data" + struct.pack("<I", size)


def wave(samples, channels=1, bits=16):
    """A WAV file of these samples, of 16, 24 or 32 bits."""
    data = b"".join(sample.to_bytes(bits // 8, "little", signed=True) for sample in samples)
    return wave_head(channels, bits, len(data)) + data + b"\0" * (len(data) % 2)


def au(data, size=None, offset=24, code=3, channels=1):
    """An AU file of these bytes, of 16 bits where nothing else is said."""
    return b".snd" + struct.pack(">5I", offset, len(data) if size is None else size, code, 44100, channels) + data


THREE = wave([1, -2, 3])


def ends(status, line, text, words=RUN, sound=THREE, output=None, **more):
    """A run that ends so. `more` has the bytes of further files by their names, with `_` in the place of the dot."""
    files = {name: data for name, data in SCRIPTS.items() if name in words}
    files.update({"p.dsp": text.encode("latin-1"), "in.wav": sound})
    files.update({name.replace("_", "."): data for name, data in more.items()})
    return Row(words, files, status, line, output)


def plays(text, heard, said, words=RUN, channels=(1, 1)):
    """A run over these samples of 16 bits that gives those, frame by frame; its input and its output have so many channels."""
    return ends(0, f"done {len(said) // channels[1]} frames", text, words, wave(heard, channels[0]), wave(said, channels[1]))


def checks(inputs, outputs, controls, size, delays, text):
    return ends(0, f"inputs {inputs} outputs {outputs} controls {controls} size {size} delays {delays}", text, CHECK)
