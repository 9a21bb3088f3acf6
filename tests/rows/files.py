"""Sound files, scripts and texts: other ones than the plainest, ones that are cut, and ones at the limits."""
import struct

from rows import RACK, RUN, THREE, WIRE, au, ends, wave, wave_head

TO_AU = "au p.dsp in.wav out.au"
TO_WAVE = "au p.dsp in.wav out.wav"
SCRIPTED = RUN + " --controls c.txt"

# ---- WAV

# Two samples of 24 bits, 1 and -2, in an extensible file with an odd chunk, and after a plain head.
EXTENSIBLE = struct.pack("<HHIIHHHHI", 65534, 1, 44100, 132300, 3, 24, 22, 24, 4) + bytes.fromhex("0100000000001000800000aa00389b71")
ODD = (b"RIFF" + struct.pack("<I", 78) + b"WAVEfmt " + struct.pack("<I", 40) + EXTENSIBLE + b"LIST\3\0\0\0ABC\0"
       + b"data\6\0\0\0" + bytes.fromhex("010000feffff"))
PLAIN = wave([1, -2], bits=24)

# Three bytes of 8 bits, 0, 128 and 255, and their pad byte; and as they are one louder.
BYTES = wave_head(1, 8, 3) + b"\0\x80\xff\0"
LOUDER = wave_head(1, 8, 3) + b"\1\x81\xff\0"

# A head of 16 bits without samples, where the file's size is that of three.
NO_SAMPLES = wave_head(1, 16, 0)
EMPTY = NO_SAMPLES.replace(b"RIFF\x24", b"RIFF\x2a")


def stated(size, file_size):
    """A head of 16 bits that states so many bytes of samples, and so many of the file."""
    return b"RIFF" + struct.pack("<I", file_size) + wave_head(1, 16, 0)[8:40] + struct.pack("<I", size)


def altered(place, data):
    """The file of three samples with other bytes from a place on."""
    return THREE[:place] + data + THREE[place + len(data) :]


PLAYED = [
    ends(0, "done 2 frames", WIRE, RUN, ODD, PLAIN),
    ends(0, "done 3 frames", WIRE, RUN, BYTES, BYTES),
    ends(0, "done 3 frames", "process = _ + 1;", RUN, BYTES, LOUDER),
    ends(0, "done 0 frames", WIRE, RUN, EMPTY, NO_SAMPLES),
    # samples are widened
    ends(0, "done 3 frames", WIRE, "run --bits=24 p.dsp in.wav out.wav --block 7", THREE, wave([1, -2, 3], bits=24)),
    # other frames a second, and three channels of 7 where there is no input
    ends(0, "done 3 frames", "process = 7;", "run --frames 3 --bits=24 --rate 48000 p.dsp - out.wav",
         output=wave_head(1, 24, 9, rate=48000) + b"\7\0\0" * 3 + b"\0"),
    # a wire in two channels, and one that gives 70,000 bytes back
    ends(0, "done 2 frames", "process = _, _;", RUN, wave([1, -2, 3, 0], 2), wave([1, -2, 3, 0], 2)),
    ends(0, "done 35000 frames", WIRE, RUN, wave([257] * 35000), wave([257] * 35000)),
]

REFUSED = [
    ends(4, "refused 34 NotWave 0", WIRE, RUN, b"hello, world"),
    ends(4, "refused 34 NotWave 0", WIRE, RUN, WIRE.encode() + b"\n"),
    ends(4, "refused 35 WaveTruncated 0", WIRE, RUN, b""),
    # with tag 3, with 8 bits where the others are of 16, with 12 bits, with two channels
    ends(4, "refused 36 WaveFormat 20", WIRE, RUN, altered(20, b"\3")),
    ends(4, "refused 36 WaveFormat 20", WIRE, RUN, wave_head(1, 32, 0, tag=3)),
    ends(4, "refused 36 WaveFormat 32", WIRE, RUN, altered(34, b"\x08")),
    ends(4, "refused 36 WaveFormat 34", WIRE, RUN, altered(34, b"\x0c")),
    ends(3, "refused 29 Channels 2 1", WIRE, RUN, THREE[:22] + b"\2" + THREE[23:32] + b"\4" + THREE[33:]),
    ends(4, "refused 38 OutputTooLong 4294967294", WIRE, RUN, stated(4294967294, 42)),
    ends(4, "refused 35 WaveTruncated 44", WIRE, RUN, stated(4294967258, 42), stated(4294967258, 4294967294)),
    ends(4, "refused 35 WaveTruncated 20", WIRE, RUN, b"RIFF\x2a\0\0\0WAVEJUNK\xff\xff\xff\xff"),
]

BY_ONE = RUN + " --block=1 --vector=1"
BY_TWO = RUN + " --block=2 --vector=1"

# Of an input that is cut, exactly the blocks are played that lie wholly within it.
CUT = [
    ends(4, "refused 35 WaveTruncated 49", WIRE, RUN, THREE[:49], THREE[:44]),
    ends(4, "refused 35 WaveTruncated 85", WIRE, RUN, ODD[:85], PLAIN[:44]),
    ends(4, "refused 35 WaveTruncated 85", WIRE, BY_ONE, ODD[:85], PLAIN[:47]),
    ends(4, "refused 35 WaveTruncated 85", WIRE, BY_TWO, ODD[:85], PLAIN[:44]),
    ends(4, "refused 35 WaveTruncated 49", WIRE, BY_ONE, THREE[:49], THREE[:48]),
    ends(4, "refused 35 WaveTruncated 49", WIRE, BY_TWO, THREE[:49], THREE[:48]),
    ends(4, "refused 35 WaveTruncated 47", "process = _ * 2 + 1;", RUN, THREE[:47], THREE[:44]),
    ends(4, "refused 35 WaveTruncated 47", "process = _ * 2 + 1;", RUN + " --block 1", THREE[:47], THREE[:44] + b"\3\0"),
]

# ---- AU

AU_THREE = au(b"\0\1\xff\xfe\0\3")
# The same where the size is not stated.
AU_OPEN = au(b"\0\1\xff\xfe\0\3", size=2**32 - 1)

AU_PLAYED = [
    ends(0, "done 3 frames", WIRE, TO_AU, AU_THREE, AU_THREE),
    ends(0, "done 3 frames", WIRE, TO_WAVE, AU_THREE, THREE),
    ends(0, "done 3 frames", WIRE, TO_AU, THREE, AU_THREE),
    ends(0, "done 3 frames", WIRE, TO_AU, AU_OPEN, AU_THREE),
    # Three of 8 bits, 0, 127 and -128, and as they are one louder.
    ends(0, "done 3 frames", "process = _ + 1;", TO_AU, au(b"\0\x7f\x80", code=2), au(b"\1\x7f\x81", code=2)),
    ends(0, "done 3 frames", WIRE, TO_WAVE, THREE, THREE),
    # Where the size is not stated, a file may end within a sample.
    ends(0, "done 2 frames", WIRE, TO_AU, AU_OPEN[:29], au(b"\0\1\xff\xfe")),
]

AU_REFUSED = [
    # an offset of 23, mu-law, no channels, an offset after the end
    ends(4, "refused 44 AuFormat 4", WIRE, TO_AU, au(AU_THREE[24:], offset=23)),
    ends(4, "refused 44 AuFormat 4", WIRE, TO_AU, b".snd\0\0\0\x17"),
    ends(4, "refused 44 AuFormat 12", WIRE, TO_AU, au(AU_THREE[24:], code=1)),
    ends(4, "refused 44 AuFormat 20", WIRE, TO_AU, au(AU_THREE[24:], channels=0)),
    ends(4, "refused 45 AuTruncated 30", WIRE, TO_AU, au(AU_THREE[24:], offset=31)),
    ends(4, "refused 34 NotWave 0", WIRE, RUN, AU_THREE),
    # Where the size is stated, a file may not end within a sample, nor within its head.
    ends(4, "refused 45 AuTruncated 29", WIRE, TO_AU, AU_THREE[:29], AU_THREE[:24]),
    ends(4, "refused 45 AuTruncated 15", WIRE, TO_AU, AU_THREE[:15]),
]

# ---- scripts, and what texts and files have room for

SCRIPTS = [
    ends(0, "done 3 frames", WIRE, RUN + " --controls nothing.txt", output=THREE),
    ends(4, "refused 30 ControlLine 1", WIRE, RUN + " --controls form.txt"),
    ends(4, "refused 31 ControlUnknown 2", WIRE, RUN + " --controls label.txt"),
    ends(4, "refused 30 ControlLine 1", WIRE, RUN + " --controls value.txt"),
]

CONTROLLED = 'process = _ * hslider("my gain",1,0,10,1);'
CHUNKS = THREE[12:]
MOST = 1_048_576

LIMITS = [
    # open brackets
    ends(0, "done 3 frames", "process = " + "(" * 128 + "_" + ")" * 128 + ";", output=THREE),
    ends(3, "refused 43 Nesting 1 139", "process = " + "(" * 129),
    # bytes of a program, and of a script
    ends(0, "done 3 frames", WIRE + " " * (MOST - len(WIRE)), output=THREE),
    ends(3, "refused 4 TextTooLong program", WIRE + " " * (MOST + 1 - len(WIRE))),
    ends(3, "refused 4 TextTooLong program", WIRE + " " * (MOST + 1 - len(WIRE)), RACK),
    ends(0, "done 3 frames", CONTROLLED, SCRIPTED, output=THREE, c_txt=b"#" * MOST),
    ends(4, "refused 4 TextTooLong controls", CONTROLLED, SCRIPTED, c_txt=b"#" * (MOST + 1)),
    ends(4, "refused 30 ControlLine 1", CONTROLLED, SCRIPTED, c_txt=b"1" * MOST),
    # chunks
    ends(0, "done 3 frames", WIRE, RUN, THREE[:12] + b"JUNK\0\0\0\0" * 4095 + CHUNKS, THREE),
    ends(4, "refused 37 WaveChunks 32780", WIRE, RUN, THREE[:12] + b"JUNK\0\0\0\0" * 4097 + CHUNKS),
]

ROWS = PLAYED + REFUSED + CUT + AU_PLAYED + AU_REFUSED + SCRIPTS + LIMITS
