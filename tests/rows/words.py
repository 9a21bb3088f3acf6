"""Words that are refused, files that are not there, and programs that are made."""
from rows import RUN, WIRE, ends

REFUSED = [
    ends(2, "refused 1 Usage same", WIRE, "run p.dsp in.wav in.wav"),
    ends(2, "refused 1 Usage form", WIRE, "run p.dsp in.wav"),
    ends(2, "refused 1 Usage form", WIRE, "play p.dsp in.wav out.wav"),
    ends(2, "refused 1 Usage number", WIRE, RUN + " --block x"),
    ends(2, "refused 1 Usage range", WIRE, RUN + " --block 0"),
    ends(2, "refused 1 Usage range", WIRE, RUN + " --workers=17"),
    ends(2, "refused 1 Usage vectors", WIRE, RUN + " --vector 1 --block 4096"),
    ends(2, "refused 1 Usage together", WIRE, RUN + " --frames 3"),
    ends(1, "refused 2 ReadFault program", WIRE, "run none.dsp in.wav out.wav"),
    ends(1, "refused 2 ReadFault input", WIRE, "run p.dsp none.wav out.wav"),
    ends(1, "refused 2 ReadFault controls", WIRE, RUN + " --controls none.txt"),
    ends(1, "refused 2 ReadFault controls", WIRE, "run p.dsp none.wav out.wav --controls=none.txt"),
    ends(3, "refused 29 Channels 0 1", WIRE, "run p.dsp - out.wav --frames=3"),
    # The text is refused first.
    ends(3, "refused 9 Syntax 2 14", "process = _;\nprocess = 1 +;", "run p.dsp none.wav out.wav"),
]

def made(status, line, words):
    """A run of `make` with these words."""
    return ends(status, line, WIRE, "make " + words)


MADE = [
    made(0, "made 1 voices, 3 frames, sum 6255", "1 3 1"),
    made(0, "made 2 voices, 3 frames, sum -75091", "02 3 1"),
    made(0, "made 64 voices, 100 frames, sum 24371252", "64 100 1"),
    made(0, "made 16 voices, 2048 frames, sum 46990944", "16 2048 1"),
    # and once more
    made(0, "made 16 voices, 2048 frames, sum 46990944", "16 2048 1"),
    # one sum, whoever plays
    made(0, "made 16 voices, 32768 frames, sum 1263330751", "16 32768 1"),
    made(0, "made 16 voices, 32768 frames, sum 1263330751", "16 32768 2"),
    made(0, "made 16 voices, 32768 frames, sum 1263330751", "16 32768 16"),
]

NOT_MADE = [
    made(2, "refused 1 Usage form", "1 3"),
    made(2, "refused 1 Usage form", "1 3 1 1"),
    made(2, "refused 1 Usage form", "1 3 --block=1"),
    made(2, "refused 1 Usage number", "1 x 1"),
    made(2, "refused 1 Usage number", "0 x 1"),
    made(2, "refused 1 Usage number", "1 3 12345678901"),
    made(2, "refused 1 Usage range", "0 3 1"),
    made(2, "refused 1 Usage range", "65 3 1"),
    made(2, "refused 1 Usage range", "1 0 1"),
    made(2, "refused 1 Usage range", "1 262145 1"),
    made(2, "refused 1 Usage range", "1 3 0"),
    made(2, "refused 1 Usage range", "1 3 17"),
]

ROWS = REFUSED + MADE + NOT_MADE
