"""Each limit, by what just meets it and by what is one over."""
from rows import GAIN, RACK, RUN, WIRE, ends, plays, wave

# the most bytes that a text may have
LONGEST = 1_048_576


def long(text, end):
    """The text, and after it as many blanks as make it so long."""
    return text + " " * (end - len(text))


def jobs(count):
    return "\n%%\n".join(["process = 1;"] * count)


WORDS = [
    plays(WIRE, [1, -2, 3], [1, -2, 3], RUN + " --block 4096"),
    ends(2, "refused 1 Usage range", WIRE, RUN + " --block 4097"),
    plays(WIRE, [1, -2, 3], [1, -2, 3], RUN + " --block 64 --vector 1"),
    ends(2, "refused 1 Usage vectors", WIRE, RUN + " --block 65 --vector 1"),
    plays(WIRE, [1, -2, 3], [1, -2, 3], RUN + " --workers 16"),
    ends(2, "refused 1 Usage range", WIRE, RUN + " --workers 17"),
    ends(0, "made 64 voices, 1 frames, sum 1860800", WIRE, "make 64 1 1"),
    ends(2, "refused 1 Usage range", WIRE, "make 65 1 1"),
    ends(0, "made 1 voices, 262144 frames, sum 34288532", WIRE, "make 1 262144 1"),
    ends(2, "refused 1 Usage range", WIRE, "make 1 262145 1"),
]

TEXTS = [
    plays(long(WIRE, LONGEST), [1, -2, 3], [1, -2, 3]),
    ends(3, "refused 4 TextTooLong program", long(WIRE, LONGEST + 1)),
    ends(0, "done 3 frames", GAIN, RUN + " --controls longest.txt", output=wave([1, -2, 3]), longest_txt=long("# nothing", LONGEST).encode()),
    ends(4, "refused 4 TextTooLong controls", GAIN, RUN + " --controls longer.txt", longer_txt=long("# nothing", LONGEST + 1).encode()),
    ends(0, "done 1 frames", long(jobs(1), LONGEST), "rack p.dsp - out.wav --frames 1", output=wave([1])),
    ends(3, "refused 4 TextTooLong program", long(jobs(1), LONGEST + 1), RACK),
]

PROGRAMS = [
    # A wire after a wire is three nodes, and an abstraction that is its parameter two.
    plays("process = seq(i, 8191, _) : \\(x).(x);", [1, -2, 3], [1, -2, 3]),
    ends(3, "refused 15 SizeBudget 16385", "process = seq(i, 8193, _);"),
    plays("process = @(1048575);", [1, -2, 3], [0, 0, 0]),
    ends(3, "refused 27 DelayTooLong 1048576", "process = @(1048576);"),
    plays("process = par(i, 256, _);", range(256), range(256), channels=(256, 256)),
    ends(3, "refused 29 Channels 257 256", "process = par(i, 257, _);"),
    plays(jobs(16), [], [1] * 16, "rack p.dsp - out.wav --frames 1", channels=(1, 16)),
    ends(3, "refused 47 RackSize 17", jobs(17), "rack p.dsp - out.wav --frames 1"),
]

ROWS = WORDS + TEXTS + PROGRAMS
