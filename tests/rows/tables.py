"""Programs with waveforms and tables."""
from rows import CHECK, RACK, RUN, THREE, WIRE, au, checks, ends, plays

CHECKED = [
    checks(1, 1, 0, 3, 0, "process = waveform{10,-20,30}, _ : rdtable;"),
    checks(0, 2, 0, 1, 0, "process = waveform{1,2};"),
    # A text that is no program is refused for that, and so are its channels and its delays.
    ends(3, "refused 17 UnknownName x", "process = rdtable(4,1,_), x;"),
    ends(3, "refused 29 Channels 0 1", "process = rdtable(4,1,_) : !;"),
    ends(3, "refused 27 DelayTooLong 1048576", "process = rdtable(4,1,_ @ 1048576);"),
    ends(3, "refused 29 Channels 1 3", "process = rwtable(2,7,_,_,_);"),
    # A rack has the tables of its jobs.
    ends(3, "refused 46 Job 1 17", "process = rdtable(4,1,_);\n%%\nprocess = x;", RACK),
    ends(3, "refused 46 Job 1 41", "process = _;\n%%\nprocess = rdtable(0,1,_);", RACK),
    ends(3, "refused 46 Job 0 42", "process = rdtable(16777216,1,_);\n%%\nprocess = _;", RACK),
    ends(3, "refused 29 Channels 257 256", "process = waveform{1,2};\n%%\nprocess = par(i,255,0);", RACK),
]

# programs, and what comes of 1, -2 and 3
SOUNDS = [
    # The number at the sample, clamped to the list.
    ("process = waveform{10,-20,30}, _ : rdtable;", [-20, 10, 30]),
    # Two numbers in turn.
    ("process = !,(waveform{4,-5} : !,_);", [4, -5, 4]),
    # The running sum of a head, from its first number: 1, 2, 3 and 4.
    ("process = rdtable(4,(+(1) ~ _),_);", [2, 1, 4]),
    # A table that is read where it was just written.
    ("process = \\(x).(rwtable(2,0,0,x,0));", [1, -2, 3]),
    # One that is read where nothing is written.
    ("process = rwtable(2,7,1,_,0);", [7, 7, 7]),
    # One that is read a frame later, at the index of then.
    ("process = \\(x).(rwtable(3,5,x,x,x'));", [5, 1, -2]),
    # One in a loop, which keeps the sum of all.
    ("process = + ~ rwtable(2,3,0,_,0);", [1, -1, 2]),
    # Two of one list, each of which has items of its own: 7 and x.
    ("process = \\(x).(rwtable(2,7,0,x,1) * 0 + rwtable(2,7,1,x,1));", [1, -2, 3]),
]

PLAYED = [plays(text, [1, -2, 3], said, RUN + more) for text, said in SOUNDS for more in ("", " --block=1", " --workers=2")] + [
    # Two jobs, of which the second has a waveform.
    plays("process = _;\n%%\nprocess = waveform{1,2} : !,_;", [1, -2, 3], [1, 1, -2, 2, 3, 1], RACK, channels=(1, 2)),
    # A waveform needs no input.
    plays("process = waveform{5,6};", [], [2, 5, 2, 6, 2, 5], "run p.dsp - out.wav --frames 3", channels=(1, 2)),
    # Two loops that read nothing of one another, each with a table of its own.
    plays("process = (+ ~ rwtable(2,3,0,_,0)), rwtable(2,7,0,_,0);", [1, 4, -2, 5, 3, 6], [1, 4, -1, 5, 2, 6], RUN + " --workers 2", channels=(2, 2)),
    # Three samples of 16 bits, each of them 1, in an AU file.
    ends(0, "done 3 frames", "process = rdtable(4,1,_);", "au p.dsp in.wav out.au", THREE, au(b"\0\1\0\1\0\1")),
]

# programs, the samples that they hear and give, and the channels of both
SOUNDING = [
    ("process = rdtable(4, (+(1) ~ _), _);", [0, 3, 9, -5], [1, 4, 4, 1], (1, 1)),
    ("process = waveform{10,-20,30}, _ : rdtable;", [0, 1, 2, 3, -1], [10, -20, 30, 30, 10], (1, 1)),
    ("process = !, waveform{5,6};", [0, 0, 0], [2, 5, 2, 6, 2, 5], (1, 2)),
    ("process = rwtable(2,7,_,_,_);", [0, 1, 0, 1, 5, 0, 0, 9, 1], [1, 1, 5], (3, 1)),
    ("process = + ~ rwtable(2,3,1,_,0);", [1, 2], [4, 5], (1, 1)),
]

SIZES = [f" --block={block} --vector={vector} --workers={workers}" for workers in (1, 2) for block, vector in ((1, 1), (512, 32))]

BY_EACH_SIZE = [plays(text, heard, said, RUN + sizes, channels) for text, heard, said, channels in SOUNDING for sizes in SIZES]

ROWS = CHECKED + PLAYED + BY_EACH_SIZE
