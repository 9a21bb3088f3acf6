"""Files of jobs, by the command `rack`."""
from rows import GAIN, RACK, WIRE, ends, plays

SEPARATOR = "\n%%\n"
TWO, TWELVE = (SEPARATOR.join([GAIN] * count) for count in (2, 12))

SIDE_BY_SIDE = [
    # One job is its program.
    plays(WIRE, [1, -2, 3], [1, -2, 3], RACK),
    plays("process = _ + 1;\n%%\nprocess = _ * 2;\n", [1, 1, 5, -3], [2, 2, 6, -6], RACK + " --workers 1", channels=(2, 2)),
    # A label begins with the number of its job.
    plays(TWO, [5, 5, 5, 5], [5, 5, 5, 15], RACK + " --controls=second.txt --workers 1", channels=(2, 2)),
    plays(TWELVE, [5] * 24, [5] * 13 + [10] + [5] * 9 + [15], RACK + " --controls=twelfth.txt --workers 2", channels=(12, 12)),
]

REFUSED = [
    # The first text that is none, and the number of its refusal.
    ends(3, "refused 46 Job 1 16", "process = _;\n%%\nprocess = _,_ <: _,_,_;", RACK),
    ends(3, "refused 46 Job 1 29", "process = _;\n%%\nprocess = !;\n%%\n;", RACK),
    ends(3, "refused 46 Job 0 14", "", RACK),
    ends(3, "refused 46 Job 0 14", "%%", RACK),
    # Sixteen jobs are read, and seventeen are not.
    ends(3, "refused 46 Job 0 14", "%%\n" * 15, RACK),
    ends(3, "refused 47 RackSize 17", "%%\n" * 16, RACK),
    # All delays together, and then all channels.
    ends(3, "refused 28 DelayBudget 16777217", "process = par(i,16,0 : @(1048575));\n%%\nprocess = 0 : @(17);", RACK),
    ends(3, "refused 28 DelayBudget 16781297", "process = par(i,16,0 : @(1048575));\n%%\nprocess = par(i,241,0 : @(17));", RACK),
    ends(3, "refused 29 Channels 257 256", "process = par(i,256,0);\n%%\nprocess = 0;", RACK),
    ends(3, "refused 29 Channels 257 256", "process = par(i,256,_) :> _;\n%%\nprocess = _;", RACK),
    # The input has the channels of all.
    ends(3, "refused 29 Channels 1 2", "process = _;\n%%\nprocess = _;", RACK),
    # A label alone is no job's.
    ends(4, "refused 31 ControlUnknown 1", GAIN, RACK + " --controls=low.txt"),
    ends(3, "refused 9 Syntax 2 1", "process = _;\n%%\nprocess = _;"),
    ends(2, "refused 1 Usage same", WIRE, "rack p.dsp in.wav p.dsp"),
    ends(2, "refused 1 Usage form", WIRE, "rack p.dsp in.wav"),
]

ROWS = SIDE_BY_SIDE + REFUSED
