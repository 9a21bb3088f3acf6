"""What people meet: the rows of the README's table, and some more of its kind."""
from rows import CHECK, RACK, RUN, THREE, WIRE, checks, ends, plays, wave

LINE = "process = _ * 2 + 1;"
FADED = 'process = _ * hslider("gain", 0, 0, 256, 1);'
STEREO = wave([1, -2, 3, 0], 2)


def script(line, text):
    """A script that is refused, for a control `gain` from 0 to 256."""
    return ends(4, line, FADED, RUN + " --controls c.txt", c_txt=text)


WORDS = [
    ends(2, "refused 1 Usage form", LINE, "run p.dsp in.wav"),
    ends(2, "refused 1 Usage form", LINE, ""),
    # a name that is no text
    ends(2, "refused 1 Usage form", LINE, "run p.dsp in.wav \udcff.wav"),
    ends(2, "refused 1 Usage range", LINE, RUN + " --bits 17"),
    ends(2, "refused 1 Usage range", LINE, RUN + " --bits 12"),
    ends(2, "refused 1 Usage range", LINE, RUN + " --workers 17"),
    ends(2, "refused 1 Usage range", LINE, RUN + " --block 0"),
    ends(2, "refused 1 Usage together", LINE, RUN + " --frames 100"),
    ends(2, "refused 1 Usage same", LINE, "run p.dsp in.wav in.wav"),
    ends(1, "refused 2 ReadFault program", LINE, "run none.dsp in.wav out.wav"),
    ends(1, "refused 2 ReadFault program", LINE, "run . in.wav out.wav"),
    ends(1, "refused 2 ReadFault input", LINE, "run p.dsp none.wav out.wav"),
    ends(1, "refused 2 ReadFault input", LINE, "run p.dsp . out.wav"),
    ends(1, "refused 2 ReadFault controls", LINE, RUN + " --controls none.txt"),
    ends(1, "refused 3 WriteFault output", LINE, "run p.dsp in.wav none/out.wav"),
    ends(1, "refused 3 WriteFault output", LINE, "run p.dsp in.wav ."),
    ends(2, "refused 39 FramesNeeded", "process = 7;", "run p.dsp - out.wav"),
    ends(3, "refused 29 Channels 0 1", LINE, "run p.dsp - out.wav"),
]

PROGRAMS = [
    plays(LINE, [1, -2, 3], [3, -3, 7]),
    plays("process = (_ * 2) + 1; // the same", [1, -2, 3], [3, -3, 7]),
    ends(3, "refused 7 RealLiteral 1 15", "process = _ * 0.5;"),
    ends(3, "refused 9 Syntax 1 13", "process = os.osc(440);"),
    ends(3, "refused 9 Syntax 1 13", "process = ma.SR;"),
    ends(3, "refused 9 Syntax 1 12", "process = _"),
    ends(3, "refused 9 Syntax 2 14", "process = _;\nprocess = 1 +;\n"),
    ends(3, "refused 9 Syntax 2 14", "process = _;\nprocess = 1 +;\n", CHECK),
    # the text is refused first
    ends(3, "refused 9 Syntax 2 14", "process = _;\nprocess = 1 +;\n", "run p.dsp none.wav out.wav"),
    ends(3, "refused 10 Unsupported import", 'import("stdfaust.lib");\nprocess = _;\n'),
    ends(3, "refused 10 Unsupported sin", "process = sin(1);"),
    ends(3, "refused 10 Unsupported ^", "process = _ ^ 2;"),
    ends(3, "refused 14 NoProcess", "proces = _;"),
    ends(3, "refused 16 Arity seq 1 2", "process = _ : _,_;"),
    ends(3, "refused 16 Arity split 2 3", "process = _,_ <: _,_,_;\n"),
    ends(3, "refused 17 UnknownName x", "process = x;"),
    ends(3, "refused 20 NoRule 1 35", "f = case { (0) => 1; }; process = f(1);"),
    ends(3, "refused 23 EvalBudget", "f(n) = f(n+1); process = f(0);"),
    ends(3, "refused 26 DelayNegative -2147483648", "process = _ @ _;"),
    ends(3, "refused 29 Channels 1 0", "process = 7;"),
    ends(3, "refused 29 Channels 2 1", LINE, RUN, STEREO),
    ends(3, "refused 41 TableForm head", "process = rdtable(_,1,_);"),
    ends(3, "refused 41 TableForm size", "process = rdtable(0,1,_);"),
    ends(3, "refused 41 TableForm primitive", "process = rdtable;"),
    ends(3, "refused 42 TableBudget 50331648", "process = rdtable(16777216,1,_);"),
    ends(3, "refused 46 Job 1 16", "process = _;\n%%\nprocess = _ : _,_;\n", RACK, STEREO),
    checks(2, 2, 0, 39, 22050, "echo(d,g) = + ~ (@(d-1) : *(g) : /(256));\nprocess = par(i,2,echo(11025,128));\n"),
    checks(1, 1, 0, 3, 1, "process = + ~ _;\n"),
    checks(1, 1, 0, 3, 0, "process = rdtable(4, (+(1) ~ _), _);\n"),
    # What is made again in an evaluation costs little: wires that fill up an application, a label, the number of a diagram.
    checks(0, 1, 0, 8797, 0, "process = \\(d).(sum(i,2200,outputs(d(1))))(par(j,4000,_));"),
    ends(3, "refused 23 EvalBudget", "f(n,d) = f(n+outputs(d(1)),d); process = f(0,par(i,4000,_));", CHECK),
    ends(3, "refused 23 EvalBudget", 'f(n) = f(n+outputs(button("' + "a" * 30_000 + '"))); process = f(0);', CHECK),
    ends(3, "refused 23 EvalBudget", "f(0,d) = 1; f(n,d) = f((n:d),d); process = f(1,(seq(i,7000,abs)));", CHECK),
    # However many parameters an abstraction has, to bind them costs little.
    ends(3, "refused 23 EvalBudget", "f(x,y,z) = f; process = f;", CHECK),
    ends(3, "refused 23 EvalBudget", "mix(a,b,c,d,e,f,g) = mix(a); process = mix;", CHECK),
]

CONTROLS = [
    script("refused 30 ControlLine 1", b"0 gain 0.5\n"),
    script("refused 30 ControlLine 1", b"0\tgain 5\n"),
    script("refused 30 ControlLine 1", b" 0 gain 5\n"),
    script("refused 30 ControlLine 1", b"0 gain 5 # loud\n"),
    script("refused 31 ControlUnknown 1", b"0 gian 5\n"),
    script("refused 31 ControlUnknown 1", b"0 Gain 5\n"),
    script("refused 31 ControlUnknown 1", b'0 "gain" 5\n'),
    script("refused 31 ControlUnknown 1", b"0  gain 5\n"),
    script("refused 31 ControlUnknown 2", b"\n0 volume 1\n"),
    script("refused 32 ControlRange 1", b"0 gain 300\n"),
    script("refused 33 ControlOrder 2", b"2 gain 5\n1 gain 6\n"),
]

ROWS = WORDS + PROGRAMS + CONTROLS
