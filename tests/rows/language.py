"""Programs of every form of the language."""
from rows import CHECK, GAIN, RUN, WIRE, checks, ends, plays, wave

ONE_CHANNEL = [
    plays(WIRE, [1, -2, 3], [1, -2, 3]),
    plays("process = _ * 2 + 1;", [1, -2, 3], [3, -3, 7]),
    plays("process = _ : mem;", [5, 7, 4], [0, 5, 7]),
    # 10000000000 wraps to 1410065408 and 30000000000 to -64771072, and both are clamped
    plays("process = _ * 100000 * 100000;", [1, -1, 3], [32767, -32768, -32768]),
    # 1 - (x - 3) a sample later, then doubled
    plays("process = 1 - _ : _ + 3 : mem\n : _ * 2;", [1, 2, 9], [0, 6, 4]),
    # the same, by operators as primitives
    plays("/* by parts */ process = (1, _ : -) : (_, 3 : +) : mem : (_, 2 : *);", [1, 2, 9], [0, 6, 4]),
    plays("process = -3, _ : + ; // less three", [1, -2, 3], [-2, -5, 0]),
    plays("process = + ~ _;", [1, 2, 3, 4], [1, 3, 6, 10]),
    plays("process = _ <: _, mem : -;", [5, 7, 4], [5, 2, -3]),
    plays("process = @(3);", [1, 2, 3, 4, 5], [0, 0, 0, 1, 2], RUN + " --block 2 --vector 2"),
    plays("process = -(1);", [0], [-1]),
    plays("process = _ / 0;", [9], [0]),
    plays("process = _';", [1, 2, 3], [0, 1, 2]),
    plays("process = 7,_ : prefix;", [4, 5, 6], [7, 4, 5]),
    plays("process = select3(_,10,20,30);", [0, 1, 2, -5], [10, 20, 30, 30]),
    plays("g(k,x) = x*k; process = seq(i,3,g(i+n)) with { n = 2; };", [1, -2], [24, -48]),
    plays("v(i) = + ~ (@(i*37+1) : *(i+3) : /(8)); process = _ <: par(i,1,v(i)) :> _;", [16838, -27010, 10113], [16838, -27010, 16427]),
    plays("process = _ : \\(x).(x * x);", [3, -4], [9, 16]),
    plays("process = @(1048575);", [1, -2, 3], [0, 0, 0]),
]

CONTROLS = [
    # a control changes at a frame, and keeps its value
    plays(GAIN, [5, 5, 5, 5, 5], [5, 5, 15, 0, 0], RUN + " --block 4 --controls c.txt"),
    plays(GAIN, [1, -2, 3], [0, -20, 30], RUN + " --controls low.txt"),
    plays('declare name "t"; /* c */ process = hgroup("m", _ * button("on")); // end', [9, 9, 9], [0, 9, 9], RUN + " --controls=on.txt"),
    # a label may have a blank
    plays('process = _ * hslider("my gain",1,0,10,1);', [5], [15], RUN + " --controls=blank.txt"),
    # without a script a control keeps its first value
    plays('process = _ * hslider("g",4,0,10,1);', [5, 6], [20, 24]),
]

CHANNELS = [
    plays("process = _,_ <: _,_,_,_ :> _,_;", [1, 2], [2, 4], channels=(2, 2)),
    plays("process = _, (_ & 7) : @;", [1, 0, 2, 1, 3, 9, 4, 1], [1, 1, 2, 3], channels=(2, 1)),
    plays("process = (+,+) ~ (_,_);", [1, 1, 1, 1, 1, 1], [0, 2, 2, 2, 4, 2], channels=(2, 2)),
    plays("process = _ + 1, _ * 2;", [1, 1, 5, -3], [2, 2, 6, -6], channels=(2, 2)),
    # outputs keep their order
    plays("process = _ <: _ + 1, _ + 2, _ + 3;", [0, 10], [1, 2, 3, 11, 12, 13], channels=(1, 3)),
    # without an input
    plays("f = case { (0) => 1; (n) => n*f(n-1); }; process = f(5);", [], [120, 120], "run p.dsp - out.wav --frames=2"),
    plays("process = 2147483647 + 1;", [], [-32768], "run p.dsp - out.wav --frames=1"),
    plays("process = (+ ~ _) ~ (+(1));", [], [1, 3, 7, 15], "run p.dsp - out.wav --frames=4"),
    plays("count((x,xs)) = 1 + count(xs); count(x) = 1; process = count((4,5,6));", [], [3], "run p.dsp - out.wav --frames=1"),
    plays("process = -8 >> 33;", [], [-4], "run p.dsp - out.wav --frames=1"),
    plays("process = 5;", [], [], "run p.dsp - out.wav --frames=0"),
    plays("process = 1 : + ~ _;", [], [1, 2, 3], "run p.dsp - out.wav --frames=3"),
    plays("process = par(i,16,0 : @(1048575));", [], [], "run p.dsp - out.wav --frames=0", channels=(1, 16)),
]

# The least number divided by -1, what is left of it, and its distance from 0.
WIDEST = [
    ends(0, "done 1 frames", "process = -2147483647 - 1 : _ <: /(-1), %(-1), abs;", "run --frames 1 p.dsp - out.wav --bits 32",
         output=wave([-2147483648, 0, -2147483648], channels=3, bits=32)),
]

REFUSED = [
    ends(3, "refused 5 BadByte 1 11", "process = #;"),
    ends(3, "refused 6 Unclosed 1 1", "/* ab"),
    ends(3, "refused 7 RealLiteral 1 15", "process = _ * 0.5;"),
    ends(3, "refused 8 LiteralTooLarge 1 11", "process = 2147483648;"),
    ends(3, "refused 9 Syntax 1 14", "process = 1 +;"),
    ends(3, "refused 9 Syntax 1 16", "process = (1 , );"),
    ends(3, "refused 9 Syntax 1 12", "process = _"),
    ends(3, "refused 9 Syntax 1 5", "f(x = 1;"),
    ends(3, "refused 9 Syntax 1 1", "par = 1;"),
    ends(3, "refused 10 Unsupported import", 'import("stdfaust.lib");'),
    ends(3, "refused 11 Redefined a", "a = 1; a = 2; process = a;"),
    ends(3, "refused 12 RepeatedName x", "f(x,x) = x; process = f;"),
    ends(3, "refused 13 RuleWidths 1 11", "f(0) = 1; f(x,y) = 2; process = f(0);"),
    ends(3, "refused 14 NoProcess", ""),
    ends(3, "refused 14 NoProcess", "\n// no program\nother = _;"),
    ends(3, "refused 16 Arity split 2 3", "process = _,_ <: _,_,_;"),
    ends(3, "refused 23 EvalBudget", "f(n) = f(n+1); process = f(0);"),
    ends(3, "refused 26 DelayNegative -2147483648", "process = _,_ : @;"),
    ends(3, "refused 29 Channels 0 1", "process = !;"),
    ends(3, "refused 16 Arity merge 0 1", "process = ! :> _;"),
    ends(3, "refused 15 SizeBudget 16385", "process = par(i,16385,_);"),
    ends(3, "refused 16 Arity recout 1 2", "process = _ ~ (_,_);"),
    ends(3, "refused 16 Arity recin 0 1", "process = 1 ~ _;"),
    ends(3, "refused 17 UnknownName x", "process = x;"),
    ends(3, "refused 18 NotANumber 1 17", "process = par(i,_,_);"),
    ends(3, "refused 19 IterationCount 0", "process = par(i,0,_);"),
    ends(3, "refused 20 NoRule 1 21", "f(0) = 1; process = f(1);"),
    ends(3, "refused 21 NotADiagram 1 11", "process = case { (0) => 1; };"),
    ends(3, "refused 22 TooManyArguments 3 2", "process = (_,_ : +)(1,2,3);"),
    ends(3, "refused 24 ControlClash g", 'process = hslider("g",0,0,1,1) + hslider("g",0,0,2,1);'),
    ends(3, "refused 25 ControlBounds g", 'process = hslider("g",11,0,10,1);'),
    ends(3, "refused 27 DelayTooLong 1048576", "process = @(1048576);"),
    ends(3, "refused 28 DelayBudget 17825775", "process = par(i,17,@(1048575));"),
    ends(3, "refused 16 Arity seq 1 2", "process = _ << 31 : @;"),
    ends(3, "refused 29 Channels 257 256", "process = par(i,257,_);"),
    ends(3, "refused 29 Channels 257 256", "process = par(i,257,_) :> _;"),
    ends(3, "refused 23 EvalBudget", "a = a; process = a;"),
    ends(3, "refused 23 EvalBudget", "process = par(i,2147483647,_);"),
]

LIMITS = [
    ends(4, "refused 38 OutputTooLong 4294967294", "process = 1;", "run p.dsp - out.wav --frames=2147483647"),
    ends(2, "refused 39 FramesNeeded", "process = 1;", "run p.dsp - out.wav"),
    ends(4, "refused 32 ControlRange 1", GAIN, RUN + " --controls high.txt"),
    ends(4, "refused 33 ControlOrder 2", GAIN, RUN + " --controls back.txt"),
    ends(2, "refused 1 Usage vectors", WIRE, RUN + " --vector 1 --block 4096"),
]

CHECKED = [
    checks(2, 2, 0, 39, 22050, "echo(d,g) = + ~ (@(d-1) : *(g) : /(256)); process = par(i,2,echo(11025,128));"),
    checks(1, 1, 0, 3, 1, "process = + ~ _;"),
    checks(1, 1, 1, 5, 0, GAIN),
    ends(3, "refused 17 UnknownName x", "process = x;", CHECK),
    checks(1, 1, 0, 3, 0, "process = rdtable(4, (+(1) ~ _), _);"),
    ends(3, "refused 41 TableForm primitive", "process = rdtable;", CHECK),
    ends(3, "refused 41 TableForm head", "process = rdtable(_,1,_);", CHECK),
    ends(3, "refused 41 TableForm size", "process = rdtable(0,1,_);", CHECK),
    ends(3, "refused 42 TableBudget 50331648", "process = rdtable(16777216,1,_);", CHECK),
    checks(1, 1, 0, 3, 0, "process = rdtable(5592405,1,_);"),
    checks(1, 1, 0, 3, 0, "process = waveform{10,-20,30}, _ : rdtable;"),
    checks(1, 1, 0, 9, 3, "process = _ @ (waveform{1,2,3} : !,_);"),
    ends(3, "refused 26 DelayNegative -2", "process = _ @ (waveform{1,-2} : !,_);", CHECK),
    checks(2, 1, 0, 7, 7, "process = _ @ rdtable(3,7,_);"),
    ends(3, "refused 26 DelayNegative -2147483648", "process = _ @ rwtable(3,7,_,min(9),_);", CHECK),
    checks(4, 1, 0, 21, 9, "process = _ @ rwtable(3,7,_,(min(9) : max(0)),_);"),
]

ROWS = ONE_CHANNEL + CONTROLS + CHANNELS + WIDEST + REFUSED + LIMITS + CHECKED
