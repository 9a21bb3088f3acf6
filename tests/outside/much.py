#!/usr/bin/env python3
"""Outside the gate: what asks for much within the limits, given to the built program: the worst texts of 1 MiB, the largest delays,
scripts of 1 MiB, heads that state much and have little. Prints a table of the processor's time and the memory of each; what takes
more than 10 seconds or 1.5 GB is told, and ends it with status 1.

    tests/outside/much.py [--program FILE] [--only WORD] [--first N] [--seconds N]"""
import argparse
import os
import resource
import string
import struct
import subprocess
import sys
import tempfile

sys.dont_write_bytecode = True
sys.path.insert(0, os.path.join(os.path.dirname(os.path.abspath(__file__)), ".."))
from part import PROGRAM, need_program

MOST = 1_048_576
MOST_SECONDS, MOST_KIB = 10, 1_500_000
CONTROL = 'hslider("%d",0,0,1,1)'


def filled(before, piece, after, between=""):
    """The longest text of at most 1 MiB: pieces, numbered where they have a %d, between two ends."""
    pieces, left, number = [], MOST - len(before) - len(after), 0
    while True:
        text = (between if number else "") + (piece % number if "%d" in piece else piece)
        if len(text) > left:
            return before + "".join(pieces) + after
        pieces.append(text)
        left -= len(text)
        number += 1


def wave(channels, bits, size, data=b"", before=b""):
    form = struct.pack("<IHHIIHH", 16, 1, channels, 44100, 44100 * channels * bits // 8 % 2**32, channels * bits // 8, bits)
    return b"RIFF" + struct.pack("<I", 2**32 - 1) + b"WAVE" + before + b"fmt " + form + b"data" + struct.pack("<I", size) + data


XS = ",".join(f"x{i}" for i in range(8000))
BOTH_SIDES = "f((" + "".join(f"a{i},(" for i in range(126)) + "%d" + "".join(f"),b{i}" for i in range(126)) + "))=1;"
NAMES = [a + b for a in string.ascii_uppercase for b in string.ascii_letters][:1300]
# A call of `g` opens lists anew. What stands behind `z` makes the lists' numbers have lowest bits in common.
BEHIND_LISTS = ("process = f(1) with{f(n)=g(1),f(n+1);g(n)=(" + ",".join(NAMES[:1000]) + ")%s;z=_';}"
    + "".join("with{" + "=1;".join(NAMES[:1000]) + "=1;" + "".join(f"b{j}=1;" for j in range(i % 5)) + "}" for i in range(64)) + ";")
ENDLESS = "f(n) = f(n+1); process = f(2000000);"
# what asks for much, the program's text, and, where there are some, its input, its script and its options
TEXTS = [
    ("blanks", " " * MOST),
    ("one comment", "/*" + " " * (MOST - 4) + "*/"),
    ("one name", "process = " + "x" * (MOST - 11) + ";"),
    ("one string", 'process = button("' + "x" * (MOST - 20) + '");'),
    ("digits", "process = " + "0" * (MOST - 12) + "1;"),
    ("a label of 1 MB, twice", 'b = button("' + "x" * 524_000 + '"); process = b + button("' + "x" * 524_000 + '");'),
    ("a chain of wires", filled("process = ", "_", ";", ",")),
    ("a chain of `:`", filled("process = ", "_", ";", ":")),
    ("a chain of `~`", filled("process = ", "_", ";", "~")),
    ("a chain of `+`", filled("process = ", "1", ";", "+")),
    ("a chain of `'`", filled("process = _", "'", ";")),
    ("a chain of applications", filled("process = _", "(_)", ";")),
    ("arguments", filled("process = _(", "1", ");", ",")),
    ("128 brackets, again and again", filled("process = ", "(" * 127 + "_" + ")" * 127, ";", ",")),
    ("128 abstractions, again and again", filled("process = ", "\\(x).(" * 60 + "x" + ")" * 60 + "(1)", ";", ",")),
    ("`with` behind `with`", filled("process = 1 ", "with{}", ";")),
    ("`with` behind `with`, a name each", filled("process = sum(i,16000,z) ", "with{a%d=1;}", " with{z=1;};")),
    ("`with` behind `with`, an outer name on and on", filled("z = 1; process = f(1) with{f(n)=f(n+z);} ", "with{a%d=1;}", ";")),
    ("definitions", filled("", "a%d=1;", "process=1;")),
    ("definitions, each by the next", filled("process=a0;", "a%d=_;", "")),
    ("definitions that name one another", "process=a0;" + "".join(f"a{i}=a{i + 1};" for i in range(70_000)) + "a70000=1;"),
    ("one name defined again and again", filled("process=1;", "a=1;", "")),
    ("rules of one name", filled("", "f(%d)=1;", "process=f(1);")),
    ("rules of one name, on and on", filled("", "f(%d)=1;", ENDLESS)),
    ("rules of one case, on and on", filled("f = case{", "(%d)=>1;", "(n)=>f(n+1);}; process=f(2000000);")),
    ("rules of two patterns, on and on", filled("", "f(n,%d)=1;", "f(n,m)=f(n+1,m); process = f(1,2000000);")),
    ("rules of a long pattern, on and on", filled("", "f((" + ",".join(f"x{i}" for i in range(4000)) + ",%d))=1;", "f(x)=f(x); process = f(par(i,4002,_));")),
    ("a long pattern, and one diagram on and on", f"f(({XS},0))=1; f(x)=f(x); process = f(par(i,8001,_));"),
    ("rules of a long pattern, and a new diagram on and on", filled("", "f((" + ",".join(f"x{i}" for i in range(4000)) + ",%d))=1;", "f((x,y))=f((x,y)); process = f(par(i,4002,_));")),
    ("rules of a long pattern, and all ends of a diagram", filled("", "f((" + ",".join(f"x{i}" for i in range(4000)) + ",%d))=1;", "f((x,y))=f(y); f(x)=f(x); process = f(par(i,8000,_));")),
    ("rules of a pattern that branches to both sides, and all parts of such a diagram", filled("z(0)=_; z(n)=_,(z(n-1),_); ", BOTH_SIDES, "f(((a,b),c))=f((a,b)); f((x,y))=f(y); f(x)=1; process = f(z(4000));")),
    ("rules of a long pattern and another one that differs", filled("", "f((" + ",".join(f"x{i}" for i in range(4000)) + "),(%d,y))=1;", "f(x,(n,y))=f(x,(n+1,y)); process = f(par(i,4000,_),(2000000,_));")),
    ("a long pattern that matches, on and on", "f((" + ",".join(["0"] * 8000) + "),n,d)=f(d,n+1,d); process = f(par(i,8000,0),0,par(i,8000,0));"),
    ("a long pattern that binds its last part, on and on", "f((" + "0," * 7999 + "x),n,d)=f(d,n+1,d); process = f(par(i,8000,0),0,par(i,8000,0));"),
    ("a long pattern, and a new diagram of old parts on and on", "f((n" + ",0" * 7999 + "),d)=f((n+1,d),d); process = f((0,par(i,7999,0)),par(i,7999,0));"),
    ("rules with a literal between rules without one", filled("", "f(x,(a,b))=1;f(%d,n)=2;", "f(x,n)=f(x+1,n); process = f(100000,1);")),
    ("rules with one literal at the first position", filled("", "f(5,%d)=1;", "f(5,n)=f(5,n+1); process = f(5,1000000);")),
    ("rules with a literal within a pattern", filled("", "f((x,%d))=1;", "f((x,n))=f((x,n+1)); process = f((1,1000000));")),
    ("rules with a pattern of two that no argument has", filled("", "f((a,%d),n)=1;", "f(x,n)=f(x,n+1); process = f((_,_),0);")),
    ("a name that many lists define, behind as many that do not", "process = f(1) with{f(n)=f(n+q);}" + "with{a=1;}" * 52_000 + "with{q=1;}" * 52_000 + ";"),
    ("1,300 names that 120 lists define, behind names that a pattern binds anew", "process = f(par(i,8000,_)) with{f(d)=g(d),f(d);g((" + XS + "))="
     + ",".join(NAMES) + ";}" + ("with{" + "=1;".join(NAMES) + "=1;}") * 120 + ";"),
    ("1,000 names that 64 lists define, behind 5,000 lists that do not, on and on", BEHIND_LISTS % ("with{}with{a=1;}" * 2_500)),
    ("1,000 names that 64 lists define, behind 50,000 lists that do not, on and on", BEHIND_LISTS % ("with{}with{a=1;}" * 25_000)),
    ("a name of many rules in one list, behind many lists", "process = f(1) with{f(n)=f(n+q(0));}" + "with{a=1;}" * 52_000 + "with{" + "".join(f"q({i})=1;" for i in range(45_000)) + "};"),
    ("rules of long patterns", filled("f((", "x%d", "))=1; process=f(1);", ",")),
    ("a definition's parameters", filled("f(", "x%d", ")=1; process=f(1);", ",")),
    ("an abstraction's parameters", filled("process = \\(", "x%d", ").(1);", ",")),
    ("an abstraction's parameters, all given", "process = \\(" + ",".join(f"x{i}" for i in range(100_000)) + ").(x7)(" + ",".join(["1"] * 100_000) + ");"),
    (
        "a name behind parameters, on and on",
        "y = 1; g(" + ",".join(f"x{i}" for i in range(100_000)) + ") = f(1) with { f(n) = f(n+y); }; process = g(" + ",".join(["1"] * 100_000) + ");",
    ),
    ("an evaluation that does not end", ENDLESS),
    ("an evaluation that doubles", "f(n) = f(n+1),f(n+1); process = f(0);"),
    ("an evaluation of large diagrams", "d = par(i,8000,_); f(n) = f(n+outputs(d)); process = f(0);"),
    ("arguments that are large numbers' diagrams", "f(n) = f(n + sum(i,2000,i)); process = f(0);"),
    ("large diagrams put on and on", "d = par(i,5000,_); f(n,x) = f(n+1,(d:x)); process = f(0,d);"),
    ("large arguments, matched on and on", "d = par(i,8000,_); f((x,y),n) = f((x,y),n+1); process = f(d,0);"),
    ("an abstraction of 8,000 parameters drawn on and on", f"g = \\({XS}).(1); f(n) = f(n+inputs(g)); process = f(0);"),
    ("an abstraction of three parameters that calls itself", "f(x,y,z) = f; process = f;"),
    ("an abstraction of seven parameters, on and on with the first one given", "mix(a,b,c,d,e,f,g) = mix(a); process = mix;"),
    ("an abstraction of 128 parameters that calls itself", "f(" + ",".join(f"x{i}" for i in range(128)) + ") = f; process = f;"),
    ("an abstraction of 500 parameters that calls itself", "f(" + ",".join(f"x{i}" for i in range(500)) + ") = f; process = f;"),
    ("an abstraction of 8,000 parameters that calls itself", f"f({XS}) = f; process = f;"),
    ("an abstraction of as many parameters as a text has room for, that calls itself", filled("f(", "x%d", ") = f; process = f;", ",")),
    ("the names of 8,000 parameters that are drawn, on and on", f"process = \\({XS}).(f(1) with {{ f(n) = f(n+outputs(({XS}))); }});"),
    ("a name behind 8,000 parameters that are drawn, on and on", f"y = 1; process = \\({XS}).(f(1) with {{ f(n) = f(n+y); }});"),
    ("4,000 wires given one argument, on and on", "f(n,d) = f(n+outputs(d(1)),d); process = f(0,par(i,4000,_));"),
    ("4,000 wires given one argument, 2,200 times", "process = \\(d).(sum(i,2200,outputs(d(1))))(par(j,4000,_));"),
    ("a number before a row of 7,000, on and on", "f(0,d)=1; f(n,d)=f((n:d),d); process=f(1,(seq(i,7000,abs)));"),
    (
        "a number before a row of 8,180, 100 times a call",
        "g(" + ",".join(f"x{i}" for i in range(100)) + ")=1; f(n,d)=f(n+g(" + ",".join(["1:d"] * 100) + "),d); process=f(0,seq(i,8180,abs));",
    ),
    (
        "counts that a row of 8,180 gives, on and on",
        "f(n,d)=f(n+outputs((" + ",".join(["par(i,1:d,1)"] * 100) + ")),d); process=f(0,seq(i,8180,abs));",
    ),
    ("8,000 names bound by a pattern, on and on", f"k(({XS})) = 1; f(n,d) = f(n+k(d),d); process = f(0,par(i,8000,_));"),
    ("iterations in iterations", "process = par(i,99,par(j,99,par(k,99,i+j+k)));"),
    ("a waveform", filled("process = waveform{", "7", "} : !,_;", ",")),
    ("a table as long as may be", "process = rdtable(5592405,1,_);"),
    ("a table of a feedback", "process = rdtable(1864135,(+(1) ~ _),_);"),
    ("a table of a delay", "process = rdtable(2396745,1 @ 1,_);"),
    ("a table of 2,600 delays", "process = rdtable(1075,(1 <: par(i,2600,@(i)) :> _),_);"),
    ("tables on and on", "f(n) = f(n+outputs(rdtable(8,n,_))); process = f(0);"),
    ("controls", filled("process = ", CONTROL, " :> _;", ",")),
    ("controls, 256 outputs", "process = " + ",".join(CONTROL % i for i in range(256)) + ";"),
    ("a control with a label of 30,000 bytes, on and on", 'f(n)=f(n+outputs(button("' + "a" * 30_000 + '")));process=f(0);'),
    (
        "a control with a label of 1 MB, 12 times a call",
        'b=button("' + "a" * 1_000_000 + '");f(n)=f(n+outputs((' + ",".join("b" * 12) + ")));process=f(0);",
    ),
    ("controls in a sum", "process = sum(i,4000," + CONTROL % 0 + ");"),
    ("16,000 controls", "process = " + ",".join(CONTROL % i for i in range(8_000)) + " :> _;"),
    ("one control, again and again", "process = " + ",".join([CONTROL % 1] * 8_000) + " :> _;"),
    ("the widest split and merge", "process = _ <: par(i,8000,_) :> _;"),
    ("2,700 taps added up", "process = _ <: par(i,2700,*(i)) :> _;"),
    ("2,600 delays of one stream", "process = _ <: par(i,2600,@(i)) :> _;"),
    ("120 feedbacks in one another", "process = " + "(+ ~ " * 120 + "_" + ")" * 120 + ";"),
    ("feedback of 2,000 streams", "process = _ <: (par(i,2000,+) ~ par(i,2000,_)) :> _;"),
    ("3,750 loops side by side and in rows", "process = _ <: par(i,250,seq(j,15,+ ~ mem)) :> _;"),
    ("a row of 2,000 filters", "process = seq(i,2000,+ ~ *(i));"),
    ("a row of 1,300 delays", "process = seq(i,1300,@(1) : *(3));"),
    ("delays of 16 million samples", "process = _ <: par(i,16,@(1048575)) :> _;"),
    ("delays of 16 million samples that vary", "process = _ <: par(i,16,\\(x).(x @ (x & 1048575))) :> _;"),
]


def sounds():
    """What is played, the input, the script and the options."""
    wire, minute, one = "process = _;", b"\1\2" * (44100 * 60), wave(1, 16, 2, b"\1\2")
    gain = "process = _ * %s;" % (CONTROL % 0)
    echoes = "echo(d,g) = + ~ (@(d-1) : *(g) : /(256)); process = par(i,2,echo(11025,128));"
    row = "process = 1 : seq(i,4000,(+ ~ _));"
    chunks = (b"JUNK" + struct.pack("<I", 0)) * 4095
    return [
        ("a minute of mono", wire, wave(1, 16, len(minute), minute), None, []),
        ("256 streams", "process = par(i,256,_);", wave(256, 16, 51_200, bytes(51_200)), None, []),
        ("256 streams by 16 workers", "process = par(i,256,+ ~ mem);", wave(256, 16, 5_120_000, bytes(5_120_000)), None, ["--workers=16"]),
        ("a minute of mono, a frame a block", wire, wave(1, 16, len(minute), minute), None, ["--block=1"]),
        ("two echoes, a frame a block, by 16 workers", echoes, wave(2, 16, 88_204, bytes(88_204)), None, ["--block=1", "--workers=16"]),
        ("16 rows of 4,000 loops by 16 workers", "\n%%\n".join([row] * 16), b"", None, ["--frames=2048", "--block=2048", "--workers=16"]),
        ("the same in blocks of 4,096", "\n%%\n".join([row] * 16), b"", None, ["--frames=4096", "--block=4096", "--workers=16"]),
        ("a head that states 4 GB of mono", wire, wave(1, 16, 2**32 - 39), None, []),
        ("a head that states 4 GB of 256 channels", "process = par(i,256,_);", wave(256, 32, 2**32 - 1024), None, []),
        ("a head that states 4 GB, 8 bits to 24", wire, wave(1, 8, 2**31, b"\1\2\3"), None, ["--bits=16"]),
        ("4,095 chunks", wire, wave(1, 16, 4, b"\1\2\3\4", chunks), None, []),
        ("a chunk that states 4 GB", wire, b"RIFF\0\0\0\0WAVEJUNK\xff\xff\xff\xff", None, []),
        ("an AU file that states 4 GB", wire, b".snd" + struct.pack(">5I", 24, 2**32 - 2, 3, 8000, 1) + b"\1\2", None, []),
        ("an AU offset of 4 GB", wire, b".snd" + struct.pack(">5I", 2**32 - 1, 2, 3, 8000, 1) + b"\1\2", None, []),
        ("an AU file of unknown size, 20 MB", wire, b".snd" + struct.pack(">5I", 24, 2**32 - 1, 3, 8000, 1) + b"\1\2" * 10_000_000, None, []),
        ("a script of notes", gain, one, filled("", "#\n", ""), []),
        ("a script of changes", gain, wave(1, 16, len(minute), minute), filled("", "%d 0 1\n", ""), []),
        ("a script of changes at one frame", gain, one, filled("", "0 0 1\n", ""), []),
        ("a script with a long label", gain, one, "0 " + "x" * (MOST - 5) + " 1", []),
        ("a script for 8,000 controls", f"process = _ * ({','.join(CONTROL % i for i in range(8_000))} :> _);", one, filled("", "0 7999 1\n", ""), []),
        ("a script of one bad line", gain, one, "1" * MOST, []),
    ]


def measured(program, folder, words, seconds):
    """The processor's time, the memory in KiB, and the line; by GNU's time, since a child of a large process seems to be as large."""
    timed = ["/usr/bin/time", "-q", "-o", "used", "-f", "%U %S %M", program, *words]
    done = subprocess.run(timed, cwd=folder, capture_output=True, preexec_fn=lambda: resource.setrlimit(resource.RLIMIT_CPU, (seconds, seconds)))
    with open(os.path.join(folder, "used")) as file:
        user, system, kib = file.read().split()
    said = (done.stdout + done.stderr).decode("latin-1").strip()
    return float(user) + float(system), int(kib), said if done.returncode in range(6) else f"ended after {seconds} s"


def main():
    parser = argparse.ArgumentParser(description=__doc__, formatter_class=argparse.RawDescriptionHelpFormatter)
    parser.add_argument("--program", default=PROGRAM)
    parser.add_argument("--only", default="", help="a word of what is tried")
    parser.add_argument("--first", type=int, default=0, help="the row to begin with")
    parser.add_argument("--seconds", type=int, default=60, help="how much of the processor's time each may take before it is ended")
    options = parser.parse_args()
    program, status = os.path.abspath(options.program), 0
    need_program(program)
    resource.setrlimit(resource.RLIMIT_AS, (4 << 30, 4 << 30))
    print("| what | answer | s | MB |\n|---|---|---|---|")
    rows = [(told, text, wave(1, 16, 4, b"\1\0\2\0"), None, []) for told, text in TEXTS] + sounds()
    for told, text, sound, script, more in rows[options.first :]:
        if options.only not in told:
            continue
        with tempfile.TemporaryDirectory() as folder:
            for name, data in (("p.dsp", text.encode()), ("in.wav", sound), ("c.txt", script.encode() if script is not None else None)):
                if data is not None:
                    with open(os.path.join(folder, name), "wb") as file:
                        file.write(data)
            command = "rack" if "\n%%\n" in text else "au"
            words = [command, "p.dsp", "in.wav" if sound else "-", "out.wav", *(["--controls=c.txt"] if script is not None else []), *more]
            used, kib, said = measured(program, folder, words, options.seconds)
            if said.startswith("refused 29") or said.startswith("refused 39"):
                used, kib, said = measured(program, folder, ["au", "p.dsp", "-", "out.wav", "--frames=2"], options.seconds)
        over = used > MOST_SECONDS or kib > MOST_KIB or said.startswith("ended after")
        status |= over
        print(f"| {told} | `{said[:50]}` | {used:.2f} | {kib // 1000} |{' OVER' if over else ''}", flush=True)
    return status


if __name__ == "__main__":
    sys.exit(main())
