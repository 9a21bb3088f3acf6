#!/usr/bin/env python3
"""Programs, scripts, sound files and words made at random, and spoiled at random, given to the built program and to a second
reading of its documents (reference.py): the line, the exit status and every file have to be the same.

    tests/fuzz.py [--count N] [--first N] [--jobs N] [--workers N] [--program FILE] [--keep FOLDER] [--counts] [--unbounded]

--counts also tells how many cases have what, such as three parameters. --unbounded tries instead recursions without end that leave three
parameters over, or more, which have to be refused 23 EvalBudget; a program that keeps something for each such parameter may run out of
memory first, and says so (40 NoMemory).

Case number n is the same on each machine. What differs is printed, and kept in a folder of its own under --keep: the files, the
words (words.json) and both answers. --counts prints at the end what was answered how often. The last line is `N passed, M failed`."""
import argparse
import collections
import json
import multiprocessing
import os
import random
import re
import shutil
import struct
import subprocess
import sys
import tempfile
import threading

sys.dont_write_bytecode = True
import reference
from interpreter import TooMuch
from part import PROGRAM, need_program

PATIENCE = 20_000
SECONDS = 60
# what stands before the name of a trait among the counts of answers
TRAIT = "cases with "


# ---- programs

UNARY = ["_", "mem", "int", "abs", "+(1)", "-(3)", "*(5)", "/(3)", "%(7)", "&(255)", ">>(2)", "<<(1)", "max(-9)", "min(100)", "prefix(4)", "@(3)"]
BINARY = ["+", "-", "*", "/", "%", "&", "|", "xor", "<", "<=", ">", ">=", "==", "!=", "min", "max", "prefix", "attach"]
INFIX = [word for word in BINARY if word not in ("min", "max", "prefix", "attach")]
NUMBERS = [0, 1, 2, 3, 5, 7, 10, 31, 32, 33, 100, 255, 256, 4095, 65535, 65536, 1048575, 2147483647, -1, -2, -7, -128, -32768, -2147483647]
LABELS = ["g", "my gain", "on", "a", "b/c", "[x]"]
LONG_LABELS = ["long " * 60, "x" * 4000, "a/" * 150 + "g"]
NAMES = ["x", "y", "z", "n", "f", "g", "_a", "__b2", "a_b"]


class Maker:
    """Makes expressions of so many inputs and outputs. In scope are names, with the inputs and outputs of what they stand for."""

    def __init__(self, chance):
        self.chance = chance
        self.controls = {}

    def among(self, things):
        return self.chance.choice(things)

    def name(self):
        return self.among(NAMES)

    def program(self):
        inputs, outputs = self.among([0, 0, 1, 1, 1, 2, 2, 3, 4]), self.among([1, 1, 1, 2, 2, 3, 5])
        scope, definitions = {}, []
        for _ in range(self.among([0, 0, 1, 2, 3])):
            name, shape = self.name(), (self.among([0, 0, 1, 2, 3, 5]), self.among([1, 1, 2]))
            if name not in scope:
                definitions.append(self.definition(name, shape, dict(scope), 3))
                scope[name] = shape
        definitions.append(f"process = {self.made(inputs, outputs, self.among([1, 2, 3, 4, 5]), scope)};")
        self.chance.shuffle(definitions)
        return "\n".join(self.among([[], [], ['declare name "t";'], ['declare a b "%";']]) + definitions)

    def definition(self, name, shape, scope, depth):
        """A definition of a name with this shape: plain, with parameters, or by rules."""
        inputs, outputs = shape
        kind = self.chance.randrange(4)
        if kind < 2 and inputs:
            parameters = self.chance.sample(NAMES, min(inputs, self.among([1, 2, 3, 4, 5])))
            inner = {**scope, **{parameter: (0, 1) for parameter in parameters}}
            return f"{name}({','.join(parameters)}) = {self.made(inputs - len(parameters), outputs, depth - 1, inner)};"
        return f"{name} = {self.made(inputs, outputs, depth - 1, scope)};"

    def made(self, inputs, outputs, depth, scope):
        """An expression that stands anywhere."""
        fitting = [name for name, shape in scope.items() if shape == (inputs, outputs)]
        if fitting and self.chance.random() < 0.4:
            return self.among(fitting)
        wider = [name for name, shape in scope.items() if shape[0] > inputs and shape[1] == outputs]
        if wider and depth > 0 and self.chance.random() < 0.3:
            return self.given_some(self.among(wider), inputs, depth - 1, scope)
        if depth <= 0:
            return self.leaf(inputs, outputs)
        ways = [self.side_by_side, self.in_turn, self.split, self.merged, self.fed_back, self.applied, self.qualified, self.repeated]
        ways += [self.calculated, self.calculated, self.shaped] if outputs == 1 else []
        ways += [self.delayed] if outputs else []
        ways += [self.tabled] if (inputs, outputs) in [(0, 2), (1, 1), (3, 1)] else []
        text = self.among(ways)(inputs, outputs, depth - 1, scope)
        return text if text is not None else self.leaf(inputs, outputs)

    def leaf(self, inputs, outputs):
        if (inputs, outputs) == (0, 1):
            return self.control() if self.chance.random() < 0.2 else self.spelled(self.among(NUMBERS))
        if (inputs, outputs) == (1, 1):
            return self.among(UNARY)
        if (inputs, outputs) == (2, 1):
            return self.among(BINARY)
        if outputs == 1 and inputs in (3, 4):
            return f"select{inputs - 1}"
        if outputs == 0:
            return "(" + ",".join(["!"] * inputs) + ")" if inputs else "(1 : !)"
        if inputs == 0:
            return "(" + ",".join(self.spelled(self.among(NUMBERS)) for _ in range(outputs)) + ")"
        return "(" + ",".join(["_"] * inputs) + " :> _ <: " + ",".join(["_"] * outputs) + ")"

    def spelled(self, number):
        return str(number) if number >= 0 else self.among([str(number), f"(0 - {-number})"])

    def given_some(self, name, inputs, depth, scope):
        """A name on as many numbers as leave these inputs over."""
        numbers = [self.made(0, 1, depth - 1, scope) for _ in range(scope[name][0] - inputs)]
        return f"{name}({','.join(numbers)})"

    def control(self):
        label = self.among(LABELS) if self.chance.random() < 0.95 else self.among(LONG_LABELS)
        if label not in self.controls or self.chance.random() < 0.02:
            kind = self.among(["button", "checkbox", "hslider", "vslider", "nentry"])
            least = self.among([0, 0, -5, 1])
            greatest = least + self.among([0, 1, 5, 10, 100])
            initial = self.chance.randint(least, greatest + (self.chance.random() < 0.02))
            is_switch = kind in ("button", "checkbox")
            text = f'{kind}("{label}")' if is_switch else f'{kind}("{label}",{initial},{least},{greatest},1)'
            self.controls[label] = (text, 0, 1) if is_switch else (text, least, greatest)
        text = self.controls[label][0]
        return f'{self.among(["hgroup", "vgroup", "tgroup"])}("m",{text})' if self.chance.random() < 0.1 else text

    def side_by_side(self, inputs, outputs, depth, scope):
        if outputs < 2:
            return None
        cut, end = self.chance.randint(0, inputs), self.chance.randint(1, outputs - 1)
        return f"({self.made(cut, end, depth, scope)} , {self.made(inputs - cut, outputs - end, depth, scope)})"

    def in_turn(self, inputs, outputs, depth, scope):
        middle = self.among([1, 1, 2, 2, 3])
        return f"({self.made(inputs, middle, depth, scope)} : {self.made(middle, outputs, depth, scope)})"

    def split(self, inputs, outputs, depth, scope):
        middle = self.among([1, 1, 2])
        return f"({self.made(inputs, middle, depth, scope)} <: {self.made(middle * self.among([1, 2, 3]), outputs, depth, scope)})"

    def merged(self, inputs, outputs, depth, scope):
        middle = self.among([1, 1, 2])
        return f"({self.made(inputs, middle * self.among([1, 2, 3]), depth, scope)} :> {self.made(middle, outputs, depth, scope)})"

    def fed_back(self, inputs, outputs, depth, scope):
        if not outputs:
            return None
        taken, given = self.chance.randint(1, outputs), self.among([1, 1, 2])
        return f"({self.made(inputs + given, outputs, depth, scope)} ~ {self.made(taken, given, depth, scope)})"

    def calculated(self, inputs, outputs, depth, scope):
        cut = self.chance.randint(0, inputs)
        return f"({self.made(cut, 1, depth, scope)} {self.among(INFIX)} {self.made(inputs - cut, 1, depth, scope)})"

    def shaped(self, inputs, outputs, depth, scope):
        """What is most often met: a bounded delay, an accumulator, an operation on some arguments."""
        if inputs == 1:
            return self.among(
                [
                    f"(_ @ ({self.made(0, 1, depth, scope)} & {self.among([0, 1, 7, 15, 33])}))",
                    f"(+ ~ {self.among(UNARY)})",
                    f"(_ <: _, ({self.made(1, 1, depth, scope)} : max(0) : min({self.among([1, 9, 20])})) : @)",
                    f"{self.among(BINARY)}({self.made(0, 1, depth, scope)})",
                ]
            )
        if inputs == 0:
            return self.among(
                [
                    f"{self.among(['inputs', 'outputs'])}({self.made(self.among([0, 1, 2]), 1, depth, scope)})",
                    f"{self.among(['min', 'max', '+', '-', '%'])}({self.made(0, 1, depth, scope)},{self.made(0, 1, depth, scope)})",
                    f"case {{ (0) => 3; (n) => n * 2; }}({self.made(0, 1, depth, scope)})",
                    f"{self.among(['sum', 'prod'])}(i,{self.among([1, 2, 3])},{self.made(0, 1, depth, {**scope, 'i': (0, 1)})})",
                ]
            )
        return None

    def delayed(self, inputs, outputs, depth, scope):
        if outputs == 1:
            return f"{self.made(inputs, 1, depth, scope)}'"
        return f"({self.made(inputs, outputs, depth, scope)} : {','.join(self.among(['mem', '_', '@(2)']) for _ in range(outputs))})"

    def tabled(self, inputs, outputs, depth, scope):
        """A waveform, a table, or a table that is written."""
        waveform = f"waveform{{{','.join(str(self.among(NUMBERS)) for _ in range(self.among([1, 2, 3, 7])))}}}"
        if outputs == 2:
            return waveform
        numbers = self.made(0, 1, depth, scope if self.chance.random() < 0.1 else {})
        head = self.among([waveform, f"{self.among([1, 2, 3, 8, 0])},({numbers})", f"{self.among([1, 4])},(+({self.among(NUMBERS)}) ~ _)"])
        return f"({head},{','.join('_' * inputs)} : {'rdtable' if inputs == 1 else 'rwtable'})"

    def applied(self, inputs, outputs, depth, scope):
        shape, name = (self.among([0, 0, 1]), 1), self.name()
        body = self.made(inputs, outputs, depth, {**scope, name: shape})
        if self.chance.random() < 0.5 or inputs == 0:
            return f"\\({name}).({body})({self.made(*shape, depth, scope)})"
        # Some of the parameters are given numbers, and the others are left over as inputs.
        left, given = self.chance.randint(1, min(inputs, 3)), self.among([0, 0, 1, 2])
        parameters = self.chance.sample(NAMES, left + given)
        body = self.made(inputs - left, outputs, depth, {**scope, **{parameter: (0, 1) for parameter in parameters}})
        numbers = ",".join(self.made(0, 1, depth - 1, scope) for _ in range(given))
        return f"\\({','.join(parameters)}).({body})" + (f"({numbers})" if given else "")

    def qualified(self, inputs, outputs, depth, scope):
        name, shape = self.name(), (self.among([0, 0, 1]), self.among([1, 1, 2]))
        definition = self.definition(name, shape, scope, depth)
        return f"({self.made(inputs, outputs, depth, {**scope, name: shape})} with {{ {definition} }})"

    def repeated(self, inputs, outputs, depth, scope):
        name, count = self.among(["i", "j"]), self.among([1, 2, 2, 3])
        inner = {**scope, name: (0, 1)}
        times = self.among([str(count), f"{count + 1} - 1", f"inputs(par(k,{count},_))"])
        if inputs == outputs and self.chance.random() < 0.5:
            return f"seq({name},{times},{self.made(inputs, outputs, depth, inner)})"
        if inputs % count or outputs % count or not outputs:
            return None
        return f"par({name},{times},{self.made(inputs // count, outputs // count, depth, inner)})"


# whole programs by rules, whose counts and numbers are put in
RULED = [
    "f(0) = {0}; f(n) = n * f(n - 1) + {1}; process = f({2});",
    "last((x,y)) = last(y); last(x) = x; process = last(({0},{1},_));",
    "count((x,xs)) = 1 + count(xs); count(x) = 1; process = _ * count(({0},{1},{2}));",
    "rev((x,y)) = rev(y),x; rev(x) = x; process = rev((_,{0},mem,{1}));",
    "f = case {{ (x:y) => y:x; (x<:y) => y; (x) => x; }}; process = f(_ : +({0})), f(_ <: _,_);",
    "fold(1,f) = f(0); fold(n,f) = fold(n-1,f) + f(n-1); process = _ * fold({2},\\(i).(i*{0}));",
    "echo(d,g) = + ~ (@(d-1) : *(g) : /(256)); process = par(i,2,echo({2}+i+1,{1}));",
    "smooth(n) = + ~ (_ <: _, >>(n) : -) : >>(n); process = _ * (hslider(\"g\",{2},0,256,1) : smooth(3)) / 256;",
    "tap(i) = @(i*{2}+1) : *(i); process = _ <: par(i,{2}+1,tap(i)) :> _;",
    "process = (_ @ (_ & {2})) ~ (+({0}));",
    "r(n) = + ~ mem : *(n); process = par(i,{2}+1,r(i+{0}));",
    "process = _ <: par(i,2,+ ~ (@(i+{2}) : *({1}) : >>(8))) :> _;",
    "osc = (+({0}) ~ _) - 1; process = osc & {1}, osc % ({2}+1);",
    "process = rdtable({2}+1,(+({0}) ~ _),_);",
    "table = case {{ (0) => rdtable; (n) => waveform{{{0},{1},-3}} : !,_; }}; process = waveform{{{2},5}},table(1) : table(0);",
    "process = par(i,2,rwtable({2}+1,{0}+i,_,_,_));",
    "process = waveform{{{0},{1}}}, {2}, _, _ : rwtable;",
    "process = _ @ (waveform{{1,{2}}} : !,_), _ @ (_ : rdtable({2}+1,7));",
]
# what is refused now and then, by the numbers
REFUSED = [
    "f(0) = 1; f({0}) = 2; process = f({2});",
    "f(0) = 1; f(x,{0}) = 2; process = f(0);",
    "a = {0}; f(x) = x; a = {2}; process = a;",
    "f(x,({0},x)) = x; process = f(1);",
    "process = \\(x,y,x).(x + {0});",
    "process = case {{ (0) => {0}; (1,x) => x; }}({2});",
    "process = _ <: par(i,16384 - {2},_) :> _;",
    "process = sum(i,5461 + {2} - 3,{0});",
    "process = par(i,{0} + 14,@(1048575 - {2})) :> _;",
    "process = @(1048575 + {2} - 3);",
    "process = _ @ ({0} - {2});",
    "process = (_ & 7) : @({2}) , (_ @ (_ % 9)) :> _;",
    'process = hslider("g",{0},0,{2},1) + hslider("g",{0},0,5,1);',
    'process = button("g") + checkbox("g") * {0};',
    "process = par(i,256 + {2} - 3,_);",
    "process = ({0},{1})({2});",
    "process = (_,_ : +)({0},{1},{2});",
    "process = rdtable({0} % 2,{1},_);",
    "process = rdtable({2},{0} + _,_);",
    "process = {0},rdtable;",
    "process = rdtable(8388608,{0},_), rdtable({2} - 2,1,_), (waveform{{{1}}} : !,_);",
    "process = \\(x).(rdtable({2},x,_));",
    "process = {0},{1} : rdtable;",
]


class Pattern:
    """A pattern made at random: a number, a name, or two patterns and what composes them. Lanes, which stand side by side, may be
    numbers; the parts of other compositions have one input and one output each, mostly, so that there are such diagrams."""

    def __init__(self, chance, depth, names, are_lanes=True):
        self.parts = None
        are_lanes = are_lanes or chance.random() < 0.05
        if depth <= 0 or chance.random() < 0.15:
            is_name = names and (not are_lanes or chance.random() < 0.8)
            self.leaf = names.pop() if is_name else str(chance.choice([0, 1, 2, 3]))
            if names and chance.random() < 0.003:
                # a name that is there twice, which is refused
                self.leaf = names[-1]
            self.fitting = ["_", "abs", "mem", "3", "+(1)", 'hslider("g",0,0,9,1)'] if are_lanes else ["abs", "mem", "_", "@(3)"]
        else:
            self.operator = chance.choice([",", ",", ",", ":", "<:", ":>", "~"] if are_lanes else [":", ":", "<:", ":>", "~"])
            are_lanes = self.operator == ","
            self.parts = [Pattern(chance, 0 if self.operator == "~" else depth - 1, names, are_lanes), Pattern(chance, depth - 1, names, are_lanes)]
            if self.operator == "~":
                self.parts[0].fitting = ["+", "-", "max"]

    def spelled(self):
        return self.leaf if self.parts is None else f"({self.parts[0].spelled()} {self.operator} {self.parts[1].spelled()})"

    def instance(self, chance):
        """A diagram that the pattern fits, mostly."""
        if self.parts is not None:
            return f"({self.parts[0].instance(chance)} {self.operator} {self.parts[1].instance(chance)})"
        return self.leaf if self.leaf.isdigit() and chance.random() < 0.95 else chance.choice(self.fitting)


def nested_rules(chance):
    """Rules whose patterns are nested, on arguments that one of them fits, mostly."""
    letters, width, rules, given = ["a", "b", "c", "d", "x", "y", "z", "n"], chance.choice([1, 1, 2, 3, 4]), [], []
    for _ in range(chance.choice([1, 2, 3])):
        names = chance.sample(letters, len(letters))
        patterns = [Pattern(chance, chance.choice([0, 1, 2, 3]), names) for _ in range(width)]
        given = given if given and chance.random() < 0.5 else [pattern.instance(chance) for pattern in patterns]
        forms = ["{0}", "inputs({0})", "outputs({0})"] + (["f({0})"] if width == 1 and patterns[0].parts else [])
        parts = [chance.choice(forms).format(name) for name in letters if name not in names]
        rules.append(f"({','.join(pattern.spelled() for pattern in patterns)}) => {','.join(parts[:4]) or '1'};")
    if chance.random() < 0.9:
        others = ",".join(["p", "q", "r", "s"][:width])
        rules.append(f"({others}) => {others};")
    if chance.random() < 0.5:
        definitions = f"f = case {{ {' '.join(rules)} }};"
    else:
        definitions = " ".join("f" + rule.replace(" =>", " =", 1) for rule in rules)
    left = chance.choice([0] * 15 + [1]) if width > 1 else 0
    return f"{definitions} process = f({','.join(given[: width - left])});"


# recursions without end that leave three parameters over, or more: the language refuses them after 1,000,000 visits
UNBOUNDED = [
    "f(x,y,z) = f; process = f;",
    "f(a,b,c,d,e) = f; process = f({0});",
    "mix(a,b,c,d,e,f,g) = mix(a); process = mix;",
    "f(x,y,z) = f(z); process = f, {0};",
    "f(x,y,z) = \\(a,b,c).(f); process = f({0},{1});",
]


def wild(chance, depth, scope):
    """An expression of any shape, which is mostly refused."""

    def inner(more=()):
        return wild(chance, depth - 1, [*scope, *more])

    if depth <= 0 or chance.random() < 0.2:
        return chance.choice([str(chance.choice(NUMBERS)), "_", "_", chance.choice(UNARY + BINARY + ["!", "@", "select2", "select3"]), *scope[-2:]])
    name, kind = chance.choice(NAMES), chance.randrange(16)
    if kind < 4:
        return f"({inner()} {chance.choice([',', ':', '<:', ':>', '~'])} {inner()})"
    if kind < 7:
        return f"({inner()} {chance.choice(INFIX + ['@'])} {inner()})"
    return [
        lambda: f"({inner()})'",
        lambda: f"{chance.choice(scope + BINARY + ['abs', 'select2'])}({','.join(inner() for _ in range(chance.randint(1, 3)))})",
        lambda: f"{chance.choice(['par', 'seq', 'sum', 'prod'])}({name},{chance.choice(['1', '2', '3', '0', '1+1', '_'])},{inner([name])})",
        lambda: f"\\({name}).({inner([name])})",
        lambda: f"{chance.choice(['inputs', 'outputs'])}({inner()})",
        lambda: f"({inner([name])} with {{ {name} = {inner()}; }})",
        lambda: f"({inner([name])} with {{ {name}(x) = {inner(['x'])}; {chance.choice(['', name + '(0) = 1;'])} }})",
        lambda: f"case {{ ({chance.choice(['0', '1', '(x,y)', '(x:y)', '(x~y)'])}) => {inner(['x', 'y'])}; (n) => {inner(['n'])}; }}({inner()})",
        lambda: chance.choice(['button("b")', 'checkbox("c")', f'hslider("h",{chance.randint(0, 6)},0,5,1)', 'nentry("h",1,0,9,1)', f"-{name}"]),
    ][kind - 7]()


BLANKS = ["\n", "\t", "  ", "\r\n", "/* c */", "// x\n", " /**/ ", "\n\n"]
PIECES = "_ ! , : <: :> ~ + - * / % & | << >> < <= > >= == != @ ' ( ) { } = => ; . \\ ^ \" 0 7 1.5 .5 1e3 2f 0x1 2147483648 99999999999".split()
PIECES += reference.interpreter.RESERVED + ["x", "_1", "__", "/*", "*/", "//", "\0", "\x7f", "\xff", "#", "$", "`", "process", "=1;", '"%"', 'button("%")']


def spoiled(chance, text):
    """A text with some piece of it left out, put in, doubled or turned."""
    for _ in range(chance.choice([1, 1, 1, 2, 5])):
        at, end = sorted(chance.randint(0, len(text)) for _ in range(2))
        end = min(end, at + chance.choice([1, 1, 2, 8]))
        change = chance.randrange(5)
        text = [
            lambda: text[:at] + text[end:],
            lambda: text[:at] + chance.choice(PIECES) + text[at:],
            lambda: text[:at] + chance.choice(PIECES) + text[end:],
            lambda: text[:end] + text[at:],
            lambda: text[:at] if chance.random() < 0.3 else text[:at] + chr(chance.randrange(256)) + text[end:],
        ][change]()
    return text


def program_text(chance):
    maker, kind = Maker(chance), chance.random()
    if kind < 0.6:
        text = maker.program()
    elif kind < 0.68:
        text = nested_rules(chance)
    elif kind < 0.82:
        numbers = chance.choice(NUMBERS[:10]), chance.choice(NUMBERS[:16]), chance.choice([0, 1, 2, 3, 5, 9])
        text = chance.choice(RULED if kind < 0.78 else REFUSED).format(*numbers)
    else:
        text = f"process = {wild(chance, chance.randint(1, 5), [])};"
    if chance.random() < 0.2:
        text = "".join(chance.choice(BLANKS) if byte == " " and chance.random() < 0.5 else byte for byte in text)
    if chance.random() < 0.15:
        text = spoiled(chance, text)
    if chance.random() < 0.005:
        depth = chance.randint(126, 130)
        text = "process = " + "(" * depth + "_" + ")" * depth + ";"
    return text


# ---- files of jobs, scripts, sound files, words


# jobs with the same labels for controls that differ
SHARED = ['process = button("g");', 'process = _ * hslider("g",{0},0,9,1);', 'process = hslider("g",{0},-3,5,1), checkbox("on");', "process = + ~ @({0});"]
SHARED += ['process = nentry("0/g",{0},0,9,1) * button("g");', 'process = (_ , checkbox("on") : select2(hslider("g",0,0,1,1))) ~ _;']


def rack_text(chance):
    """Texts with lines between that separate jobs, or seem to."""
    texts = [program_text(chance) for _ in range(chance.choice([1, 2, 2, 2, 3, 3, 4]))]
    if chance.random() < 0.02:
        texts = ["process = 1;"] * chance.choice([15, 16, 17, 40])
    elif chance.random() < 0.15:
        texts = [chance.choice(SHARED).format(chance.choice([0, 1, 5])) for _ in range(chance.choice([5, 9, 15, 16, 16, 17]))]
    lines = ["\n%%\n"] * (30 if len(texts) < 5 else 500) + ["\n%%\r\n", "\r\n%%\n", "\n%%\n%%\n", "\n%%", "%%\n", "\n%% \n", "\n%%%\n", "\n%%\r\r\n"]
    text = texts[0] + "".join(chance.choice(lines) + text for text in texts[1:])
    return text + chance.choice([""] * 30 + ["\n%%", "\n%%\n", "\n%%\r"])


def script_text(chance, controls):
    lines, frame = [], 0
    labels = list(controls) or ["g"]
    for _ in range(chance.choice([0, 1, 2, 3, 8])):
        frame += chance.choice([0, 0, 1, 2, 3, 7])
        label = chance.choice(labels)
        least, greatest = controls.get(label, (0, 1))
        beyond = chance.choice([0] * 30 + [1, -1])
        lines.append(f"{frame} {label} {min(greatest, chance.randint(least, greatest)) + beyond * (greatest - least + 1)}")
        if chance.random() < 0.02:
            frame = max(0, frame - 2)
        if chance.random() < 0.1:
            lines.append(chance.choice(["", "# a note", "#", "\r", "0"]))
    text = "\n".join(lines) + chance.choice(["\n", "", "\r\n"])
    return spoiled(chance, text) if chance.random() < 0.15 else text


def numbers_of(chance, count, bits):
    least, greatest = -(2 ** (bits - 1)), 2 ** (bits - 1) - 1
    near = [0, 0, 1, -1, 2, 5, 100, least, greatest, least + 1]
    return [min(max(chance.choice(near) if chance.random() < 0.6 else chance.randint(least, greatest), least), greatest) for _ in range(count)]


def altered(chance, data):
    """Bytes with some of them turned, left out or put in."""
    data = bytearray(data)
    for _ in range(chance.choice([1, 1, 2, 4])):
        at = chance.randrange(min(len(data), 120) + 1)
        change = chance.randrange(6)
        if change == 0:
            del data[chance.randint(0, len(data)) :]
        elif change == 1:
            data[at:at] = bytes(chance.randrange(256) for _ in range(chance.choice([1, 2, 4, 8])))
        elif change == 2:
            del data[at : at + chance.choice([1, 2, 4])]
        elif at < len(data):
            data[at] = chance.choice([0, 1, 2, 3, 16, 24, 127, 128, 254, 255, chance.randrange(256)])
    return bytes(data)


def chunk(name, body, size=None):
    return name + struct.pack("<I", len(body) if size is None else size) + body + b"\0" * (len(body) % 2)


def wave_bytes(chance, channels, frames):
    bits = chance.choice([8, 16, 16, 24, 32, 32])
    samples = reference.coded(False, bits, numbers_of(chance, channels * frames, bits))
    align, rate = channels * bits // 8, chance.choice([1, 8000, 44100, 48000, 2**32 - 1])
    plain = struct.pack("<HIIHH", channels, rate, chance.choice([rate * align % 2**32, 7]), align, bits)
    if chance.random() < 0.3:
        form = struct.pack("<H", 65534) + plain + bytes(8) + reference.PLAIN_SAMPLES + bytes(chance.choice([0, 0, 1, 2]))
    else:
        form = struct.pack("<H", 1) + plain + bytes(chance.choice([0, 0, 0, 2, 1]))
    names = [b"LIST", b"JUNK", b"DATA", b"fmt\0"]
    if chance.random() < 0.005:
        many = (b"JUNK" + bytes(4)) * chance.choice([4094, 4095, 4096, 4097])
        return b"RIFF" + bytes(4) + b"WAVE" + many + chunk(b"fmt ", form) + chunk(b"data", samples)
    others = [chunk(chance.choice(names), bytes(chance.choice([0, 1, 2, 3, 26]))) for _ in range(chance.choice([0, 0, 0, 1, 2]))]
    between = chance.randint(0, len(others))
    size = len(samples) + chance.choice([0, 0, 0, 0, 1, align // 2])
    cut = chance.random()
    if cut < 0.1:
        size = chance.choice([len(samples) + align, len(samples) + 40 * align, 4294967258 // align * align, 2**32 - 2, 2**32 - 1])
    data = chunk(b"data", samples + bytes(max(0, min(size - len(samples), align)) if cut >= 0.1 else 0), size)
    tail = chance.choice([b"", b"", b"LIST\2\0\0\0ab", b"x"]) if cut >= 0.1 else b""
    whole = b"WAVE" + b"".join(others[:between]) + chunk(b"fmt ", form) + b"".join(others[between:]) + data + tail
    return b"RIFF" + struct.pack("<I", chance.choice([len(whole), 0, 2**32 - 1])) + whole


def au_bytes(chance, channels, frames):
    bits = chance.choice([8, 16, 24, 32])
    samples = reference.coded(True, bits, numbers_of(chance, channels * frames, bits))
    offset = chance.choice([24, 24, 28, 31])
    size = chance.choice([len(samples), len(samples), 2**32 - 1, 2**32 - 1, len(samples) + chance.choice([1, 9, 1000])])
    if size == 2**32 - 1:
        samples += bytes(chance.choice([0, 0, 1, 2, 5]))
    return b".snd" + struct.pack(">5I", offset, size, bits // 8 + 1, 8000, channels) + bytes(offset - 24) + samples + chance.choice([b"", b"", b"\1"])


def sound_bytes(chance, is_au, channels, frames):
    data = au_bytes(chance, channels, frames) if is_au else wave_bytes(chance, channels, frames)
    return altered(chance, data) if chance.random() < 0.15 else data


def sizes(chance, most_workers):
    """Options that say how a run is cut; none of them changes a sample."""
    block = chance.choice([1, 2, 3, 5, 8, 16, 31, 32, 33, 64, 512, 4096, chance.randint(1, 4096), chance.randint(1, 60)])
    vector = chance.choice([block, max(1, -(-block // 64)), chance.randint(max(1, -(-block // 64)), block)])
    options = [["--block", str(block), f"--vector={vector}"]] if chance.random() < 0.7 else []
    if most_workers > 1 and chance.random() < 0.6:
        options.append([f"--workers={min(most_workers, chance.choice([1, 2, 2, 3, 4, 4, 7, 16, chance.randint(2, 16)]))}"])
    if chance.random() < 0.4:
        options.append(["--bits", chance.choice(["8", "16", "24", "32", "32"])])
    return options


STRAY = ["--", "-", "-x", "", "=", "--=1", "--help", "1", "in.wav", "p.dsp", "\udcff", "--block", "--block=", "--block=0", "--block=1=1"]
STRAY += ["--vector=4097", "--vector=00001", "--bits=12", "--workers=0", "--workers=17", "--rate", "0", "--controls", "--controls=out.wav"]
STRAY += ["--frames=+1", "--frames=4294967296", "--frames=99999999999"]
OTHERS = ["folder", "none", "none/out.wav", "in.wav"]


def spoiled_words(chance, words):
    words = list(words)
    for _ in range(chance.choice([1, 1, 2])):
        at = chance.randint(0, len(words))
        if chance.random() < 0.3:
            words[at : at + 1] = []
        else:
            words[at : at + chance.randint(0, 1)] = [chance.choice(STRAY)]
    return words


def unbounded_case(number):
    """The words and the files of a case whose evaluation has no end."""
    chance = random.Random(number)
    text = chance.choice(UNBOUNDED).format(*chance.sample(NUMBERS[:16], 2))
    return ["check", "p.dsp"], {"p.dsp": text.encode("latin-1")}


def made_case(number, most_workers):
    """The words and the files of a case."""
    chance = random.Random(number)
    kind = chance.random()
    if kind < 0.01:
        return ["make", str(chance.randint(1, 5)), str(chance.randint(1, 40)), str(chance.randint(1, most_workers))], {}
    is_rack = kind > 0.85
    text = rack_text(chance) if is_rack else program_text(chance)
    files = {"p.dsp": text.encode("latin-1")}
    if kind < 0.1:
        return ["check", "p.dsp"], files
    is_au = kind < 0.3
    source, target = chance.choice(["in.au", "in.wav"]) if is_au else "in.wav", chance.choice(["out.au", "out.wav"]) if is_au else "out.wav"
    options = sizes(chance, most_workers)
    try:
        program = (reference.interpreter.Rack if is_rack else reference.interpreter.Program)(text, PATIENCE)
        channels = program.inputs
        controls = {control.label: (control.least, control.greatest) for control in program.controls}
    except (reference.Refused, TooMuch):
        channels, controls = chance.choice([0, 1, 2]), {}
    if chance.random() < 0.02:
        channels = chance.choice([1, 2, 3, 256])
    frames = chance.choice([0, 1, 2, 3, 5, 8, 13, 20, 40, 40, 75])
    if channels:
        files[source] = sound_bytes(chance, is_au and source == "in.au" or is_au and chance.random() < 0.2, channels, frames)
    else:
        source = "-"
        if chance.random() < 0.97:
            options.append([f"--frames={chance.choice([frames, frames, frames, 2**32 - 1]) if chance.random() < 0.05 else frames}"])
        if chance.random() < 0.3:
            options.append(["--rate", str(chance.choice([1, 8000, 2**32 - 1]))])
    if chance.random() < (0.7 if controls else 0.04):
        files["c.txt"] = script_text(chance, controls).encode("latin-1")
        options.append(["--controls", "c.txt"])
    if chance.random() < 0.3:
        files[target] = b"what stood here before"
    chance.shuffle(options)
    before = chance.randint(0, len(options))
    words = ["au" if is_au else "rack" if is_rack else "run", *sum(options[:before], []), "p.dsp", source, target, *sum(options[before:], [])]
    if chance.random() < 0.03:
        words = spoiled_words(chance, words)
    if chance.random() < 0.02:
        words = [chance.choice(OTHERS) if word.startswith(("p.", "in.", "out.", "c.")) and chance.random() < 0.5 else word for word in words]
    return words, files


# ---- both answers


def run(program, words, files, folder):
    """What the program answers, and the files that are there afterwards."""
    os.mkdir(folder)
    os.mkdir(os.path.join(folder, "folder"))
    try:
        for name, data in files.items():
            with open(os.path.join(folder, name), "wb") as file:
                file.write(data)
        done = subprocess.run([program, *words], cwd=folder, capture_output=True, timeout=SECONDS, stdin=subprocess.DEVNULL)
        after = {}
        for name in os.listdir(folder):
            if name != "folder":
                with open(os.path.join(folder, name), "rb") as file:
                    after[name] = file.read()
        return done.stdout, done.stderr, done.returncode, after
    except subprocess.TimeoutExpired:
        return b"", b"still running", 124, dict(files)
    finally:
        shutil.rmtree(folder)


def differs(case, program, folder, is_unbounded=False):
    """What is answered, and how the answers of a case differ, if they do."""
    words, files = case
    try:
        wanted = reference.answer(words, files, ["", "folder"], PATIENCE)
    except TooMuch:
        wanted = reference.Answer("refused 23 EvalBudget", 3) if is_unbounded else None
    line, errors, status, after = run(program, words, files, folder)
    given = line.decode("latin-1")
    given = given[:-1] if given.endswith("\n") else given
    key = " ".join(given.split()[:3:2] if given.startswith("refused") else given.split()[:1])
    if errors or status < 0 or status > 5:
        return key, f"status {status}, on standard error {errors!r}"
    if wanted is None:
        return "too much for the second reading", None
    if (given, status) != (wanted.line, wanted.status):
        return key, f"status {status} and {given!r}, where {wanted.status} and {wanted.line!r} are expected"
    outputs = [{**files, wanted.name: output} for output in wanted.outputs] if wanted.name else [files]
    if after not in outputs:
        other = [name for name in {*after, *outputs[0]} if after.get(name) != outputs[0].get(name)]
        return key, f"other bytes of {', '.join(sorted(other))}"
    return key, None


# ---- what the cases are like


def binds(diagram):
    """Whether parameters of the diagram are left over as inputs."""
    return diagram.kind == "bind" or any(binds(part) for part in diagram.parts if isinstance(part, reference.interpreter.Diagram))


def deepest_pattern(text):
    """How many brackets are open at once in the list of patterns of some rule."""
    deepest = open_now = most = 0
    for at, byte in enumerate(text):
        if byte == "(":
            open_now += 1
            most = max(most, open_now)
        elif byte == ")" and open_now:
            open_now -= 1
            if open_now == 0:
                deepest = max(deepest, most if text[at + 1 :].startswith((" =>", " = ")) else 0)
                most = 0
    return deepest


def traits_of(words, files):
    """What is told of a case by --counts, beside what is answered."""
    text = files.get("p.dsp", b"").decode("latin-1")
    is_rack = words[:1] == ["rack"]
    traits = {
        "three parameters or more": re.search(r"\((?:\w+,){2,}\w+\)( =[^=>]|\.\()", text),
        "three patterns or more": re.search(r"\([^()]*,[^()]*,[^()]*\) (=>|= )", text),
        "nested patterns": deepest_pattern(text) > 2,
        "long labels": re.search(r'"[^"]{200,}"', text),
        "an AU file of unknown size": any(data[:4] == b".snd" and data[8:12] == b"\xff" * 4 for data in files.values()),
        "two to sixteen workers": any(re.fullmatch("--workers=([2-9]|1[0-6])", word) for word in words),
        "nine to sixteen workers": any(re.fullmatch("--workers=(9|1[0-6])", word) for word in words),
        "nine jobs or more": is_rack and text.count("\n%%") >= 8,
    }
    try:
        program = (reference.interpreter.Rack if is_rack else reference.interpreter.Program)(text, PATIENCE)
        traits["parameters left over"] = any(binds(one.diagram) for one in (program.jobs if is_rack else [program]))
        names = [control.label.partition("/")[2] for control in program.controls]
        traits["labels that jobs share"] = is_rack and len(set(names)) < len(names)
    except (reference.Refused, TooMuch):
        pass
    block = next((int(words[at + 1]) for at, word in enumerate(words[:-1]) if word == "--block" and words[at + 1].isdigit()), 512)
    vectors = [int(word[9:]) for word in words if re.fullmatch("--vector=[0-9]+", word)]
    traits["several vectors in an odd block, several workers"] = traits["two to sixteen workers"] and block % 2 and any(it < block for it in vectors)
    return [name for name, holds in traits.items() if holds]


def keep(folder, number, case, told):
    words, files = case
    place = os.path.join(folder, str(number))
    os.makedirs(place, exist_ok=True)
    for name, data in files.items():
        with open(os.path.join(place, name), "wb") as file:
            file.write(data)
    with open(os.path.join(place, "words.json"), "w") as file:
        json.dump({"words": words, "differs": told}, file, indent=1)


def try_cases(numbers, options, results):
    counts = collections.Counter()
    scratch = tempfile.mkdtemp(prefix="fuzz_")
    try:
        for number in numbers:
            case = unbounded_case(number) if options.unbounded else made_case(number, options.workers)
            key, told = differs(case, options.program, os.path.join(scratch, "case"), options.unbounded)
            counts[key] += 1
            if options.counts:
                for trait in traits_of(*case):
                    counts[TRAIT + trait] += 1
                    counts[TRAIT + trait + ", played to the end"] += key == "done"
            if told:
                counts["DIFFERS"] += 1
                print(f"case {number}: {told}; words: {' '.join(case[0])!r}", flush=True)
                if options.keep:
                    keep(options.keep, number, case, told)
            if options.counts and number % 5000 == 4999:
                print(f"{number + 1}: {dict(counts)}", flush=True)
    finally:
        shutil.rmtree(scratch)
        results.put(counts)


def in_a_deep_stack(*arguments):
    threading.stack_size(512 << 20)
    thread = threading.Thread(target=try_cases, args=arguments)
    thread.start()
    thread.join()


def main():
    parser = argparse.ArgumentParser(description=__doc__, formatter_class=argparse.RawDescriptionHelpFormatter)
    parser.add_argument("--count", type=int, default=2000)
    parser.add_argument("--first", type=int, default=0)
    parser.add_argument("--jobs", type=int, default=2)
    parser.add_argument("--workers", type=int, default=16, help="the most workers of a run")
    parser.add_argument("--program", default=PROGRAM)
    parser.add_argument("--keep", help="the folder where what differs is kept")
    parser.add_argument("--counts", action="store_true", help="tell what was answered how often")
    parser.add_argument("--unbounded", action="store_true", help="try recursions without end alone, with parameters left over")
    options = parser.parse_args()
    options.program = os.path.abspath(options.program)
    need_program(options.program)
    results, jobs = multiprocessing.Queue(), []
    for job in range(options.jobs):
        numbers = range(options.first + job, options.first + options.count, options.jobs)
        jobs.append(multiprocessing.Process(target=in_a_deep_stack, args=(numbers, options, results)))
        jobs[-1].start()
    counts = sum((results.get() for _ in jobs), collections.Counter())
    traits = collections.Counter({key: counts.pop(key) for key in list(counts) if key.startswith(TRAIT)})
    for job in jobs:
        job.join()
    if options.counts:
        for key, count in counts.most_common() + sorted(traits.items()):
            print(f"{count:7} {key}")
    # Each case is counted by what was answered, and once more where it differs; one that was not tried has failed.
    passed = sum(counts.values()) - 2 * counts["DIFFERS"]
    print(f"{passed} passed, {options.count - passed} failed")
    return 0 if passed == options.count else 1


if __name__ == "__main__":
    sys.exit(main())
