"""Plays a program and says where its numbers go wrong: where they wrapped, where something was divided by 0 or came to 0
throughout, and where an output was clipped. It is what `bin/explain PROGRAM --frames N` adds.

A number that wraps keeps what it would be with all its bits. That it wrapped is told as soon as something comes of it that would
be otherwise: it is divided, compared, shifted right, chosen by, an index or a delay, it is fed back, or it comes out. So a sum
that wraps and comes back is not told. Nor is a counter or a generator: a loop on which no input of the program acts, and in
which what is fed back passes `+ - * << >> & | xor`, choices and delays alone. Nor is a phase that is shifted: what such a loop
gives, plus or minus what does not come of one. Nor is what a linked definition of the library means by its comment."""
import collections
import re
import struct

import interpreter
from explain import RackReading, between, chain, shown, spread
from interpreter import OPERATIONS, wrap

WIDTHS = (8, 16, 24, 32)
MOST_BITS = 4_096
MOST_ORIGINS = 8
# What is fed back passes these in a generator; a value in the operands that are numbered below.
LOOP_WORDS = {word: (0, 1) for word in "+ - * & | xor prefix".split()}
LOOP_WORDS.update({"<<": (0,), ">>": (0,), "@": (0,), "mem": (0,), "_": (0,), "int": (0,), "!": (0,)})
LOOP_WORDS.update({"attach": (0, 1), "select2": (1, 2), "select3": (1, 2, 3)})
MODULAR = "+ - * << & | xor".split()
# For so many frames at least a division gives 0 to the end before it is told.
LEAST_STUCK = 64
PLAIN_SAMPLES = bytes.fromhex("0100000000001000800000aa00389b71")
QUIET = "  no number wrapped, was divided by 0 or came to 0 throughout, and no output was clipped"


class Unusable(Exception):
    """An input or a script that cannot be played with, in one line."""


# ---- the input and the script


class Sound:
    """A sound: its channels, its bits, and its frames, at most so many."""

    def __init__(self, data, most):
        if data[:4] == b".snd":
            self.channels, self.bits, samples = self.of_au(data)
            order, is_unsigned = "big", False
        elif data[:4] == b"RIFF" and data[8:12] == b"WAVE":
            self.channels, self.bits, samples = self.of_wave(data)
            order, is_unsigned = "little", self.bits == 8
        else:
            raise Unusable("INPUT is neither a WAV nor an AU file")
        width = self.bits // 8
        count = min(most, len(samples) // (width * self.channels)) * self.channels
        pieces = (samples[at * width : (at + 1) * width] for at in range(count))
        numbers = [int.from_bytes(piece, order, signed=not is_unsigned) - 128 * is_unsigned for piece in pieces]
        self.frames = [numbers[at : at + self.channels] for at in range(0, count, self.channels)]

    def checked(self, channels, bits):
        if bits not in WIDTHS or not 1 <= channels <= interpreter.MOST_STREAMS:
            raise Unusable("INPUT is no file of whole numbers of 8, 16, 24 or 32 bits: see docs/FORMATS.md")
        return channels, bits

    def of_au(self, data):
        if len(data) < 24:
            raise Unusable("INPUT ends within its head")
        offset, size, encoding, _, channels = struct.unpack_from(">5I", data, 4)
        return (*self.checked(channels, {2: 8, 3: 16, 4: 24, 5: 32}.get(encoding)), data[offset : offset + size])

    def of_wave(self, data):
        at, form = 12, None
        while at + 8 <= len(data):
            name, size = struct.unpack_from("<4sI", data, at)
            body = data[at + 8 : at + 8 + size]
            if name == b"fmt " and len(body) >= 16:
                tag, channels, _, _, _, bits = struct.unpack_from("<HHIIHH", body)
                is_plain = tag == 1 or tag == 65534 and body[24:40] == PLAIN_SAMPLES
                form = self.checked(channels, bits if is_plain else None)
            if name == b"data" and form:
                return (*form, body)
            at += 8 + size + size % 2
        raise Unusable("INPUT ends before its samples")


def changes_of(script, controls):
    """The changes of a script: frames, labels and values."""
    changes, known, last = [], {control.label: control for control in controls}, 0
    for number, line in enumerate(script.split("\n"), 1):
        line = line[:-1] if line.endswith("\r") else line
        if not line or line.startswith("#"):
            continue
        match = re.fullmatch(r"([0-9]{1,10}) (.+) (-?[0-9]{1,10})", line, re.DOTALL)
        if not match:
            raise Unusable(f"line {number} of the script is not a frame, a label and a value with one space between")
        frame, label, value = int(match[1]), match[2], int(match[3])
        control = known.get(label)
        if not control:
            raise Unusable(f"line {number} of the script: no control has the label {shown(label)}")
        if not control.least <= value <= control.greatest:
            raise Unusable(f"line {number} of the script: {value} is not within {between(control.least, control.greatest)}")
        if frame < last:
            raise Unusable(f"line {number} of the script: its frame is before that of an earlier line")
        changes.append((frame, label, value))
        last = frame
    return changes


class Settings:
    """How many frames are played, on the bytes of which sound, if on any, under which script, and how wide outputs are."""

    def __init__(self, frames, sound=None, script=b"", bits=None):
        self.sound = Sound(sound, frames) if sound is not None else None
        self.frames = frames if self.sound is None else len(self.sound.frames)
        self.script = script.decode("latin-1")
        self.bits = bits or (self.sound.bits if self.sound else 16)
        if self.bits not in WIDTHS:
            raise Unusable("--bits is 8, 16, 24 or 32")

    def input(self, inputs):
        if self.sound is None:
            return [[0] * inputs] * self.frames
        if self.sound.channels != inputs:
            raise Unusable(f"INPUT has {amount(self.sound.channels, 'channel')}, and the program takes {inputs}")
        return self.sound.frames


# ---- loops that are counters or generators


class Loops:
    """What acts on the loops of a diagram. The facts of a stream are a set: `input` where an input of the program acts on it, and
    each loop around it whose fed back numbers do."""

    def __init__(self, diagram):
        # What acts on each loop; which of its outputs its own fed back numbers reach; the loops that are no generators, as what is
        # fed back passes something else; and the loops whose fed back numbers reach each leaf.
        self.acting, self.reached = collections.defaultdict(frozenset), collections.defaultdict(set)
        self.broken, self.within = set(), collections.defaultdict(frozenset)
        self.facts(diagram, [frozenset(["input"])] * diagram.inputs, {})
        driven = {"input"}
        while True:
            more = {loop for loop, facts in self.acting.items() if facts & driven} - driven
            if not more:
                break
            driven |= more
        self.generators = set(self.acting) - driven - self.broken

    def generated(self, diagram):
        """Which outputs of a loop are those of a counter or a generator."""
        return self.reached[id(diagram)] if id(diagram) in self.generators else set()

    def is_in_generator(self, diagram):
        return not self.generators.isdisjoint(self.within[id(diagram)])

    def facts(self, diagram, given, known):
        kind, parts = diagram.kind, diagram.parts
        if kind in ("number", "control", "waveform"):
            return [frozenset()] * diagram.outputs
        if kind == "slot":
            return [known[parts[0]]]
        if kind in ("primitive", "table"):
            return self.facts_of_leaf(diagram, given)
        if kind == "bind":
            return self.facts(parts[1], given[1:], {**known, parts[0]: given[0]})
        left, right = parts
        if kind == ",":
            return self.facts(left, given[: left.inputs], known) + self.facts(right, given[left.inputs :], known)
        if kind == "~":
            return self.facts_of_loop(diagram, given, known)
        between = self.facts(left, given, known)
        if kind == "<:":
            between = interpreter.dealt(between, right.inputs)
        if kind == ":>":
            between = [union(between[i :: right.inputs]) for i in range(right.inputs)]
        return self.facts(right, between, known)

    def facts_of_leaf(self, diagram, given):
        passing = LOOP_WORDS.get(diagram.parts[0], ()) if diagram.kind == "primitive" else ()
        for place, facts in enumerate(given):
            if place not in passing:
                self.broken |= facts
        whole = union(given)
        self.within[id(diagram)] |= whole
        return [whole] * diagram.outputs

    def facts_of_loop(self, diagram, given, known):
        left, right = diagram.parts
        loop = frozenset([id(diagram)])
        facts = self.facts(left, self.facts(right, [loop] * right.inputs, known) + given, known)
        self.acting[id(diagram)] |= union(facts[: right.inputs]) - loop
        self.reached[id(diagram)] |= {output for output, one in enumerate(facts) if one & loop}
        return [(one | self.acting[id(diagram)]) - loop if one & loop else one for one in facts]


def union(facts):
    return frozenset().union(*facts)


# ---- numbers that wrapped


class Origin:
    """Where a number wrapped first: the diagram, the frame, the operands, and whether it was told."""

    def __init__(self, diagram, time, operands):
        self.diagram, self.time, self.operands, self.is_told = diagram, time, [int(one) for one in operands], False


class Wrapped(int):
    """A number that wrapped, with what it would be and where it, or what it comes of, wrapped first."""

    def __new__(cls, exact, origins):
        number = super().__new__(cls, wrap(exact))
        number.exact, number.origins = exact, origins
        return number


class Phase(int):
    """A number that a counter or a generator gives, or that is one of these plus or minus what is none: 2^32 is a turn."""


def exact_of(number):
    return number.exact if type(number) is Wrapped else number


def origins_of(numbers):
    """Where these numbers wrapped first, each once."""
    return list(dict.fromkeys(origin for number in numbers if type(number) is Wrapped for origin in number.origins))


class Event:
    """What happened at one place of the text: at which frames, and at the first of them by which diagram on which operands."""

    def __init__(self):
        self.frames, self.first, self.diagram = set(), None, None

    def add(self, diagram, time, operands):
        self.frames.add(time)
        if self.first is None or time < self.first[0]:
            self.first, self.diagram = (time, [int(one) for one in operands]), diagram


class Quotient:
    """What a division gave so far: whether 0 alone; at how many frames 0 though the dividend is not, and of which operands at the
    first of them; whether the dividend rises or falls by the same at each frame since then, as that of a counter does; and
    since which frame the dividend is the same and the quotient 0."""

    def __init__(self, diagram):
        self.diagram, self.is_zero, self.count, self.first = diagram, True, 0, None
        self.last = self.step = self.since = None
        self.is_ramp = True

    def hear(self, time, x, y, quotient):
        if quotient:
            self.is_zero, self.since, self.last = False, None, None
            return
        if self.first is not None:
            step = x - (self.last or 0)
            self.is_ramp = self.is_ramp and step != 0 and self.step in (None, step)
            self.step = step
        if x:
            self.count += 1
            self.first = self.first or (time, [x, y])
            self.since = (time, [x, y]) if x != self.last or self.since is None else self.since
        else:
            self.since = None
        self.last = x

    def is_lost(self):
        """Whether it came to 0 throughout though its dividend did not, and no counter was on its way."""
        return self.is_zero and self.count > 0 and not (self.is_ramp and self.count > 2)

    def is_stuck(self, frames):
        """Whether it is 0 to the end under one dividend, after it was not."""
        return not self.is_zero and self.since is not None and frames - self.since[0] >= max(LEAST_STUCK, frames // 4)


class Watch(interpreter.Maker):
    """Makes runners that note what happens to their numbers, under the places of the text: which wrapped, which were divided by
    0, and which loops wrapped as counters or generators; and what divisions gave, one by one."""

    def __init__(self):
        self.loops, self.time = None, 0
        self.wraps, self.zeros, self.left_out, self.shifts = {}, {}, {}, {}
        self.quotients = []

    def prepare(self, diagram):
        """Looks at a diagram whose runner is to be made next."""
        spread(diagram)
        self.loops = Loops(diagram)

    def counted(self, frames):
        for self.time, frame in enumerate(frames):
            yield frame

    def note(self, events, diagram, time, operands):
        """Notes what happened by a diagram, under its place in the text."""
        events.setdefault(diagram.path[0].mark, Event()).add(diagram, time, operands)

    def tell(self, numbers):
        """Notes that these numbers wrapped where something else comes of it."""
        for origin in origins_of(numbers):
            if not origin.is_told:
                origin.is_told = True
                self.note(self.wraps, origin.diagram, origin.time, origin.operands)

    def kept(self, diagram, exact, operands):
        """A number as 32 bits keep it, with what it would be where that is another one."""
        if exact == wrap(exact):
            return exact
        number = Wrapped(exact, origins_of(operands)[:MOST_ORIGINS] or [Origin(diagram, self.time, operands)])
        if exact.bit_length() > MOST_BITS:
            self.tell([number])
            return int(number)
        return number

    def primitive(self, diagram):
        word, is_in_generator = diagram.parts[0], self.loops.is_in_generator(diagram)
        if word in ("mem", "prefix", "!"):
            return interpreter.primitive(word)
        if word == "@":
            return self.delay()
        if word in ("_", "int", "attach"):
            return lambda frame, known: frame[:1]
        if word in ("select2", "select3"):
            return self.choice(word)
        if word in ("+", "-"):
            return self.shift(diagram, word)
        if word in MODULAR:
            calculate = OPERATIONS[word]
            return lambda frame, known: [self.kept(diagram, calculate(*map(exact_of, frame)), frame)]
        if is_in_generator:
            return interpreter.primitive(word)
        return self.division(diagram, word) if word in ("/", "%") else self.strict(diagram, word)

    def shift(self, diagram, word):
        """A sum or a difference, which of a phase and of what is none is a phase."""
        calculate = OPERATIONS[word]

        def run(frame, known):
            exact, kinds = calculate(*map(exact_of, frame)), [type(number) for number in frame]
            if kinds.count(Phase) != 1 or Wrapped in kinds:
                return [self.kept(diagram, exact, frame)]
            if exact != wrap(exact):
                self.note(self.shifts, diagram, self.time, frame)
            return [Phase(wrap(exact))]

        return run

    def delay(self):
        delay = interpreter.primitive("@")

        def run(frame, known):
            self.tell(frame[1:])
            return delay(frame, known)

        return run

    def choice(self, word):
        choose = OPERATIONS[word]

        def run(frame, known):
            chosen = choose(*frame)
            if choose(exact_of(frame[0]), *frame[1:]) != chosen:
                self.tell(frame[:1])
            return [chosen]

        return run

    def strict(self, diagram, word):
        """An operation that gives something else where an operand wrapped."""
        calculate = OPERATIONS[word]

        def run(frame, known):
            value = int(calculate(*frame))
            if any(type(number) is Wrapped for number in frame):
                if calculate(*map(exact_of, frame)) != value:
                    self.tell(frame)
                return [wrap(value)]
            return [self.kept(diagram, value, frame)]

        return run

    def division(self, diagram, word):
        divide, quotient = self.strict(diagram, word), Quotient(diagram)
        self.quotients.append(quotient)

        def run(frame, known):
            given, (x, y) = divide(frame, known), frame
            if y == 0:
                self.note(self.zeros, diagram, self.time, frame)
            elif word == "/":
                quotient.hear(self.time, int(x), int(y), given[0])
            return given

        return run

    def table(self, diagram):
        read, writes, last = interpreter.table(*diagram.parts), diagram.parts[1], len(diagram.parts[0]) - 1

        def clamped(index):
            return max(0, min(index, last))

        def run(frame, known):
            indices = (frame[0], frame[-1]) if writes else frame
            self.tell(index for index in indices if clamped(exact_of(index)) != clamped(index))
            return read(frame, known)

        return run

    def merge(self, diagram):
        def run(frame, width):
            groups = (frame[i::width] for i in range(width))
            return [self.kept(diagram, sum(map(exact_of, group)), group) for group in groups]

        return run

    def feedback(self, diagram, left, right):
        width, generated = diagram.parts[1].inputs, self.loops.generated(diagram)
        fed = [0] * width

        def run(frame, known):
            nonlocal fed
            given = left(right(fed, known) + frame, known)
            for output in generated:
                if type(given[output]) is Wrapped:
                    self.note(self.left_out, diagram, self.time, given[:1])
                given[output] = Phase(given[output])
            self.tell(given[:width])
            fed = [int(number) for number in given[:width]]
            return given

        return run


# ---- what is told


def spelled(diagram, operands):
    """An operation on these operands, as it may stand in a text."""
    word = diagram.parts[0] if diagram.kind == "primitive" else "+"
    return f" {word} ".join(map(str, operands)) if len(operands) > 1 else f"{word}({operands[0]})"


def told(reading, diagram, happened, first, unit):
    """The lines for what happened at a diagram, first at this frame, or number of a table, with these operands."""
    place = reading.reader.place(diagram.path[0].mark)
    word = diagram.parts[0] if diagram.kind == "primitive" else diagram.kind
    line = f"  {word} at {reading.source.told(*place)} {happened} {unit} {first[0]}: {spelled(diagram, first[1])}"
    return [line, *reading.source.excerpt(*place), *("  " + line for line in chain(reading, diagram.path))]


def amount(count, unit):
    return f"{count} {unit}" + ("s" if count != 1 else "")


def by_place(quotients):
    """Of divisions at one place of the text the one that is first, in the order of the text."""
    first = {}
    for quotient in quotients:
        first.setdefault(quotient.diagram.path[0].mark, quotient)
    return [first[token] for token in sorted(first)]


def meant(reading, one, what):
    """The definition of the library that this happened in, where it is meant to happen there."""
    return reading.source.meant(reading.reader.place(one.diagram.path[0].mark)[0], what)


def arithmetic(reading, watch, frames, unit="frame"):
    """The lines for numbers that wrapped, or came to 0, but where the library means that."""
    lines = []
    for what, kind, events in (("wrapped", "wraps", watch.wraps), ("divided by 0", "zeros", watch.zeros)):
        for _, event in sorted(events.items()):
            if not meant(reading, event, kind):
                happened = f"{what} at {amount(len(event.frames), unit)}, first at"
                lines += told(reading, event.diagram, happened, event.first, unit)
    quotients = [quotient for quotient in watch.quotients if not meant(reading, quotient, "zeros")]
    for quotient in by_place(filter(Quotient.is_lost, quotients)):
        happened = f"gave 0 throughout, at {amount(quotient.count, unit)} of a dividend other than 0, first at"
        lines += told(reading, quotient.diagram, happened, quotient.first, unit)
    for quotient in by_place(quotient for quotient in quotients if quotient.is_stuck(frames)):
        lines += told(reading, quotient.diagram, "gives 0 to the end of a dividend other than 0, from", quotient.since, unit)
    return lines


def clipped(answer, bits, first_output):
    """The lines for outputs that do not fit into this many bits."""
    least, greatest = -(2 ** (bits - 1)), 2 ** (bits - 1) - 1
    lines = []
    for output in range(len(answer[0]) if answer else 0):
        beyond = [(time, frame[output]) for time, frame in enumerate(answer) if not least <= frame[output] <= greatest]
        if beyond:
            at = f"first at frame {beyond[0][0]}: {int(beyond[0][1])}"
            lines.append(f"  output {first_output + output} was clipped to {bits} bits at {amount(len(beyond), 'frame')}, {at}")
    return lines


def left_out(reading, watch, frames):
    """The lines for the counters and generators that wrapped, and for what the library means."""
    places = (reading.where(token) for token in sorted(watch.left_out))
    lines = [f"  left out: the loop by ~ at {place} wraps, as a counter or a generator does" for place in places]
    for token in sorted(watch.shifts):
        lines.append(f"  left out: {reading.spelled(token)} at {reading.where(token)} wraps, as it shifts a phase")
    lost = [quotient for quotient in watch.quotients if quotient.is_lost() or quotient.is_stuck(frames)]
    for happens, kind, found in (("wraps", "wraps", watch.wraps.values()), ("comes to 0", "zeros", [*watch.zeros.values(), *lost])):
        names = dict.fromkeys(name for name in (meant(reading, one, kind) for one in found) if name)
        lines += [f"  left out: {name} {happens}, as it is written to" for name in names]
    return lines


def computed(reading):
    """The lines for what was computed before anything is played: the numbers of tables, of arguments, counts and controls."""
    watch = Watch()
    for diagram, count in reading.evaluation.computed:
        watch.prepare(diagram)
        run = diagram.runner(watch)
        for _ in watch.counted(range(count)):
            watch.tell(run([], {}))
    lines = arithmetic(reading, watch, 0, "number")
    return ["before the first frame, in arguments and tables:", *lines] if lines else []


def played(reading, frames, changes, bits, first_output):
    """The lines for one program on these frames."""
    watch = Watch()
    watch.prepare(reading.diagram)
    answer = reading.play(watch.counted(frames), changes, watch)
    for frame in answer:
        watch.tell(frame)
    lines = arithmetic(reading, watch, len(frames)) + clipped(answer, bits, first_output)
    return (lines or [QUIET]) + left_out(reading, watch, len(frames))


def watched(reading, settings):
    """The lines for a program, or for the jobs of a file one after the other."""
    frames, changes = settings.input(reading.inputs), changes_of(settings.script, reading.controls)
    silent = ", on silence, as no INPUT is named" if settings.sound is None and reading.inputs else ""
    lines = [f"in {amount(settings.frames, 'frame')}{silent}:"]
    if not isinstance(reading, RackReading):
        return computed(reading) + lines + played(reading, frames, changes, settings.bits, 0)
    first_input = first_output = 0
    for job, program in enumerate(reading.readings):
        own = [(at, label[len(f"{job}/") :], value) for at, label, value in changes if label.startswith(f"{job}/")]
        given = [frame[first_input : first_input + program.inputs] for frame in frames]
        lines += [f"job {job}:", *computed(program), *played(program, given, own, settings.bits, first_output)]
        first_input, first_output = first_input + program.inputs, first_output + program.outputs
    return lines
