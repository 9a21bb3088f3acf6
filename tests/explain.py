"""What a program is refused for, and where, or what it is made of: the text that `bin/explain` prints. It stands on the
interpreter beside it, and knows of each diagram the forms that made it.

`explanation(file)` gives the lines for the bytes of a file, and whether it is accepted."""
import bisect
import collections
import os
import re
import unicodedata

import interpreter
from interpreter import Diagram, Program, Rack, Reader, Refused, TooMuch, Tree

WIDEST_EXCERPT = 100
MOST_USES = 12
# After so many steps the names that lead to an evaluation that does not end are those that matter.
PATIENCE_AFTER = 50_000
# Refusals whose first two fields are a line and a column.
PLACED = (5, 6, 7, 8, 9, 13, 18, 20, 21, 43)
# Those of a text that is no tree of the grammar.
UNREADABLE = (4, 5, 6, 7, 8, 9, 10, 43)


# ---- places


class Source:
    """The lines of a text, and where they come from: a job's first line is a later one of its file, and the lines after a
    comment `// from library/NAME.dsp:LINE` are those of that file. It says too whether their numbers are meant to wrap, or to
    come to 0."""

    FROM = re.compile(r"// from (\S+):([0-9]{1,9})(?:, where (wraps|zeros|wraps and zeros) are meant)?\r?")

    def __init__(self, text, lines_before=0):
        self.lines = text.split("\n")
        self.lines_before = lines_before
        # The numbers of the comments' lines; of each the file, the number of the line after it, and what is meant to happen there.
        self.starts, self.origins = [], []
        for number, line in enumerate(self.lines, 1):
            origin = self.FROM.fullmatch(line)
            if origin:
                self.starts.append(number)
                self.origins.append((origin[1], int(origin[2]), (origin[3] or "").split(" and ")))

    def part(self, line):
        """Which linked definition a line is in, counted from 0; none, in the text's own lines."""
        return bisect.bisect_left(self.starts, line) - 1 if self.starts and self.starts[0] < line else None

    def meant(self, line, what):
        """The linked definition that a line is in, in words, where this is meant to happen in it."""
        part = self.part(line)
        if part is None or what not in self.origins[part][2]:
            return None
        file, first, _ = self.origins[part]
        name = re.match(r"\w*", "".join(self.lines[self.starts[part] : self.starts[part] + 1]))[0]
        return f"{name} at {shown(file)}, line {first}"

    def told(self, line, column):
        """A place, in words."""
        part = self.part(line)
        if part is not None:
            file, first, _ = self.origins[part]
            return f"{shown(file)}, line {first + line - self.starts[part] - 1}, column {column}"
        if self.lines_before:
            return f"line {self.lines_before + line}, column {column} (line {line} of the job)"
        return f"line {line}, column {column}"

    def excerpt(self, line, column):
        """A line of the text, and a mark under one of its bytes; where the text ends, one after it."""
        text = self.lines[line - 1].rstrip("\r")
        while line > 1 and not text.strip():
            line, text = line - 1, self.lines[line - 2].rstrip()
            column = len(text) + 1
        first = max(0, column - 1 - WIDEST_EXCERPT // 2) if len(text) > WIDEST_EXCERPT else 0
        cut, rest = ".. " if first else "", " .." if len(text) > first + WIDEST_EXCERPT else ""
        piece = text[first : first + WIDEST_EXCERPT]
        before = cut + shown(piece[: column - 1 - first], keep="\t")
        blank = "".join("\t" if letter == "\t" else " " * width_of(letter) for letter in before)
        return ["    " + cut + shown(piece, keep="\t") + rest, "    " + blank + "^"]


def shown(text, keep=""):
    """What a terminal may show of a text whose characters are bytes."""
    letters = text.encode("latin-1").decode("utf-8", "replace")
    return "".join(letter if letter in keep or letter.isprintable() else "\ufffd" for letter in letters)


def width_of(letter):
    if unicodedata.combining(letter):
        return 0
    return 2 if unicodedata.east_asian_width(letter) in "WF" else 1


def times(count):
    return "once" if count == 1 else f"{count} times"


# ---- evaluation that keeps where it is


class Traced(interpreter.Evaluation):
    """An evaluation that keeps the path to the form that it is at: a form, and the path to the one that asked for it. Where it
    is refused, the path stays as it is. Diagrams and controls keep the path to the form that made them. The diagrams whose
    numbers it computes are kept, each with how many it takes of it."""

    def __init__(self, reader, patience=None):
        super().__init__(reader, patience)
        self.path = None
        self.open = {}
        self.computed = []

    def value(self, tree, environment):
        around, self.path = self.path, (tree, self.path)
        value = super().value(tree, environment)
        if isinstance(value, Diagram) and value.path is None:
            value.path = self.path
        self.path = around
        return value

    def drawn(self, value, tree):
        if isinstance(value, Diagram) or self.path and tree is self.path[0]:
            return super().drawn(value, tree)
        around, self.path = self.path, (tree, self.path)
        diagram = super().drawn(value, tree)
        if diagram.path is None:
            diagram.path = self.path
        self.path = around
        return diagram

    def control(self, control):
        control.path = self.path
        return super().control(control)

    def argument(self, value):
        if isinstance(value, Diagram) and value.kind != "number" and value.number() is not None:
            self.computed.append((value, 1))
        return super().argument(value)

    def known(self, value, tree):
        if isinstance(value, Diagram) and value.kind != "number":
            self.computed.append((value, 1))
        return super().known(value, tree)

    def numbers_of(self, head):
        numbers = super().numbers_of(head)
        self.computed.append((head, len(numbers)))
        return numbers

    def defined(self, body, environment):
        """What a definition is. One that stands for itself in the same scopes never ends, unless its tables cost too much."""
        key = id(body), id(environment)
        before = self.open.get(key)
        if before == self.tables:
            raise Refused(23, "EvalBudget")
        self.open[key] = self.tables
        value = super().defined(body, environment)
        self.open[key] = before
        return value


def spread(diagram, path=None):
    """Gives each part of a diagram that has no path that of what it is a part of."""
    pending = [(diagram, path)]
    while pending:
        diagram, path = pending.pop()
        if diagram.path is None:
            diagram.path = path
        pending.extend((part, diagram.path) for part in diagram.parts if isinstance(part, Diagram))


def parts_of(tree):
    """The forms that a form is made of."""
    for part in tree.parts:
        if isinstance(part, Tree):
            yield part
        elif isinstance(part, list):
            yield from (one for one in part if isinstance(one, Tree))


def name_used(tree):
    """The form of the name that a form evaluates, if it is one, or that it applies."""
    while tree.kind in ("apply", "group", "with"):
        tree = tree.parts[0]
    return tree if tree.kind in ("name", "negative") else None


def uses(path):
    """The names whose definitions the path leads through, the innermost one first: their forms, each once, with how often."""
    counts = collections.Counter()
    while path and path[1]:
        inner, (outer, _) = path[0], path[1]
        if not any(part is inner for part in parts_of(outer)):
            name = name_used(outer)
            if name:
                counts[name] += 1
        path = path[1]
    return counts


# ---- readings


class Reading(Program):
    """What comes of reading a text: a program, or what it is refused for, in `refused`, and all that is known of its forms. What
    takes more steps than the patience allows is taken for one whose evaluation does not end, and is cut."""

    def __init__(self, text, patience=None, lines_before=0):
        self.source = Source(text, lines_before)
        self.refused = self.reader = self.evaluation = None
        self.is_cut = False
        try:
            self.reader = Reader(text)
            scope = self.reader.program()
            self.evaluation = Traced(self.reader, patience)
            self.evaluate(scope, self.evaluation)
        except Refused as refused:
            self.refused = refused
        except TooMuch:
            self.refused, self.is_cut = Refused(23, "EvalBudget"), True

    def line(self):
        """The line of the program's report, by `check`."""
        if self.refused:
            return str(self.refused)
        return f"inputs {self.inputs} outputs {self.outputs} controls {len(self.controls)} size {self.diagram.size} delays {self.delays}"

    def path(self):
        """The path to the form that is refused, where evaluation or what comes after it refuses one."""
        if isinstance(self.refused.where, Diagram):
            spread(self.diagram)
            return self.refused.where.path
        return self.evaluation.path if self.evaluation else None

    def place(self):
        """The line and the column of what is refused, if there is one."""
        refused, path = self.refused, self.path()
        if refused.number in PLACED:
            return refused.fields[:2]
        if refused.number == 14:
            near = self.near("process")
            return self.reader.place(len(self.reader.tokens.found) - 1 if near is None else near)
        if refused.number == 29:
            return self.place_of_process()
        if isinstance(refused.where, int):
            return self.reader.place(refused.where)
        if not path:
            return None
        tree = path[0]
        return self.reader.place(tree.parts[1].mark if refused.number == 19 else tree.mark)

    def spelled(self, token):
        return self.reader.tokens.found[token][1]

    def token_at(self, line, column):
        """The spelling of the token at a place; none at the text's end."""
        at = self.reader.tokens.lines[line - 1] + column - 1
        return next((token for kind, token, begin in self.reader.tokens.found if begin == at), "")

    def near(self, name):
        """The token of the definition whose name is the most like this one, if one is."""
        import difflib

        defined = {self.spelled(token): token for token in reversed(self.reader.defined)}
        like = difflib.get_close_matches(name, defined, 1, 0.75)
        return defined[like[0]] if like else None

    def ending(self, line, column):
        """What is said more of a place behind all tokens."""
        return ", where the text ends" if self.refused.number in (9, 14) and not self.token_at(line, column) else ""

    def place_of_process(self):
        """Where `process` is defined: the outermost definition of that name."""
        depth = 0
        for number, (_, token, _) in enumerate(self.reader.tokens.found):
            depth += (token == "{") - (token == "}")
            if depth == 0 and token == "process" and number in self.reader.defined:
                return self.reader.place(number)
        return None

    def where(self, token):
        """The place of a token, in words."""
        return self.source.told(*self.reader.place(token))

    def told(self, prefix=""):
        """The lines after its own; of a job, whose controls have labels that begin so."""
        return self.told_of_refusal() if self.refused else composition(self, prefix)

    def told_of_refusal(self):
        """The lines after its own for a text that is refused: the place, the chain of names, and what it means."""
        place, lines = self.place(), []
        if place:
            lines = [f"  at {self.source.told(*place)}{self.ending(*place)}:", *self.source.excerpt(*place)]
        return [*lines, *chain(self, self.path()), meaning(self)]


def chain(reading, path):
    """The names that a path leads through, with their places."""
    if not path:
        return []
    lines = []
    for name, count in uses(path).items():
        often = f" ({count} times, one within the other)" if count > 1 else ""
        lines.append(f"  in {name.parts[0]}, used at {reading.where(name.at)}{often}")
    if len(lines) > MOST_USES:
        half = MOST_USES // 2
        lines[half:-half] = [f"  and in {len(lines) - 2 * half} others"]
    return [*lines, f"  in process, {reading.source.told(*reading.place_of_process())}"]


# ---- what a refusal means, and what usually cures it

MEANINGS = {
    4: "The file has more than 1048576 bytes: leave out what the program does not use, and compute long tables instead of listing them.",
    5: "No token begins with this byte: outside of comments and strings use ASCII letters, digits and Faust's signs alone.",
    7: "All numbers are whole: scale instead, as _ * 3 / 4 for _ * 0.75.",
    8: "An integer is at most 2147483647: write a smaller one, or count in larger units.",
    11: "One list of definitions says more than once what {0} is: rename one, or give all of them patterns, so that they are rules.",
    12: "{0} stands twice in one list of parameters or patterns: give each place a name of its own.",
    13: "This rule has another number of patterns than the first rule of its name or case: give all rules the same number.",
    14: "Nothing says what to play: define process, outside of any `with`.",
    15: "The diagram would have {0} nodes, more than 16384: repeat less, or compute a part once and copy its stream by <:.",
    17: "Nothing defines {0} here: check its spelling (capitals count), or define it in the text or in a `with` around it.",
    18: "A number that is known before the run has to stand here: use integers and operations on them, not a signal or a control.",
    19: "A repetition is made at least once, and this count is {0}: start at 1, or handle 0 in a rule of its own.",
    20: "No rule matches the arguments of this application: add one that matches everything, as (n) => 0, or check where a recursion ends.",
    21: "A diagram has to stand where these rules still want arguments: apply them to as many arguments as they have patterns.",
    23: "Evaluation takes more than 1000000 steps: a recursion has no rule that ends it, as (0) => 0, or repeats too often.",
    24: "Two controls that differ have the label {0}: give each a label of its own, or both the same kind and numbers.",
    25: "The first value is out of bounds: after the label come the first value, the least, the greatest and the step.",
    26: "This delay may be {0}, less than 0: bound it, as in x @ (d : max(0) : min(4000)).",
    27: "This delay may be {0}, more than 1048575: bound it, as in x @ (d : max(0) : min(4000)).",
    28: "All delays together may be {0}, more than 16777216, and this is the longest: bound them more tightly, or use fewer.",
    42: "Waveforms and tables cost {0} together, more than 16777216: use shorter tables, or compute their numbers by fewer nodes.",
    43: "A 129th bracket is open here: give names to the parts inside.",
    47: "A file of jobs has at most 16, and this one has {0}: split it into several files.",
}
ARITIES = {
    "seq": "The left side of : has {0} and its right side takes {1}: <: copies streams, :> adds them up, and ! drops one.",
    "split": "<: copies {0} to a right side that takes {1}, which is no multiple: take as many, twice as many and so on.",
    "merge": ":> adds {0} up into a right side that takes {1}, which does not divide them: take one, or an equal share.",
    "recout": "The right side of ~ takes {1} from the left side, which has {0} outputs: let it take fewer, or give more.",
    "recin": "The right side of ~ feeds back {1} into the left side, which has {0} inputs: feed back fewer, or let it take more.",
}
TABLES = {
    "head": "A table's size and numbers come first, and depend on no input, control or parameter: write (waveform{1,2}, _ : rdtable) : f.",
    "size": "A table has at least one number: make the size, the first stream at time 0, 1 or more.",
    "primitive": "This word is no table yet: it stands alone on the right of a :, as in (waveform{1,2}, _ : rdtable) : f.",
}
FAUST_LIBRARIES = "Faust's libraries are of real numbers: leave this out, and take the names of the library here, which faustvec-link (bin/link) adds."
UNSUPPORTED = {
    "%": "A label may not take a number in by %: name the control in full, outside of the repetition, and hand it in as a parameter.",
    "^": "There is no power: write x * x, or prod(i, n, x).",
    "import": FAUST_LIBRARIES,
    "library": FAUST_LIBRARIES,
    "component": "A program is one text: copy the other one's definitions into a `with`.",
    "environment": "There are no environments: put the definitions into a `with`, or at the outside.",
    "letrec": "There is no letrec: feed back with ~.",
    "route": "There is no route: order streams with _ , ! and <:.",
    "float": "All numbers are whole: leave float out, and multiply before you divide.",
}
OURS = {"sin": "os_sin", "cos": "os_cos", "exp": "dy_exp2", "exp10": "dy_exp2", "pow": "dy_exp2", "log": "dy_log2", "log10": "dy_log2"}
REALS = "sin cos tan asin acos atan atan2 exp exp10 log log10 pow sqrt fmod remainder floor ceil rint".split()


def streams(count):
    return "1 stream" if count == 1 else f"{count} streams"


def meaning(reading):
    """One sentence on what a refusal means and what usually cures it."""
    refused = reading.refused
    number, fields = refused.number, refused.fields
    special = {6: unclosed, 7: real, 9: syntax, 10: unsupported, 14: missing, 16: arity, 17: missing, 22: applied, 24: clash, 29: channels}
    if number in special:
        return special[number](reading, *fields)
    return TABLES[fields[0]] if number == 41 else MEANINGS[number].format(*fields)


def unclosed(reading, line, column):
    what, end = ("string", '"') if reading.source.lines[line - 1][column - 1] == '"' else ("comment", "*/")
    return f"The {what} that begins here never ends: put {end} where it is to end."


def real(reading, line, column):
    if re.search(r"\b(hslider|vslider|nentry)\s*\([^()]*$", reading.source.lines[line - 1][: column - 1]):
        return 'All numbers are whole, those of a control too: a gain of 0 to 1 is _ * hslider("gain", 128, 0, 256, 1) / 256.'
    return MEANINGS[7]


def syntax(reading, line, column):
    """What a grammar's refusal means, by the token that no program goes on with."""
    token = reading.token_at(line, column)
    if reading.source.lines[line - 1].rstrip("\r") == "%%":
        return "A line %% separates the programs of a file of jobs: give it to the command rack."
    if not token:
        return "The text ends within a definition: a ; is missing at its end, or a bracket is not closed."
    if token == ".":
        text = reading.source.lines[line - 1]
        return of_faust(re.search(r"\w*$", text[: column - 1])[0] + re.match(r"[.\w]*", text[column - 1 :])[0])
    if token == "=":
        return "A = stands only after what is defined: a ; is missing before its name, or == is meant."
    if token in interpreter.RESERVED:
        return f"The word {token} cannot stand here: an operator, a ; or a bracket is missing before it, or it is used as a name."
    return f"No program goes on with {shown(token[:40])} here: an operator, a ; or a bracket is missing before it, or it is one too many."


def unsupported(reading, word):
    if word in OURS:
        return f"All numbers are whole, and there is no {word}: take {OURS[word]} of the library here, which faustvec-link (bin/link) adds, or a table."
    if word in REALS:
        return f"All numbers are whole, and there is no {word}: take a table, a polynomial, or a resonator that is struck."
    return UNSUPPORTED.get(word, f"{word} is not in the integer part of Faust: leave it out, or write it by other forms.")


def library():
    """The names of the library that stands beside this file's folder, or is installed in it, each with its name in Faust's libraries."""
    folder, names = os.path.dirname(os.path.realpath(__file__)), {}
    for place in (os.path.join(folder, "..", "library"), os.path.join(folder, "library")):
        for file in sorted(os.listdir(place)) if os.path.isdir(place) else ():
            if file.endswith(".dsp"):
                with open(os.path.join(place, file), encoding="latin-1") as text:
                    for faust, name in re.findall(r"(?:^// +Faust: (.*)\n(?://.*\n)*)?^(\w+)", text.read(), re.M):
                        names.setdefault(name, re.sub("`[^`]*`", "", faust))
    return names


LINKED = "link it to the program by faustvec-link (in the repository bin/link), as in run <(bin/link p.dsp) in.wav out.wav."


def missing(reading, name="process"):
    near, known = reading.near(name), library() if reading.refused.number == 17 else {}
    if name in known:
        return f"The library defines {name}: {LINKED}"
    question = "" if near is None else f" Is {reading.spelled(near)} meant, which is defined at {reading.where(near)}?"
    if not question and "_" in name:
        import difflib

        like = difflib.get_close_matches(name, known, 1, 0.8)
        question = f" Is {like[0]} of the library meant?" if like else ""
    return MEANINGS[reading.refused.number].format(name) + question


def of_faust(name):
    """What to write for a name of Faust's libraries."""
    if name == "ma.SR":
        return "There is no ma.SR: times are in samples, and a frequency stands beside the sample rate, a number that you choose."
    known = library() if re.fullmatch(r"[a-z]\w*(\.\w+)+", name) else {}
    found = [ours for ours, faust in known.items() if re.search(rf"\b{re.escape(name)}\b", faust)]
    if not found:
        return "Nothing goes on with a dot here: there are no libraries with prefixes, so define the name in the text itself."
    best = min(found, key=lambda ours: (ours != name.replace(".", "_"), not known[ours].startswith(name), len(known[ours])))
    return f"There is no {name}: take {best} of the library here, which has another scale, and {LINKED}"


def arity(reading, kind, left, right):
    tree = reading.path()[0]
    if kind == "seq" and tree.kind == "infix":
        return f"{tree.parts[0]} takes one stream from each side, and these give {left} together: put brackets around what is one stream."
    if kind == "seq" and tree.kind in ("late", "negative"):
        return f"This sign takes one stream, and has {streams(left)}: apply it to each, as in par(i, {left}, mem)."
    if tree.kind in interpreter.ITERATIONS:
        return f"What is repeated does not fit to itself, {streams(left)} to {right}: each repetition takes and gives as many as the next."
    return ARITIES[kind].format(*((left, streams(right)) if kind in ("recout", "recin") else (streams(left), right)))


def applied(reading, given, inputs):
    return f"What is applied takes {streams(inputs)}, and its arguments have {given}: leave some out, or apply what takes more."


def clash(reading, label):
    first = reading.evaluation.controls[label].path[0]
    return MEANINGS[24].format(f'"{shown(label)}"') + f" The first one stands at {reading.where(first.mark)}."


def channels(reading, have, want):
    if have == 0:
        return "The program gives no stream: process needs an output, so drop fewer streams by !."
    return f"The program has {have} streams on one side, and may have {want}: add some up by :>."


# ---- what a program is made of


def delays_by_place(reading):
    """The delays of a program by place and span, in the order of the text, with how often each is there."""
    spread(reading.diagram)
    counts = collections.Counter()
    for span, diagram in interpreter.delays_of(reading.diagram, reading.controls):
        counts[diagram.path[0].mark, span] += 1
    return sorted(counts.items())


def between(least, greatest):
    return str(least) if least == greatest else f"{least} to {greatest}"


def composition(reading, prefix=""):
    """The lines for a text that is accepted, but for its own: its delays and its controls, whose labels begin so."""
    lines = []
    for (token, span), count in delays_by_place(reading):
        often = "" if count == 1 else f", {times(count)}"
        lines.append(f"  delay of {between(*span)}{often}, by {reading.spelled(token)} at {reading.where(token)}")
    for control in reading.controls:
        bounds = f"{control.initial} at first, {between(control.least, control.greatest)}, step {control.step}"
        if control.kind in interpreter.SWITCHES:
            bounds = "0 at first, 0 or 1"
        label = shown(prefix + control.label)
        lines.append(f'  control "{label}", {control.kind}: {bounds}, at {reading.where(control.path[0].mark)}')
    return lines


# ---- files


class RackReading(Rack):
    """What comes of reading a file of jobs: the readings of its texts, and what it is refused for."""

    def __init__(self, file, patience=None):
        self.readings, self.refused = [], None
        try:
            before = 0
            for text in interpreter.texts_of(file):
                self.readings.append(Reading(text, patience, before))
                before += text.count("\n") + 1
            for job, reading in enumerate(self.readings):
                if reading.refused:
                    raise Refused(46, "Job", job, reading.refused.number)
            self.join(self.readings)
        except Refused as refused:
            self.refused = refused

    def line(self):
        if self.refused:
            return str(self.refused)
        delays = sum(job.delays for job in self.jobs)
        return f"jobs {len(self.jobs)} inputs {self.inputs} outputs {self.outputs} controls {len(self.controls)} delays {delays}"

    def told_of_refusal(self):
        return self.told(with_accepted=False)

    def told(self, with_accepted=True):
        """The lines after its own, for each job, or for each that is refused."""
        lines = []
        for job, reading in enumerate(self.readings):
            if reading.refused or with_accepted:
                lines += [f"job {job}: {shown(reading.line())}", *reading.told(f"{job}/")]
        if self.refused and self.refused.number != 46:
            lines.append(self.meaning())
        return lines

    def meaning(self):
        """What it means that all jobs together are refused."""
        number, fields = self.refused.number, self.refused.fields
        if number == 28:
            delays = ", ".join(str(reading.delays) for reading in self.readings)
            return f"All jobs together have delays of {fields[0]}, where 16777216 are allowed ({delays}, job by job): bound them closer."
        if number == 29:
            return f"All jobs together have {fields[0]} streams on one side, where {fields[1]} are allowed: leave some out."
        return MEANINGS[number].format(*fields)


def readings(file, as_rack=False, patience=None):
    """What comes of reading a file: as one text, unless it is told that it has jobs, and then as jobs where lines separate some."""
    if not as_rack:
        yield Reading(file, patience)
    if as_rack or interpreter.SEPARATOR.search(file):
        yield RackReading(file, patience)


def read(file, as_rack=False):
    """What comes of reading a file as one text, or as jobs where it is none that can be read."""
    found = list(readings(file, as_rack))
    refused = found[0].refused
    return found[-1] if refused and refused.number in UNREADABLE else found[0]


def explanation(file, as_rack=False):
    """The lines for a file, whose characters are bytes, and whether it is accepted."""
    reading = read(file, as_rack)
    return lines_of(reading), not reading.refused


def lines_of(reading):
    """All lines for what was read."""
    return [shown(reading.line()), *reading.told()]


def after(file, line, as_rack=False):
    """The lines for a file that the program refused by this line, without it; none where it was refused for something else."""
    patience = PATIENCE_AFTER if re.fullmatch("refused (23 EvalBudget|46 Job [0-9]+ 23)", line) else None
    for reading in readings(file, as_rack, patience):
        if not reading.refused:
            return input_channels(reading, line)
        if reading.line() == line:
            return reading.told_of_refusal()
    return []


def input_channels(reading, line):
    """What it means that an input has other channels than a program that is accepted."""
    match = re.fullmatch("refused 29 Channels ([0-9]+) ([0-9]+)", line)
    have, want = map(int, match.groups()) if match else (0, 0)
    if want != reading.inputs or have == want:
        return []
    if have == 0:
        return [f"The program takes {streams(want)}: name a sound file of as many channels as INPUT, instead of -."]
    if want == 0:
        return ["The program takes no stream: give - as INPUT, and --frames for the length."]
    channels = "1 channel" if have == 1 else f"{have} channels"
    if isinstance(reading, RackReading):
        return [f"The input has {channels}, and the jobs take {streams(want)} together: name another file, or change a job."]
    cure = "drop channels by !, or name another file"
    if have % want == 0:
        cure = f"repeat it, as in process = par(i, {have // want}, effect)"
    elif want % have == 0:
        cure = f"copy the input to it, as in process = {','.join('_' * have)} <: effect"
    return [f"The input has {channels}, and the program takes {streams(want)}: {cure}."]
