"""The rows of bin/link: each calls it on a small library of its own, beside a copy of the command."""
import os
import shutil
import subprocess
import sys
import tempfile

TOP = os.path.realpath(os.path.join(os.path.dirname(os.path.abspath(__file__)), "../.."))

AA = """// aa_one: the number one.
aa_one = 1; // after it

/* between
   two lines */ // aa_not_here = 3;
// aa_two(x): twice x; "quoted", ab_one.
aa_two(x) = x, aa_one /* in it
  and on */ : aa_add // to its end
  ;

// Private: adds.
aa_add = + ;

aa_rules(0) = aa_one;
aa_rules(n) = aa_rules(n - 1) : label
with { label = *(vslider("aa_two // not a comment", 1, 1, 9, 1)); };

// aa_turn(p): a quarter of a turn later.
//   Wraps: the phase.
aa_turn(p) = p + 1073741824;

// Private: a part of a turn.
//   Wraps: the phase. Zeros: none of it.
//   Zeros: the part.
aa_part(p, n) = aa_turn(p) / n;
"""
AB = "ab_last = aa_two(4) : ab_helper;\nab_helper = _; // first\nab_alone = 5;\n"


class Call:
    """A row: `bin/link` with these words, on these files, gives this output, these notes and this status."""

    definition = "bin/link"

    def __init__(self, what, words, program=None, text=None, said="", status=0, after=None, stdin=b"", installed=False):
        self.what, self.words, self.program, self.text, self.said, self.status = what, words, program, text, said, status
        self.after, self.stdin, self.installed = after, stdin, installed

    def fault(self, player):
        with tempfile.TemporaryDirectory() as folder:
            command = self.laid_out(folder)
            if self.program is not None:
                with open(os.path.join(folder, "p.dsp"), "wb") as file:
                    file.write(self.program)
            words = [sys.executable, command, *self.words]
            done = subprocess.run(words, cwd=folder, input=self.stdin, stdout=subprocess.PIPE, stderr=subprocess.PIPE)
            if done.returncode != self.status:
                return f"status {done.returncode} and {done.stderr.decode()!r}, where status {self.status} is expected"
            if done.stderr.decode() != self.said:
                return f"it says {done.stderr.decode()!r}, where {self.said!r} is expected"
            if self.text is not None and done.stdout != self.text:
                return f"it prints {done.stdout!r}, where {self.text!r} is expected"
            return self.after(done.stdout) if self.after else None

    def laid_out(self, folder):
        """A copy of the command, with the small library where it looks for it."""
        library = os.path.join(folder, "lib/faustvec/library" if self.installed else "library")
        os.makedirs(os.path.join(folder, "bin"))
        os.makedirs(library)
        command = os.path.join(folder, "bin", "faustvec-link" if self.installed else "link")
        shutil.copy(os.path.join(TOP, "bin/link"), command)
        for name, text in (("aa.dsp", AA), ("ab.dsp", AB)):
            with open(os.path.join(library, name), "w", encoding="ascii") as file:
                file.write(text)
        return command


class Refused:
    """A row: the place of a text's error is the same when it is linked."""

    definition = "bin/link"

    def __init__(self, text):
        self.text, self.what = text, f"the place of an error stays: {text!r}"

    def fault(self, player):
        """The program is called with the text alone, and linked with the whole library."""
        with tempfile.TemporaryDirectory() as folder:
            path = os.path.join(folder, "p.dsp")
            player.written(path, self.text)
            words = [sys.executable, os.path.join(TOP, "bin/link"), path]
            linked = subprocess.run(words, stdout=subprocess.PIPE, stderr=subprocess.DEVNULL, check=True)
            other = player.written(os.path.join(folder, "q.dsp"), linked.stdout)
            alone, together = player.call("check", path), player.call("check", other)
        return None if alone == together and alone[0] == 3 else f"{alone} alone, {together} linked"


def lines_are_the_files(printed):
    """Each line after `// from library/NAME.dsp:LINE` is that line of the file, its comments apart."""
    texts = {"library/aa.dsp": AA.split("\n"), "library/ab.dsp": AB.split("\n")}
    place = None
    for line in printed.decode().split("\n"):
        if line.startswith("// from "):
            path, _, number = line[len("// from "):].partition(":")
            place = texts[path][int(number) - 1 :]
        elif place is not None and line:
            if not place[0].startswith(line.split("  ")[0][:12].rstrip()):
                return f"{line!r} is printed for {place[0]!r}"
            place = place[1:]
    return None


TWO = b"""// linked from p.dsp
// from library/aa.dsp:2
aa_one = 1;
// from library/aa.dsp:7
aa_two(x) = x, aa_one
            : aa_add
  ;
// from library/aa.dsp:12
aa_add = + ;
"""

ROWS = [
    Call("a text that needs nothing is printed alone", ["p.dsp"], b"process = _;\n", b"process = _;\n"),
    Call("an empty text stays empty", ["p.dsp"], b"", b""),
    Call("a text gets an end of its last line", ["p.dsp"], b"process = _; // no end", b"process = _; // no end\n"),
    Call(
        "bytes beyond ASCII, and ends of lines of other systems, stay", ["p.dsp"],
        b"// \xff\xc3\xa9\r\nprocess = aa_add;\r\n",
        b"// \xff\xc3\xa9\r\nprocess = aa_add;\r\n// linked from p.dsp\n// from library/aa.dsp:12\naa_add = + ;\n",
    ),
    Call(
        "what is needed, directly or not, in the library's order", ["p.dsp"],
        b"process = aa_two(3);\n", b"process = aa_two(3);\n" + TWO,
    ),
    Call(
        "lines and columns are those of the library's file", ["p.dsp"],
        b"process = aa_rules(3), ab_last;\n",
        after=lines_are_the_files,
    ),
    Call(
        "a name within a string or a comment is none", ["p.dsp"],
        b'process = button("aa_two"); // aa_one\n/* ab_last */\n', b'process = button("aa_two"); // aa_one\n/* ab_last */\n',
    ),
    Call(
        "each rule of a name, and a string that keeps its slashes", ["p.dsp"],
        b"process = aa_rules(2);\n",
        b"process = aa_rules(2);\n// linked from p.dsp\n// from library/aa.dsp:2\naa_one = 1;\n"
        b"// from library/aa.dsp:14\naa_rules(0) = aa_one;\n"
        b"// from library/aa.dsp:15\naa_rules(n) = aa_rules(n - 1) : label\n"
        b'with { label = *(vslider("aa_two // not a comment", 1, 1, 9, 1)); };\n',
    ),
    Call(
        "one's own name wins, also where the library uses it", ["p.dsp"],
        b"aa_one = 7; process = aa_two(3);\n",
        b"aa_one = 7; process = aa_two(3);\n" + TWO.replace(b"// from library/aa.dsp:2\naa_one = 1;\n", b""),
        "link: p.dsp: its own aa_one stands for the library's in aa_two too\n",
    ),
    Call(
        "a name with rules of one's own wins", ["p.dsp"],
        b"aa_add(0) = _;\naa_add(n) = n;\nprocess = aa_add;\n", b"aa_add(0) = _;\naa_add(n) = n;\nprocess = aa_add;\n",
    ),
    Call(
        "what is meant to wrap or to come to 0", ["p.dsp"],
        b"process = aa_part(_, 9);\n",
        b"process = aa_part(_, 9);\n// linked from p.dsp\n// from library/aa.dsp:20, where wraps are meant\naa_turn(p) = p + 1073741824;\n"
        b"// from library/aa.dsp:25, where wraps and zeros are meant\naa_part(p, n) = aa_turn(p) / n;\n",
    ),
    Call(
        "a file of jobs, each of which gets what it needs", ["p.dsp"],
        b"process = aa_add;\r\n%%\r\nprocess = 1;\n%%\n/*\n%%\n*/ process = aa_add;\n%%",
        b"process = aa_add;\r\n// linked from p.dsp\n// from library/aa.dsp:12\naa_add = + ;\n%%\r\n// from p.dsp:3\nprocess = 1;\n%%\n"
        b"// from p.dsp:5\n/*\n%%\n// from p.dsp:7\n*/ process = aa_add;\n// linked from p.dsp\n// from library/aa.dsp:12\naa_add = + ;\n%%",
        "link: p.dsp: nothing is linked, since a comment in it never ends\n",
    ),
    Call("jobs that need nothing stay", ["p.dsp"], b"process = _;\n%%\nprocess = 1;", b"process = _;\n%%\nprocess = 1;\n"),
    Call(
        "a line %% in a comment separates nothing", ["p.dsp"],
        b"/*\n%%\n*/ process = aa_add;\n",
        b"/*\n%%\n*/ process = aa_add;\n// linked from p.dsp\n// from library/aa.dsp:12\naa_add = + ;\n",
    ),
    Call("a linked text needs nothing more", ["p.dsp"], b"process = aa_two(3);\n" + TWO, b"process = aa_two(3);\n" + TWO),
    Call(
        "standard input", ["-"],
        stdin=b"process = aa_add;", text=b"process = aa_add;\n// linked from -\n// from library/aa.dsp:12\naa_add = + ;\n",
    ),
    Call(
        "where it is installed", ["p.dsp"],
        b"process = aa_add;\n",
        installed=True, text=b"process = aa_add;\n// linked from p.dsp\n// from library/aa.dsp:12\naa_add = + ;\n",
    ),
    Call(
        "a name that looks like the library's", ["p.dsp"],
        b"process = aa_tow, ac_tow, x with { ab_x = 1; x = ab_x; };\n",
        b"process = aa_tow, ac_tow, x with { ab_x = 1; x = ab_x; };\n",
        "link: p.dsp: the library has no aa_tow; the nearest is aa_two\n",
    ),
    Call(
        "a text whose last definition does not end", ["p.dsp"],
        b"process = aa_two(3)", b"process = aa_two(3)",
        "link: p.dsp: nothing is linked, since its last definition does not end with ;\n",
    ),
    Call(
        "a text with an open bracket", ["p.dsp"],
        b"process = aa_two(3;\n", b"process = aa_two(3;\n", "link: p.dsp: nothing is linked, since a bracket in it is not closed\n",
    ),
    Call(
        "a text with an open comment", ["p.dsp"],
        b"process = aa_add; /* and\n", b"process = aa_add; /* and\n",
        "link: p.dsp: nothing is linked, since a comment in it never ends\n",
    ),
    Call(
        "a text with an open string", ["p.dsp"],
        b'declare a "aa_add; process = _;\n', b'declare a "aa_add; process = _;\n',
        "link: p.dsp: nothing is linked, since a string in it never ends\n",
    ),
    Call("the list", ["--list"], text=b"aa_one      the number one.\naa_two(x)   twice x; \"quoted\", ab_one.\naa_turn(p)  a quarter of a turn later.\n"),
    Call("help", ["--help"], after=lambda printed: None if b"bin/link PROGRAM" in printed else f"it prints {printed!r}"),
    Call("a program that is not there", ["none.dsp"], text=b"", said="link: none.dsp: No such file or directory\n", status=2),
    Call("a folder", ["bin"], text=b"", said="link: bin: Is a directory\n", status=2),
    Call("no word", [], text=b"", said="link: one PROGRAM (- is standard input), --list or --help is wanted\n", status=2),
    Call(
        "a word too many", ["p.dsp", "q.dsp"],
        text=b"", said="link: one PROGRAM (- is standard input), --list or --help is wanted\n", status=2,
    ),
    Call(
        "an option that is not there", ["--lits"],
        text=b"", said="link: one PROGRAM (- is standard input), --list or --help is wanted\n", status=2,
    ),
    Refused(b"process = ga_gain(3),\n  ga_gain;;\n"),
    Refused(b"process = ga_gain(3)"),
    Refused(b"process = ga_gain(3) /* never\n"),
    Refused(b"process = ga_gain(3) $ 4;\n"),
    Refused(b"process = ga_gain(0.5);\n"),
    Refused(b"process = ga_gain(3) : ;\n"),
    Refused(b"process = ga_gain(3)) ;\n"),
    Refused(b"a = 1\nprocess = ga_gain(3);\n"),
    Refused(b"a = ga_gain(3);\n"),
    Refused(b"process = ga_gain(3) : import(\"x\");\n"),
]
