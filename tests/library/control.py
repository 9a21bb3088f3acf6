"""Rows about library/control.dsp. The references say what each thing is, on whole lists of samples: where a signal rises, which value
was the last, how many steps were taken."""
import math
import random

from rows import Row, every, near, noise, settled, sine, step

LONG = 2000


def gates(frames, seed, longest=30):
    """Gates of many lengths, 0 and other numbers below 1 between them; some are longer than a frame, some are not."""
    source, signal = random.Random(seed), []
    while len(signal) < frames:
        signal += [source.choice([0, 0, -3])] * source.randint(1, longest) + [source.choice([1, 1, 7])] * source.randint(1, longest)
    return signal[:frames]


def held(values, frames, each):
    """Each value for so many frames."""
    return [values[frame // each % len(values)] for frame in range(frames)]


def is_open(gate):
    return [level > 0 for level in gate]


def rises(gate):
    """In which frames a gate opens."""
    return [now and not before for now, before in zip(is_open(gate), [False] + is_open(gate))]


def numbers(truths):
    return [int(truth) for truth in truths]


def rises_up_to(gate):
    """How often a gate has opened up to each frame, that one with it."""
    counts = []
    for rise in rises(gate):
        counts.append((counts[-1] if counts else 0) + rise)
    return counts


def last_where(marks, values, first=0):
    """For each frame the value of the last marked one."""
    known, found = first, []
    for mark, value in zip(marks, values):
        known = value if mark else known
        found.append(known)
    return found


def since_last(marks):
    """For each frame how many frames ago the last marked one was; None before there is one."""
    last, found = None, []
    for frame, mark in enumerate(marks):
        last = frame if mark else last
        found.append(None if last is None else frame - last)
    return found


GATE, OTHER, RESET = gates(LONG, 1), gates(LONG, 2, 60), held([0] * 9 + [1], LONG, 13)
SOUND = noise(LONG, 32767, 3)
TIMES, RISES = range(LONG), rises(GATE)


def run_lengths(gate):
    """For each frame how many frames the gate has been open, that one with it; 0 while it is closed."""
    lengths = []
    for now in is_open(gate):
        lengths.append((lengths[-1] if lengths else 0) + 1 if now else 0)
    return lengths


def switched(on, off):
    """1 where a frame of `on` came after the last one of `off`, or is this one, and this one is none of `off`."""
    begun, ended = since_last(is_open(on)), since_last(is_open(off))
    return [int(since is not None and (stop is None or since < stop)) for since, stop in zip(begun, ended)]


TRIGGERS = [
    Row("co_rise", "each frame where a gate opens, the first one too", "co_rise", [GATE], expected=[numbers(rises(GATE))]),
    Row("co_rise", "a gate that is open from the start rises once", "co_rise", [[5, 5, 0, 1]], expected=[[1, 0, 0, 1]]),
    Row(
        "co_fall",
        "each frame where a gate closes",
        "co_fall",
        [GATE],
        expected=[numbers(rises([1 - now for now in [0] + numbers(is_open(GATE))])[1:])],
    ),
    Row(
        "co_change",
        "each frame that differs from the one before",
        "co_change",
        [held([0, 4, 4, -1], LONG, 3)],
        expected=[numbers(frame and frame % 3 == 0 and frame // 3 % 4 in (0, 1, 3) for frame in TIMES)],
    ),
    Row("co_toggle", "the parity of the rises so far", "co_toggle", [GATE], expected=[[count % 2 for count in rises_up_to(GATE)]]),
    Row("co_on_off", "on from the one to the other, which wins", "co_on_off", [GATE, OTHER], expected=[switched(GATE, OTHER)]),
    Row("co_on_off", "is off while both are open", "co_on_off", [[1, 1, 0, 0, 1], [0, 1, 1, 0, 0]], expected=[[1, 0, 0, 0, 1]]),
    Row(
        "co_schmitt",
        "a sine that trembles switches once a half turn",
        "co_schmitt(-4000, 4000)",
        [[swing + shake for swing, shake in zip(sine(48, 4000, 20000), noise(4000, 3000))]],
        judge=lambda outputs: None if sum(rises(outputs[0])) == 4 else f"{sum(rises(outputs[0]))} times on, where 4 are wanted",
    ),
    Row(
        "co_schmitt",
        "switches at its two levels and keeps between them",
        "co_schmitt(10, 20)",
        [[19, 20, 11, 10, 15, 19, 2000, 11, -5, 20]],
        expected=[[0, 1, 1, 0, 0, 0, 1, 1, 0, 1]],
    ),
]

def beats(frames, rate, tempo):
    """Beat k is due after k * 60 * rate / tempo frames, and is heard in the first frame that is not before that."""
    due = {-(-beat * 60 * rate // tempo) for beat in range(frames * tempo // (60 * rate) + 2)} if tempo > 0 else set()
    return [int(frame in due) for frame in range(frames)]


BEATS = ((100, 7), (100, 6000), (100, 0), (44100, 130000), (192000, 997))

CLOCKS = [
    Row("co_time", "the number of each frame", "co_time", frames=LONG, expected=[TIMES]),
    Row(
        "co_cycle",
        "the frame's number modulo n",
        "co_cycle(7), co_cycle(1), co_cycle(1999), co_cycle(0)",
        frames=LONG,
        expected=[[time % n for time in TIMES] for n in (7, 1, 1999, 1)],
    ),
    Row("co_cycle", "the longest count does not wrap", "co_cycle(2147483647)", frames=LONG, expected=[TIMES]),
    Row(
        "co_sweep",
        "counts while it runs, from 0",
        "co_sweep(11), co_sweep(0)",
        [GATE, GATE],
        expected=[[max(0, length - 1) % n for length in run_lengths(GATE)] for n in (11, 1)],
    ),
    Row(
        "co_pulse",
        "1 in each n-th frame",
        "co_pulse(48), co_pulse(1), co_pulse(-5)",
        frames=LONG,
        expected=[[int(time % n == 0) for time in TIMES] for n in (48, 1, 1)],
    ),
    Row(
        "co_pulsen",
        "1 in the first frames of each n",
        "co_pulsen(10, 48), co_pulsen(0, 48), co_pulsen(48, 48), co_pulsen(1, 2)",
        frames=LONG,
        expected=[[int(time % n < length) for time in TIMES] for length, n in ((10, 48), (0, 48), (48, 48), (1, 2))],
    ),
    Row(
        "co_beat",
        "each beat is in the first frame at or after its exact time",
        ", ".join(f"co_beat({rate}, {tempo})" for rate, tempo in BEATS),
        frames=30000,
        expected=[beats(30000, rate, tempo) for rate, tempo in BEATS],
    ),
]

COUNTS = [
    Row(
        "co_counter",
        "the rises since the reset",
        "co_counter",
        [RESET, GATE],
        expected=[
            [
                sum(RISES[frame + 1 - (frame + 1 if ago is None else ago) : frame + 1])
                for frame, ago in enumerate(since_last(is_open(RESET)))
            ]
        ],
    ),
    Row(
        "co_count",
        "one step at each rise, the first is step 0",
        "co_count(5), co_count(1), co_count(0)",
        [GATE] * 3,
        expected=[[max(0, count - 1) % n for count in rises_up_to(GATE)] for n in (5, 1, 1)],
    ),
    Row(
        "co_divide",
        "the first rise and each n-th after it",
        "co_divide(4), co_divide(1), co_divide(0)",
        [GATE] * 3,
        expected=[[int(rise and (count - 1) % n == 0) for rise, count in zip(rises(GATE), rises_up_to(GATE))] for n in (4, 1, 1)],
    ),
    Row(
        "co_gate",
        "n frames from each rise on",
        "co_gate(10), co_gate(1), co_gate(0), co_gate(2147483647)",
        [GATE] * 4,
        expected=[[int(ago is not None and ago < n) for ago in since_last(rises(GATE))] for n in (10, 1, 0, 2**31 - 1)],
    ),
    Row(
        "co_countdown",
        "n while it is open, and then down to 0",
        "co_countdown(9), co_countdown(0)",
        [GATE] * 2,
        expected=[[0 if ago is None else max(0, n - ago) for ago in since_last(is_open(GATE))] for n in (9, 0)],
    ),
    Row(
        "co_countup",
        "0 while it is open, and then up to n",
        "co_countup(9), co_countup(0)",
        [GATE] * 2,
        expected=[
            [min(n, frame + 1 if ago is None else ago) for frame, ago in enumerate(since_last(is_open(GATE)))]
            for n in (9, 0)
        ],
    ),
]

SAMPLES = [
    Row(
        "co_hold",
        "the value of the last frame that was open",
        "co_hold",
        [GATE, SOUND],
        expected=[last_where(is_open(GATE), SOUND)],
    ),
    Row(
        "co_hold",
        "the ends of the range are held as they are",
        "co_hold",
        [[1, 0, 1, 0], [-(2**31), 1, 2**31 - 1, 2]],
        expected=[[-(2**31), -(2**31), 2**31 - 1, 2**31 - 1]],
    ),
    Row("co_latch", "the value of the last rise", "co_latch", [GATE, SOUND], expected=[last_where(rises(GATE), SOUND)]),
    Row(
        "co_peak",
        "the greatest since the reset",
        "co_peak",
        [OTHER, SOUND],
        expected=[
            [
                SOUND[frame]
                if ago == 0
                else max(SOUND[frame - ago : frame + 1])
                if ago is not None
                else max([0] + SOUND[: frame + 1])
                for frame, ago in enumerate(since_last(is_open(OTHER)))
            ]
        ],
    ),
    Row(
        "co_steps",
        "the list's values in turn",
        "co_steps(waveform{60, -63, 70, 2147483647, 5})",
        [[0, 1, 2, 3, 4, 5, 9, 2147483647, -7]],
        expected=[[60, -63, 70, 2147483647, 5, 60, 5, 70, 60]],
    ),
    Row("co_steps", "a list of one", "co_steps(waveform{9})", [[0, 1, 2, -2]], expected=[[9, 9, 9, 9]]),
]


def rhythm(pattern):
    return [int(mark == "x") for mark in pattern.replace(" ", "")]


def even_fault(outputs):
    """Whether the k steps are spread as evenly as they can be: two gaps between them differ by 1 at most."""
    for index, channel in enumerate(outputs):
        n, k = divmod(index, 17)
        once = channel[:n] if n else []
        if sum(once) != min(k, n):
            return f"{sum(once)} of {n} steps, where {min(k, n)} are wanted"
        if channel[:n] != channel[n : 2 * n]:
            return f"the {n} steps are not again the same"
        at = [place for place in range(2 * n) if channel[place]]
        gaps = [after - before for before, after in zip(at, at[1:])]
        if gaps and max(gaps) - min(gaps) > 1:
            return f"{k} of {n} have gaps from {min(gaps)} to {max(gaps)}"
    return None


EUCLID = [
    Row(
        "co_euclid",
        "rhythms that are known: tresillo, cinquillo, and four on the floor",
        "_ <: co_euclid(3, 8), co_euclid(5, 8), co_euclid(4, 16), co_euclid(0, 4), co_euclid(4, 4)",
        [range(16)],
        expected=[rhythm("x..x..x. x..x..x."), rhythm("x.x.xx.x x.x.xx.x"), rhythm("x...x...x...x..."), [0] * 16, [1] * 16],
    ),
    Row(
        "co_euclid",
        "of each number up to 12 steps so many, spread evenly",
        "_ <: " + ", ".join(f"co_euclid({min(index % 17, index // 17)}, {index // 17})" for index in range(17, 221)),
        [range(48)],
        judge=lambda outputs: even_fault([[0] * 48] * 17 + outputs),
    ),
    Row(
        "co_euclid",
        "the longest pattern does not wrap",
        "co_euclid(23170, 46340)",
        [[0, 1, 2, 3, 46338, 46339, 2147483647]],
        expected=[[1, 0, 1, 0, 1, 0, int(2147483647 % 46340 % 2 == 0)]],
    ),
]


def one_pole(signal, up, down):
    """The ideal smoother: of what is left to go 1/n is gone each frame."""
    level, found = 0.0, []
    for goal in signal:
        level += (goal - level) / (up if goal > level else down)
        found.append(level)
    return found


def slewed(signal, up, down):
    level, found = 0, []
    for goal in signal:
        level = min(goal, level + up) if goal >= level else max(goal, level - down)
        found.append(level)
    return found


def lined(signal, n):
    """The ideal straight lines: where the value changes, one begins from where the one before has come to."""
    level, goal, slope, left, found = 0.0, 0, 0.0, 0, []
    for value in signal:
        if value != goal:
            goal, left, slope = value, n, (value - level) / n
        if left:
            left, level = left - 1, level + slope
        if not left:
            level = float(goal)
        found.append(level)
    return found


JUMPS = held([0, 32767, -32768, 5, 4, 32767, 0], 3500, 500)
SWING = sine(100, 4800)


def arrives(n, values, frames):
    """Held long enough, each value is reached exactly, and kept."""
    signal = [value for value in values for _ in range(frames)]

    def judge(outputs):
        for index, value in enumerate(values):
            end = outputs[0][(index + 1) * frames - 50 : (index + 1) * frames]
            if end != [value] * 50:
                return f"with n = {n} it is from {min(end)} to {max(end)} where {value} is wanted"
        return None

    return Row("co_smooth", f"reaches each value exactly with n = {n}", f"co_smooth({n})", [signal], judge=judge)


def third_ways(n):
    """After n frames 63 % of a jump are gone."""

    def judge(outputs):
        wanted = 32767 * (1 - math.exp(-1))
        got = outputs[0][n - 1]
        return None if abs(got - wanted) < 0.01 * 32767 + 400 / n else f"{got} after {n} frames, where {wanted:.0f} is wanted"

    return judge


SMOOTHERS = [
    *(
        Row(
            "co_smooth",
            f"the ideal smoother of n = {n}, jumps between full scales with it",
            f"co_smooth({n})",
            [JUMPS],
            judge=near([one_pole(JUMPS, n, n)], 0.65),
        )
        for n in (1, 2, 20, 100, 2000)
    ),
    Row(
        "co_smooth",
        "a full-scale sine as the ideal one-pole has it",
        "co_smooth(48)",
        [SWING],
        judge=near([one_pole(SWING, 48, 48)], 1.01),
    ),
    arrives(480, [32767, -32768, 1, 0, -1], 12000),
    arrives(20000, [300], 160000),
    arrives(20000, [4, 0, -4], 60000),
    Row("co_smooth", "63 % of the way after n frames", "co_smooth(480)", [step(1000)], judge=third_ways(480)),
    Row(
        "co_lag",
        "fast upwards and slow downwards, as the ideal one",
        "co_lag(10, 300), co_lag(300, 10)",
        [JUMPS, JUMPS],
        judge=near([one_pole(JUMPS, 10, 300), one_pole(JUMPS, 300, 10)], 1.01),
    ),
    Row("co_lag", "times below 1 are as 1", "co_lag(0, -9)", [JUMPS], expected=[JUMPS]),
    Row("co_lag", "reaches a constant exactly from both sides", "co_lag(10, 300)", [step(9000, -777)], judge=settled(-777, 8000)),
    Row(
        "co_slew",
        "follows by steps of at most so much",
        "co_slew(100, 7), co_slew(0, 5), co_slew(5, 0), co_slew(1073741823, 1073741823)",
        [JUMPS] * 4,
        expected=[slewed(JUMPS, up, down) for up, down in ((100, 7), (0, 5), (5, 0), (2**30 - 1, 2**30 - 1))],
    ),
    Row(
        "co_slew",
        "the ends of its range do not wrap",
        "co_slew(1073741823, 1073741823)",
        [[2**30 - 1, -(2**30), 2**30 - 1, 0, -(2**30)]],
        expected=[slewed([2**30 - 1, -(2**30), 2**30 - 1, 0, -(2**30)], 2**30 - 1, 2**30 - 1)],
    ),
    *(
        Row(
            "co_line",
            f"straight lines of {n} frames, full scale with them",
            f"co_line({n})",
            [JUMPS],
            judge=near([lined(JUMPS, n)], 0.6),
        )
        for n in (1, 2, 100, 499, 700)
    ),
    Row(
        "co_line",
        "arrives exactly after n frames and stays",
        "co_line(1000)",
        [[0] * 10 + [12345] * 3000],
        judge=every(settled(12345, 1009), lambda outputs: None if outputs[0][1008] != 12345 else "it is there a frame too early"),
    ),
    Row("co_line", "the longest line does not stick", "co_line(100000)", [[0] + [1] * 100200], judge=settled(1, 100000)),
]

ROWS = TRIGGERS + CLOCKS + COUNTS + SAMPLES + EUCLID + SMOOTHERS
