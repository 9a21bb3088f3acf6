"""What a row of the library's tests is, and what the modules of this folder measure sounds by.

A module here exports ROWS, a list of rows; `tests/check-library` runs those of every module. A row is about one definition:

    Row("ga_invert", "each sample with its sign turned", "ga_invert", [[1, -2]], expected=[[-1, 2]])
    Row("os_sine", "a note's pitch within a cent", "os_sine(os_step(440, 48000))", frames=48000, judge=pitched(440))

The program is an expression, which becomes `process`, or a whole text. Its inputs are lists of samples, one a channel; where it
has none, `frames` says how many are played. `expected` are the channels of its output, from a reference that is written from what
the effect is. `judge` is called with the channels, and answers what is wrong, or None. `script` are the lines of a control script.
A reference in numbers that are not whole has its tolerance in its judge."""
import cmath
import math
import random

FULL = 32767
RATE = 48000


class Row:
    def __init__(self, definition, what, program, inputs=(), frames=None, expected=None, judge=None, script=""):
        self.definition, self.what, self.script = definition, what, script
        self.text = program if "process" in program else f"process = {program};\n"
        self.inputs = [list(channel) for channel in inputs]
        self.frames = len(self.inputs[0]) if self.inputs else frames
        self.expected, self.judge = expected, judge

    def fault(self, player):
        """What is wrong, or None."""
        outputs = player.play(self)
        if isinstance(outputs, str):
            return outputs
        if self.expected is not None:
            return first_difference(outputs, self.expected)
        return self.judge(outputs)


def first_difference(outputs, expected):
    """Where two lists of channels first differ."""
    if len(outputs) != len(expected):
        return f"{len(outputs)} outputs, where {len(expected)} are expected"
    for channel, (got, wanted) in enumerate(zip(outputs, expected)):
        wanted = list(wanted)
        if len(got) != len(wanted):
            return f"output {channel} has {len(got)} frames, where {len(wanted)} are expected"
        for frame, (one, other) in enumerate(zip(got, wanted)):
            if one != other:
                return f"output {channel}, frame {frame}: {one}, where {other} is expected"
    return None


def every(*judges):
    """A judge that finds what the first of these finds."""
    return lambda outputs: next((fault for fault in (judge(outputs) for judge in judges) if fault), None)


# ---- inputs


def impulse(frames, height=FULL, at=0):
    return [0] * at + [height] + [0] * (frames - at - 1)


def step(frames, height=FULL, at=0):
    return [0] * at + [height] * (frames - at)


def sine(frequency, frames, amplitude=FULL, rate=RATE, phase=0.0):
    turn = 2 * math.pi * frequency / rate
    return [round(amplitude * math.sin(turn * time + phase)) for time in range(frames)]


def square(period, frames, amplitude=FULL):
    """The loudest that a sound of 16 bits can be: half a period at each end of its range."""
    return [amplitude if time % period < (period + 1) // 2 else -amplitude - 1 for time in range(frames)]


def noise(frames, amplitude=FULL, seed=1):
    source = random.Random(seed)
    return [source.randint(-amplitude, amplitude) for _ in range(frames)]


class Tones:
    """A sum of sines that are multiples of ten hertz, first so that a filter settles and then one period to measure by."""

    def __init__(self, frequencies, peak=30000, settle=9600, rate=RATE, seed=5):
        self.frequencies, self.rate, self.period, self.settle = frequencies, rate, rate // 10, settle
        source = random.Random(seed)
        begins = [source.uniform(0, 2 * math.pi) for _ in frequencies]
        turns = [2 * math.pi * frequency / rate for frequency in frequencies]
        whole = [sum(math.sin(turn * time + begin) for turn, begin in zip(turns, begins)) for time in range(self.period)]
        scale = peak / max(map(abs, whole))
        whole = [round(sample * scale) for sample in whole]
        count = settle + self.period
        self.sound = [whole[(time - settle) % self.period] for time in range(count)]
        self.given = [component(whole, frequency, rate) for frequency in frequencies]

    def judge(self, ideal, tolerance, floor=-60.0, phase=False, channel=0):
        """The gain of each frequency is the ideal one, within this many dB, where that is above the floor; and its phase likewise."""

        def judge(outputs):
            window = outputs[channel][self.settle :]
            for frequency, given in zip(self.frequencies, self.given):
                got, right = component(window, frequency, self.rate) / given, ideal(frequency)
                if abs(max(decibels(got), floor) - max(decibels(right), floor)) > tolerance:
                    return away(got, right, frequency, tolerance)
                if phase and decibels(right) > floor and abs(got / right - 1) > 10 ** (tolerance / 20) - 1:
                    return f"the gain {got:.4f} at {frequency:g} Hz, where {right:.4f} is ideal"
            return None

        return judge


# ---- what whole numbers do


def wrap(number):
    """The number that 32 bits in two's complement keep of it."""
    return (number + 2**31) % 2**32 - 2**31


def clip(number, least=-32768, greatest=32767):
    return max(least, min(greatest, number))


def divided(number, divisor):
    """A quotient toward zero, as `/` gives it."""
    quotient = abs(number) // abs(divisor)
    return quotient if (number < 0) == (divisor < 0) else -quotient


# ---- measures


def decibels(gain):
    return 20 * math.log10(max(abs(gain), 1e-12))


def component(channel, frequency, rate=RATE):
    """The complex sum of the samples against a turning unit: its magnitude is that of a spectrum's line there."""
    turn, at, whole = cmath.exp(-2j * math.pi * frequency / rate), 1 + 0j, 0j
    for sample in channel:
        whole += sample * at
        at *= turn
    return whole


def response(answer, frequency, height=FULL, rate=RATE):
    """The complex gain at a frequency of what answered an impulse of this height."""
    return component(answer, frequency, rate) / height


def amplitude(channel, frequency, rate=RATE):
    """How large the sine of this frequency in it is; the frames should be whole periods of it."""
    return 2 * abs(component(channel, frequency, rate)) / len(channel)


def mean(channel):
    return sum(channel) / len(channel)


def rms(channel):
    return math.sqrt(sum(sample * sample for sample in channel) / len(channel))


def pitch(channel, near, rate=RATE):
    """The frequency of the strongest line near one, from the phases of two windows that overlap."""
    count = len(channel)
    size, hop = count * 3 // 4, count // 4
    window = [0.5 - 0.5 * math.cos(2 * math.pi * (time + 0.5) / size) for time in range(size)]
    first, second = ([sample * weight for sample, weight in zip(channel[begin : begin + size], window)] for begin in (0, hop))
    turned = cmath.phase(component(second, near, rate) / component(first, near, rate)) - 2 * math.pi * near * hop / rate
    return near + wrapped_phase(turned) * rate / (2 * math.pi * hop)


def wrapped_phase(phase):
    return (phase + math.pi) % (2 * math.pi) - math.pi


def cents(frequency, other):
    return 1200 * math.log2(frequency / other)


# ---- judges of the first output


def away(got, right, frequency, tolerance):
    """What is said of a gain that is too far from the ideal one."""
    return f"{decibels(got):.3f} dB at {frequency:g} Hz, where {decibels(right):.3f} dB within {tolerance} dB is ideal"


def within(least, greatest):
    """No sample of any output leaves this range."""

    def judge(outputs):
        for index, channel in enumerate(outputs):
            low, high = min(channel), max(channel)
            if low < least or high > greatest:
                return f"output {index} goes from {low} to {high}, beyond {least} to {greatest}"
        return None

    return judge


def near(wanted, tolerance, first=0):
    """Each sample from that frame on is this far from the reference's at most."""

    def judge(outputs):
        for channel, (got, right) in enumerate(zip(outputs, wanted)):
            for frame in range(first, len(right)):
                if abs(got[frame] - right[frame]) > tolerance:
                    return f"output {channel}, frame {frame}: {got[frame]}, where {right[frame]:.2f} within {tolerance} is ideal"
        return None

    return judge


def responds(ideal, frequencies, tolerance, height=FULL, rate=RATE, floor=-200.0):
    """The answer to an impulse has the ideal gain, within this many dB, at these frequencies; below the floor both may be anything."""

    def judge(outputs):
        for frequency in frequencies:
            got, right = response(outputs[0], frequency, height, rate), ideal(frequency)
            if abs(max(decibels(got), floor) - max(decibels(right), floor)) > tolerance:
                return away(got, right, frequency, tolerance)
        return None

    return judge


def pitched(frequency, tolerance=1.0, rate=RATE):
    """The note's pitch is within this many cents."""

    def judge(outputs):
        got = pitch(outputs[0], frequency, rate)
        if got <= 0 or abs(cents(got, frequency)) > tolerance:
            return f"the pitch is {got:.3f} Hz, where {frequency:g} Hz is wanted within {tolerance} cents"
        return None

    return judge


def without_dc(tolerance, first=0, last=None):
    """The mean of these frames is this far from 0 at most."""

    def judge(outputs):
        for index, channel in enumerate(outputs):
            found = mean(channel[first:last])
            if abs(found) > tolerance:
                return f"output {index} has the mean {found:.3f}, where at most {tolerance} is allowed"
        return None

    return judge


def silent(first):
    """Each output is 0 from that frame on: a tail comes to 0 and stays there."""

    def judge(outputs):
        for index, channel in enumerate(outputs):
            late = [time for time in range(first, len(channel)) if channel[time]]
            if late:
                return f"output {index} is {channel[late[-1]]} at frame {late[-1]}, where it is 0 from frame {first} on"
        return None

    return judge


def settled(value, first, tolerance=0):
    """Each output is this value from that frame on."""

    def judge(outputs):
        for index, channel in enumerate(outputs):
            for time in range(first, len(channel)):
                if abs(channel[time] - value) > tolerance:
                    return f"output {index} is {channel[time]} at frame {time}, where {value} is wanted from frame {first} on"
        return None

    return judge
