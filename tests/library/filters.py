"""The rows of library/filters.dsp, and of library/biquad_coefficients.py. Ideal filters are analog ones, by the bilinear transform:
`sigma` is what stands for s over the corner's frequency."""
import cmath
import importlib.util
import math
import os
import subprocess
import sys

from rows import RATE, Row, Tones, clip, divided, impulse, noise, sine, square, step
from rows import every, near, responds, settled, silent, within, without_dc

TOOL = os.path.join(os.path.dirname(os.path.abspath(__file__)), "../../library/biquad_coefficients.py")
specification = importlib.util.spec_from_file_location("biquad_coefficients", TOOL)
biquad_coefficients = importlib.util.module_from_spec(specification)
specification.loader.exec_module(biquad_coefficients)

PROBE = Tones([20, 50, 100, 200, 440, 700, 1000, 1500, 2500, 5000, 8000, 12000, 16000])
SOFT = Tones([20, 50, 100, 200, 440, 700, 1000, 1500, 2500, 5000, 8000, 12000, 16000], peak=7000)
SOUND = noise(1500, seed=21)
LOUD = square(200, 800) + square(2, 100) + [32767] * 500 + [-32768] * 500 + [0] * 500
BASED = [sample + 12000 for sample in sine(1000, 9600, 16000)]


def sigma(frequency, corner, rate=RATE):
    return 1j * math.tan(math.pi * frequency / rate) / math.tan(math.pi * corner / rate)


FIRST = {
    "lowpass1": lambda s, g: 1 / (1 + s),
    "highpass1": lambda s, g: s / (1 + s),
    "allpass1": lambda s, g: (1 - s) / (1 + s),
    "lowshelf1": lambda s, g: (g + s) / (1 + s),
    "highshelf1": lambda s, g: (1 + g * s) / (1 + s),
}
SECOND = {
    "lp": lambda s, k: 1 / (s * s + k * s + 1),
    "bp": lambda s, k: k * s / (s * s + k * s + 1),
    "hp": lambda s, k: s * s / (s * s + k * s + 1),
    "notch": lambda s, k: (s * s + 1) / (s * s + k * s + 1),
    "ap": lambda s, k: (s * s - k * s + 1) / (s * s + k * s + 1),
}
KINDS = {
    "lowpass": lambda s, q, a: 1 / (s * s + s / q + 1),
    "highpass": lambda s, q, a: s * s / (s * s + s / q + 1),
    "bandpass": lambda s, q, a: s / q / (s * s + s / q + 1),
    "notch": lambda s, q, a: (s * s + 1) / (s * s + s / q + 1),
    "allpass": lambda s, q, a: (s * s - s / q + 1) / (s * s + s / q + 1),
    "peak": lambda s, q, a: (s * s + s * a / q + 1) / (s * s + s / a / q + 1),
    "lowshelf": lambda s, q, a: a * (s * s + math.sqrt(a) / q * s + a) / (a * s * s + math.sqrt(a) / q * s + 1),
    "highshelf": lambda s, q, a: a * (a * s * s + math.sqrt(a) / q * s + 1) / (s * s + math.sqrt(a) / q * s + a),
}


def first(kind, corner, gain=0.0):
    return lambda frequency: FIRST[kind](sigma(frequency, corner), gain)


def second(kind, corner, q):
    return lambda frequency: SECOND[kind](sigma(frequency, corner), 256 / q)


def bell(corner, q, gain):
    return lambda frequency: 1 + (gain - 1) * second("bp", corner, q)(frequency)


def biquad(kind, corner, q, gain=0.0):
    return lambda frequency: KINDS[kind](sigma(frequency, corner), q, 10 ** (gain / 40))


def called(kind, corner, q, gain=0.0):
    """The call that the tool prints."""
    return biquad_coefficients.call(kind, corner, q, RATE, gain)


def filtered(b, a, sound):
    """The difference equation in real numbers."""
    answer = []
    x, y = [0.0] * len(b), [0.0] * len(a)
    for sample in sound:
        x = [sample] + x[:-1]
        new = sum(one * other for one, other in zip(b, x)) - sum(one * other for one, other in zip(a, y))
        y = [new] + y[:-1]
        answer.append(new)
    return answer


def first_order(kind, corner, gain, sound):
    """(u + v s) / (1 + s), where s is t (1 - z) / (1 + z)."""
    t = 1 / math.tan(math.pi * corner / RATE)
    u, v = {"lowpass1": (1, 0), "highpass1": (0, 1), "allpass1": (1, -1), "lowshelf1": (gain, 1), "highshelf1": (1, gain)}[kind]
    return filtered([(u + v * t) / (1 + t), (u - v * t) / (1 + t)], [(1 - t) / (1 + t)], sound)


def second_order(kind, corner, q, sound):
    t, k = 1 / math.tan(math.pi * corner / RATE), 256 / q
    whole, part = t * t + 1, k * t
    b = {"lp": [1, 2, 1], "bp": [part, 0, -part], "hp": [t * t, -2 * t * t, t * t], "notch": [whole, 2 - 2 * t * t, whole],
         "ap": [whole - part, 2 - 2 * t * t, whole + part]}[kind]
    return filtered([one / (whole + part) for one in b], [(2 - 2 * t * t) / (whole + part), (whole - part) / (whole + part)], sound)


def clipped(sound):
    return [clip(sample, -32768.0, 32767.0) for sample in sound]


def kept(sound, longest, lengths, gain, forward):
    """A comb, whose gain is toward 0 where it feeds back and to the nearest where it does not."""
    answer = []
    for frame, (sample, length) in enumerate(zip(sound, lengths)):
        length = max(0 if forward else 1, min(longest, length))
        source = sound if forward else answer
        earlier = source[frame - length] if frame >= length else 0
        answer.append(clip(sample + (math.floor(earlier * gain / 32768 + 0.5) if forward else divided(earlier * gain, 32768))))
    return answer


def allpass_comb(sound, length, gain):
    answer = []
    for frame, sample in enumerate(sound):
        back, earlier = (answer[frame - length], sound[frame - length]) if frame >= length else (0, 0)
        answer.append(earlier + divided(gain * (back - sample), 32768))
    return [clip(one) for one in answer]


def goes_back(first_frame):
    """It comes to 0 and stays there; before that it is not always 0."""
    return every(silent(first_frame), lambda outputs: None if any(outputs[0]) else "it is silent")


def crossings(sound):
    """How often the sign changes."""
    return sum((one < 0) != (other < 0) for one, other in zip(sound, sound[1:]))


def dc_response(frequency):
    """A zero at 1 and a pole at 255/256."""
    back = cmath.exp(-2j * math.pi * frequency / RATE)
    return (1 - back) / (1 - back * 255 / 256)


def comb_response(frequency):
    """Half of what came 24 samples before, again and again."""
    return 1 / (1 - 0.5 * cmath.exp(-2j * math.pi * frequency * 24 / RATE))


class Tool:
    """A row: the tool called with these words."""

    definition = "fi_biquad"

    def __init__(self, what, words, said, status=0):
        self.what, self.words, self.said, self.status = what, words, said, status

    def fault(self, player):
        done = subprocess.run([sys.executable, TOOL, *self.words], stdout=subprocess.PIPE, stderr=subprocess.PIPE)
        got = (done.stdout if self.status == 0 else done.stderr).decode()
        if done.returncode != self.status or not got.startswith(self.said) or got.count("\n") != 1:
            return f"status {done.returncode} and {got!r}, where {self.status} and {self.said!r} are expected"
        return None


RINGING = sine(480, 3000) + [0] * 3000
NUMBERS = biquad_coefficients.coefficients("lowpass", 480, 6.5, RATE)
LENGTHS = [round(40 + 50 * math.sin(frame / 9)) for frame in range(1500)]
GAIN = {"lowshelf1": ("ga_db(-6), ", 10 ** (-6 / 20)), "highshelf1": ("ga_db(6), ", 10 ** (6 / 20))}
WORDS = lambda kind: GAIN.get(kind, ("", 0.0))
SHAPES = [
    ("lowpass", 20, 0.7071, 0), ("lowpass", 1000, 0.7071, 0), ("lowpass", 10000, 4, 0),
    ("highpass", 50, 0.7071, 0), ("highpass", 3000, 2, 0),
    ("bandpass", 100, 2, 0), ("bandpass", 5000, 5, 0),
    ("notch", 440, 1, 0), ("notch", 5000, 3, 0), ("allpass", 700, 0.7071, 0),
    ("peak", 100, 1, 6), ("peak", 2500, 2, -12),
    ("lowshelf", 200, 0.7071, -9), ("lowshelf", 200, 0.7071, 6), ("highshelf", 4000, 0.7071, -9),
]
LOUDEST = [
    ("lowpass", 20, 0.7071, 20), ("lowpass", 1000, 0.7071, 2), ("highpass", 1000, 2, 2), ("bandpass", 480, 4, 2), ("notch", 3000, 1, 2),
]

ROWS = [
    *(
        Row(
            f"fi_{kind}", f"the ideal response within {tolerance} dB, {corner} Hz",
            f"fi_{kind}({corner}, {WORDS(kind)[0]}48000)", [(SOFT if kind == "highshelf1" else PROBE).sound],
            judge=(SOFT if kind == "highshelf1" else PROBE).judge(first(kind, corner, WORDS(kind)[1]), tolerance, -50, phase=True),
        )
        for kind in FIRST
        for corner, tolerance in ((20, 0.2), (100, 0.1), (1000, 0.05), (5000, 0.05), (12000, 0.1))
    ),
    *(
        Row(
            f"fi_{kind}", f"the ideal filter on the loudest sounds, clipped, {corner} Hz",
            f"fi_{kind}({corner}, {WORDS(kind)[0]}48000)", [LOUD],
            judge=near([clipped(first_order(kind, corner, WORDS(kind)[1], LOUD))], tolerance),
        )
        for kind in FIRST
        for corner, tolerance in ((100, 120), (3000, 30), (12000, 120))
    ),
    Row(
        "fi_lowpass1", "a frequency that is a signal",
        "\\(f, x).(x : fi_lowpass1(f, 48000))", [[1000] * len(PROBE.sound), PROBE.sound],
        judge=PROBE.judge(first("lowpass1", 1000), 0.05, -50, phase=True),
    ),
    Row(
        "fi_lowpass1", "9/20 of the rate is the highest",
        "fi_lowpass1(30000, 48000)", [PROBE.sound],
        judge=PROBE.judge(first("lowpass1", 21600), 0.1),
    ),
    *(
        Row(
            "fi_lowpass1", f"{corner} Hz at {rate} frames a second",
            f"fi_lowpass1({corner}, {rate})", [PROBE.sound],
            judge=PROBE.judge(first("lowpass1", corner * RATE / rate), 0.05, -40, phase=True),
        )
        for corner, rate in ((1000, 8000), (1111, 11025), (4410, 44100), (4000, 192000), (48000, 192000), (80000, 192000))
    ),
    *(
        Row(
            "fi_svf_lp", f"{corner} Hz at {rate} frames a second",
            f"fi_svf_lp({corner}, 181, {rate})", [SOFT.sound],
            judge=SOFT.judge(second("lp", corner * RATE / rate, 181), 0.2, -40, phase=True),
        )
        for corner, rate in ((1000, 8000), (1111, 11025), (4410, 44100), (48000, 192000))
    ),
    Row(
        "fi_lowpass1", "a constant comes out as it is",
        "fi_lowpass1(20, 48000)", [step(20000, 12345)],
        judge=settled(12345, 12000),
    ),
    Row("fi_lowpass1", "nothing is left of silence", "fi_lowpass1(20, 48000)", [impulse(20000)], judge=goes_back(12000)),
    Row("fi_lowpass1", "0 hertz is silence", "fi_lowpass1(0, 48000)", [SOUND], judge=settled(0, 0)),
    Row("fi_highpass1", "0 hertz is the input itself", "fi_highpass1(0, 48000)", [SOUND], expected=[SOUND]),
    Row("fi_highpass1", "a constant comes to exactly 0", "fi_highpass1(20, 48000)", [step(20000, -32768)], judge=goes_back(12000)),
    Row("fi_highpass1", "no DC of noise with DC", "fi_highpass1(200, 48000)", [BASED], judge=without_dc(0.2, 4800)),
    Row(
        "fi_allpass1", "as loud as it was",
        "fi_allpass1(1000, 48000)", [impulse(4000)],
        judge=responds(lambda frequency: 1.0, [100, 500, 1000, 2000, 5000, 15000, 23000], 0.02),
    ),
    Row("fi_lowshelf1", "a gain of one is the input itself", "fi_lowshelf1(1000, 32768, 48000)", [SOUND], expected=[SOUND]),
    Row("fi_highshelf1", "a gain of one is the input itself", "fi_highshelf1(1000, 32768, 48000)", [SOUND], expected=[SOUND]),
    Row(
        "fi_lowshelf1", "a constant is as loud as the gain says",
        "fi_lowshelf1(1000, 16384, 48000)", [step(4000, 20000)],
        judge=settled(10000, 1000),
    ),
    Row(
        "fi_highshelf1", "a constant comes out as it is",
        "fi_highshelf1(1000, 16384, 48000)", [step(4000, 20000)],
        judge=settled(20000, 1000),
    ),
    Row(
        "fi_crossover", "both together are the input",
        "_ <: (fi_crossover(800, 48000) :> _), (fi_crossover(800, 48000) : _, !), fi_lowpass1(800, 48000) : _, -", [SOUND],
        expected=[SOUND, [0] * len(SOUND)],
    ),
    Row("fi_crossover", "both together are the loudest input too", "fi_crossover(800, 48000) :> _", [LOUD], expected=[LOUD]),
    Row(
        "fi_crossover", "the upper output's response within 0.05 dB",
        "fi_crossover(1000, 48000) : !, _", [PROBE.sound],
        judge=PROBE.judge(first("highpass1", 1000), 0.05, -50),
    ),
    Row(
        "fi_dcblocker", "the response of a zero and a pole within 0.05 dB",
        "fi_dcblocker", [PROBE.sound],
        judge=PROBE.judge(dc_response, 0.05, -60, phase=True),
    ),
    Row(
        "fi_dcblocker", "a constant comes to exactly 0, and silence too",
        "fi_dcblocker", [step(6000, 32767) + [0] * 6000],
        judge=every(goes_back(11000), lambda outputs: silent(5000)([outputs[0][:6000]])),
    ),
    Row("fi_dcblocker", "no DC of noise with DC", "fi_dcblocker", [BASED], judge=without_dc(0.2, 4800)),
    Row(
        "fi_dcblocker", "the ideal filter on the loudest sounds, clipped",
        "fi_dcblocker", [LOUD],
        judge=near([clipped(filtered([1, -1], [-255 / 256], LOUD))], 1.5),
    ),
    *(
        Row(
            "fi_biquad", f"{kind} of {corner} Hz, Q {q}, {gain} dB: the analog response within 0.1 dB",
            called(kind, corner, q, gain), [SOFT.sound],
            judge=SOFT.judge(biquad(kind, corner, q, gain), 0.1, -55, phase=True),
        )
        for kind, corner, q, gain in SHAPES
    ),
    *(
        Row(
            "fi_biquad", f"{kind} of {corner} Hz, Q {q}: the ideal filter on the loudest sounds, clipped",
            called(kind, corner, q), [LOUD],
            judge=near([clipped(filtered(numbers[:3], numbers[3:], LOUD))], tolerance),
        )
        for kind, corner, q, tolerance in LOUDEST
        for numbers in [biquad_coefficients.coefficients(kind, corner, q, RATE)]
    ),
    Row(
        "fi_biquad", "there is room inside for a resonance of 6.5 times the loudest sine",
        called("lowpass", 480, 6.5), [RINGING],
        judge=near([clipped(filtered(NUMBERS[:3], NUMBERS[3:], RINGING))], 3),
    ),
    Row(
        "fi_biquad", "a constant comes out exactly",
        called("lowpass", 20, 0.7071), [step(30000, 12345)],
        judge=settled(12345, 20000),
    ),
    Row(
        "fi_biquad", "nothing is left of silence, low and resonant",
        called("lowpass", 20, 4), [square(2400, 9600) + [0] * 60000],
        judge=goes_back(60000),
    ),
    Row("fi_biquad", "no DC after a highpass", called("highpass", 50, 0.7071), [BASED], judge=without_dc(0.2, 4800)),
    Row(
        "fi_biquad", "far too loud a resonance neither wraps nor sticks",
        called("lowpass", 240, 40), [square(200, 40000) + [0] * 100000],
        judge=every(goes_back(130000), lambda outputs: None if 190 < crossings(outputs[0][20000:40000]) < 210 else "it has wrapped"),
    ),
    *(
        Row(
            f"fi_svf_{kind}", f"the ideal response within {tolerance} dB, {corner} Hz, q {q}",
            f"fi_svf_{kind}({corner}, {q}, 48000)", [SOFT.sound],
            judge=SOFT.judge(second(kind, corner, q), tolerance, -50 if corner > 50 else -40, phase=True),
        )
        for kind in SECOND
        for corner, q, tolerance in ((50, 181, 0.3), (440, 181, 0.1), (1000, 1024, 0.1), (12000, 181, 0.2))
    ),
    *(
        Row(
            f"fi_svf_{kind}", f"the ideal filter on the loudest sounds, clipped, {corner} Hz, q {q}",
            f"fi_svf_{kind}({corner}, {q}, 48000)", [LOUD],
            judge=near([clipped(second_order(kind, corner, q, LOUD))], 260),
        )
        for kind in SECOND
        for corner, q in ((100, 181), (1000, 512), (12000, 181))
    ),
    *(
        Row(
            f"fi_svf_{kind}", "nothing is left of silence",
            f"fi_svf_{kind}(100, 2560, 48000)", [LOUD + [0] * 24000],
            judge=goes_back(24000),
        )
        for kind in SECOND
    ),
    *(
        Row(
            f"fi_svf_{kind}", "a constant comes to 0",
            f"fi_svf_{kind}(100, 181, 48000)", [step(12000, 30000)],
            judge=settled(0, 6000),
        )
        for kind in ("bp", "hp")
    ),
    *(
        Row(
            f"fi_svf_{kind}", "a constant comes out within 1",
            f"fi_svf_{kind}(20, 181, 48000)", [step(30000, 30000)],
            judge=settled(30000, 15000, 1),
        )
        for kind in ("lp", "notch", "ap")
    ),
    *(
        Row(
            f"fi_svf_{kind}", "far too loud a resonance neither wraps nor sticks",
            f"fi_svf_{kind}(240, 4096, 48000)", [square(200, 40000) + [0] * 60000],
            judge=every(goes_back(90000), lambda outputs: None if 190 < crossings(outputs[0][20000:40000]) < 210 else "it has wrapped"),
        )
        for kind in ("lp", "bp")
    ),
    *(
        Row(
            "fi_svf_bell", f"the input and {decibels} dB of a bandpass, within 0.1 dB",
            f"fi_svf_bell(1000, 512, ga_db({decibels}), 48000)", [SOFT.sound],
            judge=SOFT.judge(bell(1000, 512, 10 ** (decibels / 20)), 0.1, -50, phase=True),
        )
        for decibels in (6, 0, -6, -12)
    ),
    Row("fi_svf_bell", "a gain of one is the input itself", "fi_svf_bell(1000, 512, 32768, 48000)", [SOUND], expected=[SOUND]),
    Row(
        "fi_svf_bell", "no gain is the notch",
        "_ <: fi_svf_bell(1000, 512, 0, 48000), fi_svf_notch(1000, 512, 48000) : -", [LOUD],
        judge=settled(0, 0),
    ),
    Row("fi_svf_bell", "a constant comes out within 1", "fi_svf_bell(50, 181, 65535, 48000)", [step(20000, 30000)], judge=settled(30000, 10000, 1)),
    Row(
        "fi_svf_bell", "the ideal filter on the loudest sounds, clipped",
        "fi_svf_bell(1000, 512, 65535, 48000)", [LOUD],
        judge=near([clipped([one + (65535 / 32768 - 1) * other for one, other in zip(LOUD, second_order("bp", 1000, 512, LOUD))])], 200),
    ),
    Row("fi_svf_bell", "nothing is left of silence", "fi_svf_bell(100, 2560, 65535, 48000)", [LOUD + [0] * 24000], judge=goes_back(24000)),
    Row(
        "fi_svf_lp", "there is room inside for a resonance of 6.5 times the loudest sine",
        "fi_svf_lp(480, 1664, 48000)", [RINGING],
        judge=near([clipped(second_order("lp", 480, 1664, RINGING))], 1500),
    ),
    *(
        Row(
            "fi_svf_lp", f"{given} is {meant}",
            f"_ <: fi_svf_lp({given}, 48000), fi_svf_lp({meant}, 48000) : -", [SOUND],
            judge=settled(0, 0),
        )
        for given, meant in (("30000, 181", "12000, 181"), ("0, 181", "1, 181"), ("1000, 1", "1000, 128"), ("1000, 9999", "1000, 4096"))
    ),
    Row(
        "fi_svf_lp", "a frequency and a q that are signals",
        "\\(f, q, x).(x : fi_svf_lp(f, q, 48000))", [[1000] * len(SOFT.sound), [1024] * len(SOFT.sound), SOFT.sound],
        judge=SOFT.judge(second("lp", 1000, 1024), 0.1, -50, phase=True),
    ),
    Row(
        "fi_ff_comb", "lengths that move, and beyond both ends",
        "\\(d, x).(x : fi_ff_comb(80, d, 20000))", [LENGTHS, SOUND],
        expected=[kept(SOUND, 80, LENGTHS, 20000, True)],
    ),
    Row(
        "fi_ff_comb", "notches at odd multiples of half the distance",
        "fi_ff_comb(24, 24, 32768)", [impulse(64, 16000)],
        judge=responds(lambda frequency: 2 * abs(math.cos(math.pi * frequency * 24 / 48000)), [100, 500, 2000, 4000, 8000], 0.01, 16000),
    ),
    Row(
        "fi_fb_comb", "lengths that move, and beyond both ends",
        "\\(d, x).(x : fi_fb_comb(80, d, 20000))", [LENGTHS, SOUND],
        expected=[kept(SOUND, 80, LENGTHS, 20000, False)],
    ),
    Row(
        "fi_fb_comb", "peaks at multiples of the distance, 1 / (1 - g) times as loud",
        "fi_fb_comb(24, 24, 16384)", [impulse(512)],
        judge=responds(comb_response, [0, 500, 1000, 2000, 7000, 8000], 0.02),
    ),
    Row(
        "fi_fb_comb", "a negative gain, at one sample",
        "fi_fb_comb(80, 1, -30000)", [SOUND],
        expected=[kept(SOUND, 80, [1] * 1500, -30000, False)],
    ),
    Row(
        "fi_fb_comb", "the tail comes to 0 and stays there",
        "fi_fb_comb(10, 7, 32767)", [impulse(240000)],
        judge=goes_back(7 * 32769),
    ),
    Row(
        "fi_fb_comb", "the loudest sounds neither wrap nor stick",
        "fi_fb_comb(10, 7, 32767)", [square(14, 4000) + [0] * 240000],
        judge=every(goes_back(4000 + 7 * 32769), within(-32768, 32767)),
    ),
    Row(
        "fi_allpass_comb", "the allpass's own equation, toward 0",
        "fi_allpass_comb(80, 37, 20000)", [SOUND],
        expected=[allpass_comb(SOUND, 37, 20000)],
    ),
    *(
        Row(
            "fi_allpass_comb", f"a length of {given} is {length}",
            f"fi_allpass_comb(50, {given}, 20000)", [SOUND],
            expected=[allpass_comb(SOUND, length, 20000)],
        )
        for given, length in ((50, 50), (51, 50), (1, 1), (0, 1))
    ),
    Row(
        "fi_allpass_comb", "as loud as it was, at every frequency",
        "fi_allpass_comb(80, 37, 22938)", [impulse(4000)],
        judge=responds(lambda frequency: 1.0, [0, 100, 648, 1000, 1297, 5000, 9000, 15000, 23000], 0.05),
    ),
    Row(
        "fi_allpass_comb", "the tail comes to 0 and stays there",
        "fi_allpass_comb(80, 37, 32000)", [square(74, 4000) + [0] * 40000],
        judge=goes_back(40000),
    ),
    Row("fi_allpass_comb", "no gain is a delay", "fi_allpass_comb(80, 37, 0)", [SOUND], expected=[[0] * 37 + SOUND[:-37]]),
    *(
        Row(
            "fi_moving_sum", f"the last {count}",
            f"fi_moving_sum({count})", [SOUND],
            expected=[[sum(SOUND[max(0, end - count) : end]) for end in range(1, 1501)]],
        )
        for count in (1, 2, 64, 1000)
    ),
    Row(
        "fi_moving_sum", "65535 of the loudest",
        "fi_moving_sum(65535)", [[-32768] * 70000],
        expected=[[-32768 * min(end, 65535) for end in range(1, 70001)]],
    ),
    Row(
        "fi_moving_mean", "the last 64, toward 0",
        "fi_moving_mean(64)", [SOUND],
        expected=[[divided(sum(SOUND[max(0, end - 64) : end]), 64) for end in range(1, 1501)]],
    ),
    Row("fi_moving_mean", "a whole number of periods is nothing", "fi_moving_mean(48)", [sine(1000, 480)], judge=settled(0, 48)),
    Row(
        "fi_median3", "the one in the middle",
        "fi_median3", [SOUND],
        expected=[[sorted(([0, 0] + SOUND)[at : at + 3])[1] for at in range(1500)]],
    ),
    Row("fi_median3", "clicks are gone", "fi_median3", [[100] * 10 + [32767] + [100] * 10], judge=settled(100, 1)),
    Tool(
        "the tool prints a call", ["lowpass", "1000", "0.7071", "48000"],
        "fi_biquad(1051226, 2102454, 1051226, -487301516, 223070966)\n",
    ),
    Tool("the tool wants a gain for a peak", ["peak", "1000", "1", "48000"], "biquad_coefficients.py: a GAIN is for peak, ", 2),
    Tool("the tool knows its kinds", ["low", "1000", "1", "48000"], "biquad_coefficients.py: KIND FREQUENCY Q RATE", 2),
    Tool(
        "the tool refuses what is too loud", ["peak", "12000", "0.3", "48000", "24"],
        "biquad_coefficients.py: it is too loud for fi_biquad", 2,
    ),
    Tool(
        "the tool refuses a frequency beyond half the rate", ["lowpass", "30000", "1", "48000"],
        "biquad_coefficients.py: FREQUENCY lies between", 2,
    ),
    Tool(
        "the tool refuses what is no number", ["lowpass", "1k", "1", "48000"],
        "biquad_coefficients.py: FREQUENCY, Q, RATE and GAIN are numbers\n", 2,
    ),
]
