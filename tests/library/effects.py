"""Rows about library/effects.dsp. The references are in numbers that are not whole, but where the effect is a list of whole numbers:
delays that move are read by straight lines between samples of the whole signal, filters are their transfer functions."""
import cmath
import math

from rows import (
    FULL,
    RATE,
    Row,
    Tones,
    amplitude,
    cents,
    decibels,
    divided,
    every,
    impulse,
    near,
    noise,
    pitched,
    responds,
    silent,
    sine,
    square,
    step,
    within,
    without_dc,
)

ONE = 32768
TURN = 2**32


def holds(condition, words):
    """A judge that says these words where the condition on the outputs does not hold."""
    return lambda outputs: None if condition(outputs) else words


def swing(s, time, offset=0.0):
    """From 0 to 1 and back in each turn."""
    return (1 - math.cos(2 * math.pi * (s * time / TURN + offset))) / 2


def read(signal, place):
    """A signal at a place between two of its samples, by a straight line; before its first sample it is 0."""
    whole = math.floor(place)
    at = lambda index: signal[index] if 0 <= index < len(signal) else 0
    return at(whole) + (at(whole + 1) - at(whole)) * (place - whole)


def echoes(signal, d, f):
    """Each sample with what came out d samples earlier, toward 0."""
    found = []
    for time, sample in enumerate(signal):
        found.append(sample + (divided(found[time - d] * f, ONE) if time >= d else 0))
    return found


SLOW, FAST = 89478 * 8, 89478 * 40
SOUND = noise(4000, FULL, 6)
SQUARE = square(97, 4000)
TONE = sine(440, 9600, 30000)
TONES = Tones([20, 50, 100, 200, 400, 700, 1000, 1500, 2000, 3000, 5000, 8000, 12000, 16000, 20000, 23000])
FREQUENCIES = TONES.frequencies


def swung(least, most, s, frames):
    return [least + (most - least) * swing(s, time) for time in range(frames)]


MOVES = [
    Row(
        "ef_swing",
        "a cosine from 0 to 1 in Q15",
        f"ef_swing({SLOW})",
        frames=20000,
        judge=every(near([swung(0, 32767.5, SLOW, 20000)], 1.5), within(0, 32767)),
    ),
    Row(
        "ef_sweep",
        "a cosine between two delays",
        f"ef_sweep(10, 500, {SLOW}), ef_sweep(0, 32767, {SLOW})",
        frames=20000,
        judge=every(near([[4096 * delay for delay in swung(10, 500, SLOW, 20000)]], 130), within(0, 32767 * 4096)),
    ),
    Row(
        "ef_sweep_step",
        "a squared cosine between two steps",
        f"ef_sweep_step(10000000, 200000000, {SLOW}), ef_sweep_step(0, 1073741823, {SLOW})",
        frames=20000,
        judge=every(
            near(
                [
                    [10000000 + 190000000 * swing(SLOW, time) ** 2 for time in range(20000)],
                    [1073741823 * swing(SLOW, time) ** 2 for time in range(20000)],
                ],
                300000,
            ),
            within(0, 1073741823),
        ),
    ),
    Row(
        "ef_tremolo",
        "the gain follows a cosine",
        f"ef_tremolo(20000, {FAST})",
        [SOUND],
        judge=near([[sample * (1 - 20000 / ONE * swing(FAST, time)) for time, sample in enumerate(SOUND)]], 3),
    ),
    Row(
        "ef_tremolo",
        "a depth of 0 is the sound, full depth is silent in the middle",
        f"_ <: ef_tremolo(0, {FAST}), ef_tremolo(32768, {FAST})",
        [SQUARE[:1200]],
        judge=holds(
            lambda outputs: outputs[0] == SQUARE[:1200] and outputs[1][0] == SQUARE[0] and abs(outputs[1][600]) < 40,
            "it is not",
        ),
    ),
    Row(
        "ef_vibrato",
        "the sound at a time that swings",
        f"ef_vibrato(48, {FAST})",
        [TONE],
        judge=near([[read(TONE, time - 48 * swing(FAST, time)) for time in range(9600)]], 8),
    ),
    Row("ef_vibrato", "full scale stays within 16 bits", f"ef_vibrato(48, {FAST})", [SQUARE], judge=within(-32768, 32767)),
    Row(
        "ef_autopan",
        "the two sides at constant power",
        f"ef_autopan({SLOW})",
        [SOUND],
        judge=near(
            [
                [sample * math.cos(math.pi / 2 * swing(SLOW, time)) for time, sample in enumerate(SOUND)],
                [sample * math.sin(math.pi / 2 * swing(SLOW, time)) for time, sample in enumerate(SOUND)],
            ],
            4,
        ),
    ),
    Row(
        "ef_ring",
        "the product of two sounds, toward 0",
        "ef_ring",
        [SOUND, SQUARE],
        expected=[[divided(a * b, ONE) for a, b in zip(SOUND, SQUARE)]],
    ),
    Row(
        "ef_ring",
        "two sines make the sum and the difference, and nothing else",
        "ef_ring",
        [sine(3000, 4800), sine(1000, 4800)],
        judge=lambda outputs: next(
            (
                f"{amplitude(outputs[0], f):.1f} at {f} Hz, where {right} is ideal"
                for f, right in ((2000, 16383), (4000, 16383), (1000, 0), (3000, 0), (6000, 0))
                if abs(amplitude(outputs[0], f) - right) > 2
            ),
            None,
        ),
    ),
]

ECHOES = [
    Row(
        "ef_echo",
        "each echo as loud as it has to be, toward 0",
        "ef_echo(1000, 300, 20000)",
        [SOUND],
        expected=[echoes(SOUND, 300, 20000)],
    ),
    Row(
        "ef_echo",
        "one sample, and the longest",
        "_ <: ef_echo(1, 1, 16384), ef_echo(1000, 1000, 32767), ef_echo(1000, 5, 0)",
        [SOUND],
        expected=[echoes(SOUND, 1, 16384), echoes(SOUND, 1000, 32767), SOUND],
    ),
    Row(
        "ef_echo",
        "a steady full scale neither wraps nor sticks",
        "ef_echo(10, 10, 32700)",
        [step(30000, -32768)],
        judge=lambda outputs: None if outputs[0] == sorted(outputs[0], reverse=True) and abs(
            outputs[0][-1] + ONE * ONE / 68
        ) < ONE * ONE / 68 * 0.01 else f"it comes to {outputs[0][-1]}",
    ),
    Row("ef_echo", "the tail comes to 0 and stays", "ef_echo(100, 100, 29000)", [SOUND[:200] + [0] * 12000], judge=silent(10000)),
]


def flanged(signal, delays, depth, f):
    """x and the delayed one, which gets x less its own share of the sample before."""
    held, late, found = [], 0.0, []
    for time, sample in enumerate(signal):
        held.append(sample - f / ONE * late)
        late = read(held, time - delays[time])
        found.append((sample + depth / ONE * late) / 2)
    return found


def flanger_gain(d, depth, f):
    """The gain of a flanger whose delay stands still."""

    def gain(frequency):
        z = cmath.exp(-2j * math.pi * frequency / RATE)
        whole, part = divmod(d, 4096)
        late = z**whole * (1 - part / 4096 + part / 4096 * z)
        return (1 + depth / ONE * late / (1 + f / ONE * z * late)) / 2

    return gain


def chorus(signal, v, least, most, s):
    """The mean of the signal and of v voices, each a v-th of a turn after the one before."""
    return [
        (sample + sum(read(signal, time - least - (most - least) * swing(s, time, i / v)) for i in range(v))) / (v + 1)
        for time, sample in enumerate(signal)
    ]


def phaser_gain(n, frequency, depth, f):
    """The gain of a phaser that stands still: n allpass filters that turn this frequency by a quarter."""
    tangent = math.tan(math.pi * frequency / RATE)
    a = (1 - tangent) / (1 + tangent)

    def gain(at):
        z = cmath.exp(-2j * math.pi * at / RATE)
        chain = ((z - a) / (1 - a * z)) ** n
        return (1 + depth / ONE * chain / (1 - f / ONE * z * chain)) / 2

    return gain


def stepped(frequency):
    return round(frequency * TURN / RATE)


TAIL = SOUND[:500] + [0] * 11500
DELAYS = swung(10, 90, FAST, 4000)
FLANGERS = [
    Row(
        "ef_flanger",
        "x and a delay that swings, with feedback",
        f"ef_flanger(100, ef_sweep(10, 90, {FAST}), 32768, 16384)",
        [TONE[:4000]],
        judge=near([flanged(TONE[:4000], DELAYS, 32768, 16384)], 8),
    ),
    *(
        Row(
            "ef_flanger",
            f"the ideal response with depth {depth} and feedback {f}, within 0.1 dB",
            f"ef_flanger(100, {d}, {depth}, {f})",
            [TONES.sound],
            judge=TONES.judge(flanger_gain(d, depth, f), 0.1, phase=True),
        )
        for d, depth, f in ((40960, 32768, 0), (65536, -32768, 16384), (41000, 20000, -16384))
    ),
    Row(
        "ef_flanger",
        "a depth of 0 is half the sound",
        f"ef_flanger(100, ef_sweep(10, 90, {FAST}), 0, 20000)",
        [SOUND],
        expected=[[divided(x, 2) for x in SOUND]],
    ),
    Row(
        "ef_flanger",
        "full scale with the most feedback does not wrap",
        "ef_flanger(100, 40960, 32768, -29491)",
        [square(11, 6000)],
        judge=within(-32768 * 11 // 2, 32768 * 11 // 2),
    ),
    Row(
        "ef_flanger",
        "without feedback full scale stays within 16 bits",
        "_ <: ef_flanger(100, 200000, 32768, 0), ef_flanger(100, 4096, -32768, 0)",
        [SQUARE],
        judge=within(-32768, 32767),
    ),
    Row(
        "ef_flanger",
        "a steady full scale comes to what it has to",
        "ef_flanger(100, 40960, 32768, -29491)",
        [step(9000, 32767)],
        judge=lambda outputs: None if abs(
            outputs[0][-1] - 32767 * (1 + 1 / (1 - 29491 / ONE)) / 2
        ) < 20 else f"it comes to {outputs[0][-1]}",
    ),
    Row(
        "ef_flanger",
        "the tail comes to 0 and stays",
        f"ef_flanger(100, ef_sweep(10, 90, {FAST}), 32768, -29000)",
        [TAIL],
        judge=silent(9000),
    ),
    Row(
        "ef_chorus",
        "the mean of the sound and three voices",
        f"ef_chorus(3, 100, 180, {FAST})",
        [TONE[:4000]],
        judge=near([chorus(TONE[:4000], 3, 100, 180, FAST)], 8),
    ),
    Row(
        "ef_chorus",
        "one voice, and many",
        f"_ <: ef_chorus(1, 0, 20, {SLOW}), ef_chorus(16, 5, 50, {SLOW})",
        [TONE[:1500]],
        judge=near([chorus(TONE[:1500], 1, 0, 20, SLOW), chorus(TONE[:1500], 16, 5, 50, SLOW)], 8),
    ),
    Row(
        "ef_chorus",
        "full scale stays within 16 bits, and the tail ends",
        f"ef_chorus(4, 100, 400, {FAST})",
        [SQUARE + [0] * 402],
        judge=every(within(-32768, 32767), silent(4401)),
    ),
    *(
        Row(
            "ef_phaser",
            f"the ideal response of {n} filters at {frequency} Hz with depth {depth} and feedback {f}, within 0.15 dB",
            f"ef_phaser({n}, {stepped(frequency)}, {depth}, {f})",
            [TONES.sound],
            judge=TONES.judge(phaser_gain(n, frequency, depth, f), 0.15, phase=True),
        )
        for n, frequency, depth, f in (
            (4, 1000, 32768, 0),
            (2, 300, -32768, 0),
            (6, 3000, 32768, 16384),
            (8, 700, 20000, -20000),
            (1, 5000, 32768, 0),
        )
    ),
    Row(
        "ef_phaser",
        "a depth of 0 is half the sound",
        f"ef_phaser(4, {stepped(500)}, 0, 20000)",
        [SOUND],
        expected=[[divided(x, 2) for x in SOUND]],
    ),
    Row(
        "ef_phaser",
        "full scale does not wrap while it sweeps",
        f"ef_phaser(8, ef_sweep_step({stepped(200)}, {stepped(9000)}, {FAST}), 32768, 29491)",
        [square(480, 12000)],
        judge=within(-400000, 400000),
    ),
    Row(
        "ef_phaser",
        "a steady full scale comes to what it has to",
        f"ef_phaser(4, {stepped(1000)}, 32768, 16384)",
        [step(4000)],
        judge=lambda outputs: None if abs(outputs[0][-1] - 32767 * 3 / 2) < 3 else f"it comes to {outputs[0][-1]}",
    ),
    *(
        Row(
            "ef_phaser",
            f"the tail comes to 0 and stays, with feedback {f}",
            f"ef_phaser(6, {s}, 32768, {f})",
            [TAIL],
            judge=silent(9000),
        )
        for f, s in ((29000, stepped(900)), (-29000, f"ef_sweep_step({stepped(300)}, {stepped(5000)}, {SLOW})"))
    ),
]


def bandpass_gain(f, q):
    """The gain of the ideal bandpass, by the bilinear transform."""
    tangent = math.tan(math.pi * f / RATE)

    def gain(frequency):
        ratio = math.tan(math.pi * frequency / RATE) / tangent
        return 1 / (1 + 1j * q * (ratio - 1 / ratio))

    return gain


def wah(level, frequency, low, high, q, before=0):
    """A square wave, whose loudness is constant after so many frames at full scale, comes out as the bandpass at the frequency of its
    loudness has it: after a tenth of a second eight times, where it was louder."""
    levels = [32767] * before + [level] * (48000 if before else 24000)
    sound = [level if time * 2 * frequency // RATE % 2 == 0 else -level for time, level in enumerate(levels)]
    ideal = bandpass_gain(low + (high - low) * level / ONE, q / 256)

    def judge(outputs):
        for harmonic in (1, 3, 5):
            given, got = (amplitude(channel[-9600:], harmonic * frequency) for channel in (sound, outputs[0]))
            right = abs(ideal(harmonic * frequency))
            if abs(decibels(got / given) - decibels(right)) > 0.3:
                return f"{decibels(got / given):.2f} dB at {harmonic * frequency} Hz, where {decibels(right):.2f} dB is ideal"
        return None

    what = f"at a level of {level} the ideal bandpass, within 0.3 dB" + (", also after a louder one" if before else "")
    return Row("ef_wah", what, f"ef_wah({low}, {high}, {q}, 48000)", [sound], judge=judge)


WAHS = [
    *(wah(level, 400, 300, 2500, 1280) for level in (32767, 16000, 4000)),
    wah(4000, 400, 300, 2500, 1280, 4800),
    Row(
        "ef_wah",
        "full scale does not wrap, and the tail comes to 0",
        "ef_wah(300, 2500, 4096, 48000)",
        [SQUARE + [0] * 20000],
        judge=every(within(-32768, 32767), silent(20000)),
    ),
]


def crushed(signal, bits):
    coarse = 2 ** (16 - bits)
    return [divided(sample, coarse) * coarse for sample in signal]


CURVE = [-20000, -18000, -12000, 0, 12000, 18000, 20000]
LONGEST = [place * 7919 % 65536 - ONE for place in range(32769)]
EDGES = [-32768, -32767, -32766, -1, 0, 1, 32766, 32767]


def bent(curve, sample):
    place = (sample + ONE) * (len(curve) - 1) / 65536
    return read(curve, place)


def cubic(sample, drive):
    x = max(-1.0, min(1.0, sample * drive / 256 / ONE))
    return ONE * (3 * x - x**3) / 2


SHAPES = [
    *(
        Row("ef_crush", f"{bits} bits, toward 0", f"ef_crush({bits})", [SOUND + EDGES], expected=[crushed(SOUND + EDGES, bits)])
        for bits in (1, 2, 5, 12, 16)
    ),
    Row("ef_crush", "no DC arises", "ef_crush(4)", [sine(480, 4800)], judge=without_dc(0.01)),
    Row(
        "ef_downsample",
        "each n-th sample is held",
        "_ <: ef_downsample(7), ef_downsample(1), ef_downsample(0)",
        [SOUND],
        expected=[[SOUND[time - time % 7] for time in range(4000)], SOUND, SOUND],
    ),
    Row(
        "ef_shape",
        "straight lines between the curve's numbers",
        "_ <: " + ", ".join("ef_shape(waveform{%s})" % ", ".join(map(str, curve)) for curve in (CURVE, [32767, -32768], [7, 7])),
        [SOUND + EDGES],
        judge=near([[bent(curve, sample) for sample in SOUND + EDGES] for curve in (CURVE, [32767, -32768], [7, 7])], 2.01),
    ),
    Row(
        "ef_shape",
        "its ends hold beyond 16 bits",
        "ef_shape(waveform{-5, 0, 5})",
        [[-(2**31), -40000, 40000, 2**31 - 1]],
        judge=near([[-5, -5, 5, 5]], 1),
    ),
    Row(
        "ef_shape",
        "the longest curve does not wrap",
        "ef_shape(waveform{%s})" % ", ".join(map(str, LONGEST)),
        [EDGES + SOUND[:100]],
        judge=near([[bent(LONGEST, sample) for sample in EDGES + SOUND[:100]]], 2.01),
    ),
    *(
        Row(
            "ef_cubic",
            f"the cubic, with a drive of {drive}",
            f"ef_cubic({drive})",
            [SOUND + EDGES],
            judge=every(near([[cubic(sample, drive) for sample in SOUND + EDGES]], 3.01), within(-32768, 32767)),
        )
        for drive in (0, 100, 256, 1024, 65535)
    ),
    Row(
        "ef_cubic",
        "no DC arises, and an odd curve has no even harmonic",
        "ef_cubic(1024)",
        [sine(480, 4800)],
        judge=every(without_dc(0.01), lambda outputs: None if amplitude(outputs[0], 960) < 1 else "it has an octave"),
    ),
]


def transposed(semitones):
    """The loudest line near the pitch that is meant."""
    frequency = 480 * 2 ** (semitones / 12)
    return Row(
        "ef_transpose",
        f"{semitones} semitones, within 5 cents",
        f"ef_transpose(2400, 1200, dy_exp2({semitones} * 4096 / 12))",
        [sine(480, 24000, 20000)],
        judge=lambda outputs: pitched(frequency, 5.0)([outputs[0][6000:]]),
    )


def plucked(signal, n, g):
    """Karplus and Strong: each sample with the mean of the two a period earlier, as much of it as stays."""
    found = []
    at = lambda time: found[time] if time >= 0 else 0
    for time, sample in enumerate(signal):
        found.append(sample + divided(divided(at(time - n + 1) + at(time - n), 2) * g, ONE))
    return found


def shifted(signal, w, fade, ratio):
    """Two taps that run through the signal at another speed, w samples apart; each is loud while the other one jumps."""
    late, found = 0.0, []
    for time in range(len(signal)):
        share = min(1.0, late / fade)
        found.append(share * read(signal, time - late) + (1 - share) * read(signal, time - late - w))
        late = (late + 1 - ratio / ONE) % w
    return found


def strung(signal, period, g):
    """A string that is plucked at a fifth: what comes in and its reflection, and the mean of two samples of a period ago, which is read
    by a straight line."""
    found = []
    pluck = int(period / 5)
    for time, sample in enumerate(signal):
        excited = (sample - (signal[time - pluck] if time >= pluck else 0)) / 2
        mean = lambda at: ((found[at] if at >= 0 else 0.0) + (found[at - 1] if at >= 1 else 0.0)) / 2
        place = time - (period - 0.5)
        whole = math.floor(place)
        found.append(excited + g / ONE * (mean(whole) + (mean(whole + 1) - mean(whole)) * (place - whole)))
    return found


BURST = noise(100, FULL, 12)
PLUCK = BURST + [0] * 2900
NOTES = (28, 40, 45, 57, 64, 69, 76, 88)


def note(key):
    return 440 * 2 ** ((key - 69) / 12)


STRINGS = [
    Row(
        "ef_karplus",
        "the mean of two samples of a period ago, toward 0",
        "ef_karplus(100, 32000)",
        [BURST + [0] * 3000],
        expected=[plucked(BURST + [0] * 3000, 100, 32000)],
    ),
    Row(
        "ef_karplus",
        "the shortest, and a gain of 1",
        "_ <: ef_karplus(2, 30000), ef_karplus(50, 32768)",
        [BURST[:40] + [0] * 960],
        expected=[plucked(BURST[:40] + [0] * 960, 2, 30000), plucked(BURST[:40] + [0] * 960, 50, 32768)],
    ),
    Row(
        "ef_karplus",
        "what is without DC stays without",
        "ef_karplus(60, 32768)",
        [[3000, -1000, -2000] * 20 + [0] * 5940],
        judge=without_dc(1.0, 60),
    ),
    Row("ef_karplus", "the tail comes to 0 and stays", "ef_karplus(60, 32000)", [BURST + [0] * 29900], judge=silent(29000)),
    Row(
        "ef_karplus",
        "the pitch is that of n - 1/2 samples, within a cent",
        "ef_karplus(110, 32768)",
        [BURST + [0] * 20000],
        judge=lambda outputs: pitched(RATE / 109.5)([outputs[0][2000:]]),
    ),
    *(
        Row(
            "ef_string",
            f"the pitch of note {key} within a cent",
            f"ef_string(2000, ef_period(os_note({key}, 48000)), 32700)",
            [BURST + [0] * 24000],
            judge=lambda outputs, key=key: pitched(note(key))([outputs[0][4000:]]),
        )
        for key in NOTES
    ),
    Row(
        "ef_string",
        "the samples of the ideal string",
        "ef_string(500, 4096 * 211 + 1000, 32000)",
        [PLUCK],
        judge=near([strung(PLUCK, 211 + 1000 / 4096, 32000)], 4),
    ),
    Row(
        "ef_string",
        "it has no DC, whatever plucks it",
        "ef_string(500, 819200, 32700)",
        [[abs(x) for x in BURST] + [0] * 23900],
        judge=without_dc(3.0, 200),
    ),
    Row(
        "ef_string",
        "each fifth harmonic is left out, and the others are there",
        "ef_string(500, 4096 * 300, 32700)",
        [BURST[:1] + [0] * 24299],
        judge=lambda outputs: next(
            (
                f"harmonic {h} is {amplitude(outputs[0][300:], h * 160):.2f}"
                for h in range(1, 16)
                if (amplitude(outputs[0][300:], h * 160) > 2) != (h % 5 > 0)
            ),
            None,
        ),
    ),
    Row("ef_string", "the tail comes to 0 and stays", "ef_string(500, 300000, 32000)", [BURST + [0] * 40000], judge=silent(36000)),
    Row(
        "ef_string",
        "a long loud sound at its own pitch does not wrap",
        "ef_string(500, 409600, 32700)",
        [square(100, 20000)],
        judge=every(within(-65536, 65536), lambda outputs: None if max(outputs[0][-500:]) > 60000 else "it is soft"),
    ),
    Row(
        "ef_period",
        "a turn's samples, within 0.2 cent",
        "ef_period",
        [[round(TURN * f / RATE) for f in (24, 27.5, 55, 110, 220.5, 440, 749, 751, 880, 1760, 4186, 10000)]],
        judge=lambda outputs: next(
            (
                f"{got} for {f} Hz"
                for got, f in zip(outputs[0], (24, 27.5, 55, 110, 220.5, 440, 749, 751, 880, 1760, 4186, 10000))
                if abs(cents(got, RATE / f * 4096)) > 0.2
            ),
            None,
        ),
    ),
    transposed(7),
    transposed(-5),
    transposed(12),
    *(
        Row(
            "ef_transpose",
            f"two taps that take turns, at a ratio of {ratio}",
            f"ef_transpose({w}, {fade}, {ratio})",
            [TONE[:5000]],
            judge=near([shifted(TONE[:5000], w, fade, ratio)], 12),
        )
        for w, fade, ratio in ((500, 200, 49096), (300, 300, 20000), (40, 1, 131072))
    ),
    Row(
        "ef_transpose",
        "a ratio of 1 is the sound itself, later",
        "ef_transpose(240, 100, 32768)",
        [SOUND],
        expected=[([0] * 240 + SOUND)[:4000]],
    ),
    Row("ef_transpose", "full scale does not wrap", "ef_transpose(240, 100, 50000)", [SQUARE], judge=within(-32768, 32767)),
]


def comb_gain(n, f, damp):
    """The transfer function of a comb with a lowpass in its feedback."""

    def gain(frequency):
        z = cmath.exp(-2j * math.pi * frequency / RATE)
        low = (1 - damp / ONE) / (1 - damp / ONE * z)
        return z**n / (1 - f / ONE * low * z ** (n + 1))

    return gain


def comb(signal, n, f, damp):
    """Freeverb's comb in numbers that are not whole."""
    ring, low, found = [0.0] * (n + 1), 0.0, []
    late = 0.0
    for time, sample in enumerate(signal):
        low = late * (1 - damp) + low * damp
        ring[time % (n + 1)] = sample + low * f
        late = ring[(time + 1) % (n + 1)]
        found.append(late)
    return found


def allpass(signal, n, g):
    ring, found = [0.0] * n, []
    for time, sample in enumerate(signal):
        late = ring[time % n]
        ring[time % n] = sample - g * late
        found.append(late + g * ring[time % n])
    return found


def freeverb(signal, f, damp, spread):
    """Eight combs side by side, and four allpass filters one after the other."""
    lengths = (1116, 1188, 1277, 1356, 1422, 1491, 1557, 1617)
    whole = [sum(parts) / 64 for parts in zip(*(comb(signal, n + spread, f, damp) for n in lengths))]
    for n in (556, 441, 341, 225):
        whole = allpass(whole, n + spread, -0.5)
    return whole


def filled(frames):
    """What Freeverb in the largest room makes of the loudest input, -65536, that goes on for so long: each turn of a comb adds its share,
    and the allpass filters are three times as late as they are long."""
    f, frames = 32113 / ONE, frames - 3 * (556 + 441 + 341 + 225)
    turns = ((frames - n) // (n + 1) + 1 for n in (1116, 1188, 1277, 1356, 1422, 1491, 1557, 1617))
    return -65536 / 64 * sum((1 - f**count) / (1 - f) for count in turns)


def schroeder(signal):
    """Four combs side by side, and three allpass filters."""
    combs = []
    for n, g in ((1597, 0.805), (1373, 0.827), (1783, 0.783), (1979, 0.764)):
        out = []
        for time, sample in enumerate(signal):
            out.append(sample + (g * out[time - n] if time >= n else 0.0))
        combs.append(out)
    whole = [sum(parts) / 4 for parts in zip(*combs)]
    for n in (223, 73, 23):
        whole = allpass(whole, n, -0.7)
    return whole


def falls_in(seconds, tolerance, rate):
    """An impulse's tail falls by 60 dB in so many seconds, by the slope of its level between 5 and 35 dB below the start (T30)."""

    def judge(outputs):
        left = 0.0
        energy = []
        for sample in reversed(outputs[0]):
            left += sample * sample
            energy.append(left)
        energy.reverse()
        level = [10 * math.log10(e / energy[0]) if e else -200 for e in energy]
        first, last = (next(time for time, l in enumerate(level) if l < bound) for bound in (-5, -35))
        got = (last - first) * 2 / rate
        return None if abs(got - seconds) <= tolerance * seconds else f"{got:.3f} s, where {seconds} s are wanted"

    return judge


HIT = [20000, -9000, 4000] + [0] * 9997
LONG_TAIL = [FULL, -FULL] + [0] * 59998
RESTING = noise(700, FULL, 15) + [0] * 79300
REVERBS = [
    *(
        Row(
            "re_comb",
            f"the ideal response with f = {f} and damp = {damp}, within 0.1 dB",
            f"*(4096) : re_comb(100, {f}, {damp})",
            [impulse(6000)],
            judge=responds(comb_gain(100, f, damp), FREQUENCIES, 0.1, height=FULL * 4096),
        )
        for f, damp in ((16384, 0), (27000, 8000), (27000, 32768))
    ),
    Row(
        "re_comb",
        "n + 1 samples a turn, as loud as they have to be",
        "re_comb(10, 16384, 0)",
        [impulse(60, 32000)],
        expected=[[32000 >> (time - 10) // 11 if time >= 10 and (time - 10) % 11 == 0 else 0 for time in range(60)]],
    ),
    Row(
        "re_comb",
        "the largest input with the most feedback neither wraps nor sticks",
        "*(640) : re_comb(10, 32113, 10000)",
        [step(30000, -32768) + [0] * 30000],
        judge=lambda outputs: None if abs(
            outputs[0][29999] / (-32768 * 640 * ONE / 655) - 1
        ) < 0.001 and not any(outputs[0][-2000:]) else f"it comes to {outputs[0][29999]}, and then to {outputs[0][-1]}",
    ),
    Row("re_comb", "the tail comes to 0 and stays", "re_comb(30, 31000, 5000)", [SOUND[:100] + [0] * 9900], judge=silent(8000)),
    *(
        Row(
            "re_allpass",
            f"each frequency as loud as it was, with g = {g}, within 0.01 dB",
            f"*(1024) : re_allpass(97, {g})",
            [impulse(6000)],
            judge=responds(lambda f: 1.0, FREQUENCIES, 0.01, height=FULL * 1024),
        )
        for g in (-16384, 22938)
    ),
    Row(
        "re_allpass",
        "the ideal filter's samples",
        "*(1024) : re_allpass(97, -16384)",
        [HIT[:3000]],
        judge=near([allpass([1024 * x for x in HIT[:3000]], 97, -0.5)], 3),
    ),
    Row("re_allpass", "a g of 0 is a delay", "re_allpass(20, 0)", [SOUND], expected=[([0] * 20 + SOUND)[:4000]]),
    Row("re_allpass", "the tail comes to 0 and stays", "re_allpass(30, -30000)", [SOUND[:100] + [0] * 6000], judge=silent(5000)),
    Row("re_schroeder", "the samples of the ideal hall", "re_schroeder", [HIT], judge=near([schroeder(HIT)], 1.2)),
    Row(
        "re_schroeder",
        "falls by 60 dB in about a second",
        "*(256) : re_schroeder",
        [impulse(60000, 2047)],
        judge=falls_in(1.17, 0.1, 44100),
    ),
    Row(
        "re_schroeder",
        "the loudest square does not wrap",
        "re_schroeder",
        [square(1597 * 2, 30000)],
        judge=within(-600000, 600000),
    ),
    Row("re_schroeder", "the tail comes to 0 and stays", "re_schroeder", [RESTING], judge=silent(76000)),
    Row(
        "re_freeverb_mono",
        "the samples of the ideal hall",
        "re_freeverb_mono(27525, 6554, 0)",
        [HIT],
        judge=near([freeverb(HIT, 27525 / ONE, 6554 / ONE, 0)], 1.2),
    ),
    Row(
        "re_freeverb_mono",
        "the right channel's lengths",
        "re_freeverb_mono(30000, 16384, 23)",
        [HIT[:6000]],
        judge=near([freeverb(HIT[:6000], 30000 / ONE, 0.5, 23)], 1.2),
    ),
    Row(
        "re_freeverb_mono",
        "the loudest input for two seconds, in the largest room, comes to what it has to",
        "re_freeverb_mono(32113, 0, 0)",
        [step(96000, -65536)],
        judge=lambda outputs: None if abs(
            outputs[0][-1] / filled(96000) - 1
        ) < 0.02 and max(outputs[0]) < 100000 else f"it comes to {outputs[0][-1]}, where {filled(96000):.0f} is ideal",
    ),
    Row(
        "re_freeverb_mono",
        "the tail of the usual room comes to 0 and stays",
        "re_freeverb_mono(27525, 6554, 0)",
        [RESTING[:700] + [0] * 119300],
        judge=silent(110000),
    ),
    Row(
        "re_freeverb",
        "the sum of both channels in two halls",
        "re_freeverb(27525, 6554)",
        [HIT, [x // 2 for x in HIT]],
        judge=near([freeverb([x + x // 2 for x in HIT], 27525 / ONE, 6554 / ONE, spread) for spread in (0, 23)], 1.2),
    ),
    Row(
        "re_freeverb",
        "the tail of both comes to 0 and stays, and has no DC",
        "re_freeverb(22938, 16384)",
        [RESTING, [-x for x in RESTING[1:]] + [0]],
        judge=silent(76000),
    ),
]

ROWS = MOVES + ECHOES + FLANGERS + WAHS + SHAPES + STRINGS + REVERBS
