"""Rows about library/dynamics.dsp. The references are in numbers that are not whole: logarithms, decibels and a follower as they are
meant to be, and a limiter's gain as the mean of what the loudest sample in sight asks for."""
import math

from rows import FULL, Row, decibels, divided, every, near, noise, sine, square, within

ONE = 32768
LEVELS = sorted({1, 2, 3, 5, 7, 100, 12345, 32767, 32768, 2**30, 2**31 - 1} | {round(1.0137**k) for k in range(1580)})
SOFT_TO_LOUD = [round(sample * 10 ** ((frame / 12000 - 1) * 60 / 20)) for frame, sample in enumerate(noise(12000, ONE, 4))]
BURSTS = [round(sample * (1.0 if frame // 1500 % 2 else 0.02)) for frame, sample in enumerate(sine(997, 12000))]
OTHER = sine(333, 12000)
SHORT, SOFT = noise(1500), noise(2000, 30000, 2)


def holds(condition, words):
    """A judge that says these words where the condition on the outputs does not hold."""
    return lambda outputs: None if condition(outputs) else words


def gained(gain, tolerance, floor=0.0):
    """The output is the gain that this list says, in Q15, within so many dB and one step, at each frame; gains below the floor
    are not compared, but must be low too."""

    def judge(outputs):
        for frame, (got, right) in enumerate(zip(outputs[0], gain)):
            if max(right, got / ONE) < floor:
                continue
            if abs(got - right * ONE) > 1.5 and abs(decibels(got / ONE) - decibels(right)) > tolerance:
                return f"frame {frame}: a gain of {decibels(got / ONE):.3f} dB, where {decibels(right):.3f} dB is ideal"
        return None

    return judge


def gained_from(first, gain, tolerance):
    """As gained, from a frame on."""
    return lambda outputs: gained(gain[first:], tolerance)([outputs[0][first:]])


def follower(signal, attack, release):
    level, found = 0.0, []
    for goal in map(abs, signal):
        level += (goal - level) / (attack if goal > level else release)
        found.append(level)
    return found


def in_decibels(level):
    return decibels(level / ONE) if level > 0 else -200.0


def compression(signal, ratio, threshold, attack, release):
    """Above the threshold a decibel more is 1/ratio of one."""
    return [10 ** (-max(0.0, in_decibels(level) - threshold) * (1 - 1 / ratio) / 20) for level in follower(signal, attack, release)]


def expansion(signal, ratio, threshold, attack, release):
    """Below the threshold a decibel less is ratio of one."""
    return [10 ** (min(0.0, in_decibels(level) - threshold) * (ratio - 1) / 20) for level in follower(signal, attack, release)]


def gating(signal, threshold, attack, hold, release):
    """A straight line to 1 while a sample has been loud within the hold, and to 0 after it."""
    level, last, found = 0.0, -math.inf, []
    for frame, sample in enumerate(signal):
        last = frame if abs(sample) >= ONE * 10 ** (threshold / 20) else last
        level = min(1.0, level + 1 / attack) if frame - last <= hold else max(0.0, level - 1 / release)
        found.append(level)
    return found


def limiting(signal, ceiling, ahead, release):
    """The mean over the look-ahead of a gain that comes back slowly from what the loudest sample of the look-ahead asks for."""
    below, wanted = 0.0, [0.0] * ahead
    found = []
    for frame in range(len(signal)):
        loudest = max(map(abs, signal[max(0, frame - ahead + 1) : frame + 1]))
        least = 1 - min(1.0, ceiling / max(1, loudest))
        below = max(least, below + (least - below) / release)
        wanted = wanted[1:] + [1 - below]
        found.append(sum(wanted) / ahead)
    return found


def applied(outputs):
    """Whether each sample is the input, which the third output is, times the gain, which the second is, toward 0."""
    for frame, (sample, got, key) in enumerate(zip(*outputs)):
        if sample != divided(key * got, ONE):
            return f"frame {frame}: {sample}, where {key} times {got} is {divided(key * got, ONE)}"
    return None


def steady(level, frames=3000):
    """A square wave, whose magnitude is constant."""
    return [level if frame % 40 < 20 else -level for frame in range(frames)]


def static(curve, levels, tolerance):
    """After a while the gain of each level is what the curve says, a level to each output, in decibels."""

    def judge(outputs):
        for channel, level in zip(outputs, levels):
            got, right = decibels(abs(channel[-1]) / level), curve(decibels(level / ONE))
            if abs(got - right) > tolerance + decibels(1 + 1.5 / max(1, abs(channel[-1]))):
                return f"{got:.3f} dB at {decibels(level / ONE):.2f} dB, where {right:.3f} dB is ideal"
        return None

    return judge


def each(name, levels):
    """The definition on each input by itself."""
    return f"par(i, {len(levels)}, {name})"


STEPS = [32767, 30000, 20000, 10000, 5000, 3277, 3276, 1000, 300, 100, 30, 3]

LOGARITHMS = [
    Row(
        "dy_log2",
        "4096 times the logarithm, within 2",
        "dy_log2",
        [LEVELS],
        judge=near([[4096 * math.log2(level) for level in LEVELS]], 2.0),
    ),
    Row(
        "dy_log2",
        "exact at each power of two, and never falls",
        "dy_log2",
        [[2**k for k in range(31)]],
        expected=[[4096 * k for k in range(31)]],
    ),
    Row("dy_log2", "below 1 it is 0", "dy_log2", [[0, -1, -(2**31), 1]], expected=[[0, 0, 0, 0]]),
    Row(
        "dy_exp2",
        "the power of two, within 0.001 dB and one step",
        "dy_exp2",
        [range(-65536, 61440, 37)],
        judge=lambda outputs: next(
            (
                f"{got} at {l}, where {ONE * 2 ** (l / 4096):.2f} is ideal"
                for got, l in zip(outputs[0], range(-65536, 61440, 37))
                if abs(got - ONE * 2 ** (l / 4096)) > 1.5 + ONE * 2 ** (l / 4096) * 0.000115
            ),
            None,
        ),
    ),
    Row(
        "dy_exp2",
        "exact at each octave, and 0 far below",
        "dy_exp2",
        [[0, 4096, 8192, 14 * 4096, -4096, -15 * 4096, -16 * 4096, -(2**31)]],
        expected=[[ONE, 2 * ONE, 4 * ONE, ONE << 14, ONE // 2, 1, 0, 0]],
    ),
    Row(
        "dy_exp2",
        "what is above its range is as the greatest",
        "dy_exp2 <: _, -(dy_exp2(61439))",
        [[61439, 61440, 2**31 - 1]],
        judge=lambda outputs: None if outputs[1] == [0, 0, 0] else f"{outputs[1]}",
    ),
]

COMPRESSORS = [
    *(
        Row(
            "dy_compressor",
            f"the static curve of {ratio}:1 at {threshold} dB, within 0.05 dB",
            each(f"dy_compressor({ratio}, {threshold}, 1, 100)", STEPS),
            [steady(level, 400) for level in STEPS],
            judge=static(
                lambda level, ratio=ratio, threshold=threshold: -max(0.0, level - threshold) * (1 - 1 / ratio),
                STEPS,
                0.05,
            ),
        )
        for ratio, threshold in ((2, -12), (4, -20), (1000, -40), (1, -30), (3, 0), (20, -50))
    ),
    Row(
        "dy_compression",
        "the gain of the ideal follower and curve, of soft and loud noise, within 0.1 dB",
        "dy_compression(4, -30, 48, 2000)",
        [SOFT_TO_LOUD],
        judge=every(gained(compression(SOFT_TO_LOUD, 4, -30, 48, 2000), 0.1), within(0, ONE)),
    ),
    Row(
        "dy_compression",
        "another sound is the key",
        "\\(x, key).(dy_compression(8, -40, 200, 1000, key))",
        [OTHER, BURSTS],
        judge=every(gained(compression(BURSTS, 8, -40, 200, 1000), 0.1), within(0, ONE)),
    ),
    Row(
        "dy_compressor",
        "the gain's share of each sample at full scale",
        "_ <: dy_compressor(5, -24, 100, 800), dy_compression(5, -24, 100, 800), _",
        [square(96, 3000)],
        judge=applied,
    ),
    Row(
        "dy_compressor",
        "below the threshold nothing changes",
        "dy_compressor(4, -6, 1, 1000)",
        [[x // 2 for x in SOFT]],
        expected=[[x // 2 for x in SOFT]],
    ),
    Row("dy_compressor", "1:1 changes nothing", "dy_compressor(1, -30, 1, 100)", [SHORT], expected=[SHORT]),
    Row("dy_expander", "1:1 changes nothing", "dy_expander(1, -1, 1, 100)", [SHORT], expected=[SHORT]),
    Row(
        "dy_compressor_stereo",
        "one gain, of the louder",
        "dy_compressor_stereo(4, -30, 48, 2000)",
        [SOFT_TO_LOUD, BURSTS],
        judge=near(
            [
                [
                    sample * gain
                    for sample, gain in zip(
                        sound,
                        compression([max(abs(a), abs(b)) for a, b in zip(SOFT_TO_LOUD, BURSTS)], 4, -30, 48, 2000),
                    )
                ]
                for sound in (SOFT_TO_LOUD, BURSTS)
            ],
            40,
        ),
    ),
    *(
        Row(
            "dy_expander",
            f"the static curve of 1:{ratio} at {threshold} dB, within 0.1 dB",
            each(f"dy_expander({ratio}, {threshold}, 1, 100)", STEPS[:10]),
            [steady(level, 400) for level in STEPS[:10]],
            judge=static(
                lambda level, ratio=ratio, threshold=threshold: min(0.0, level - threshold) * (ratio - 1),
                STEPS[:10],
                0.1,
            ),
        )
        for ratio, threshold in ((2, -12), (1, -20), (2, -40))
    ),
    Row(
        "dy_expansion",
        "the gain of the ideal follower and curve, within 0.15 dB above -60 dB",
        "dy_expansion(3, -20, 48, 2000)",
        [SOFT_TO_LOUD],
        judge=every(gained(expansion(SOFT_TO_LOUD, 3, -20, 48, 2000), 0.15, 0.001), within(0, ONE)),
    ),
    Row(
        "dy_expander",
        "from the threshold on nothing changes, and far below it is silent",
        "dy_expander(10, -30, 1, 100)",
        [steady(20000, 300) + steady(60, 900)],
        judge=holds(lambda outputs: outputs[0][:300] == steady(20000, 300) and not any(outputs[0][1100:]), "it is changed, or is not silent"),
    ),
]

GATES = [
    Row(
        "dy_gating",
        "lines of 48 and 2000 samples, and a hold of 100",
        "dy_gating(-12, 48, 100, 2000)",
        [BURSTS],
        judge=every(near([[ONE * gain for gain in gating(BURSTS, -12, 48, 100, 2000)]], 1.01), within(0, ONE)),
    ),
    Row(
        "dy_gating",
        "a sample at the threshold opens it, and a lower one does not",
        "dy_gating(-12, 1, 0, 1)",
        [[8230, 8231, -8230, -8231, 0]],
        expected=[[0, ONE, 0, ONE, 0]],
    ),
    Row(
        "dy_gate",
        "open it is the sound itself, closed it is 0",
        "dy_gate(-12, 48, 100, 500)",
        [BURSTS],
        judge=lambda outputs: next(
            (
                f"frame {frame}: {got}"
                for frame, (got, x) in enumerate(zip(outputs[0], BURSTS))
                if frame % 3000 > 1600
                and got != x
                or 700 < frame % 3000 < 1500
                and got
            ),
            None,
        ),
    ),
    Row("dy_gate", "the loudest square passes as it is", "dy_gate(-1, 1, 0, 1)", [square(48, 500)], expected=[square(48, 500)]),
    Row("dy_gate", "what never reaches the threshold is 0", "dy_gate(-40, 1, 100, 100)", [noise(2000, 320)], expected=[[0] * 2000]),
]


def never_above(ceiling):
    return within(-ceiling, ceiling)


LOUD = [sample * (1 + frame % 4096 // 16) for frame, sample in enumerate(noise(9000, 60000, 9))]
PEAKS = [30000 if frame in (500, 501, 2500, 2530) else sample // 8 for frame, sample in enumerate(noise(9000, FULL, 10))]


def delayed(signal, frames):
    return ([0] * frames + list(signal))[: len(signal)]


LIMITERS = [
    *(
        Row(
            "dy_limiter",
            f"nothing is above {ceiling} with a look-ahead of {2**k}",
            f"dy_limiter({ceiling}, {k}, {release})",
            [sound],
            judge=never_above(ceiling),
        )
        for ceiling, k, release in ((20000, 6, 1000), (100, 1, 1), (32767, 10, 50), (1, 4, 100))
        for sound in (LOUD, square(70, 2000), [0] * 50 + [2**31 - 1, -(2**31) + 1] * 50 + [0] * 200)
    ),
    Row(
        "dy_limiter",
        "what is below the ceiling is itself, later",
        "dy_limiter(30000, 6, 1000)",
        [SOFT],
        expected=[delayed(SOFT, 63)],
    ),
    Row(
        "dy_limiter",
        "after silence a soft sound is itself",
        "dy_limiter(30000, 6, 1000)",
        [[0] * 500 + SOFT],
        expected=[delayed([0] * 500 + SOFT, 63)],
    ),
    Row(
        "dy_limiter",
        "comes back to the sound itself after a peak",
        "dy_limiter(16000, 6, 200)",
        [PEAKS],
        judge=holds(
            lambda outputs: outputs[0][6500:] == delayed(PEAKS, 63)[6500:] and outputs[0][:437] == delayed(PEAKS, 63)[:437],
            "it differs from the sound",
        ),
    ),
    Row(
        "dy_limiting",
        "the mean of what the loudest in sight asks for, within 0.05 dB",
        "dy_limiting(9000, 7, 700)",
        [PEAKS],
        judge=every(gained_from(128, limiting(PEAKS, 9000, 128, 700), 0.05), within(0, ONE)),
    ),
    Row(
        "dy_limiter",
        "a loud sine comes up to the ceiling, within 0.1 dB",
        "dy_limiter(20000, 6, 100000)",
        [sine(1000, 4800)],
        judge=lambda outputs: None if abs(
            decibels(max(outputs[0][2000:]) / 20000)
        ) < 0.1 else f"{max(outputs[0][2000:])} is its greatest",
    ),
    Row(
        "dy_limiter_stereo",
        "one gain, of the louder, and nothing above the ceiling",
        "dy_limiter_stereo(9000, 7, 700)",
        [PEAKS, OTHER[:9000]],
        judge=every(
            never_above(9000),
            lambda outputs: near(
                [
                    [
                        sample * gain
                        for sample, gain in zip(
                            delayed(sound, 127),
                            limiting([max(abs(a), abs(b)) for a, b in zip(PEAKS, OTHER)], 9000, 128, 700),
                        )
                    ]
                    for sound in (PEAKS, OTHER[:9000])
                ],
                40,
                128,
            )(outputs),
        ),
    ),
    Row(
        "dy_greatest",
        "the greatest of the last 2^k",
        "_ <: dy_greatest(1), dy_greatest(5), dy_greatest(8)",
        [SHORT],
        expected=[
            [max(([0] if frame < 2**k - 1 else []) + SHORT[max(0, frame - 2**k + 1) : frame + 1]) for frame in range(1500)]
            for k in (1, 5, 8)
        ],
    ),
    Row(
        "dy_clip",
        "the ceiling where it is beyond it",
        "dy_clip(9000)",
        [SHORT + [2**31 - 1, -(2**31)]],
        expected=[[max(-9000, min(9000, x)) for x in SHORT] + [9000, -9000]],
    ),
    Row("dy_clip", "a ceiling of none", "dy_clip(0)", [[5, -5, 0]], expected=[[0, 0, 0]]),
]


ROWS = LOGARITHMS + COMPRESSORS + GATES + LIMITERS
