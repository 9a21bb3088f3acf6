"""The rows of library/gains.dsp."""
import math

from rows import FULL, Row, clip, divided, near, noise, wrap

ENDS = [-32768, -32767, -16385, -16384, -3, -2, -1, 0, 1, 2, 3, 16383, 16384, 32766, 32767]
SOUND = ENDS + noise(200, seed=1)
OTHER = noise(100, seed=2) + ENDS + [-32768, 32767] * 50
WIDE = [-(2**31), 1 - 2**31, 2**31 - 1, -(2**30), 2**30, -32769, 32768] + ENDS + noise(200, 2**31 - 1, seed=3)
GAINS = [0, 1, 5000, 16384, 23170, 32767, 32768]
PLACES = [round(32768 * step / 97) for step in range(98)]


def rounded(sample, gain):
    """The nearest whole number to the product, the upper one of two."""
    return math.floor(sample * gain / 32768 + 0.5)


def toward_zero(sample, gain):
    return divided(sample * gain, 32768)


def decibel_gain(decibels):
    return 32768 * 10 ** (decibels / 20)


def tenths_fault(outputs):
    """Within 0.02 dB and one."""
    for tenths, got in zip(range(-920, 71), outputs[0]):
        right = 0 if tenths <= -910 else decibel_gain(min(60, tenths) / 10)
        if tenths >= -900 and abs(got - right) > 1 + right * (10 ** (0.02 / 20) - 1):
            return f"{got} for {tenths} tenths, where {right:.2f} is exact"
        if tenths <= -910 and got != 0 or tenths < -900 and not 0 <= got <= 1:
            return f"{got} for {tenths} tenths"
    return None


def power_fault(outputs):
    """Both gains together have the power of one, and grow and fall as a cosine and a sine do."""
    return near([[FULL * math.cos(math.pi / 2 * place / 32768) for place in PLACES],
                 [FULL * math.sin(math.pi / 2 * place / 32768) for place in PLACES]], 2.6)(outputs)


def width_of(left, right, width):
    """The middle, and as much of the side as the width says, to the nearest."""
    middle, side = (left + right) / 2, (left - right) / 2 * (width // 2 * 2) / 32768
    return math.floor(middle + side + 0.5), math.floor(middle - side + 0.5)


ROWS = [
    *(
        Row(
            "ga_gain", f"the nearest whole number, factor {gain}",
            f"ga_gain({gain})", [SOUND],
            expected=[[rounded(one, gain) for one in SOUND]],
        )
        for gain in (0, 1, 12345, 32768, -32768, 65535, -65535)
    ),
    Row(
        "ga_gain", "a gain that is a signal",
        "\\(g, x).(x : ga_gain(g))", [GAINS * 3, [-32768] * 7 + [32767] * 7 + [-7] * 7],
        expected=[[rounded(one, gain) for one in (-32768, 32767, -7) for gain in GAINS]],
    ),
    Row(
        "ga_gain", "no sample is moved by more than a half, and noise gets no DC",
        "ga_gain(20000)", [noise(20000, seed=4)],
        judge=lambda outputs: None if abs(sum(outputs[0]) - sum(noise(20000, seed=4)) * 20000 / 32768) < 200 else "it has DC",
    ),
    *(
        Row(
            "ga_wide", f"all 32 bits, factor {gain}",
            f"ga_wide({gain})", [WIDE],
            expected=[[wrap(toward_zero(one, gain)) for one in WIDE]],
        )
        for gain in (0, 1, 31000, 32768, -32768, -12345)
    ),
    Row(
        "ga_wide", "what feeds back comes to 0",
        "+ ~ ga_wide(32700)", [[-(2**30)] + [0] * 9999],
        judge=lambda outputs: None if outputs[0][-1] == 0 and outputs[0][5000] != 0 else f"{outputs[0][-1]} at the end",
    ),
    Row(
        "ga_db", "each decibel, and beyond both ends",
        "ga_db", [list(range(-100, 20))],
        expected=[[0 if one <= -91 else round(decibel_gain(min(6, one))) for one in range(-100, 20)]],
    ),
    Row("ga_db_tenths", "within 0.02 dB and one", "ga_db_tenths", [list(range(-920, 71))], judge=tenths_fault),
    Row("ga_clip", "the ends of 16 bits", "ga_clip", [WIDE], expected=[[clip(one) for one in WIDE]]),
    Row(
        "ga_sum", "three signals, clipped",
        "ga_sum(3)", [SOUND, SOUND, OTHER[: len(SOUND)]],
        expected=[[clip(2 * one + other) for one, other in zip(SOUND, OTHER)]],
    ),
    Row("ga_sum", "one is itself", "ga_sum(1)", [SOUND], expected=[SOUND]),
    Row(
        "ga_mean", "three signals, toward 0",
        "ga_mean(3)", [SOUND, SOUND, OTHER[: len(SOUND)]],
        expected=[[divided(2 * one + other, 3) for one, other in zip(SOUND, OTHER)]],
    ),
    Row("ga_mean", "256 of the loudest do not clip", "_ <: ga_mean(256)", [ENDS], expected=[ENDS]),
    Row(
        "ga_mix", "three signals and their gains",
        "ga_mix((32768, -16384, 5000))", [SOUND, OTHER[: len(SOUND)], SOUND[::-1]],
        expected=[[clip(one + rounded(other, -16384) + rounded(third, 5000)) for one, other, third in zip(SOUND, OTHER, SOUND[::-1])]],
    ),
    *(
        Row(
            "ga_pan", f"both sides are the input, to the nearest, place {place}",
            f"ga_pan({place})", [SOUND],
            expected=[[rounded(one, 32768 - place) for one in SOUND], [rounded(one, place) for one in SOUND]],
        )
        for place in (0, 10000, 16384, 32768)
    ),
    Row("ga_pan_power", "a cosine and a sine", "\\(p).(32767 : ga_pan_power(p))", [PLACES], judge=power_fault),
    Row(
        "ga_pan_power", "the least sample too",
        "\\(p).(-32768 : ga_pan_power(p))", [PLACES],
        judge=lambda outputs: power_fault([[-one for one in channel] for channel in outputs]),
    ),
    *(
        Row(
            "ga_balance", f"one side is softer, place {place}",
            f"ga_balance({place})", [SOUND, SOUND[::-1]],
            expected=[[rounded(one, left) for one in SOUND], [rounded(one, right) for one in SOUND[::-1]]],
        )
        for place, left, right in ((0, 32768, 0), (8192, 32768, 16384), (16384, 32768, 32768), (24576, 16384, 32768), (32768, 0, 32768))
    ),
    *(
        Row(
            "ga_width", f"the middle and {width} of the side",
            f"ga_width({width})", [SOUND, SOUND[::-1]],
            expected=list(zip(*(width_of(one, other, width) for one, other in zip(SOUND, SOUND[::-1])))),
        )
        for width in (0, 16384, 32768, 65534, 65535)
    ),
    Row(
        "ga_width", "opposite sides at full scale do not wrap",
        "ga_width(65535)", [[-32768, 32767], [32767, -32768]],
        expected=list(zip(width_of(-32768, 32767, 65535), width_of(32767, -32768, 65535))),
    ),
    *(
        Row(
            "ga_crossfade", f"in between, to the nearest, place {place}",
            f"ga_crossfade({place})", [SOUND, SOUND[::-1]],
            expected=[[math.floor((one * (32768 - place) + other * place) / 32768 + 0.5) for one, other in zip(SOUND, SOUND[::-1])]],
        )
        for place in (0, 1, 10000, 16384, 32767, 32768)
    ),
    Row(
        "ga_crossfade_power", "equal power of two that are not alike",
        "\\(c).((32767, 0 : ga_crossfade_power(c)), (0, 32767 : ga_crossfade_power(c)))", [PLACES],
        judge=power_fault,
    ),
    Row(
        "ga_dry_wet", "none, half and all of an effect",
        "_ <: ga_dry_wet(0, *(-1)), ga_dry_wet(16384, @(2)), ga_dry_wet(32768, *(-1) : ga_clip)", [SOUND],
        expected=[SOUND, [math.floor((one + other) / 2 + 0.5) for one, other in zip(SOUND, [0, 0] + SOUND)], [clip(-one) for one in SOUND]],
    ),
]
