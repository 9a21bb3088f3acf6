"""Rows about library/envelopes.dsp. The references draw each envelope from its corners: the straight line, or the curve in
decibels, from where it stood when the gate last changed."""
from control import gates, is_open, rises, since_last
from rows import Row, divided, every, near, noise, settled, square, within

ONE = 32768
BOUNDS = within(0, ONE)


def once(frames, at=0, length=1):
    """A gate that is open once."""
    return [0] * at + [1] * length + [0] * (frames - at - length)


def between(start, end, frames, step):
    """A straight line's value after so many of its frames."""
    return end if step >= frames else start + (end - start) * step / frames


def drawn(gate, open_stages, closed_stage):
    """An envelope of straight lines. While the gate is open, the stages (a goal, and the frames from the stage's full span)
    follow one another from where it stands; where it closes, the last stage goes to 0 in so many frames from there."""
    level, was, stage, found = 0.0, False, 0, []
    for now in is_open(gate):
        if now and not was:
            stage = 0
        if not now and was:
            slope = level / closed_stage
        if now:
            goal, speed = open_stages[stage]
            level = min(goal, level + speed) if goal >= level else max(goal, level - speed)
            if level == goal and stage < len(open_stages) - 1:
                stage += 1
        elif level:
            level = max(0.0, level - slope)
            level = 0.0 if level < 1e-6 else level
        was = now
        found.append(level)
    return found


def asr(gate, attack, sustain, release):
    return drawn(gate, [(sustain, sustain / attack)], release)


def adsr(gate, attack, decay, sustain, release):
    return drawn(gate, [(ONE, ONE / attack), (sustain, (ONE - sustain) / decay)], release)


def at(values, tolerance=1):
    """The first output is this value at each of these frames."""

    def judge(outputs):
        for frame, value in values.items():
            if abs(outputs[0][frame] - value) > tolerance:
                return f"{outputs[0][frame]} at frame {frame}, where {value} is wanted"
        return None

    return judge


def triggered(trigger, attack, release):
    """Up from where it is at each rise, and down once it has come to 1."""
    level, up, found = 0.0, False, []
    for rise in rises(trigger):
        up = up or rise
        level = min(ONE, level + ONE / attack) if up else max(0.0, level - ONE / release)
        up = up and level < ONE
        found.append(level)
    return found


def falls_by_60(frames, tolerance, start=0):
    """From the start on it has fallen by 60 dB after these frames, within a share of them."""

    def judge(outputs):
        level = outputs[0][start]
        first = next(frame for frame in range(start, len(outputs[0])) if outputs[0][frame] < level / 1000) - start
        return None if abs(first - frames) <= tolerance * frames else f"60 dB after {first} frames, where {frames} are wanted"

    return judge


def follows(signal, attack, release):
    """The ideal follower of a magnitude."""
    level, found = 0.0, []
    for goal in (min(ONE, abs(sample)) for sample in signal):
        level += (goal - level) / (attack if goal > level else release)
        found.append(level)
    return found


def curved(gate, attack, decay, sustain, release):
    """The ideal curves: of what is left each goes 1 - 0.001^(1/n) a frame; the attack ends a thousandth below 1."""
    share = {frames: 1 - 0.001 ** (1 / frames) for frames in (attack, decay, release)}
    level, passed, found = 0.0, False, []
    for now in is_open(gate):
        goal, frames = (0, release) if not now else (sustain, decay) if passed else (ONE, attack)
        level += (goal - level) * share[frames]
        passed = now and (passed or level >= ONE * 1023 / 1024)
        found.append(level)
    return found


GATE = gates(6000, 5, 900)
LATE = gates(40000, 6, 9000)
BEATS = once(3000, 100) + once(700, 3) + once(2300, 5, 2000)
SOUND = noise(2000, 32768, 8)
SLOW = once(700000, 0, 300000)

SHAPES = [
    Row(
        "en_apply",
        "the share of each sample, toward 0",
        "en_apply(12345)",
        [SOUND + [-65535, 65535]],
        expected=[[divided(x * 12345, ONE) for x in SOUND + [-65535, 65535]]],
    ),
    Row(
        "en_apply",
        "1 leaves the widest sample as it is, and 0 nothing",
        "_ <: en_apply(32768), en_apply(0)",
        [[-65535, 65535, 1, -1]],
        expected=[[-65535, 65535, 1, -1], [0] * 4],
    ),
    Row("en_curve", "the square", "en_curve", [range(0, ONE + 1, 16)], expected=[[x * x // ONE for x in range(0, ONE + 1, 16)]]),
    Row(
        "en_fall",
        "a straight line from 1 to 0 after each rise",
        "en_fall(400)",
        [BEATS],
        judge=every(near([[0 if ago is None else between(ONE, 0, 400, ago) for ago in since_last(rises(BEATS))]], 1), BOUNDS),
    ),
    Row(
        "en_fall",
        "0 after exactly n frames, for short and long ones",
        "_ <: en_fall(1), en_fall(7), en_fall(48000)",
        [once(50000)],
        judge=lambda outputs: next(
            (
                f"n = {n}: {outputs[index][n - 1]} and {outputs[index][n]}"
                for index, n in enumerate((1, 7, 48000))
                if outputs[index][0] != ONE
                or outputs[index][n] != 0
                or n < 50
                and outputs[index][n - 1] == 0
                or any(outputs[index][n:])
            ),
            None,
        ),
    ),
    Row(
        "en_fall",
        "each step exactly where they come out even",
        "en_fall(1024)",
        [once(1100)],
        expected=[[max(0, ONE - 32 * frame) for frame in range(1100)]],
    ),
    Row(
        "en_decay",
        "60 dB lower after n frames",
        "en_decay(4800)",
        [once(9600)],
        judge=every(falls_by_60(4800, 0.02), at({0: ONE}, 0), BOUNDS),
    ),
    Row(
        "en_decay",
        "60 dB lower after a long time",
        "en_decay(200000)",
        [once(250000)],
        judge=every(falls_by_60(200000, 0.01), BOUNDS),
    ),
    Row(
        "en_decay",
        "falls evenly in decibels",
        "en_decay(4800)",
        [once(4800)],
        judge=near([[ONE * 0.001 ** (frame / 4800) for frame in range(4800)]], 60),
    ),
    Row("en_decay", "60 dB lower after a short time", "en_decay(100)", [once(200)], judge=falls_by_60(100, 0.05)),
    Row("en_decay", "comes to 0 and stays", "en_decay(1000)", [once(6000)], judge=settled(0, 1700)),
    Row(
        "en_ar",
        "up and down after each rise, and up again from where it is",
        "en_ar(200, 900)",
        [BEATS],
        judge=every(near([triggered(BEATS, 200, 900)], 1.01), BOUNDS),
    ),
    Row(
        "en_ar",
        "rests at 0, and reaches 1",
        "en_ar(48, 480)",
        [once(2000, 10)],
        judge=every(at({9: 0, 10 + 47: ONE}, 0), settled(0, 10 + 47 + 480), BOUNDS),
    ),
    Row("en_ar", "times of 1 and of none", "_ <: en_ar(1, 1), en_ar(0, 0)", [once(10, 2)], expected=[[0, 0, ONE] + [0] * 7] * 2),
]

GATED = [
    Row(
        "en_asr",
        "straight lines to the sustain and from wherever it is to 0",
        "en_asr(300, 20000, 700)",
        [GATE],
        judge=every(near([asr(GATE, 300, 20000, 700)], 1.01), BOUNDS),
    ),
    Row(
        "en_asr",
        "reaches the sustain and 0 exactly, and in time",
        "en_asr(480, 32768, 960)",
        [once(4000, 10, 1500)],
        judge=every(at({9: 0, 10 + 479: ONE, 1509: ONE, 1509 + 960: 0}, 0), settled(0, 1509 + 960), BOUNDS),
    ),
    Row(
        "en_asr",
        "the slowest does not stick",
        "en_asr(200000, 30000, 300000)",
        [SLOW],
        judge=every(at({199999: 30000, 99999: 15000}, 3), settled(0, 600000), BOUNDS),
    ),
    Row(
        "en_asr",
        "times of none, and no sustain",
        "_ <: en_asr(0, 32768, 0), en_asr(10, 0, 10)",
        [once(10, 2, 3)],
        expected=[[0, 0, ONE, ONE, ONE, 0, 0, 0, 0, 0], [0] * 10],
    ),
    Row(
        "en_adsr",
        "straight lines between its corners, and from wherever it is to 0",
        "en_adsr(200, 300, 12000, 700)",
        [GATE],
        judge=every(near([adsr(GATE, 200, 300, 12000, 700)], 2), BOUNDS),
    ),
    Row(
        "en_adsr",
        "reaches each corner exactly, and in time",
        "en_adsr(480, 960, 9000, 1920)",
        [once(9000, 10, 4000)],
        judge=every(
            at(
                {
                    9: 0,
                    10 + 479: ONE,
                    10 + 479 + 480: (ONE + 9000) // 2,
                    10 + 479 + 960: 9000,
                    4009: 9000,
                    4009 + 960: 4500,
                    4009 + 1920: 0,
                },
                1,
            ),
            settled(0, 4009 + 1920),
            BOUNDS,
        ),
    ),
    Row(
        "en_adsr",
        "a sustain of 1, and one of 0",
        "_ <: en_adsr(100, 50, 32768, 50), en_adsr(100, 50, 0, 50)",
        [once(500, 0, 300)],
        judge=near([adsr(once(500, 0, 300), 100, 50, 32768, 50), adsr(once(500, 0, 300), 100, 50, 0, 50)], 1.01),
    ),
    Row(
        "en_adsr",
        "the slowest does not stick",
        "en_adsr(100000, 100000, 16384, 300000)",
        [SLOW],
        judge=every(at({99999: ONE, 199999: 16384, 299999: 16384}), settled(0, 600000)),
    ),
    Row(
        "en_adsre",
        "curves toward its corners, and from wherever it is to 0",
        "en_adsre(2000, 3000, 12000, 7000)",
        [LATE],
        judge=every(near([curved(LATE, 2000, 3000, 12000, 7000)], 150), BOUNDS),
    ),
    Row(
        "en_adsre",
        "goes to the sustain and to 0 exactly",
        "en_adsre(480, 960, 9000, 1920)",
        [once(20000, 10, 9000)],
        judge=every(at({9: 0, 9009: 9000, 10 + 480: 32736}, 60), at({9000: 9000}, 0), settled(0, 9010 + 3600), BOUNDS),
    ),
    Row(
        "en_adsre",
        "falls by 60 dB in the release's time",
        "en_adsre(480, 960, 30000, 4800)",
        [once(30000, 0, 20000)],
        judge=falls_by_60(4800, 0.03, 19999),
    ),
]


def smoothed(signal, n):
    level, found = 0.0, []
    for goal in signal:
        level += (goal - level) / n
        found.append(level)
    return found


FOLLOWERS = [
    Row(
        "en_smooth",
        "to 1 and to 0 with one time constant",
        "en_smooth(200)",
        [GATE],
        judge=every(near([smoothed([ONE * now for now in is_open(GATE)], 200)], 1.01), BOUNDS),
    ),
    Row(
        "en_smooth",
        "reaches both exactly",
        "en_smooth(480)",
        [once(20000, 0, 9000)],
        judge=every(at({8999: ONE}, 0), settled(0, 9000 + 8000), BOUNDS),
    ),
    Row(
        "en_follower",
        "the ideal follower of noise at full scale",
        "en_follower(48, 900)",
        [SOUND],
        judge=every(near([follows(SOUND, 48, 900)], 1.01), BOUNDS),
    ),
    Row(
        "en_follower",
        "an attack of none is the greatest so far",
        "en_follower(1, 1000000)",
        [SOUND[:500]],
        judge=near([[max(map(abs, SOUND[: frame + 1])) for frame in range(500)]], 20),
    ),
    Row(
        "en_follower",
        "the loudest square is 1 exactly, and its end 0",
        "en_follower(100, 100)",
        [square(48, 5000) + [0] * 3000],
        judge=every(at({4990: ONE}, 1), settled(0, 7000), BOUNDS),
    ),
    Row(
        "en_follower",
        "what is beyond 16 bits is taken as 1",
        "en_follower(1, 1)",
        [[32769, -(2**31), 2**31 - 1, -40000, 5, -5, 0]],
        expected=[[ONE] * 4 + [5, 5, 0]],
    ),
    Row(
        "en_follower",
        "a constant is reached exactly with slow times",
        "en_follower(30000, 30000)",
        [[-300] * 250000],
        judge=settled(300, 240000),
    ),
]

ROWS = SHAPES + GATED + FOLLOWERS
