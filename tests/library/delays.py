"""The rows of library/delays.dsp."""
import math

from rows import Row, clip, divided, every, impulse, noise, responds, silent, square, within

SOUND = noise(600, seed=11)
LATER = lambda sound, frames: [0] * frames + sound[: len(sound) - frames]
# A length that moves all over its range, beyond its ends, and jumps.
MOVING = [round(60 + 70 * math.sin(frame / 7)) if frame % 50 else 1000 - frame * 5 for frame in range(600)]


def whole_delay(sound, lengths, longest):
    """Each sample as much later as the length says now, within 0 to the longest."""
    places = [frame - max(0, min(longest, length)) for frame, length in enumerate(lengths)]
    return [sound[place] if place >= 0 else 0 for place in places]


def click_fault(outputs):
    """On a rise of 50 a frame: no step is larger than that and a 64th of what a change of 200 frames is."""
    steps = [abs(one - other) for one, other in zip(outputs[0][201:], outputs[0][202:])]
    return None if max(steps) <= 50 + 200 * 50 // 64 + 2 else f"a step of {max(steps)}"


def fractional(sound, places, longest):
    """Between two samples, as far as the place says, to the nearest."""
    at = lambda frame: sound[frame] if frame >= 0 else 0
    answer = []
    for frame, place in enumerate(places):
        place = max(0, min(longest * 4096, place))
        whole, part = divmod(place, 4096)
        answer.append(math.floor((at(frame - whole) * (4096 - part) + at(frame - whole - 1) * part) / 4096 + 0.5))
    return answer


def crossfaded(sound, lengths, longest, time):
    """Each change of the length that comes while nothing is faded begins a crossfade of `time` samples from the old tap to the new."""
    at = lambda frame: sound[frame] if frame >= 0 else 0
    bounded = [max(0, min(longest, length)) for length in lengths]
    now = aim = bounded[0]
    far, answer = 0, []
    for frame, length in enumerate(bounded):
        if far == 0 and length != now:
            aim = length
        if aim != now:
            far += 1
        answer.append(divided(at(frame - now) * (time - far) + at(frame - aim) * far, time))
        if far == time:
            now, far = aim, 0
    return answer


def ping_pong(left, right, length, feedback):
    """Each echo goes to the other side, softer by the feedback, toward 0."""
    inner = [[], []]
    for frame, pair in enumerate(zip(left, right)):
        echo = [channel[frame - length] if frame >= length else 0 for channel in inner]
        for side in (0, 1):
            inner[side].append(clip(pair[side] + divided(echo[1 - side] * feedback, 32768)))
    return [[0] * length + channel[: len(left) - length] for channel in inner]


JUMPS = [100] * 150 + [20] * 30 + [80] * 120 + [-5] * 100 + [5000] * 200
ROWS = [
    *(
        Row(
            "de_milliseconds", f"{time} ms at {rate}",
            f"de_milliseconds({time}, {rate})",
            frames=1, expected=[[time * rate // 1000]],
        )
        for time, rate in ((0, 48000), (1, 44100), (250, 48000), (7, 11025), (11000, 192000))
    ),
    *(
        Row(
            "de_beats", f"{n}/{d} of a beat, {tempo} a minute",
            f"de_beats({n}, {d}, {tempo}, {rate})",
            frames=1, expected=[[rate * 60 // d * n // tempo]],
        )
        for n, d, tempo, rate in ((1, 1, 120, 48000), (3, 4, 120, 48000), (1, 3, 97, 44100), (32, 1, 1, 192000), (1, 32, 1000, 8000))
    ),
    Row(
        "de_delay", "each length, and beyond both ends",
        "\\(d, x).(x : de_delay(100, d))", [MOVING, SOUND],
        expected=[whole_delay(SOUND, MOVING, 100)],
    ),
    Row("de_delay", "the longest there is", "de_delay(1048575, 1048575)", [SOUND], expected=[[0] * 600]),
    Row(
        "de_fdelay", "a fixed part of a sample",
        "de_fdelay(20, 4096 * 10 + 1234)", [SOUND],
        expected=[fractional(SOUND, [40960 + 1234] * 600, 20)],
    ),
    Row(
        "de_fdelay", "moving, and beyond both ends",
        "\\(d, x).(x : de_fdelay(100, d))", [[37 * one * 100 for one in MOVING], SOUND],
        expected=[fractional(SOUND, [3700 * one for one in MOVING], 100)],
    ),
    Row(
        "de_fdelay", "half a sample is -3 dB at a quarter of the rate",
        "de_fdelay(4, 2048)", [impulse(64)],
        judge=responds(lambda frequency: math.cos(math.pi * frequency / 48000), [100, 6000, 12000, 18000], 0.05),
    ),
    Row(
        "de_fdelay", "19 bits do not wrap",
        "de_fdelay(4, 4096 * 3 + 4095)", [[262143, -262144] * 20],
        expected=[fractional([262143, -262144] * 20, [4096 * 3 + 4095] * 40, 4)],
    ),
    Row(
        "de_sdelay", "changes, also within a crossfade and beyond both ends",
        "\\(d, x).(x : de_sdelay(200, 64, d))", [JUMPS, SOUND],
        expected=[crossfaded(SOUND, JUMPS, 200, 64)],
    ),
    Row(
        "de_sdelay", "a change in the second frame",
        "\\(d, x).(x : de_sdelay(200, 64, d))", [[100] + [20] * 599, SOUND],
        expected=[crossfaded(SOUND, [100] + [20] * 599, 200, 64)],
    ),
    Row(
        "de_sdelay", "one length is a delay from the first frame on",
        "de_sdelay(200, 64, 77)", [SOUND],
        expected=[LATER(SOUND, 77)],
    ),
    Row(
        "de_sdelay", "the longest crossfade of the loudest sounds does not wrap",
        "\\(d, x).(x : de_sdelay(300, 32768, d))", [[0] * 300 + [256] * 40000, square(512, 40300)],
        judge=within(-32768, 32767),
    ),
    Row(
        "de_sdelay", "no click: each step is at most the sound's own and a 64th of the change",
        "\\(d, x).(x : de_sdelay(200, 64, d))", [JUMPS, [frame * 50 for frame in range(600)]],
        judge=click_fault,
    ),
    Row("de_taps", "three taps", "de_taps((0, 5, 33))", [SOUND], expected=[SOUND, LATER(SOUND, 5), LATER(SOUND, 33)]),
    Row(
        "de_multi_tap", "three taps and their gains, clipped",
        "de_multi_tap((0, 5, 33), (32768, -20000, 32768))", [SOUND],
        expected=[[
            clip(one + math.floor(other * -20000 / 32768 + 0.5) + third)
            for one, other, third in zip(SOUND, LATER(SOUND, 5), LATER(SOUND, 33))
        ]],
    ),
    Row(
        "de_ping_pong", "echoes from side to side",
        "de_ping_pong(50, 37, 20000)", [SOUND, SOUND[::-1]],
        expected=ping_pong(SOUND, SOUND[::-1], 37, 20000),
    ),
    Row(
        "de_ping_pong", "one sample is the shortest",
        "de_ping_pong(50, 1, 20000)", [SOUND, SOUND[::-1]],
        expected=ping_pong(SOUND, SOUND[::-1], 1, 20000),
    ),
    *(
        Row(
            "de_ping_pong", f"a length of {given} is {length}",
            f"de_ping_pong(50, {given}, 20000)", [SOUND, SOUND[::-1]],
            expected=ping_pong(SOUND, SOUND[::-1], length, 20000),
        )
        for given, length in ((50, 50), (51, 50), (900, 50), (0, 1))
    ),
    Row(
        "de_ping_pong", "no feedback: each side once",
        "de_ping_pong(50, 37, 0)", [SOUND, SOUND[::-1]],
        expected=[LATER(SOUND, 37), LATER(SOUND[::-1], 37)],
    ),
    Row(
        "de_ping_pong", "the loudest sounds neither wrap nor stick, and the tail comes to 0 and stays there",
        "de_ping_pong(50, 3, 32767)", [square(6, 4000) + [0] * 100000] * 2,
        judge=every(within(-32768, 32767), silent(4000 + 3 * 32769)),
    ),
]
