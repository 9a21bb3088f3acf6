"""The rows of library/oscillators.dsp. Phases are unsigned in the references: one turn is 2^32."""
import cmath
import math

from rows import FULL, RATE, Row, amplitude, cents, decibels, first_difference, impulse, mean, rms, square, wrap
from rows import every, near, pitched, responds, settled, silent, within, without_dc

TURN = 2**32
STEP = 39370534  # 440 hertz at 48000 frames a second, exactly 39370533.546
TIMES = 2000


def phases(step, frames=TIMES):
    return [time * step % TURN for time in range(frames)]


def signed(phase):
    return wrap(phase)


def steps_fault(rate, tolerance):
    """Each frequency's step is within this many cents."""

    def judge(outputs):
        for frequency, step in zip(FREQUENCIES, outputs[0]):
            step %= TURN
            if frequency < rate / 2 and abs(cents(step, frequency * TURN / rate)) > tolerance:
                return f"{step} for {frequency} Hz at {rate}, {cents(step, frequency * TURN / rate):.3f} cents away"
        return None

    return judge


def notes_fault(rate):
    """Each note below half the rate is within a tenth of a cent of its pitch, and what is beyond the notes is the nearest."""

    def judge(outputs):
        for key, step in zip(KEYS, outputs[0]):
            frequency = 440 * 2 ** ((max(0, min(127, key)) - 69) / 12)
            if frequency < rate / 2 and abs(cents(step, frequency * TURN / rate)) > 0.1:
                return f"{step} for note {key} at {rate}, {cents(step, frequency * TURN / rate):.3f} cents away"
        return None

    return judge


def reset(step, gates):
    """The phase from 0, which goes back to 0 while the gate is above 0."""
    phase, answer = -step, []
    for gate in gates:
        phase = 0 if gate > 0 else phase + step
        answer.append(wrap(phase))
    return answer


def turns(step, frames=TIMES):
    """1 where a turn begins."""
    return [int(time == 0 or time * step // TURN > (time - 1) * step // TURN) for time in range(frames)]


def triangle(phase):
    """0, up to one, down to minus one, and back, over a turn."""
    place = phase / TURN
    return 4 * place if place < 0.25 else 2 - 4 * place if place < 0.75 else 4 * place - 4


def parabola_saw(step, frames=TIMES, start=0.5):
    """The difference of the parabola of a phase from -1 to 1, over two of its steps: a sawtooth with little aliasing."""
    delta = 2 * step / TURN
    at = lambda time: (2 * (time * step / TURN + start)) % 2 - 1
    return [(at(time) ** 2 - at(time - 1) ** 2) / (2 * delta) for time in range(frames)]


def harmonics_fault(step, levels):
    """Each harmonic up to the tenth of the rate has its level, within half a decibel."""
    frequency = step * RATE / TURN

    def judge(outputs):
        for number, level in levels:
            got = decibels(amplitude(outputs[0], number * frequency) / 32768)
            if level is None:
                if got > -60:
                    return f"harmonic {number} has {got:.2f} dB, where there is none"
            elif abs(got - decibels(level)) > 0.5:
                return f"harmonic {number} has {got:.2f} dB, where {decibels(level):.2f} dB is ideal"
        return None

    return judge


def aliases_fault(frequency, least):
    """What is folded at half the rate is softer than in the plain form of the second output, by `least` decibels, below 4000 Hz."""

    def judge(outputs):
        for number in range(2, 30):
            place = (number * frequency + RATE / 2) % RATE - RATE / 2
            if number * frequency > RATE / 2 and 200 < abs(place) < 4000:
                kept, plain = (decibels(amplitude(channel, abs(place))) for channel in outputs)
                if plain > 30 and kept > plain - least:
                    return f"harmonic {number} folds to {abs(place):g} Hz with {kept:.1f} dB, and {plain:.1f} dB without care"
        return None

    return judge


def tabled(numbers, step, frames=TIMES):
    """The table as a period, straight lines between its numbers; within a 32768th of a place."""
    answer = []
    for time in range(frames):
        place = (time * step % TURN) // 2**17 * len(numbers)
        at, part = place // 32768, place % 32768
        here, after = numbers[at], numbers[(at + 1) % len(numbers)]
        answer.append(math.floor(here + (after - here) * part / 32768 + 0.5))
    return answer


def generator(frames, start=12345):
    number, answer = start, []
    for _ in range(frames):
        answer.append(wrap(number) >> 16)
        number = (number * 1103515245 + 12345) % TURN
    return answer


def sparse(density):
    """Of two numbers a frame the second one says whether the first one is heard."""
    numbers = generator(2 * TIMES)
    return [loud if choice + 32768 < density else 0 for loud, choice in zip(numbers[::2], numbers[1::2])]


def level_fault(outputs):
    return None if 4000 < rms(outputs[0]) < 12000 else f"its level is {rms(outputs[0]):.0f}"


def pure_fault(outputs):
    """No harmonic of 750 Hz is louder than -96 dB."""
    loud = [number for number in range(2, 24) if decibels(amplitude(outputs[0], 750 * number) / FULL) > -96]
    return f"harmonic {loud[0]} is too loud" if loud else None


def register(frames):
    """A shift register with the polynomial x^16 + x^14 + x^13 + x^11 + 1, by its bits: the lowest one comes out."""
    bits, answer = [1] + [0] * 15, []
    for _ in range(frames):
        out = bits[0]
        answer.append(32767 if out else -32768)
        bits = bits[1:] + [0]
        if out:
            for tap in (16, 14, 13, 11):
                bits[tap - 1] ^= 1
    return answer


def register_fault(outputs):
    sound = outputs[0]
    if sound[:65535] != register(65535):
        return first_difference([sound[:65535]], [register(65535)])
    if sound[65535:] != sound[: len(sound) - 65535]:
        return "it does not repeat after 65535 frames"
    return None if sum(sound[:65535]) == 0 else "it has DC"


def white_fault(outputs):
    """Even over its range, without DC, and each sample unlike those before it and unlike the other channels."""
    for sound in outputs:
        count = len(sound)
        if abs(mean(sound)) > 4 * 18918 / math.sqrt(count):
            return f"the mean is {mean(sound):.1f}"
        eighths = [0] * 8
        for sample in sound:
            eighths[(sample + 32768) >> 13] += 1
        if max(abs(one - count / 8) for one in eighths) > 5 * math.sqrt(count * 7 / 64):
            return f"eighths of the range come {eighths} times"
        for lag in (1, 2, 3, 7):
            if abs(sum(one * other for one, other in zip(sound, sound[lag:]))) > 5 * 18918**2 * math.sqrt(count):
                return f"samples {lag} apart are alike"
    for one, other in zip(outputs, outputs[1:]):
        for lag in (0, 1):
            if abs(sum(a * b for a, b in zip(one, other[lag:]))) > 5 * 18918**2 * math.sqrt(len(one)):
                return "channels are alike"
    return None


def held(step, levels, frames=TIMES):
    """A new level at each turn's beginning."""
    level, answer = 0, []
    for new, noise_now in zip(turns(step, frames), levels):
        level = noise_now if new else level
        answer.append(level)
    return answer


def lines(step, levels, frames=TIMES):
    """From each level to the next over a turn; the first line comes from 0."""
    old = aim = 0
    answer = []
    for time, new in enumerate(turns(step, frames)):
        if new:
            old, aim = aim, levels[time]
        answer.append(math.floor(old + (aim - old) * (time * step % TURN // 2**17) / 32768 + 0.5))
    return answer


def pink(frequency):
    """3 dB less in each octave; the level is that of the filter at 1000 Hz, which the row of the spectrum has from Kellet's poles."""
    return PINK / math.sqrt(frequency)


def kellet(frequency):
    """Paul Kellet's filter, an eighth as loud."""
    back = cmath.exp(-2j * math.pi * frequency / RATE)
    return (0.0990460 / (1 - 0.99765 * back) + 0.2965164 / (1 - 0.963 * back) + 1.0526913 / (1 - 0.57 * back) + 0.1848) / 8


PINK = 10 ** (43.8 / 20) / 8
FREQUENCIES = [1, 2, 7, 20, 55, 110, 220, 440, 997, 1000, 4000, 9999, 12000, 23999, 47999, 95999]
KEYS = list(range(-3, 131))
EXACT = TURN // 64  # 750 hertz at 48000, whose period is 64 frames
PLACES = [time * 87211 * 49157 % TURN for time in range(3000)] + [0, 1, 2**30, 2**31, 2**31 - 1, 2**32 - 1, 2**22, 2**22 - 1]
GATES = [1 if frame % 97 in (3, 4) else 0 for frame in range(TIMES)]
STEPS = [round(STEP * (1 + 0.5 * math.sin(time / 300))) for time in range(TIMES)]
SLOW = TURN // 100 + 7
SWEPT = [sum(STEPS[: time]) % TURN for time in range(TIMES)]
FIVE = [0, 30000, -32768, 32767, -30000]
PULSE = lambda step, width: [
    (one - other) * 16384 for one, other in zip(parabola_saw(step, start=1 - width / 32768), parabola_saw(step, start=0))]

ROWS = [
    *(
        Row("os_step", f"within 0.05 cent at {rate}", f"\\(f).(os_step(f, {rate}))", [FREQUENCIES], judge=steps_fault(rate, 0.05))
        for rate in (8000, 11025, 22050, 44100, 48000, 88200, 96000, 176400, 192000)
    ),
    Row(
        "os_step", "a number gives the same as a signal, and below 0 it turns back",
        "os_step(440, 48000), os_step(-440, 48000)",
        frames=1, expected=[[440 * 89478], [-440 * 89478]],
    ),
    *(
        Row("os_note", f"within 0.1 cent at {rate}", f"\\(n).(os_note(n, {rate}))", [KEYS], judge=notes_fault(rate))
        for rate in (8000, 11025, 22050, 44100, 48000, 88200, 96000, 192000)
    ),
    Row("os_phasor", "from 0, wrapping", f"os_phasor({STEP})", frames=TIMES, expected=[[signed(one) for one in phases(STEP)]]),
    Row("os_phasor", "a step that changes", "os_phasor", [STEPS], expected=[[signed(one) for one in SWEPT]]),
    Row("os_phasor", "backward", f"os_phasor(-{STEP})", frames=TIMES, expected=[[signed(-one) for one in phases(STEP)]]),
    Row("os_hs_phasor", "back to 0 at each gate", f"\\(g).(os_hs_phasor({STEP}, g))", [GATES], expected=[reset(STEP, GATES)]),
    *(
        Row("os_imptrain", f"1 where a turn begins, step {step}", f"os_imptrain({step})", frames=TIMES, expected=[turns(step)])
        for step in (0, 1, STEP, EXACT, 2**30, 2**31 - 1)
    ),
    Row(
        "os_sin", "within 1.2 of the sine everywhere",
        "os_sin", [[signed(one) for one in PLACES]],
        judge=near([[FULL * math.sin(2 * math.pi * one / TURN) for one in PLACES]], 1.2),
    ),
    Row("os_sin", "the ends, and 0", "os_sin", [[0, 2**30, -(2**31), -(2**30)]], expected=[[0, 32767, 0, -32767]]),
    Row(
        "os_cos", "within 1.2 of the cosine everywhere",
        "os_cos", [[signed(one) for one in PLACES]],
        judge=near([[FULL * math.cos(2 * math.pi * one / TURN) for one in PLACES]], 1.2),
    ),
    *(
        Row(
            "os_osc", f"note {key} within a cent",
            f"os_osc(os_note({key}, 48000))",
            frames=24000, judge=pitched(440 * 2 ** ((key - 69) / 12)),
        )
        for key in (33, 60, 69, 100)
    ),
    Row(
        "os_osc", "a sine, within 1.2",
        f"os_osc({STEP})",
        frames=TIMES, judge=near([[FULL * math.sin(2 * math.pi * one / TURN) for one in phases(STEP)]], 1.2),
    ),
    Row("os_osc", "no DC", f"os_osc({EXACT})", frames=4800, judge=without_dc(0.5)),
    Row(
        "os_osc", "harmonics of a pure tone are 96 dB below it",
        f"os_osc({EXACT})",
        frames=4800,
        judge=pure_fault,
    ),
    Row(
        "os_osccos", "a cosine, within 1.2",
        f"os_osccos({STEP})",
        frames=TIMES, judge=near([[FULL * math.cos(2 * math.pi * one / TURN) for one in phases(STEP)]], 1.2),
    ),
    Row(
        "os_lf_saw", "a ramp over all 16 bits",
        f"os_lf_saw({STEP})",
        frames=TIMES, expected=[[signed(one) >> 16 for one in phases(STEP)]],
    ),
    Row("os_lf_sawpos", "a ramp in Q15", f"os_lf_sawpos({STEP})", frames=TIMES, expected=[[one >> 17 for one in phases(STEP)]]),
    Row(
        "os_lf_square", "half a turn each",
        f"os_lf_square({STEP})",
        frames=TIMES, expected=[[32767 if one < TURN // 2 else -32767 for one in phases(STEP)]],
    ),
    Row("os_lf_square", "no DC", f"os_lf_square({EXACT})", frames=4800, judge=without_dc(0)),
    Row(
        "os_lf_triangle", "straight lines, within 1",
        f"os_lf_triangle({STEP})",
        frames=TIMES, judge=every(near([[32768 * triangle(one) for one in phases(STEP)]], 1.01), within(-32768, 32767)),
    ),
    Row("os_lf_triangle", "no DC", f"os_lf_triangle({EXACT})", frames=4800, judge=without_dc(1)),
    *(
        Row(
            "os_saw", f"the difference of a parabola, step {step}",
            f"os_saw({step})",
            frames=TIMES, judge=every(near([[32767.5 * one for one in parabola_saw(step)]], tolerance, 1), within(-32768, 32767)),
        )
        for step, tolerance in ((STEP, 60), (10 * STEP + 7, 12), (2**30, 4), (1048576 * 4, 600))
    ),
    Row("os_saw", "note 45 within a cent", "os_saw(os_note(45, 48000))", frames=24000, judge=pitched(110)),
    Row(
        "os_saw", "each harmonic's level",
        f"os_saw({EXACT // 2})",
        frames=4800, judge=harmonics_fault(EXACT // 2, [(number, 2 / (math.pi * number)) for number in range(1, 9)]),
    ),
    Row("os_saw", "no DC", f"os_saw({EXACT})", frames=4800, judge=without_dc(1)),
    Row(
        "os_saw", "below 4000 Hz aliases are 20 dB softer than in the plain one",
        "os_step(3100, 48000) <: os_saw, os_lf_saw",
        frames=4800, judge=aliases_fault(3100, 20),
    ),
    Row(
        "os_square", "the difference of two parabolas' sawtooths",
        f"os_square({STEP})",
        frames=TIMES, judge=every(near([[2 * one for one in PULSE(STEP, 16384)]], 120, 1), within(-32768, 32767)),
    ),
    Row(
        "os_square", "the odd harmonics alone",
        f"os_square({EXACT // 2})",
        frames=4800,
        judge=harmonics_fault(EXACT // 2, [(number, 4 / (math.pi * number) if number % 2 else None) for number in range(1, 9)]),
    ),
    Row("os_square", "no DC", f"os_square({EXACT})", frames=4800, judge=without_dc(1)),
    Row(
        "os_square", "below 4000 Hz aliases are 20 dB softer than in the plain one",
        "os_step(3100, 48000) <: os_square, os_lf_square",
        frames=4800, judge=aliases_fault(3100, 20),
    ),
    *(
        Row(
            "os_pulse", f"the difference of two parabolas' sawtooths, width {width}",
            f"os_pulse({STEP}, {width})",
            frames=TIMES, judge=every(near([PULSE(STEP, width)], 60, 1), within(-32768, 32767)),
        )
        for width in (8192, 16384, 30000)
    ),
    Row("os_pulse", "no DC at any width", f"os_pulse({EXACT}, 3000)", frames=4800, judge=without_dc(2)),
    Row("os_pulse", "no width is silence", f"os_pulse({STEP}, 0)", frames=TIMES, judge=settled(0, 0)),
    Row(
        "os_wave", "five numbers at the ends of 16 bits, with lines between",
        f"os_wave(waveform{{{', '.join(map(str, FIVE))}}}, {STEP})",
        frames=TIMES, expected=[tabled(FIVE, STEP)],
    ),
    Row(
        "os_wave", "numbers that differ by one",
        f"os_wave(waveform{{0, 1}}, {2**32 // 512 + 2**17})",
        frames=TIMES, expected=[tabled([0, 1], 2**32 // 512 + 2**17)],
    ),
    Row("os_wave", "one number is a constant", f"os_wave(waveform{{-77}}, {STEP})", frames=TIMES, expected=[[-77] * TIMES]),
    Row(
        "os_wave", "its pitch within a cent",
        "os_wave(waveform{0, 23170, 32767, 23170, 0, -23170, -32767, -23170}, os_note(57, 48000))",
        frames=24000, judge=pitched(220),
    ),
    Row("no_noise", "Faust's own generator, its upper half", "no_noise", frames=TIMES, expected=[generator(TIMES)]),
    Row("no_noise", "white, and without DC", "no_noise", frames=40000, judge=white_fault),
    Row(
        "no_multi", "one generator in turns, the last one first",
        "no_multi(3)",
        frames=TIMES, expected=[generator(3 * TIMES)[2 - index :: 3] for index in range(3)],
    ),
    Row("no_multi", "white, and unlike each other", "no_multi(3)", frames=30000, judge=white_fault),
    Row("no_lfsr", "the register's bits, its period and no DC", "no_lfsr", frames=70000, judge=register_fault),
    *(
        Row(
            "no_sparse", f"{density} in 65536 frames",
            f"no_sparse({density})",
            frames=TIMES,
            expected=[sparse(density)],
        )
        for density in (0, 500, generator(3)[1] + 32768, generator(3)[1] + 32769, 65536)
    ),
    # Its noise is -32768 once in 65536 frames or so.
    Row("no_sparse", "0 in 65536 frames is silence for long", "no_sparse(0)", frames=300000, judge=silent(0)),
    *(
        Row(
            "no_lfnoise0", f"a new level each turn, step {step}",
            f"no_lfnoise0({step})",
            frames=TIMES, expected=[held(step, generator(TIMES))],
        )
        for step in (0, SLOW, STEP)
    ),
    *(
        Row(
            "no_lfnoise", f"straight lines between levels, step {step}",
            f"no_lfnoise({step})",
            frames=TIMES, expected=[lines(step, generator(TIMES))],
        )
        for step in (0, SLOW, STEP)
    ),
    Row(
        "no_pink_filter", "the response of Kellet's poles within 0.1 dB",
        "no_pink_filter", [impulse(24000)],
        judge=responds(kellet, [24, 50, 100, 200, 500, 1000, 2000, 4000, 8000, 12000, 20000], 0.1),
    ),
    Row(
        "no_pink_filter", "3 dB an octave within 1 dB",
        "no_pink_filter", [impulse(24000)],
        judge=responds(pink, [24, 35, 50, 71, 100, 141, 200, 283, 400, 566, 800, 1131, 1600, 2263, 3200, 4525, 6400, 9051, 12000], 1.0),
    ),
    Row(
        "no_pink_filter", "the loudest sound is clipped and does not wrap, and then comes to 0",
        "no_pink_filter", [square(4000, 20000) + [0] * 20000],
        judge=every(within(-32768, 32767), lambda outputs: settled(0, 35000)(outputs)),
    ),
    Row(
        "no_pink", "within 16 bits, loud enough, and hardly DC",
        "no_pink",
        frames=48000,
        judge=every(without_dc(400), within(-32767, 32766), level_fault),
    ),
]
