#!/usr/bin/env python3
"""Draws what the definitions of the library do, one picture a group: `pictures/NAME.png`, which PICTURES.md shows. Responses go from 20
to 20000 hertz, a decade as wide as the next, and 12 dB a line; waves and envelopes over time; spectrograms as those of the examples.

Needs Python 3.9 or later with its zlib, and the program that tests/check-library plays."""
import importlib.machinery
import importlib.util
import math
import os
import sys
import tempfile

sys.dont_write_bytecode = True
FOLDER = os.path.dirname(os.path.realpath(__file__))
TOP = os.path.dirname(FOLDER)


def loaded(name, path):
    loader = importlib.machinery.SourceFileLoader(name, os.path.join(TOP, path))
    module = importlib.util.module_from_spec(importlib.util.spec_from_loader(name, loader))
    loader.exec_module(module)
    return module


drawing = loaded("drawing", "examples/make_pictures.py")
check = loaded("check_library", "tests/check-library")
rows = loaded("rows", "tests/library/rows.py")
biquad = loaded("biquad_coefficients", "library/biquad_coefficients.py")

LEFT, WIDTH, RIGHT, GAP = 150, 440, 54, 12
LOW, HIGH, RATE = 20, 20000, 48000
COLOURS = [drawing.BLUE, (192, 80, 40), (60, 140, 60), drawing.GREY]
PALE = (221, 221, 221)


class Panel:
    """One axis of a picture: its label, its height, and what draws it."""

    def __init__(self, label, height, draw):
        self.label, self.height, self.draw = label, height, draw


def play(player, program, inputs=(), frames=None):
    outputs = player.play(rows.Row("", "", program, inputs, frames))
    if isinstance(outputs, str):
        sys.exit(f"make_pictures.py: {program}: {outputs}")
    return outputs


def curve(picture, y, height, values, colour):
    """A line through the values of the columns, from 0 at the foot to 1 at the head."""
    places = [y + round((1 - max(0.0, min(1.0, value))) * (height - 1)) for value in values]
    for x, (before, now) in enumerate(zip(places[:1] + places, places)):
        picture.column(LEFT + x, min(before, now), max(before, now), colour)


def level(picture, y, height, value, text=""):
    """A pale line across at this value, and at the right what it is."""
    row = y + round((1 - value) * (height - 1))
    for x in range(WIDTH):
        picture.dot(LEFT + x, row, PALE)
    picture.text(LEFT + WIDTH + 6, row - 3, text)


def decibel_levels(picture, y, height, bottom, top):
    """Pale lines at each 12 dB, of which every other one is named."""
    for decibels in range(bottom, top + 1, 12):
        named = f"{decibels} dB" if decibels == 0 else "" if decibels % 24 else str(decibels)
        level(picture, y, height, (decibels - bottom) / (top - bottom), named)


def frequencies(picture, y, height, is_named):
    """Pale lines at some frequencies, named at the foot."""
    for frequency, text in ((100, "100 Hz"), (1000, "1 kHz"), (10000, "10 kHz")):
        x = LEFT + round(math.log(frequency / LOW) / math.log(HIGH / LOW) * (WIDTH - 1))
        picture.column(x, y, y + height - 1, PALE)
        if is_named:
            picture.text(x + 3, y + height - 9, text)


def responses(label, programs, top=12, bottom=-48):
    """How loud each frequency comes out of each program, in dB."""

    def draw(player, picture, y, height):
        decibel_levels(picture, y, height, bottom, top)
        frequencies(picture, y, height, False)
        for program, colour in zip(programs, COLOURS):
            # Softer than the loudest, so that nothing is clipped.
            answer = play(player, program, [rows.impulse(16384, 8192)])[0]
            lines = [abs(one) / 8192 for one in drawing.transform([float(one) for one in answer])]
            values = []
            for x in range(WIDTH):
                place = LOW * (HIGH / LOW) ** (x / (WIDTH - 1)) / RATE * 16384
                whole, part = int(place), place - int(place)
                gain = lines[whole] * (1 - part) + lines[whole + 1] * part
                values.append((20 * math.log10(max(gain, 1e-6)) - bottom) / (top - bottom))
            curve(picture, y, height, values, colour)
        frequencies(picture, y + height - 10, 10, True)

    return Panel(label, 84, draw)


def waves(label, program, frames, inputs=()):
    """What the program gives over time, over all 16 bits."""

    def draw(player, picture, y, height):
        for part, text in ((1, "0 dB"), (0.5, "-6"), (0, ""), (-0.5, "-6"), (-1, "0 dB")):
            level(picture, y, height, (1 + part * 32768 / 34000) / 2, text)
        for samples, colour in zip(play(player, program, inputs, frames), COLOURS):
            parts = [samples[x * frames // WIDTH : (x + 1) * frames // WIDTH + 1] or [0] for x in range(WIDTH)]
            for x, part in enumerate(parts):
                head, foot = (y + round((1 - sample / 34000) * (height - 1) / 2) for sample in (max(part), min(part)))
                picture.column(LEFT + x, head, foot, colour)

    return Panel(label, 56, draw)


def curves(label, program, inputs, texts=("0", "16384", "32768")):
    """What the program gives, from 0 at the foot to 32768, which may stand for other numbers."""

    def draw(player, picture, y, height):
        for at, text in enumerate(texts):
            level(picture, y, height, at / 2, text)
        for samples, colour in zip(play(player, program, inputs), COLOURS):
            curve(picture, y, height, [sample / 32768 for sample in samples], colour)

    return Panel(label, 84, draw)


def levels(label, programs, bottom=-60):
    """How loud each level comes out, from so many dB to 0, both ways."""

    def draw(player, picture, y, height):
        decibel_levels(picture, y, height, bottom, 0)
        steps = [round(32767 * 10 ** (bottom * (1 - x / (WIDTH - 1)) / 20)) for x in range(WIDTH)]
        for program, colour in zip(programs, COLOURS):
            loud = [20 * math.log10(max(abs(sample), 1) / 32767) for sample in play(player, program, [steps])[0]]
            curve(picture, y, height, [1 - one / bottom for one in loud], colour)

    return Panel(label, 84, draw)


def spectrogram(label, program, frames):
    """Up to a quarter of the rate, the darker, the louder."""

    def draw(player, picture, y, height):
        samples = play(player, program, frames=frames)[0]
        weights = [math.sin(math.pi * k / 512) ** 2 for k in range(512)]
        columns = []
        for x in range(WIDTH):
            start = x * (frames - 512) // (WIDTH - 1)
            columns.append([abs(one) for one in drawing.transform([w * s for w, s in zip(weights, samples[start:])])[:256]])
        loudest = max(map(max, columns)) or 1
        picture.text(LEFT + WIDTH + 6, y, f"{RATE // 4} Hz")
        picture.text(LEFT + WIDTH + 6, y + height - 7, "0")
        for x, column in enumerate(columns):
            for row in range(height):
                low, high = ((height - row - k) * 256 // height for k in (1, 0))
                loud = 1 + max(math.log10(max(column[low : max(high, low + 1)]) / loudest + 1e-9), -3) / 3
                # In twelfths, so that the file stays small.
                picture.dot(LEFT + x, y + row, tuple(round(255 + round(loud * 12) / 12 * (part - 255)) for part in (8, 48, 107)))

    return Panel(label, 128, draw)


def spectrum(label, program):
    """The mean of many short spectra of a noise, in dB over the logarithm of the frequency."""

    def draw(player, picture, y, height):
        samples, size = play(player, program, frames=2**17)[0], 4096
        weights = [math.sin(math.pi * k / size) ** 2 for k in range(size)]
        power = [0.0] * (size // 2)
        for start in range(0, len(samples) - size + 1, size):
            for k, one in enumerate(drawing.transform([w * s for w, s in zip(weights, samples[start:])])[: size // 2]):
                power[k] += abs(one) ** 2
        for line in range(1, 4):
            level(picture, y, height, line / 4)
        frequencies(picture, y, height, False)
        decibels = []
        for x in range(WIDTH):
            low, high = (int(LOW * (HIGH / LOW) ** ((x + k * 8) / (WIDTH - 1)) / RATE * size) for k in (0, 1))
            part = power[max(1, low) : max(1, low, min(high, size // 2 - 1)) + 1]
            decibels.append(10 * math.log10(sum(part) / len(part) + 1))
        curve(picture, y, height, [(one - 105) / 48 for one in decibels], drawing.BLUE)
        frequencies(picture, y + height - 10, 10, True)

    return Panel(label, 84, draw)


SIGNED = ("-32768", "0", "32767")
RAMP = [round(32768 * x / (WIDTH - 1)) for x in range(WIDTH)]
BOTH_WAYS = [round(65535 * x / (WIDTH - 1)) - 32768 for x in range(WIDTH)]
GATE = [int(20 <= x < 190 or 300 <= x < 310) for x in range(WIDTH)]
STEPS = [0 if x < 30 else 30000 if x < 220 else 8000 for x in range(WIDTH)]
# A loud beginning and a soft end, three times.
BURSTS = [round(sample * 0.98 * (1 if frame % 8000 < 1500 else 0.08)) for frame, sample in enumerate(rows.sine(600, 24000))]
BURST = [sample * (frame < 900) * 2 // 3 for frame, sample in enumerate(rows.sine(400, 24000))]
SHAKEN = [2000 if time % 9600 < 4800 else 9000 for time in range(24000)]
BIQUADS = [("lowpass", 100, 0.7071, RATE), ("peak", 1000, 2, RATE, 9), ("highshelf", 5000, 0.7071, RATE, -12)]
PICTURES = {
    "filters": [
        responses("first order", ["fi_lowpass1(1000, 48000)", "fi_highpass1(1000, 48000)", "fi_dcblocker"]),
        responses("shelves", ["fi_lowshelf1(200, ga_db_tenths(60), 48000)", "fi_highshelf1(4000, ga_db(-12), 48000)"]),
        responses("fi_svf_lp", [f"fi_svf_lp(1000, {q}, 48000)" for q in (181, 512, 1024)]),
        responses("fi_svf_hp _bp _notch", [f"fi_svf_{kind}(1000, {q}, 48000)" for kind, q in (("hp", 181), ("bp", 1024), ("notch", 256))]),
        responses("fi_biquad", [biquad.call(*one) for one in BIQUADS]),
        responses("combs", ["fi_ff_comb(48, 48, 32768)", "fi_fb_comb(48, 48, 22938)", "fi_allpass_comb(48, 48, 22938)"]),
        responses("fi_moving_mean", ["fi_moving_mean(8)", "fi_moving_mean(48)"]),
    ],
    "oscillators": [
        waves("os_osc", "os_osc(os_step(200, 48000))", 480),
        waves("os_lf_saw", "os_lf_saw(os_step(200, 48000))", 480),
        waves("os_saw", "os_saw(os_step(200, 48000))", 480),
        waves("os_square", "os_square(os_step(200, 48000))", 480),
        waves("os_pulse", "os_pulse(os_step(200, 48000), 8192)", 480),
        waves("os_lf_triangle", "os_lf_triangle(os_step(200, 48000))", 480),
        waves("os_wave", "os_wave(waveform{0, 30000, 10000, -10000, -30000}, os_step(200, 48000))", 480),
        spectrogram("os_lf_saw rising", "os_lf_saw(os_step(500 + (+(1) ~ _) / 16, 48000))", 48000),
        spectrogram("os_saw rising", "os_saw(os_step(500 + (+(1) ~ _) / 16, 48000))", 48000),
    ],
    "noises": [
        spectrum("no_noise", "no_noise"),
        spectrum("no_pink", "no_pink"),
        spectrum("no_lfsr", "no_lfsr : ga_gain(16384)"),
        waves("no_sparse", "no_sparse(200)", 12000),
        waves("no_lfnoise0", "no_lfnoise0(os_step(100, 48000))", 12000),
        waves("no_lfnoise", "no_lfnoise(os_step(100, 48000))", 12000),
    ],
    "delays": [
        waves("de_multi_tap", "de_multi_tap((100, 400, 900, 1600), (32768, 23170, 16384, 11585))", 2000, [rows.impulse(2000)]),
        waves("de_ping_pong left", "_, 0 : de_ping_pong(1000, 200, 26000) : _, !", 4000, [rows.impulse(4000)]),
        waves("de_ping_pong right", "_, 0 : de_ping_pong(1000, 200, 26000) : !, _", 4000, [rows.impulse(4000)]),
        waves("de_delay jumping", "\\(d, x).(x : de_delay(9000, d))", 24000, [SHAKEN, rows.sine(7, 24000, 30000)]),
        waves("de_sdelay", "\\(d, x).(x : de_sdelay(9000, 2400, d))", 24000, [SHAKEN, rows.sine(7, 24000, 30000)]),
        responses("de_fdelay half a sample", ["de_fdelay(4, 2048)"]),
    ],
    "gains": [
        curves("ga_pan", "\\(p).(32767 : ga_pan(p))", [RAMP]),
        curves("ga_pan_power", "\\(p).(32767 : ga_pan_power(p))", [RAMP]),
        curves("ga_balance", "\\(p).(32767, 32767 : ga_balance(p))", [RAMP]),
        curves("ga_db 60 to 0", "ga_db", [[x * 60 // (WIDTH - 1) - 60 for x in range(WIDTH)]]),
        curves("ga_db_tenths", "ga_db_tenths", [[x * 600 // (WIDTH - 1) - 600 for x in range(WIDTH)]]),
    ],
    "envelopes": [
        curves("gate", "_ * 32000", [GATE]),
        curves("en_adsr en_adsre", "_ <: en_adsr(40, 60, 16000, 90), en_adsre(40, 60, 16000, 90)", [GATE]),
        curves("en_asr en_smooth", "_ <: en_asr(60, 28000, 100), en_smooth(20)", [GATE]),
        curves("en_ar en_fall en_decay", "_ <: en_ar(30, 100), en_fall(100), en_decay(100)", [GATE]),
        curves("en_follower", "_ <: abs, en_follower(8, 60)", [[round(sample * (x % 220 < 110)) for x, sample in enumerate(rows.sine(1500, WIDTH))]]),
    ],
    "control": [
        curves("co_smooth co_line", "_ <: _, co_smooth(25), co_line(60)", [STEPS]),
        curves("co_slew co_lag", "_ <: _, co_slew(400, 150), co_lag(10, 60)", [STEPS]),
        curves("co_hold of a sine", "_ <: _, co_hold(co_pulse(20))", [[16384 + sample // 2 for sample in rows.sine(240, WIDTH)]], SIGNED),
        waves("co_euclid 3 of 8", "co_pulse(480) <: _ * co_euclid(3, 8, co_count(8)) * 30000", 15360),
        waves("co_euclid 5 of 16", "co_pulse(480) <: _ * co_euclid(5, 16, co_count(16)) * 30000", 15360),
        waves("co_divide by 3", "co_pulse(480) : co_divide(3) : *(30000)", 15360),
        waves("co_steps", "co_pulse(480) : co_count(8) : co_steps(waveform{9000, -20000, 27000, 0, 14000}) : _", 15360),
    ],
    "dynamics": [
        levels("dy_compressor", ["_", "dy_compressor(2, -30, 1, 1)", "dy_compressor(8, -30, 1, 1)"]),
        levels("dy_expander dy_gate", ["_", "dy_expander(3, -30, 1, 1)", "dy_gate(-40, 1, 0, 1)"]),
        waves("a sound", "_", len(BURSTS), [BURSTS]),
        waves("dy_compressor", "dy_compressor(3, -24, 24, 1200)", len(BURSTS), [BURSTS]),
        waves("dy_gate", "dy_gate(-20, 48, 480, 1200)", len(BURSTS), [BURSTS]),
        waves("dy_limiter", "dy_limiter(12000, 7, 1200)", len(BURSTS), [BURSTS]),
        waves("dy_clip", "dy_clip(12000)", len(BURSTS), [BURSTS]),
    ],
    "effects": [
        responses("ef_flanger", ["ef_flanger(100, 20 * 4096, 32768, 0)", "ef_flanger(100, 20 * 4096, 32768, -20000)"]),
        responses("ef_phaser", [f"ef_phaser(4, os_step(1000, 48000), 32768, {f})" for f in (0, 20000)]),
        curves("ef_cubic", "_ <: " + ", ".join(f"(ef_cubic({drive}) : +(32768) : /(2))" for drive in (256, 1024)), [BOTH_WAYS], SIGNED),
        curves("ef_crush ef_shape", "_ <: (ef_crush(4) : +(32768) : /(2)), (ef_shape(waveform{-9000, -27000, 0, 27000, 9000}) : +(32768) : /(2))", [BOTH_WAYS], SIGNED),
        waves("ef_echo", "ef_echo(2000, 2000, 22000)", 24000, [BURST]),
        waves("ef_tremolo", "os_osc(os_step(400, 48000)) : ef_tremolo(28000, os_step(8, 48000))", 24000),
        waves("ef_string", "en_fall(300, 1 - 1') : en_apply(_, no_noise) : ef_string(500, ef_period(os_step(150, 48000)), 32400)", 24000),
        spectrogram("ef_vibrato", "os_saw(os_step(1500, 48000)) : ef_vibrato(200, os_step(4, 48000))", 48000),
    ],
    "reverberation": [
        waves("re_comb", "*(4) : re_comb(1116, 27525, 6554) : /(4)", 24000, [rows.impulse(24000, 30000)]),
        waves("re_allpass", "re_allpass(556, -16384)", 24000, [rows.impulse(24000, 30000)]),
        waves("re_schroeder", "re_schroeder : *(3)", 24000, [rows.impulse(24000, 30000)]),
        waves("re_freeverb left", "_, 0 : re_freeverb(27525, 6554) : *(25), !", 24000, [rows.impulse(24000, 30000)]),
        waves("re_freeverb right", "_, 0 : re_freeverb(27525, 6554) : !, *(25)", 24000, [rows.impulse(24000, 30000)]),
        spectrogram("re_freeverb", "(1 - 1') * 60000 : re_freeverb_mono(27525, 16384, 0) : *(16)", 48000),
    ],
}


def draw(name, panels, player):
    picture, y = drawing.Picture(LEFT + WIDTH + RIGHT, sum(panel.height + GAP for panel in panels) + GAP), GAP
    for panel in panels:
        picture.text(LEFT - 6, y + panel.height // 2 - 3, panel.label, right=True)
        panel.draw(player, picture, y, panel.height)
        picture.frame(LEFT, y, WIDTH, panel.height)
        y += panel.height + GAP
    picture.save(os.path.join(FOLDER, "pictures", name + ".png"))


def main(names):
    unknown = [name for name in names if name not in PICTURES]
    if unknown:
        sys.exit(f"make_pictures.py: there is no picture {unknown[0]}; there are {', '.join(PICTURES)}")
    os.makedirs(os.path.join(FOLDER, "pictures"), exist_ok=True)
    program = os.path.abspath(os.environ.get("FAUSTVEC") or os.path.join(TOP, "dist/x86_64-linux/faustvec"))
    with tempfile.TemporaryDirectory() as folder:
        player = check.Player(program, check.link.library(), folder)
        for name in names or PICTURES:
            draw(name, PICTURES[name], player)


if __name__ == "__main__":
    main(sys.argv[1:])
