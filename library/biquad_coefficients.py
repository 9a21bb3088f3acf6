#!/usr/bin/env python3
"""Prints the call of fi_biquad that filters as its words say.

    library/biquad_coefficients.py KIND FREQUENCY Q RATE [GAIN]

KIND is lowpass, highpass, bandpass (0 dB at its peak), notch, allpass, peak, lowshelf or highshelf; the last three take a GAIN in
decibels. FREQUENCY is in hertz and RATE in frames a second. The formulas are those of Robert Bristow-Johnson's cookbook."""
import math
import sys

ONE = 2**28
WITH_GAIN = ("peak", "lowshelf", "highshelf")
KINDS = ("lowpass", "highpass", "bandpass", "notch", "allpass") + WITH_GAIN


def coefficients(kind, frequency, q, rate, gain=0.0):
    """b0, b1, b2, a1 and a2, where a0 is 1."""
    turn = 2 * math.pi * frequency / rate
    cosine, alpha, root = math.cos(turn), math.sin(turn) / (2 * q), 10 ** (gain / 40)
    shelf = 2 * math.sqrt(root) * alpha
    up, down = root + 1, root - 1
    b, a = {
        "lowpass": lambda: ([(1 - cosine) / 2, 1 - cosine, (1 - cosine) / 2], [1 + alpha, -2 * cosine, 1 - alpha]),
        "highpass": lambda: ([(1 + cosine) / 2, -1 - cosine, (1 + cosine) / 2], [1 + alpha, -2 * cosine, 1 - alpha]),
        "bandpass": lambda: ([alpha, 0, -alpha], [1 + alpha, -2 * cosine, 1 - alpha]),
        "notch": lambda: ([1, -2 * cosine, 1], [1 + alpha, -2 * cosine, 1 - alpha]),
        "allpass": lambda: ([1 - alpha, -2 * cosine, 1 + alpha], [1 + alpha, -2 * cosine, 1 - alpha]),
        "peak": lambda: ([1 + alpha * root, -2 * cosine, 1 - alpha * root], [1 + alpha / root, -2 * cosine, 1 - alpha / root]),
        "lowshelf": lambda: (
            [root * (up - down * cosine + shelf), 2 * root * (down - up * cosine), root * (up - down * cosine - shelf)],
            [up + down * cosine + shelf, -2 * (down + up * cosine), up + down * cosine - shelf],
        ),
        "highshelf": lambda: (
            [root * (up + down * cosine + shelf), -2 * root * (down + up * cosine), root * (up + down * cosine - shelf)],
            [up - down * cosine + shelf, 2 * (down - up * cosine), up - down * cosine - shelf],
        ),
    }[kind]()
    return [one / a[0] for one in b + a[1:]]


def whole(numbers):
    """The coefficients times 2^28, or an error where fi_biquad has no room for them."""
    if sum(abs(one) for one in numbers[:3]) >= 3.99:
        raise ValueError("it is too loud for fi_biquad: b0, b1 and b2 are 4 or more together; take a smaller GAIN")
    b0, _, b2, a1, a2 = [round(one * ONE) for one in numbers]
    # What is left to b1 is what makes the gain of a constant the exact one: rounding would tell most there.
    constant = sum(numbers[:3]) / (1 + sum(numbers[3:]))
    return [b0, round(constant * (ONE + a1 + a2)) - b0 - b2, b2, a1, a2]


def call(kind, frequency, q, rate, gain=0.0):
    """The call of fi_biquad."""
    return f"fi_biquad({', '.join(map(str, whole(coefficients(kind, frequency, q, rate, gain))))})"


def main(words):
    if len(words) not in (4, 5) or words[0] not in KINDS:
        return f"KIND FREQUENCY Q RATE [GAIN] are wanted, where KIND is one of {', '.join(KINDS)}"
    try:
        frequency, q, rate, gain = [float(word) for word in words[1:] + ["0"]][:4]
    except ValueError:
        return "FREQUENCY, Q, RATE and GAIN are numbers"
    if (len(words) == 5) != (words[0] in WITH_GAIN):
        return f"a GAIN is for {', '.join(WITH_GAIN)}, and only for them"
    if not (0 < frequency < rate / 2 and q > 0 and abs(gain) <= 40):
        return "FREQUENCY lies between 0 and half of RATE, Q is above 0, and GAIN within 40 decibels"
    try:
        print(call(words[0], frequency, q, rate, gain))
    except ValueError as error:
        return str(error)
    return None


if __name__ == "__main__":
    fault = main(sys.argv[1:])
    if fault:
        print(f"biquad_coefficients.py: {fault}", file=sys.stderr)
        sys.exit(2)
