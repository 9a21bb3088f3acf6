"""Two echoes side by side on one loud frame and silent ones after it: half as loud so many frames later, and again. However the work
is cut and shared out, the samples are the same."""
from rows import RUN, plays


def thirds(apart, loud):
    """Two channels, silent but for three frames, so many apart, with these samples."""
    samples = []
    for frame in range(2 * apart + 1):
        samples += [loud[frame // apart] if frame % apart == 0 else 0] * 2
    return samples


def echoes(apart, options):
    text = f"echo(d,g) = + ~ (@(d-1) : *(g) : /(256)); process = par(i,2,echo({apart},128));"
    return plays(text, thirds(apart, [1000, 0, 0]), thirds(apart, [1000, 500, 250]), RUN + options, channels=(2, 2))


ROWS = [
    echoes(110, " --block=1 --vector=1 --workers=1"),
    echoes(110, " --block=7 --vector=7 --workers=1"),
    echoes(110, " --block=512 --vector=32 --workers=1"),
    echoes(11025, " --block=1 --vector=1 --workers=1"),
    echoes(11025, " --block=1 --vector=1 --workers=2"),
    echoes(11025, " --block 7 --vector 7"),
    echoes(11025, ""),
    echoes(11025, " --block=512 --vector=32 --workers=1"),
    echoes(11025, " --block=512 --vector=32 --workers=2"),
    echoes(11025, " --block=512 --vector=32 --workers=16"),
    # frame by frame by sixteen workers, which takes sixteen threads for each of 2,205 blocks
    echoes(1102, " --block=1 --vector=1 --workers=16"),
]
