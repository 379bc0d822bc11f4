#!/usr/bin/env python3
"""Draws the printed steps of a report from standard input, as text or as SVG files. Needs no package.

    bin/peano < examples/diffusing_pulse.toml | tools/draw_field.py
    bin/peano < examples/diffusing_pulse.toml | tools/draw_field.py --svg /tmp/pulse

In text, each cell of the step's finest level (of level 4 where the step goes deeper) is two characters, from the least
value of the report to its greatest; the line below a picture tells from which value on each character stands. The first
coordinate grows to the right, the second upwards. Of a field in space one slice across the third axis is drawn, in the
middle unless --slice says where.
"""
import argparse
import signal
import sys
from fractions import Fraction

SHADES = " .:-=+*#%@"
# The colours of an SVG file, from the least value to the greatest.
COLOURS = [(68, 1, 84), (59, 82, 139), (33, 145, 140), (94, 201, 98), (253, 231, 37)]


class Unreadable(Exception):
    """The input is no report, or leaves something open."""


def read(lines):
    """The printed steps of a report: for each its number and its leaves, each a list of whole numbers."""
    steps = []
    for line in lines:
        words = line.split()
        if words[:1] == ["step"]:
            steps.append((int(words[1]), []))
        elif steps and words and words[0].isdigit():
            steps[-1][1].append([int(word) for word in words])
    if not steps:
        raise Unreadable("there is no line 'step ..' on standard input: where peano refused the file, it told why")
    return steps


def axes_of(leaves):
    """The number of axes: that with which the leaves fill the domain. None where both do, as with the root alone."""
    fits = [axes for axes in (2, 3) if sum(Fraction(1, 3 ** (axes * leaf[0])) for leaf in leaves) == 1]
    fits = [axes for axes in fits if len(leaves[0]) - 1 - axes in (1, 2)]
    return fits[0] if len(fits) == 1 else None


def amount(leaves, axes, part):
    """The sum over the leaves of a value times the leaf's area or volume; the domain has the area or volume 1."""
    return sum(Fraction(leaf[1 + axes + part], 3 ** (axes * leaf[0])) for leaf in leaves)


def sliced(leaves, axes, at):
    """The leaves that a plane across the third axis meets, and the finest level of all leaves."""
    finest = max(leaf[0] for leaf in leaves)
    size = 3**finest
    at = size // 2 if at is None else min(at, size - 1)
    if axes == 2:
        return leaves, finest
    return [it for it in leaves if it[3] * 3 ** (finest - it[0]) <= at < (it[3] + 1) * 3 ** (finest - it[0])], finest


def text_of(leaves, axes, options, low, high):
    """The lines of a picture, the greatest second coordinate first."""
    shown, finest = sliced(leaves, axes, options.slice)
    finest = min(finest, options.finest)
    size = 3**finest
    picture = [[" "] * size for _ in range(size)]
    for leaf in shown:
        shade = SHADES[(leaf[1 + axes + options.value] - low) * (len(SHADES) - 1) // max(1, high - low)]
        right, up, width = leaf[1], leaf[2], 3 ** max(0, finest - leaf[0])
        # Of leaves that are smaller than a character, the one in the middle is drawn.
        below = 3 ** max(0, leaf[0] - finest)
        if (right % below, up % below) != (below // 2, below // 2):
            continue
        right, up = right // below * width, up // below * width
        for row in picture[size - up - width : size - up]:
            row[right : right + width] = [shade] * width
    return ["".join(shade * 2 for shade in row).rstrip() for row in picture]


def legend(low, high):
    """The least value of each shade."""
    span, last = max(1, high - low), len(SHADES) - 1
    return "from " + ", ".join(f"{low - -span * n // last} '{shade}'" for n, shade in enumerate(SHADES) if n == 0 or high > low)


def colour(value, low, high):
    """The colour of a value, between the two colours nearest to it."""
    place = (len(COLOURS) - 1) * (value - low) / max(1, high - low)
    n = min(int(place), len(COLOURS) - 2)
    return "#%02x%02x%02x" % tuple(round(a + (b - a) * (place - n)) for a, b in zip(COLOURS[n], COLOURS[n + 1]))


def svg_of(step, leaves, axes, options, low, high):
    """A picture with the outlines of the leaves, and a bar of colours with its values."""
    shown, _ = sliced(leaves, axes, options.slice)
    parts = ['<svg xmlns="http://www.w3.org/2000/svg" width="760" height="640" viewBox="0 0 760 640" font-family="sans-serif">']
    parts.append(f'<text x="20" y="24">step {step}, {len(leaves)} leaves</text>')
    for leaf in shown:
        edge = 592 / 3 ** leaf[0]
        left, top = 20 + leaf[1] * edge, 628 - (leaf[2] + 1) * edge
        fill = colour(leaf[1 + axes + options.value], low, high)
        parts.append(f'<rect x="{left:.3f}" y="{top:.3f}" width="{edge:.3f}" height="{edge:.3f}" fill="{fill}" stroke="#808080" stroke-width="0.4"/>')
    for n in range(9):
        value = low + (high - low) * n // 8
        top = 600 - 70 * n
        parts.append(f'<rect x="640" y="{top - 14}" width="20" height="20" fill="{colour(value, low, high)}"/><text x="668" y="{top + 1}">{value}</text>')
    return "\n".join([*parts, "</svg>", ""])


def options_of(words):
    lines = __doc__.split("\n\n")
    parser = argparse.ArgumentParser(
        description=lines[0], epilog="\n\n".join(lines[1:]), formatter_class=argparse.RawDescriptionHelpFormatter
    )
    parser.add_argument("--axes", type=int, choices=(2, 3), help="the number of axes, where the report does not tell it")
    parser.add_argument("--value", type=int, default=0, choices=(0, 1), help="which value of a leaf is drawn (of a wave, 1 is the speed)")
    parser.add_argument("--step", type=int, help="draws this step alone")
    parser.add_argument("--slice", type=int, metavar="N", help="in space: where the slice lies, in cells of the finest level from 0")
    parser.add_argument("--finest", type=int, default=4, choices=range(7), help="in text: the level whose cells are characters, 4 if left out")
    parser.add_argument("--svg", metavar="NAME", help="writes a file NAME_STEP.svg for each step, and no text")
    return parser.parse_args(words)


def main():
    options = options_of(sys.argv[1:])
    steps = read(sys.stdin)
    axes = options.axes or next((axes for axes in (axes_of(leaves) for _, leaves in steps) if axes), None)
    if axes is None:
        raise Unreadable("the report does not tell the number of axes: say --axes 2 or --axes 3")
    if len(steps[0][1][0]) <= 1 + axes + options.value:
        raise Unreadable("a leaf of this report has no such value")
    values = [leaf[1 + axes + options.value] for _, leaves in steps for leaf in leaves]
    low, high = min(values), max(values)
    for step, leaves in steps:
        if options.step not in (None, step):
            continue
        if options.svg:
            with open(f"{options.svg}_{step}.svg", "w", encoding="utf-8") as file:
                file.write(svg_of(step, leaves, axes, options, low, high))
            continue
        own = [leaf[1 + axes + options.value] for leaf in leaves]
        kind = "area" if axes == 2 else "volume"
        total = float(amount(leaves, axes, options.value))
        print(f"step {step}: {len(leaves)} leaves, values {min(own)} to {max(own)}, sum of value times {kind} {total:.2f}")
        print("\n".join(text_of(leaves, axes, options, low, high)))
        print(legend(low, high))


if __name__ == "__main__":
    # Where the reader of the picture goes away, as `head` does, this ends without a word.
    signal.signal(signal.SIGPIPE, signal.SIG_DFL)
    try:
        main()
    except Unreadable as fault:
        sys.exit(f"draw_field: {fault}")
