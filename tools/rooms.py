#!/usr/bin/env python3
"""Draws the rooms of the repository in layers, from crates.txt:

    tools/rooms.py > docs/rooms.svg

A crate stands one layer above the highest crate that it uses. A line leads down to each crate that it uses and that it
doesn't reach through another. Crates that hold tests alone and libraries of the kit are left out.
"""
import pathlib
import sys

TOP = pathlib.Path(__file__).resolve().parent.parent
WIDTH, HEIGHT, GAP, LAYER = 150, 26, 14, 74
MARGIN = 16


def uses_by_crate():
    """What each crate uses, of the repository's own crates."""
    lines = [line.split("#")[0].strip() for line in (TOP / "crates.txt").read_text().splitlines()]
    pairs = [line.split(":") for line in lines if line]
    named = {crate.split()[0]: uses.split() for crate, uses in pairs if not crate.split()[0].endswith("_tests")}
    return {crate: [use for use in uses if use in named] for crate, uses in named.items()}


def heights(uses):
    """The layer of each crate, from 0 at the bottom."""
    found = {}

    def height(crate):
        if crate not in found:
            found[crate] = 1 + max((height(use) for use in uses[crate]), default=-1)
        return found[crate]

    for crate in uses:
        height(crate)
    return found


def reached(uses, crate):
    """All crates below this one."""
    below = set()
    for use in uses[crate]:
        below |= {use} | reached(uses, use)
    return below


def direct(uses):
    """The crates that each uses and doesn't reach through another."""
    return {
        crate: [use for use in named if not any(use in reached(uses, other) for other in named if other != use)]
        for crate, named in uses.items()
    }


def places(uses, layer_of):
    """The middle of each crate's box: crates of a layer side by side, ordered by where those below them stand."""
    layers = [[crate for crate in uses if layer_of[crate] == layer] for layer in range(max(layer_of.values()) + 1)]
    widest = max(map(len, layers)) * (WIDTH + GAP)
    x = {}
    for layer in layers:
        wanted = {crate: sum(x[use] for use in uses[crate]) / len(uses[crate]) if uses[crate] else 0 for crate in layer}
        start = (widest - len(layer) * (WIDTH + GAP)) / 2 + (WIDTH + GAP) / 2
        for place, crate in enumerate(sorted(layer, key=lambda crate: (wanted[crate], crate))):
            x[crate] = MARGIN + start + place * (WIDTH + GAP)
    top = MARGIN + (len(layers) - 1) * LAYER + HEIGHT / 2
    return x, {crate: top - layer_of[crate] * LAYER for crate in uses}, widest + 2 * MARGIN, top + HEIGHT / 2 + MARGIN


def picture(uses):
    below = direct(uses)
    x, y, width, height = places(below, heights(uses))
    lines = [
        f'<svg xmlns="http://www.w3.org/2000/svg" viewBox="0 0 {width:.0f} {height:.0f}" font-family="sans-serif" font-size="12">',
        f'<rect width="{width:.0f}" height="{height:.0f}" fill="white"/>',
    ]
    for crate, named in below.items():
        for use in named:
            lines.append(
                f'<line x1="{x[crate]:.0f}" y1="{y[crate] + HEIGHT / 2:.0f}" x2="{x[use]:.0f}" y2="{y[use] - HEIGHT / 2:.0f}" stroke="#999"/>'
            )
    for crate in uses:
        left, top = x[crate] - WIDTH / 2, y[crate] - HEIGHT / 2
        lines.append(f'<rect x="{left:.0f}" y="{top:.0f}" width="{WIDTH}" height="{HEIGHT}" rx="4" fill="#eef3fa" stroke="#446"/>')
        lines.append(f'<text x="{x[crate]:.0f}" y="{y[crate] + 4:.0f}" text-anchor="middle">{crate}</text>')
    return "\n".join([*lines, "</svg>"])


if __name__ == "__main__":
    sys.stdout.write(picture(uses_by_crate()) + "\n")
