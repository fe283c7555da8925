#!/usr/bin/env python3
"""Draws docs/noise.svg from docs/noise.dat, with mending, and docs/noise-before.dat, without: python3 docs/noise.py."""
import math
import os

HERE = os.path.dirname(os.path.abspath(__file__))
LEFT, TOP, WIDTH, HEIGHT = 70, 20, 600, 400
LEAST, MOST = 0.0001, 0.03
COLOURS = ("#9400d3", "#009e73", "#56b4e9", "#e69f00")
REPEATS = (1, 2, 4, 8)


def read(name):
    with open(os.path.join(HERE, name), encoding="ascii") as f:
        return [[float(x) for x in line.split()] for line in f if not line.startswith("#")]


def chance(x, k):
    """Without mending: a frame has 104 bits, and this story 42 frames; each has to come once in k sendings."""
    return (1 - (1 - (1 - x) ** 104) ** k) ** 42


def at(x, y):
    share = math.log(x / LEAST) / math.log(MOST / LEAST)
    return "%.1f,%.1f" % (LEFT + share * WIDTH, TOP + (1 - y) * HEIGHT)


def line(points, colour, how=""):
    return '<polyline points="%s" fill="none" stroke="%s" %s/>' % (" ".join(at(x, y) for x, y in points), colour, how)


def dot(x, y, colour, fill):
    where = at(x, y).split(",")
    return '<circle cx="%s" cy="%s" r="3.5" stroke="%s" fill="%s"/>' % (*where, colour, fill)


def text(x, y, words, how=""):
    return '<text x="%d" y="%d" %s>%s</text>' % (x, y, how, words)


def frame():
    for y in (0, 0.2, 0.4, 0.6, 0.8, 1):
        yield line([(LEAST, y), (MOST, y)], "#cccccc")
        yield text(LEFT - 8, TOP + (1 - y) * HEIGHT + 5, "%g" % y, 'text-anchor="end"')
    for x in (0.0001, 0.0003, 0.001, 0.003, 0.01, 0.03):
        yield line([(x, 0), (x, 1)], "#cccccc")
        yield text(float(at(x, 0).split(",")[0]), TOP + HEIGHT + 20, "%g" % x, 'text-anchor="middle"')
    yield text(LEFT + WIDTH // 2, TOP + HEIGHT + 45, "share of bits that are inverted", 'text-anchor="middle"')
    yield text(-TOP - HEIGHT // 2, 20, "chance that the story is shown", 'text-anchor="middle" transform="rotate(-90)"')


def main():
    mended, before = read("noise.dat"), read("noise-before.dat")
    parts = list(frame())
    for k, (times, colour) in enumerate(zip(REPEATS, COLOURS), 1):
        steps = [LEAST * (MOST / LEAST) ** (i / 100) for i in range(101)]
        parts.append(line([(x, chance(x, times)) for x in steps], colour, 'stroke-dasharray="4 4"'))
        parts += [dot(row[0], row[k], colour, "white") for row in before]
        parts.append(line([(row[0], row[k]) for row in mended], colour, 'stroke-width="2"'))
        parts += [dot(row[0], row[k], colour, colour) for row in mended]
        parts.append(text(LEFT + WIDTH + 20, TOP + 30 * k, "sent %d times" % times if times > 1 else "sent once", 'fill="%s"' % colour))
    parts += [text(LEFT + WIDTH + 20, TOP + 170, "full: with mending"), text(LEFT + WIDTH + 20, TOP + 200, "open: without")]
    with open(os.path.join(HERE, "noise.svg"), "w", encoding="ascii") as f:
        f.write('<svg xmlns="http://www.w3.org/2000/svg" width="840" height="480" font-family="sans-serif" font-size="14">\n'
                '<rect width="840" height="480" fill="white"/>\n%s\n</svg>\n' % "\n".join(parts))


main()
