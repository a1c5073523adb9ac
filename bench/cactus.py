#!/usr/bin/env python3
"""cactus.py TABLE > docs/cactus.svg

Draws the field's cactus plot of a table: for each program how many instances it solved (across), each within how many
seconds (up, by powers of ten). The table is a text: the first line names the programs, and each other one has an
instance's name and the seconds that each program took for it, or - where it didn't end. Standard library alone.
"""
import math
import sys

WIDTH, HEIGHT = 720, 420
LEFT, RIGHT, TOP, BOTTOM = 70, 190, 30, 50
COLOURS = ["#1b6ca8", "#7cb7e8", "#c0392b", "#e59866", "#5d6d7e", "#229954"]


def read(path):
    """The names of the programs, and for each the sorted seconds of what it solved."""
    rows = [line.split() for line in open(path) if line.strip() and not line.startswith("#")]
    names = rows[0][1:]
    columns = ([row[1 + place] for row in rows[1:]] for place in range(len(names)))
    return names, [sorted(float(cell) for cell in column if cell != "-") for column in columns], len(rows) - 1


def main(path):
    names, solved, count = read(path)
    all_seconds = [seconds for column in solved for seconds in column if seconds > 0]
    low = math.floor(math.log10(min(all_seconds)))
    high = math.ceil(math.log10(max(all_seconds)))
    across = (WIDTH - LEFT - RIGHT) / count
    up = (HEIGHT - TOP - BOTTOM) / (high - low)

    def x(number):
        return LEFT + number * across

    def y(seconds):
        return HEIGHT - BOTTOM - (max(math.log10(max(seconds, 1e-9)), low) - low) * up

    out = ['<svg xmlns="http://www.w3.org/2000/svg" width="%d" height="%d" viewBox="0 0 %d %d" '
           'font-family="sans-serif" font-size="12">' % (WIDTH, HEIGHT, WIDTH, HEIGHT),
           '<rect width="%d" height="%d" fill="white"/>' % (WIDTH, HEIGHT)]
    for power in range(low, high + 1):
        line = y(10.0 ** power)
        out.append('<line x1="%d" y1="%.1f" x2="%d" y2="%.1f" stroke="#ddd"/>' % (LEFT, line, WIDTH - RIGHT, line))
        out.append('<text x="%d" y="%.1f" text-anchor="end">%g</text>' % (LEFT - 8, line + 4, 10.0 ** power))
    for number in range(0, count + 1, max(1, count // 10)):
        out.append('<text x="%.1f" y="%d" text-anchor="middle">%d</text>' % (x(number), HEIGHT - BOTTOM + 18, number))
    out.append('<path d="M%d %d V%d H%d" fill="none" stroke="black"/>' % (LEFT, TOP, HEIGHT - BOTTOM, WIDTH - RIGHT))
    out.append('<text x="%.1f" y="%d" text-anchor="middle">instances solved</text>'
               % ((LEFT + WIDTH - RIGHT) / 2, HEIGHT - 12))
    out.append('<text transform="translate(18 %.1f) rotate(-90)" text-anchor="middle">seconds</text>'
               % ((TOP + HEIGHT - BOTTOM) / 2))
    for place, (name, column) in enumerate(zip(names, solved)):
        colour = COLOURS[place % len(COLOURS)]
        points = ["%.1f,%.1f" % (x(number), y(seconds)) for number, seconds in enumerate(column, 1)]
        out.append('<polyline points="%s" fill="none" stroke="%s" stroke-width="2"/>' % (" ".join(points), colour))
        out += ['<circle cx="%s" cy="%s" r="3" fill="%s"/>' % (*point.split(","), colour) for point in points]
        key = TOP + 10 + 20 * place
        out.append('<line x1="%d" y1="%d" x2="%d" y2="%d" stroke="%s" stroke-width="3"/>'
                   % (WIDTH - RIGHT + 15, key, WIDTH - RIGHT + 40, key, colour))
        out.append('<text x="%d" y="%d">%s</text>' % (WIDTH - RIGHT + 48, key + 4, name))
    out.append("</svg>")
    print("\n".join(out))


if __name__ == "__main__":
    main(*sys.argv[1:])
