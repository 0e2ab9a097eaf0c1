#!/usr/bin/env python3
"""Draws the table of `compare/run --growth` as an SVG, both axes logarithmic, a panel for each lattice.

    compare/growth.py < table.md > docs/growth.svg
    compare/growth.py table.md > docs/growth.svg

Lines that are no row of the table are passed over, and so are times that are no number.
"""
import math
import sys
from html import escape

# Sizes in units of the picture.
PANEL_WIDTH, PANEL_HEIGHT = 400, 340
LEFT, RIGHT, TOP, GAP = 74, 16, 40, 34
AXIS, LEGEND_LINE = 52, 20
SMALL, NORMAL = 12, 14

# Columns before the times: lattice, sites, order.
FIRST_TIME = 3

INK, GRID, MINOR = '#222222', '#cccccc', '#eeeeee'
COLOURS = ['#0060a8', '#d05000', '#2f7d32', '#7a3b96']
DASHES = ['', '6 4', '2 3']


def read(lines):
    """The names of the columns, and for each lattice and column the points: sites and nanoseconds."""
    columns, panels = None, {}
    for line in lines:
        if not line.startswith('|') or line.startswith('|--'):
            continue
        fields = [field.strip() for field in line.strip().strip('|').split('|')]
        if columns is None:
            columns = [field.replace('`', '') for field in fields[FIRST_TIME:]]
            continue
        panel = panels.setdefault(fields[0], [[] for _ in columns])
        for points, field in zip(panel, fields[FIRST_TIME:]):
            if field.isdigit():
                points.append((int(fields[1]), int(field)))
    if not panels:
        sys.exit('growth.py: no table')
    return columns, panels


def styles(columns):
    """A colour for each side, which is named before the comma, and a dash for each of its calls."""
    sides, styles = {}, []
    for column in columns:
        calls = sides.setdefault(column.split(',')[0], [])
        calls.append(column)
        styles.append((COLOURS[list(sides).index(column.split(',')[0]) % len(COLOURS)], DASHES[(len(calls) - 1) % len(DASHES)]))
    return styles


def time(nanoseconds):
    """A power of ten in a readable unit."""
    for unit, size in [('s', 10**9), ('ms', 10**6), ('µs', 10**3)]:
        if nanoseconds >= size:
            return f'{nanoseconds // size} {unit}'
    return f'{nanoseconds} ns'


def text(x, y, words, anchor='middle', size=SMALL, more=''):
    return f'<text x="{x:.1f}" y="{y:.1f}" text-anchor="{anchor}" font-size="{size}" fill="{INK}"{more}>{escape(words)}</text>'


def line(x1, y1, x2, y2, colour, width=1.0, dash=''):
    dashed = f' stroke-dasharray="{dash}"' if dash else ''
    return f'<line x1="{x1:.1f}" y1="{y1:.1f}" x2="{x2:.1f}" y2="{y2:.1f}" stroke="{colour}" stroke-width="{width}"{dashed}/>'


class Scale:
    """Places of an axis by the logarithm."""

    def __init__(self, least, most, start, end):
        self.least, self.factor, self.start = math.log(least), (end - start) / math.log(most / least), start

    def __call__(self, value):
        return self.start + (math.log(value) - self.least) * self.factor


def axes(x, y, sites, times, name, labelled):
    """The grid of a panel, its frame and what is written at it."""
    parts = []
    left, right, top, bottom = x(sites[0]), x(sites[-1]), y(times[-1]), y(times[0])
    for low in times[:-1]:
        parts += [line(left, y(low * i), right, y(low * i), MINOR) for i in range(2, 10)]
    for value in times:
        parts.append(line(left, y(value), right, y(value), GRID))
        if labelled:
            parts.append(text(left - 8, y(value) + 4, time(value), 'end'))
    for value in sites:
        parts += [line(x(value), top, x(value), bottom, GRID), text(x(value), bottom + 18, str(value))]
    parts.append(f'<rect x="{left:.1f}" y="{top:.1f}" width="{right - left:.1f}" height="{bottom - top:.1f}" fill="none" stroke="{INK}"/>')
    parts.append(text((left + right) / 2, top - 12, name, size=NORMAL, more=' font-weight="bold"'))
    parts.append(text((left + right) / 2, bottom + 40, 'sites'))
    if labelled:
        middle = (top + bottom) / 2
        parts.append(text(left - 58, middle, 'time a word', more=f' transform="rotate(-90 {left - 58:.1f} {middle:.1f})"'))
    return parts


def curve(x, y, points, colour, dash):
    """A line through the points, and a mark at each: filled on a whole line, open on a dashed one."""
    places = [(x(sites), y(nanoseconds)) for sites, nanoseconds in sorted(points)]
    path = ' '.join(f'{a:.1f},{b:.1f}' for a, b in places)
    dashed = f' stroke-dasharray="{dash}"' if dash else ''
    parts = [f'<polyline points="{path}" fill="none" stroke="{colour}" stroke-width="2"{dashed}/>']
    return parts + [mark(a, b, colour, dash) for a, b in places]


def mark(x, y, colour, dash):
    radius, fill = (5.5, 'none') if dash else (3, colour)
    return f'<circle cx="{x:.1f}" cy="{y:.1f}" r="{radius}" fill="{fill}" stroke="{colour}" stroke-width="1.5"/>'


def legend(columns, styles, left, top, column_width):
    """A sample of each line and its name, in two columns, the calls of a side below one another."""
    parts = []
    half = (len(columns) + 1) // 2
    for i, (column, (colour, dash)) in enumerate(zip(columns, styles)):
        x, y = left + i // half * column_width, top + i % half * LEGEND_LINE
        parts += [line(x, y, x + 40, y, colour, 2, dash), mark(x + 20, y, colour, dash), text(x + 50, y + 4, column, 'start')]
    return parts


def draw(columns, panels):
    all_points = [point for panel in panels.values() for points in panel for point in points]
    least, most = min(time for _, time in all_points), max(time for _, time in all_points)
    times = [10**i for i in range(math.floor(math.log10(least)), math.ceil(math.log10(most)) + 1)]
    few, many = min(sites for sites, _ in all_points), max(sites for sites, _ in all_points)
    sites = [2**i for i in range(math.floor(math.log2(few)), math.ceil(math.log2(many)) + 1)]
    chosen = styles(columns)
    bottom = TOP + PANEL_HEIGHT
    width = LEFT + len(panels) * PANEL_WIDTH + (len(panels) - 1) * GAP + RIGHT
    height = bottom + AXIS + LEGEND_LINE * ((len(columns) + 1) // 2) + 8
    parts = []
    for number, (name, panel) in enumerate(panels.items()):
        left = LEFT + number * (PANEL_WIDTH + GAP)
        x, y = Scale(sites[0], sites[-1], left, left + PANEL_WIDTH), Scale(times[0], times[-1], bottom, TOP)
        parts += axes(x, y, sites, times, name, number == 0)
        for points, (colour, dash) in zip(panel, chosen):
            parts += curve(x, y, points, colour, dash)
    parts += legend(columns, chosen, LEFT, bottom + AXIS + LEGEND_LINE / 2, (width - LEFT) / 2)
    print(f'<svg xmlns="http://www.w3.org/2000/svg" viewBox="0 0 {width} {height}" width="{width}" height="{height}" font-family="sans-serif">')
    print(f'<title>Time a word against sites: {escape(", ".join(panels))}</title>')
    print(f'<rect width="{width}" height="{height}" fill="#ffffff"/>')
    print('\n'.join(parts))
    print('</svg>')


if __name__ == '__main__':
    if len(sys.argv) > 2:
        sys.exit(__doc__.strip())
    if len(sys.argv) == 2:
        with open(sys.argv[1], encoding='utf-8') as table:
            draw(*read(table))
    else:
        draw(*read(sys.stdin))
