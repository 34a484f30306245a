#!/usr/bin/env python3
# The course of figures over days, from bench/results.csv, drawn as bench/course.svg: a field for each thing that was measured on two days or more beside
# the twin. A full dot is its time or its rate in parts of the twin's, a ring its memory. A line goes through the last row of each day, a bar from the
# least to the greatest ratio that was seen on it. A dashed line is the last bound that a row names.
# usage: bench/course.py [WORD..]
# With words only fields whose names have each of them; they go to the standard output.
import csv
import os
import re
import sys
from collections import defaultdict
from xml.sax.saxutils import escape

FOLDER = os.path.dirname(os.path.abspath(__file__))
MEASURES = {'time': 'dot', 'processor time': 'dot', 'rate': 'dot', 'memory': 'ring'}
FIGURE = re.compile(r'(.*): (time|processor time|rate|memory) to the twin(, least|, greatest)?$')
TOP = 2.0  # the greatest ratio that a field shows
COLUMNS, WIDTH, HEIGHT = 3, 320, 150
LEFT, RIGHT, ABOVE, BELOW = 34, 12, 40, 24
LABELS = 8  # the most days that a field names
STYLE = '''
text { font: 11px sans-serif; fill: #333 } .rest { font-size: 10px } .name { font-weight: bold } .axis, .bar { stroke: #999 } .one { stroke: #ccc }
.line { fill: none; stroke: #1f6fb5; stroke-width: 1.5 } .dot { fill: #1f6fb5 } .bound { stroke: #b5511f; stroke-dasharray: 4 3 }
.way { fill: none; stroke: #5a8a2a } .ring { fill: none; stroke: #5a8a2a; stroke-width: 1.5 }
@media (prefers-color-scheme: dark) {
text { fill: #ddd } .axis, .bar { stroke: #888 } .one { stroke: #555 }
.line { stroke: #6fb3ee } .dot { fill: #6fb3ee } .bound { stroke: #ee9a6f } .way, .ring { stroke: #a3d070 } }
'''


def read(words):
    """The days of all rows, and for each field its points, bars and bound."""
    days, points, bars, bounds = set(), defaultdict(list), defaultdict(list), {}
    with open(os.path.join(FOLDER, 'results.csv'), newline='') as file:
        for row in csv.DictReader(file):
            days.add(row['date'])
            found = FIGURE.match(row['figure'])
            if not found or not all(word in found[1] for word in words):
                continue
            name, kind, value = found[1], MEASURES[found[2]], float(row['value'])
            if found[3]:
                bars[name, row['date']].append(value)
                continue
            points[name].append((row['date'], kind, value))
            bound = re.search(r'\bbounds? ([\d.]*\d)', row['note'])
            if kind == 'dot' and bound:
                bounds[name] = float(bound[1])
    names = [name for name, rows in points.items() if len({day for day, _, _ in rows}) > 1]
    return sorted(days), sorted(names), points, bars, bounds


def field(x, y, days, name, points, bars, bound):
    """The lines of one field, whose left upper corner is at x and y."""
    wide, high = WIDTH - LEFT - RIGHT, HEIGHT - ABOVE - BELOW

    def across(day):
        return round(x + LEFT + wide * (days.index(day) + 0.5) / len(days), 1)

    def down(value):
        return round(y + ABOVE + high * (1 - min(value, TOP) / TOP), 1)

    def level(value, kind):
        return f'<line class="{kind}" x1="{x + LEFT}" x2="{x + WIDTH - RIGHT}" y1="{down(value)}" y2="{down(value)}"/>'

    first, _, rest = name.partition(', ')
    yield f'<text class="name" x="{x + 4}" y="{y + 14}">{escape(first)}</text><text class="rest" x="{x + 4}" y="{y + 28}">{escape(rest)}</text>'
    yield level(0, 'axis') + level(1, 'one')
    for value in (0, 1, 2):
        yield f'<text x="{x + LEFT - 6}" y="{down(value) + 4}" text-anchor="end">{value}</text>'
    for day in days[:: -(-len(days) // LABELS)]:
        shown = day[8:] if days[0][:7] == days[-1][:7] else day[5:]
        yield f'<text x="{across(day)}" y="{y + HEIGHT - 10}" text-anchor="middle">{shown}</text>'
    if bound:
        yield level(bound, 'bound')
    for day in days:
        if bars[name, day]:
            low, top = down(min(bars[name, day])), down(max(bars[name, day]))
            yield f'<line class="bar" x1="{across(day)}" x2="{across(day)}" y1="{low}" y2="{top}"/>'
    for kind, line in (('ring', 'way'), ('dot', 'line')):
        seen = [(day, value) for day, its, value in points if its == kind]
        last = dict(seen)
        if len(last) > 1:
            way = ' '.join(f'{across(day)},{down(value)}' for day, value in sorted(last.items()))
            yield f'<polyline class="{line}" points="{way}"/>'
        for day, value in seen:
            yield f'<circle class="{kind}" cx="{across(day)}" cy="{down(value)}" r="3"><title>{day}: {value:g}</title></circle>'


def drawing(words):
    days, names, points, bars, bounds = read(words)
    if not names:
        sys.exit('no field has these words')
    rows = -(-len(names) // COLUMNS)
    wide, high = COLUMNS * WIDTH, rows * HEIGHT + 24
    yield f'<svg xmlns="http://www.w3.org/2000/svg" viewBox="0 0 {wide} {high}" width="{wide}" height="{high}">'
    yield f'<title>In parts of the twin\'s</title><style>{STYLE}</style>'
    month = days[0][:7] if days[0][:7] == days[-1][:7] else f'{days[0][:7]} to {days[-1][:7]}'
    yield f'<text x="4" y="14">In parts of the twin\'s, by the day, {month}: dots are time or rate, rings memory, dashed the bound of time or rate</text>'
    for n, name in enumerate(names):
        yield from field(n % COLUMNS * WIDTH, 24 + n // COLUMNS * HEIGHT, days, name, points[name], bars, bounds.get(name))
    yield '</svg>'


text = '\n'.join(drawing(sys.argv[1:])) + '\n'
if sys.argv[1:]:
    print(text, end='')
else:
    with open(os.path.join(FOLDER, 'course.svg'), 'w') as file:
        file.write(text)
