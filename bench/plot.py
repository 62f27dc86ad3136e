#!/usr/bin/env python3
"""plot.py JSON FOLDER: two plots of what `bench.py --json JSON` measured, as SVG: FOLDER/check.svg, the time of `xmpc check` against the
size of the text, and FOLDER/runs.svg, the time of each tool as a multiple of lua5.4's, program by program."""
import json
import math
import os
import sys
from fractions import Fraction

WIDTH, HEIGHT, LEFT, RIGHT, TOP, BOTTOM = 720, 420, 64, 150, 36, 60
COLOURS = ['#1b6ca8', '#c0392b', '#27854a', '#8e5ea2', '#d08a1d', '#555555', '#2aa5a0', '#a0522d']


def least(series, clock='cpu'):
    """The least time of a series in seconds, or None where it failed."""
    return None if series['bad'] or not series[clock] else min(series[clock])


def text(x, y, words, size=12, anchor='start', turn=None, fill='#222'):
    turned = f' transform="rotate({turn} {x:.1f} {y:.1f})"' if turn else ''
    words = words.replace('&', '&amp;').replace('<', '&lt;')
    return f'<text x="{x:.1f}" y="{y:.1f}" font-size="{size}" text-anchor="{anchor}" fill="{fill}"{turned}>{words}</text>'


def line(x1, y1, x2, y2, colour='#ccc', width=1):
    return f'<line x1="{x1:.1f}" y1="{y1:.1f}" x2="{x2:.1f}" y2="{y2:.1f}" stroke="{colour}" stroke-width="{width}"/>'


def page(title, parts):
    head = (f'<svg xmlns="http://www.w3.org/2000/svg" viewBox="0 0 {WIDTH} {HEIGHT}" font-family="sans-serif">'
            f'<rect width="{WIDTH}" height="{HEIGHT}" fill="white"/>')
    return '\n'.join([head, text(LEFT, 20, title, 14), *parts, '</svg>', ''])


def check_plot(front):
    """Lines, one a family: milliseconds of xmpc against the share of the limits; gcc's time at the full size as a mark."""
    shares = sorted({Fraction(s) for family in front.values() for s in family})
    times = {name: [(Fraction(s), least(tools['xmpc'])) for s, tools in family.items() if 'xmpc' in tools] for name, family in front.items()}
    marks = {name: least(family[str(shares[-1])]['gcc']) for name, family in front.items() if 'gcc' in family.get(str(shares[-1]), {})}
    top = max([t for rows in times.values() for _, t in rows if t] + [t for t in marks.values() if t]) * 1000
    step = 10 ** math.floor(math.log10(top)) / 2
    at_x = lambda share: LEFT + float(share) * (WIDTH - LEFT - RIGHT)
    at_y = lambda ms: HEIGHT - BOTTOM - ms / top * (HEIGHT - TOP - BOTTOM)
    parts = []
    for k in range(int(top / step) + 1):
        parts += [line(LEFT, at_y(k * step), WIDTH - RIGHT, at_y(k * step)), text(LEFT - 6, at_y(k * step) + 4, f'{k * step:g}', 11, 'end')]
    parts += [text(at_x(s), HEIGHT - BOTTOM + 18, str(s), 11, 'middle') for s in shares]
    parts += [text(at_x(Fraction(1, 2)), HEIGHT - 16, 'share of the limits (200,000 tokens or 1 MiB)', 12, 'middle'),
              text(16, HEIGHT / 2, 'ms of the processor', 12, 'middle', -90)]
    ranked = sorted((n for n in times if any(t for _, t in times[n])), key=lambda n: -(max(t or 0 for _, t in times[n])))
    for place, name in enumerate(ranked):
        colour = COLOURS[place % len(COLOURS)]
        points = ' '.join(f'{at_x(s):.1f},{at_y(t * 1000):.1f}' for s, t in sorted(times[name]) if t)
        parts.append(f'<polyline points="{points}" fill="none" stroke="{colour}" stroke-width="1.5"/>')
        parts.append(text(WIDTH - RIGHT + 22, TOP + 16 + 17 * place, name, 11, fill=colour))
        if marks.get(name):
            parts.append(f'<circle cx="{at_x(shares[-1]) + 8:.1f}" cy="{at_y(marks[name] * 1000):.1f}" r="3" fill="{colour}"/>')
    return page('xmpc check: time against size; dots: gcc -fsyntax-only on the erased text, at the full size', parts)


def runs_plot(programs):
    """Bars, a group for each program, on a logarithmic scale: the time of each tool over that of lua5.4."""
    tools = [t for t in ('serial', 'python3', 'luajit', 'tcc', 'gcc -O0', 'gcc -O2') if any(t in p and least(p[t]) for p in programs.values())]
    ratios = {name: {t: least(p[t]) / least(p['lua5.4']) for t in tools if t in p and least(p[t])}
              for name, p in programs.items() if 'lua5.4' in p and least(p['lua5.4'])}
    low = 10 ** math.floor(math.log10(min(v for r in ratios.values() for v in r.values())))
    high = 10 ** math.ceil(math.log10(max(v for r in ratios.values() for v in r.values())))
    at_y = lambda v: HEIGHT - BOTTOM - (math.log(v / low) / math.log(high / low)) * (HEIGHT - TOP - BOTTOM)
    parts, mark = [], low
    while mark <= high * 1.01:
        parts += [line(LEFT, at_y(mark), WIDTH - RIGHT, at_y(mark), '#222' if abs(mark - 1) < 1e-9 else '#ccc'),
                  text(LEFT - 6, at_y(mark) + 4, f'{mark:g}', 11, 'end')]
        mark *= 10
    group = (WIDTH - LEFT - RIGHT) / len(ratios)
    bar = group * 0.8 / len(tools)
    for place, (name, row) in enumerate(ratios.items()):
        left = LEFT + place * group + group * 0.1
        parts.append(text(left + group * 0.4, HEIGHT - BOTTOM + 18, name, 11, 'middle'))
        for k, tool in enumerate(tools):
            if tool in row:
                y, base = sorted((at_y(row[tool]), at_y(1)))
                parts.append(f'<rect x="{left + k * bar:.1f}" y="{y:.1f}" width="{bar:.1f}" height="{max(base - y, 1):.1f}" '
                             f'fill="{COLOURS[k % len(COLOURS)]}"/>')
    for k, tool in enumerate(tools):
        parts.append(text(WIDTH - RIGHT + 22, TOP + 16 + 17 * k, 'xmpc serial' if tool == 'serial' else tool, 11, fill=COLOURS[k % len(COLOURS)]))
    parts.append(text(16, HEIGHT / 2, 'time / time of lua5.4', 12, 'middle', -90))
    return page('Time of each tool as a multiple of lua5.4 (line at 1; above it is slower)', parts)


def main():
    with open(sys.argv[1], encoding='utf-8') as it:
        kept = json.load(it)
    os.makedirs(sys.argv[2], exist_ok=True)
    for name, part, plot in (('check.svg', 'front', check_plot), ('runs.svg', 'programs', runs_plot)):
        if kept.get(part):
            with open(os.path.join(sys.argv[2], name), 'w', encoding='utf-8') as it:
                it.write(plot(kept[part]))
            print(os.path.join(sys.argv[2], name))


main()
