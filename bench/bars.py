#!/usr/bin/env python3
"""Draws what bench/real.sh tells as bars: bench/real.sh | bench/bars.py FILE.svg

For each thing that is told of both engines one bar each, as long as its part of the longer one. Python 3 alone.
"""
import re
import sys

TOLD = re.compile(r"(fts|FTS5), ([^:]+): ([0-9.]+) s")
DISK = re.compile(r"([0-9]+) kB on the disk")
COLORS = {"fts": "#2a6f97", "FTS5": "#bc6c25"}


def told_in(lines):
    """For each thing that was told the number and unit of each engine."""
    found, engine = {}, "fts"
    for line in lines:
        if told := TOLD.match(line):
            engine, what, number = told.groups()
            found.setdefault(what, {})[engine] = (float(number), "s")
        elif told := DISK.match(line):
            found.setdefault("disk", {})[engine] = (int(told[1]) / 1000, "MB")
    return found


def svg_of(found):
    height = 40 * len(found) + 10
    lines = [f'<svg xmlns="http://www.w3.org/2000/svg" width="640" height="{height}" font-family="sans-serif" font-size="12">']
    for row, (what, engines) in enumerate(found.items()):
        most = max(number for number, _ in engines.values()) or 1
        lines.append(f'<text x="190" y="{40 * row + 28}" text-anchor="end">{what}</text>')
        for place, (engine, (number, unit)) in enumerate(sorted(engines.items(), reverse=True)):
            top = 40 * row + 10 + 15 * place
            lines.append(f'<rect x="200" y="{top}" width="{300 * number / most:.0f}" height="13" fill="{COLORS[engine]}"/>')
            lines.append(f'<text x="{206 + 300 * number / most:.0f}" y="{top + 11}">{engine} {number:g} {unit}</text>')
    return "\n".join(lines) + "\n</svg>\n"


def main():
    with open(sys.argv[1], "w", encoding="utf-8") as it:
        it.write(svg_of(told_in(sys.stdin)))


if __name__ == "__main__":
    main()
