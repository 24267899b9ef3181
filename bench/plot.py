"""Plots as SVG: ratios of workloads, and times that grow."""
import html
import math

COLOURS = {"here": "#1b6ca8", "V8": "#d1495b", "PCRE2": "#e09f3e", "regex": "#3a8f4d"}
FONT = 'font-family="Helvetica, Arial, sans-serif"'


def text(x, y, words, size=12, anchor="start", colour="#222", weight="normal"):
    return (
        f'<text x="{x:.1f}" y="{y:.1f}" font-size="{size}" {FONT} text-anchor="{anchor}" '
        f'fill="{colour}" font-weight="{weight}">{html.escape(words, quote=False)}</text>'
    )


def line(x1, y1, x2, y2, colour="#ddd", width=1.0):
    return f'<line x1="{x1:.1f}" y1="{y1:.1f}" x2="{x2:.1f}" y2="{y2:.1f}" stroke="{colour}" stroke-width="{width}"/>'


def dot(x, y, colour):
    return f'<circle cx="{x:.1f}" cy="{y:.1f}" r="4" fill="{colour}"/>'


def picture(width, height, parts):
    head = f'<svg xmlns="http://www.w3.org/2000/svg" width="{width}" height="{height}" viewBox="0 0 {width} {height}">'
    return "\n".join([head, f'<rect width="{width}" height="{height}" fill="white"/>', *parts, "</svg>", ""])


def number(value):
    return f"{value:g}"


def legend(x, y, names):
    parts = []
    for name in names:
        parts += [dot(x, y - 4, COLOURS[name]), text(x + 9, y, name)]
        x += 30 + 8 * len(name)
    return parts


def ratios(rows):
    """The plot of rows (kind, name, {engine: ratio}), a row of dots for each; its axis counts in powers of ten."""
    engines = [engine for engine in ("V8", "PCRE2", "regex") if any(engine in row[2] for row in rows)]
    values = [ratio for row in rows for ratio in row[2].values()] or [1.0]
    low, high = math.floor(math.log10(min(values))), max(1, math.ceil(math.log10(max(values))))
    left, top, step, wide = 150, 64, 19, 560

    def place(ratio):
        return left + wide * (math.log10(ratio) - low) / (high - low)

    heads = len({row[0] for row in rows})
    bottom = top + step * (len(rows) + heads)
    parts = [
        text(left, 22, "Time here over that of another engine, for all matches in a megabyte", 14, weight="bold"),
        text(left, 40, "left of 1: faster here"),
        *legend(left + 180, 40, engines),
    ]
    for power in range(low, high + 1):
        x = place(10.0**power)
        parts += [
            line(x, top - 6, x, bottom, "#888" if power == 0 else "#ddd", 1.5 if power == 0 else 1),
            text(x, bottom + 16, number(10.0**power), 11, "middle"),
        ]
    return picture(left + wide + 30, bottom + 26, parts + rows_of_dots(rows, engines, place, (left, top, step, wide)))


def rows_of_dots(rows, engines, place, layout):
    left, y, step, wide = layout
    parts, kind = [], None
    for row_kind, name, found in rows:
        if row_kind != kind:
            kind = row_kind
            y += step
            parts.append(text(left - 8, y - 4, kind, 12, "end", "#222", "bold"))
        y += step
        parts += [line(left, y - 8, left + wide, y - 8, "#f0f0f0"), text(left - 8, y - 4, name, 11, "end")]
        parts += [dot(place(found[engine]), y - 8, COLOURS[engine]) for engine in engines if engine in found]
    return parts


def growth(panels):
    """The plot of panels (pattern, {engine: [(characters, nanoseconds)]}), one beside the other."""
    points = [point for _, series in panels for found in series.values() for point in found]
    low, high = math.floor(math.log10(min(p[1] for p in points))), math.ceil(math.log10(max(p[1] for p in points)))
    first, last = min(p[0] for p in points), max(p[0] for p in points)
    wide, tall, top = 210, 220, 70
    engines = [engine for engine in COLOURS if any(engine in series for _, series in panels)]
    parts = [
        text(60, 22, "Time of a search without a match, by the characters of the text", 14, weight="bold"),
        *legend(66, 42, engines),
    ]
    for index, (pattern, series) in enumerate(panels):
        left = 60 + index * (wide + 30)

        def place(point):
            x = left + wide * (point[0] - first) / max(1, last - first)
            return x, top + tall * (high - math.log10(point[1])) / (high - low)

        parts += axes(left, (top, wide, tall), (low, high), (first, last), index == 0)
        parts.append(text(left + wide / 2, top - 8, pattern, 12, "middle", weight="bold"))
        for engine, found in series.items():
            parts += curve([place(point) for point in found], COLOURS[engine])
    return picture(60 + len(panels) * (wide + 30), top + tall + 46, parts)


def axes(left, box, powers, characters, named):
    top, wide, tall = box
    low, high = powers
    first, last = characters
    parts = []
    for power in range(low, high + 1):
        y = top + tall * (high - power) / (high - low)
        parts.append(line(left, y, left + wide, y))
        if named:
            parts.append(text(left - 6, y + 4, duration(power), 11, "end"))
    for n in range(first, last + 1, 4):
        x = left + wide * (n - first) / max(1, last - first)
        parts.append(text(x, top + tall + 16, str(n), 11, "middle"))
    return parts


def duration(power):
    for unit, at in (("s", 9), ("ms", 6), ("µs", 3), ("ns", 0)):
        if power >= at:
            return f"{10 ** (power - at)} {unit}"
    return "0 ns"


def curve(places, colour):
    path = " ".join(f"{x:.1f},{y:.1f}" for x, y in places)
    dots = [f'<circle cx="{x:.1f}" cy="{y:.1f}" r="2.5" fill="{colour}"/>' for x, y in places]
    return [f'<polyline points="{path}" fill="none" stroke="{colour}" stroke-width="1.8"/>', *dots]
