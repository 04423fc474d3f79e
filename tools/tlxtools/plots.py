"""Plots as SVG, written by hand: no library, no script, no address from elsewhere. For the pages of tools/latency."""

import html

WIDTH, HEIGHT, MARGIN = 420, 110, 20
COLORS = ("#2868b0", "#c8503c")


def short(value):
    """A number with three digits that count."""
    return f"{value:.3g}" if value < 1000 else str(round(value))


def line_of(values, top, color):
    """Values over time as a line of steps; where there is none, the line has a gap."""
    wide, path, is_open = (WIDTH - 2 * MARGIN) / len(values), [], False
    for place, value in enumerate(values):
        if value is None:
            is_open = False
            continue
        left, right = MARGIN + place * wide, MARGIN + (place + 1) * wide
        level = HEIGHT - MARGIN - (HEIGHT - 2 * MARGIN) * value / top
        path.append(f"{'L' if is_open else 'M'}{left:.1f} {level:.1f}H{right:.1f}")
        is_open = True
    return f'<path d="{"".join(path)}" fill="none" stroke="{color}"/>'


def plot(title, first, last, series, most=None):
    """A plot of one or two named series over time. Its top is `most`, or the greatest value."""
    top = most or max((value for _, values in series for value in values if value is not None), default=0) or 1
    names = ", ".join(f'<tspan fill="{color}">{html.escape(name)}</tspan>' for (name, _), color in zip(series, COLORS))
    low = HEIGHT - MARGIN
    parts = [f'<svg class="plot" width="{WIDTH}" height="{HEIGHT}" viewBox="0 0 {WIDTH} {HEIGHT}" role="img">',
             f'<text x="{MARGIN}" y="12">{html.escape(title)}: {names}; the top is {short(top)}</text>',
             f'<path d="M{MARGIN} {MARGIN}V{low}H{WIDTH - MARGIN}" fill="none" stroke="#999"/>',
             f'<text x="{MARGIN}" y="{HEIGHT - 5}">time {first}</text>',
             f'<text x="{WIDTH - MARGIN}" y="{HEIGHT - 5}" text-anchor="end">{last}</text>',
             *(line_of(values, top, color) for (_, values), color in zip(series, COLORS)), "</svg>"]
    return "".join(parts)
