"""The plot of a run, as SVG: the ratio of each call to C of both kinds, its mean and its range over all sites, and the time of a call as sites grow."""

import math
import statistics

WIDTH = 820
LEFT, RIGHT, ROW = 130, 800, 19
KINDS = {"plain": ("#0072b2", "line-by-line C"), "careful": ("#d55e00", "careful C")}
GROWING = {"clear": "#777777", "check": "#0072b2", "down+up": "#d55e00", "tree": "#009e73", "staircase": "#aa4499", "image_write": "#8c510a", "image_block": "#332288"}


def text(x, y, words, anchor="middle", size=13, colour="#222"):
    return f'<text x="{x:.1f}" y="{y:.1f}" text-anchor="{anchor}" font-size="{size}" fill="{colour}">{words}</text>'


def line(x, y, x2, y2, colour="#ddd", width=1):
    return f'<line x1="{x:.1f}" y1="{y:.1f}" x2="{x2:.1f}" y2="{y2:.1f}" stroke="{colour}" stroke-width="{width}"/>'


def dot(x, y, colour, size=4):
    return f'<circle cx="{x:.1f}" cy="{y:.1f}" r="{size}" fill="{colour}"/>'


def words(name):
    return name.replace("_", " ")


def scale(low, high, start, end, base):
    """From values to places, by powers of the base, and the powers between."""
    low, high = math.floor(math.log(low, base) + 1e-9), math.ceil(math.log(high, base) - 1e-9)

    def at(value):
        return start + (end - start) * (math.log(value, base) - low) / (high - low)

    return at, [base ** power for power in range(low, high + 1)]


def ratio_panel(run, top):
    """A row for each call: for C of each kind a dot at the mean, a line from the least to the most. Left of 1 the engine is faster."""
    bottom, spread = top + ROW * len(run.calls), [ratio for call in run.calls for kind in KINDS for ratio in run.ratios(call, kind)]
    across, ticks = scale(min(spread), max(spread), LEFT, RIGHT, 2)
    parts = [text(LEFT, top - 46, "Time of a call, engine : C. A dot is the mean over all sites, a line the range", "start", 15)]
    for i, (colour, name) in enumerate(KINDS.values()):
        parts += [dot(LEFT + 6 + 160 * i, top - 27, colour), text(LEFT + 16 + 160 * i, top - 22, f"to {name}", "start")]
    parts += [text(RIGHT, top - 22, "left of 1: the engine is faster", "end")]
    for tick in ticks:
        parts += [line(across(tick), top, across(tick), bottom, "#555" if tick == 1 else "#ddd"), text(across(tick), bottom + 18, f"{tick:g}" if tick >= 1 else f"1/{1 / tick:g}")]
    for i, call in enumerate(run.calls):
        y = top + ROW * (i + 0.5)
        parts.append(text(LEFT - 10, y + 4, words(call), "end"))
        for place, (kind, (colour, _)) in zip((-4, 4), KINDS.items()):
            ratios = run.ratios(call, kind)
            parts += [line(across(min(ratios)), y + place, across(max(ratios)), y + place, colour, 1.5),
                      dot(across(statistics.geometric_mean(ratios)), y + place, colour)]
    return parts


def growth_panel(run, top):
    """Time by size, both by powers; the call named at the right end of its line."""
    bottom, right, sizes = top + 260, RIGHT - 100, run.sizes
    times = {call: [run.engine(call, n, "sparse") for n in sizes] for call in GROWING if call in run.calls}
    down, ticks = scale(min(map(min, times.values())), max(map(max, times.values())), bottom, top, 10)

    def across(n):
        return LEFT + (right - LEFT) * math.log2(n / sizes[0]) / math.log2(sizes[-1] / sizes[0])

    parts = [text(LEFT, top - 18, "Time of a call of the engine on sparse sites, microseconds", "start", 15)]
    for tick in ticks:
        parts += [line(LEFT, down(tick), right, down(tick)), text(LEFT - 10, down(tick) + 4, f"{tick:g}", "end")]
    for n in sizes:
        parts += [line(across(n), top, across(n), bottom), text(across(n), bottom + 18, f"n = {n}")]
    label = top - 20
    for call in sorted(times, key=lambda call: -times[call][-1]):
        label, colour = max(label + 16, down(times[call][-1])), GROWING[call]
        points = " ".join(f"{across(n):.1f},{down(t):.1f}" for n, t in zip(sizes, times[call]))
        parts += [f'<polyline points="{points}" fill="none" stroke="{colour}" stroke-width="2"/>']
        parts += [dot(across(n), down(t), colour, 3) for n, t in zip(sizes, times[call])]
        parts += [line(right + 4, down(times[call][-1]), right + 14, label, colour), text(right + 18, label + 4, words(call), "start", 13, colour)]
    return parts


def plot(run):
    growth = 70 + ROW * len(run.calls) + 80
    height = growth + 300
    head = f'<svg xmlns="http://www.w3.org/2000/svg" viewBox="0 0 {WIDTH} {height}" font-family="sans-serif">'
    back = f'<rect width="{WIDTH}" height="{height}" fill="#fff"/>'
    return "\n".join([head, back, *ratio_panel(run, 70), *growth_panel(run, growth), "</svg>", ""])
