"""How the pictures look: which line each queue has, axes, names, and the SVG that is written."""

import html
import io
import os
import re

import matplotlib
import matplotlib.pyplot as plt
from matplotlib.ticker import FuncFormatter, LogLocator, NullFormatter, NullLocator

WIDTH = 5.2  # inches: 500 px, so that the text can be read where a page has 400
GREY = "#555555"
OURS = "#0b5394"
OURS_TOO = "#3d85c6"

# Colour, marker and dashes. No two have one marker, so that colour is not needed. Ours are the thick ones.
STYLES = {
    "k-LSM": (OURS, "o", "-"),
    "k-LSM balance": (OURS_TOO, "s", (0, (4, 1))),
    "MultiQueue": ("#b45f06", "^", (0, (6, 2, 1, 2))),
    "Stealing MultiQueue": ("#674ea7", "v", (0, (3, 1.5))),
    "skip list": ("#38761d", "D", (0, (4, 1.5, 1, 1.5, 1, 1.5))),
    "best other exact": ("#222222", "X", (0, (1, 1.5))),
}

SETTINGS = {
    "svg.fonttype": "none",
    "svg.hashsalt": "klsm",
    "font.family": "DejaVu Sans",
    "font.size": 8.5,
    "axes.titlesize": 9,
    "axes.titlelocation": "left",
    "axes.spines.top": False,
    "axes.spines.right": False,
    "axes.edgecolor": "#444444",
    "axes.grid": True,
    "grid.color": "#dddddd",
    "grid.linewidth": 0.6,
    "figure.facecolor": "white",
}


def set_up():
    matplotlib.rcParams.update(SETTINGS)


def line_of(name, has_line=True):
    colour, marker, dashes = STYLES[name]
    is_ours = name.startswith("k-LSM")
    return {
        "color": colour,
        "marker": marker,
        "linestyle": dashes if has_line else "none",
        "linewidth": 2.8 if is_ours else 1.2,
        "markersize": 6.5 if is_ours else 5,
        "markeredgecolor": "white",
        "markeredgewidth": 0.5,
        "zorder": 4 if is_ours else 3,
    }


def plot(axes, name, xs, ys, spreads, has_line=True):
    """A line, and at each point a stroke from the least to the greatest round."""
    axes.vlines(xs, [low for low, _ in spreads], [high for _, high in spreads], color=STYLES[name][0], linewidth=0.8)
    axes.plot(xs, ys, **line_of(name, has_line))


def panels(count, title, *more):
    """A figure of so many panels, with a title and lines below it."""
    figure, grid = plt.subplots(1, count, figsize=(WIDTH, 3.5))
    figure.text(0.015, 0.955, title, fontsize=10.5, fontweight="bold", va="center")
    for number, line in enumerate(more):
        figure.text(0.015, 0.9 - 0.055 * number, line, color=GREY, va="center")
    return figure, grid


def two_panels(title, more, names):
    """A figure of two panels, with a title, a line below it, and the names of the lines: name and what is written."""
    figure, grid = panels(2, title, more)
    figure.subplots_adjust(left=0.09, right=0.985, top=0.645, bottom=0.125, wspace=0.17)
    for i, (name, written) in enumerate(names):
        x, y = 0.015 + i % 3 * 0.32, 0.838 - i // 3 * 0.062
        style = line_of(name) | {"markevery": [1]}
        figure.add_artist(plt.Line2D([x, x + 0.03, x + 0.06], [y] * 3, transform=figure.transFigure, **style))
        weight = "bold" if name.startswith("k-LSM") else "normal"
        figure.text(x + 0.07, y, written, color=STYLES[name][0], va="center", fontweight=weight)
    return figure, grid


def one_panel(title, *more):
    """A figure of one panel, with a title and lines below it."""
    figure, axes = panels(1, title, *more)
    figure.subplots_adjust(left=0.255, right=0.92, top=0.8, bottom=0.13)
    return figure, axes


# A marker for each situation of a row.
SITUATIONS = ["o", "^", "s", "X"]


def point_of(name, situation):
    return {"color": STYLES[name][0], "marker": SITUATIONS[situation], "linestyle": "none", "markersize": 6,
            "markeredgecolor": "white", "markeredgewidth": 0.5, "zorder": 4, "clip_on": False}


def name_row(axes, row, name, written, figure_beside):
    """What is written at the left of a row, and a figure at its right."""
    weight = "bold" if name.startswith("k-LSM") else "normal"
    at = {"va": "center", "color": STYLES[name][0], "fontweight": weight, "transform": axes.get_yaxis_transform()}
    axes.text(-0.02, row, written, ha="right", **at)
    if figure_beside:
        axes.text(1.03, row, figure_beside, ha="left", **at)


def set_rows(axes, count, situations):
    """So many rows over an axis of rank errors, and what the markers say."""
    axes.set_ylim(-0.6, count - 0.4)
    axes.set_yticks([])
    axes.spines["left"].set_visible(False)
    axes.grid(axis="y", visible=False)
    set_from_exact(axes, 0, 20000)
    if len(situations) > 1:
        marks = [plt.Line2D([], [], color=GREY, marker=SITUATIONS[i], linestyle="none", markersize=6)
                 for i in range(len(situations))]
        axes.figure.legend(marks, situations, loc="lower left", ncols=4, frameon=False, fontsize=7.5,
                           handletextpad=0.1, columnspacing=1.0, bbox_to_anchor=(0.0, -0.015))


def millions(value, _):
    return f"{value / 1e6:g} M"


def plain(value, _):
    return f"{value:,g}"


def short(value, _):
    return f"{value / 1000:g}k" if value >= 10000 else f"{value:,g}"


def set_threads(axes, threads):
    axes.set_xticks(threads)
    margin = threads[-1] / 40
    axes.set_xlim(threads[0] - margin, threads[-1] + margin)
    axes.set_xlabel("threads", labelpad=1)


def set_from_zero(axes, form):
    axes.set_ylim(bottom=0)
    axes.yaxis.set_major_formatter(FuncFormatter(form))
    axes.tick_params(axis="y", pad=1)


def time_of(nanoseconds, _):
    for unit, length in (("s", 1e9), ("ms", 1e6), ("µs", 1e3)):
        if nanoseconds >= length:
            return f"{nanoseconds / length:g} {unit}"
    return f"{nanoseconds:g} ns"


def set_times(axes, shares):
    """A logarithm of times over so many shares of the calls."""
    axes.set_yscale("log")
    axes.set_ylim(10, 1e7)
    axes.yaxis.set_major_locator(LogLocator(numticks=8))
    axes.yaxis.set_major_formatter(FuncFormatter(time_of))
    axes.yaxis.set_minor_locator(NullLocator())
    axes.tick_params(axis="y", pad=1)
    axes.set_xticks(range(len(shares)), shares)
    axes.set_xlim(-0.25, len(shares) - 0.75)


def set_ranks(axes):
    """0 and 1 at an even distance, and from 1 on as a logarithm."""
    set_from_exact(axes, 0, 500)


def set_from_exact(axes, least, reach):
    """0 and a power of ten at an even distance, from that on as a logarithm, and at least as far as to `reach`."""
    first = 10**least
    axes.set_xscale("symlog", linthresh=first, linscale=0.6)
    highest = max(axes.get_xlim()[1], reach)
    axes.set_xlim(-0.25 * first, 1.3 * highest)
    axes.set_xticks([0] + [10**power for power in range(least, 7) if 1.3 * 10**power <= highest])
    axes.xaxis.set_major_formatter(FuncFormatter(short))
    axes.xaxis.set_minor_locator(NullLocator())
    axes.xaxis.set_minor_formatter(NullFormatter())


# Where a label may stand by its point: offsets in points, and how it is aligned.
PLACES = [
    (0, 6, "center", "bottom"),
    (0, -6, "center", "top"),
    (6, 0, "left", "center"),
    (-6, 0, "right", "center"),
    (5, 5, "left", "bottom"),
    (-5, 5, "right", "bottom"),
    (5, -5, "left", "top"),
    (-5, -5, "right", "top"),
    *((dx, dy, "center", "center") for far in (14, 22, 30) for dx, dy in ((0, far), (0, -far), (far, 0), (-far, 0))),
    *((dx, dy, "center", "center") for far in (12, 20, 28) for dx in (far, -far) for dy in (far, -far)),
]


def pixels_of(axes, lines):
    """What lines cover, as pixels not far from each other. A line is a list of points of the data."""
    found = []
    for line in lines:
        ends = axes.transData.transform(line)
        found.extend(ends)
        for (x, y), (to_x, to_y) in zip(ends, ends[1:]):
            parts = int(max(abs(to_x - x), abs(to_y - y)) / 3) + 1
            found.extend((x + (to_x - x) * i / parts, y + (to_y - y) * i / parts) for i in range(1, parts))
    return found


def label(figure, axes, labels, lines):
    """Texts by points, each where it lies within the axes, and on no line and no other text, if there is such a
    place. A label is a text, x, y and a colour."""
    figure.canvas.draw()
    renderer = figure.canvas.get_renderer()
    frame = axes.get_window_extent(renderer)
    taken = [text.get_window_extent(renderer) for text in axes.texts]
    pixels = pixels_of(axes, lines)
    for written, x, y, colour in labels:
        for dx, dy, ha, va in PLACES:
            at = {"xytext": (dx, dy), "textcoords": "offset points", "ha": ha, "va": va}
            text = axes.annotate(written, (x, y), fontsize=7.5, color=colour, zorder=6, **at)
            box = text.get_window_extent(renderer)
            is_within = frame.x0 <= box.x0 and box.x1 <= frame.x1 and frame.y0 <= box.y0 and box.y1 <= frame.y1 + 8
            on_line = any(box.padded(1).contains(*pixel) for pixel in pixels)
            if is_within and not on_line and not any(box.overlaps(other) for other in taken):
                taken.append(box)
                break
            text.remove()


def shorter(number):
    """A number of an SVG, with no more digits than can be seen."""
    value = float(number.group())
    return f"{value:.2f}".rstrip("0").rstrip(".") if abs(value) >= 1 else f"{value:.6g}"


def write(figure, folder, name):
    """Writes an SVG whose text is text, without comments, indentation and needless digits. Its title is the figure's
    first text, and its description the others that stand above the panels."""
    text = io.StringIO()
    title, *more = (html.escape(one.get_text(), quote=False) for one in figure.texts)
    figure.savefig(text, format="svg", metadata={"Date": None, "Creator": None, "Format": None, "Type": None})
    plt.close(figure)
    svg = re.sub(r"<!--.*?-->|<metadata>.*?</metadata>", "", text.getvalue(), flags=re.S)
    svg = re.sub(r'<g id="[^"]*"', "<g", svg)
    svg = svg.replace("'DejaVu Sans'", "'DejaVu Sans', Verdana, sans-serif")  # which are as wide
    head, body = svg.split("<defs>", 1)
    head += f'<title>{title}</title>\n<desc>{" ".join(more)}</desc>\n'
    svg = re.sub(r"\n\s*", "\n", head + "<defs>" + re.sub(r"-?\d+\.\d+", shorter, body))
    path = os.path.join(folder, name)
    with open(path, "w", encoding="utf-8") as file:
        file.write(svg)
    print(f"wrote {path}")
