#!/usr/bin/python3
"""Draws docs/bench.svg from the measured figures: how judyd compares with libjudy and with redis.

usage: bench/picture.py [RESULTS.json [PICTURE.svg]]

It needs Debian's python3-matplotlib. Without arguments it draws bench/figures.json, which is a
results.json of bench/run.py.
"""

import json
import os
import sys

import matplotlib

matplotlib.use("svg")
matplotlib.rcParams.update({"svg.fonttype": "none", "svg.hashsalt": "judyd", "font.family": "sans-serif", "font.size": 10})
import matplotlib.pyplot as plt  # noqa: E402

TOP = os.path.dirname(os.path.dirname(os.path.abspath(__file__)))
FIGURES, PICTURE = os.path.join(TOP, "bench", "figures.json"), os.path.join(TOP, "docs", "bench.svg")
BAR, LINE = "#4c78a8", "#333333"


def cpu_ratios(loads, peer, mode):
    """For each load the peer's CPU time of a line and judyd's, in nanoseconds, and the first over the second:
    above 1 judyd is faster."""
    times = {(it["load"], it["subject"]): it["cpu"] / it["lines"] for it in loads if it["mode"] == mode}
    names = list(dict.fromkeys(it["load"] for it in loads))
    both = [(name, times[name, peer], times[name, "judyd"]) for name in names if (name, peer) in times and (name, "judyd") in times]
    return [(name, peers / ours, "%s / %s ns" % tuple("{:,.0f}".format(1e9 * time) for time in (peers, ours))) for name, peers, ours in both]


def rate_ratios(clients):
    """For each number of clients and of calls in flight judyd's calls a second and redis's, and the first over
    the second."""
    rates = {(it["clients"], it["inflight"], it["subject"]): it["rate"] for it in clients}
    shapes = list(dict.fromkeys((it["clients"], it["inflight"]) for it in clients))
    both = [(shape, rates[(*shape, "judyd")], rates[(*shape, "redis")]) for shape in shapes if (*shape, "redis") in rates]
    return [
        ("%d client%s, %d in flight" % (shape[0], "s"[: shape[0] > 1], shape[1]), ours / redis, "{:,.0f} / {:,.0f}".format(ours, redis))
        for shape, ours, redis in both
    ]  # fmt: skip


def panel(axes, title, ratios):
    """Bars of the ratios, the first on top, each with its number and the two measured ones; a line stands at 1."""
    places = range(len(ratios))
    values = [ratio for _, ratio, _ in ratios]
    axes.barh(places, values, height=0.55, color=BAR)
    axes.axvline(1.0, color=LINE, linewidth=1)
    for place, (_, value, measured) in zip(places, ratios):
        axes.text(value, place, " %.2f = %s" % (value, measured), va="center", color=LINE, bbox={"facecolor": "white", "edgecolor": "none", "pad": 0.6})
    axes.set_yticks(list(places), [name for name, _, _ in ratios])
    axes.invert_yaxis()
    axes.set_xlim(0, 1.6 * max([1.0, *values]))
    axes.set_title(title, loc="left", fontsize=10)
    axes.spines[["top", "right"]].set_visible(False)


def draw(figures, path):
    """The whole picture, on white."""
    panels = [
        ("CPU time of a line, libjudy's over judyd's (script)", cpu_ratios(figures["loads"], "libjudy", "run")),
        ("CPU time of a line, redis's over judyd's (socket, 100 in flight)", cpu_ratios(figures["loads"], "redis", "window 100")),
        ("Calls a second of persistent clients, judyd's over redis's", rate_ratios(figures["clients"])),
    ]
    panels = [it for it in panels if it[1]]
    heights = [0.8 + len(ratios) for _, ratios in panels]
    picture, axes = plt.subplots(len(panels), 1, figsize=(8, 0.34 * sum(heights)), height_ratios=heights, squeeze=False)
    for (title, ratios), one in zip(panels, axes[:, 0]):
        panel(one, title, ratios)
    picture.supxlabel("above 1: judyd is faster. %s, %s" % (figures["date"], figures["machine"].partition(",")[0]), fontsize=9)
    picture.tight_layout()
    picture.savefig(path, facecolor="white", metadata={"Date": None})


def main(words):
    """Draws the figures of the command line."""
    if len(words) > 2 or any(word.startswith("-") for word in words):
        sys.exit(__doc__)
    source, target = [*words, *[FIGURES, PICTURE][len(words) :]]
    with open(source, encoding="utf-8") as file:
        draw(json.load(file), target)


if __name__ == "__main__":
    main(sys.argv[1:])
