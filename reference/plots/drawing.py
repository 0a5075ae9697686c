"""The picture: for each connection its cells by verdict, and below them the levels of its buckets."""
import io
import re

import matplotlib

matplotlib.use("svg")

import matplotlib.pyplot as plt  # noqa: E402  (the backend comes first)
from matplotlib.lines import Line2D  # noqa: E402
from matplotlib.ticker import FuncFormatter, MaxNLocator  # noqa: E402

from plots.verdicts import VERDICTS  # noqa: E402

INK = "#333333"
GRID = "#dddddd"
# Colours that differ in brightness as well, and a mark for each.
COLOURS = {"pass": "#0072b2", "tag": "#f0b400", "discard": "#d55e00", "refuse": "#222222", "other": "#aaaaaa"}
MARKS = {"pass": "o", "tag": "^", "discard": "X", "refuse": "s", "other": "D"}
SAID = {"pass": "passed", "tag": "tagged", "discard": "discarded", "refuse": "refused", "other": "not judged"}
LEVELS = {1: "#56b4e9", 2: "#009e73"}
BUCKETS = {1: "peak rate", 2: "sustained rate"}

STYLE = {
    "svg.hashsalt": "upc",
    "svg.fonttype": "none",
    "font.family": "sans-serif",
    "font.size": 10,
    "axes.edgecolor": INK,
    "axes.labelcolor": INK,
    "text.color": INK,
    "xtick.color": INK,
    "ytick.color": INK,
}
# The heights of the panels, and of what is above and below them, in inches.
CELLS, FILL, GAP, HEAD, FOOT = 1.15, 1.15, 0.42, 0.75, 0.6
WIDTH, LEFT, RIGHT = 9, 1.15, 0.65
# The letters of a title beside which the legend has room.
SHORT = 45


def draw(plan, remarks, file):
    """Writes the picture, the same octets each time."""
    with plt.rc_context(STYLE):
        height = sum(HEAD + CELLS + len(it.fills) * (GAP + FILL) for it in plan.shown) + FOOT
        figure = plt.figure(figsize=(WIDTH, height))
        top, shared = height, None
        for shown in plan.shown:
            top -= HEAD
            panel = panel_at(figure, top, CELLS, shared)
            shared = shared or panel
            draw_cells(panel, plan, shown, remarks if shown is plan.shown[0] else [])
            top -= CELLS
            for fill in shown.fills:
                top -= GAP
                panel = panel_at(figure, top, FILL, shared)
                draw_fill(panel, plan, shown, fill)
                top -= FILL
        panel.tick_params(axis="x", labelbottom=True)
        panel.set_xlabel("time in ticks")
        made = io.BytesIO()
        figure.savefig(made, format="svg", metadata={"Date": None, "Creator": None})
        plt.close(figure)
    # A hundredth of a point is enough.
    file.write(re.sub(rb"(\d\.\d\d)\d+", rb"\1", made.getvalue()))


def panel_at(figure, top, high, shared):
    """Makes a panel whose top is this many inches above the bottom of the figure."""
    wide, whole = figure.get_size_inches()
    panel = figure.add_axes([LEFT / wide, (top - high) / whole, 1 - (LEFT + RIGHT) / wide, high / whole], sharex=shared)
    panel.spines[["top", "right"]].set_visible(False)
    panel.tick_params(axis="x", labelbottom=False)
    panel.xaxis.set_major_formatter(FuncFormatter(lambda number, _: f"{number:,.0f}"))
    panel.yaxis.set_major_formatter(FuncFormatter(lambda number, _: f"{number:,.0f}"))
    return panel


def draw_cells(panel, plan, shown, remarks):
    """The cells of a connection: marks in a row for each verdict, or counts in spans."""
    margin = (plan.end - plan.begin) * 0.015
    panel.set_xlim(plan.begin - margin, plan.end + margin)
    title = ": ".join(["VPI %d, VCI %s" % shown.vc, *contract_words(shown)])
    # From below: the remarks, the legend, and the title, in the line of the legend if it is short.
    above = 14 if remarks else 2
    legend(panel, (draw_marks(panel, shown) if shown.is_few else draw_counts(panel, plan, shown)), above)
    panel.set_title(title, loc="left", fontsize=11 if len(title) < 80 else 7, fontweight="bold", pad=above + (4 if len(title) <= SHORT else 20))
    for moment, text in remarks:
        panel.annotate(text, (moment, 1), xycoords=("data", "axes fraction"), xytext=(0, 3), textcoords="offset points", fontsize=9, style="italic")


def contract_words(shown):
    """Returns what a title says of the contracts: the one, or how many there are; then each bucket names its contract."""
    return shown.contracts if len(shown.contracts) < 2 else [f"{len(shown.contracts)} contracts"]


def draw_marks(panel, shown):
    """A row for each verdict, full marks for cells of priority 0 and hollow ones for those of priority 1. Returns the legend."""
    rows = [it for it in VERDICTS if it == "pass" or shown.counts[VERDICTS.index(it)]]
    for height, verdict in enumerate(reversed(rows)):
        for priority in (0, 1):
            moments = [it[0] for it in shown.cells if VERDICTS[it[3]] == verdict and it[1] == priority]
            colour = COLOURS[verdict]
            panel.scatter(
                moments, [height] * len(moments), s=34, marker=MARKS[verdict], linewidths=1.2, zorder=3, clip_on=False,
                edgecolors=colour, facecolors="white" if priority else colour,
            )
    panel.set_yticks(range(len(rows)), [f"{SAID[it]} {shown.counts[VERDICTS.index(it)]:,}" for it in reversed(rows)])
    panel.set_ylim(-0.7, len(rows) - 0.3)
    panel.tick_params(axis="y", length=0)
    panel.grid(axis="y", color=GRID)
    return [
        Line2D([], [], linestyle="", marker="o", markersize=5.5, markeredgecolor=INK, markerfacecolor=face, label=f"cell loss priority {priority}")
        for priority, face in enumerate((INK, "white"))
        if any(it[1] == priority for it in shown.cells)
    ]


def draw_counts(panel, plan, shown):
    """Counts of the cells in each span, those of each verdict on top of the others. Returns the legend."""
    edges = [plan.begin + number * plan.span for number in range(plan.spans)] + [plan.end]
    lower = [0] * plan.spans
    for number, verdict in enumerate(VERDICTS):
        if not shown.counts[number]:
            continue
        upper = [below + more for below, more in zip(lower, shown.spans[number])]
        label = f"{SAID[verdict]} {shown.counts[number]:,}"
        panel.fill_between(edges, lower + lower[-1:], upper + upper[-1:], step="post", color=COLOURS[verdict], linewidth=0, label=label)
        lower = upper
    panel.set_ylim(0, max(lower) * 1.08)
    panel.yaxis.set_major_locator(MaxNLocator(4, integer=True))
    panel.set_ylabel(f"cells in\n{plan.span:,} ticks")
    return panel.get_legend_handles_labels()[0]


def legend(panel, handles, above):
    """A legend this many points above the cells, at the right."""
    panel.legend(
        handles=handles, loc="lower right", bbox_to_anchor=(1.0, 1.0 + above / 72 / CELLS), ncol=len(VERDICTS), frameon=False, fontsize=9,
        handletextpad=0.4, handlelength=1.2, columnspacing=1.2, borderaxespad=0.2,
    )


def draw_fill(panel, plan, shown, fill):
    """The level of a bucket, and its limit."""
    colour = LEVELS[fill.bucket]
    moments, levels = fill.moments, fill.levels
    if not shown.is_few:
        moments, levels = [*moments, plan.end], [*levels, levels[-1]]
    step = None if shown.is_few else "post"
    panel.fill_between(moments, levels, color=colour, alpha=0.3, linewidth=0, step=step)
    panel.plot(moments, levels, color=colour, linewidth=1.2, drawstyle="steps-post" if step else "default")
    panel.axhline(fill.limit, color=COLOURS["discard"], linewidth=1.1, linestyle=(0, (5, 3)))
    panel.annotate(
        f"limit\n{fill.limit:,}", (1, fill.limit), xycoords=("axes fraction", "data"), xytext=(4, 0), textcoords="offset points",
        va="center", fontsize=9, color=COLOURS["discard"],
    )
    greatest = max(fill.limit + fill.increment, max(levels))
    # A limit of 0 is seen above the axis.
    panel.set_ylim(0 if fill.limit else -0.05 * greatest, 1.1 * greatest)
    panel.yaxis.set_major_locator(MaxNLocator(4, integer=True))
    panel.set_ylabel("level in\nticks")
    spans = "" if shown.is_few else f", the greatest level in {plan.span:,} ticks"
    panel.set_title(bucket_title(shown, fill) + spans, loc="left", fontsize=10, pad=4)


def bucket_title(shown, fill):
    """Returns which bucket it is. If there are several contracts, it names the contract."""
    if len(shown.contracts) > 1:
        return f"contract {fill.contract}, {shown.contracts[fill.contract - 1]}: bucket {fill.bucket}"
    return f"bucket {fill.bucket} ({BUCKETS[fill.bucket]}): increment {fill.increment:,}"
