"""Draws how long calls take beside those of other libraries: a bar for each, from 1 to the left where the call is faster here, and
to the right where it is slower, as an SVG."""

import math

WIDTH = 820
LEFT, RIGHT, TOP = 290, 770, 92
BAR, GAP = 11, 8

# Where the axis ends: a longer bar is cut there, and its figure tells the rest.
MOST = 10
TICKS = [0.1, 0.2, 0.5, 1, 2, 5, 10]


def scheme(ink, paper, grid, colours):
    """Returns the rules that colour the plot and its peers, in this order."""
    rules = [f"text {{ fill: {ink} }}", f".paper {{ fill: {paper} }}", f".grid {{ stroke: {grid} }}", f".one {{ stroke: {ink} }}"]
    return "\n".join(rules + [f".peer{i} {{ fill: {colour} }}" for i, colour in enumerate(colours)])


# The peers' colours stand apart for the colour-blind, too.
STYLE = f"""
text {{ font: 13px sans-serif }}
.figure {{ font-size: 11px }}
.title {{ font-size: 15px }}
{scheme("#222", "#fff", "#ddd", ["#005a9c", "#d98200"])}
@media (prefers-color-scheme: dark) {{
{scheme("#e6e6e6", "#16191d", "#3a3f45", ["#6cb8f5", "#ffb454"])}
}}
"""


def across(ratio):
    """Returns where a ratio stands on the axis, whose steps are those of a logarithm."""
    within = min(max(ratio, 1 / MOST), MOST)
    return (LEFT + RIGHT) / 2 + (RIGHT - LEFT) / 2 * math.log(within) / math.log(MOST)


def text(x, y, words, anchor="start", kind=""):
    """Returns words at a place."""
    return f'<text class="{kind}" x="{x:.1f}" y="{y:.1f}" text-anchor="{anchor}">{words}</text>'


def legend(peers):
    """Returns the colour and the name of each peer, and which side is faster."""
    parts = []
    for i, peer in enumerate(peers):
        x = 20 + 110 * i
        parts.append(f'<rect class="peer{i}" x="{x}" y="46" width="{BAR}" height="{BAR}"/>')
        parts.append(text(x + BAR + 6, 56, peer))
    parts.append(text(across(1) - 14, 56, "← faster here", "end"))
    parts.append(text(across(1) + 14, 56, "slower here →"))
    return parts


def axis(bottom):
    """Returns the upright lines and their figures."""
    parts = []
    for tick in TICKS:
        x = across(tick)
        parts.append(f'<path class="{"one" if tick == 1 else "grid"}" d="M{x:.1f} {TOP - 8}V{bottom}"/>')
        parts.append(text(x, TOP - 14, f"{tick:g}", "middle", "figure"))
    return parts


def bar(y, ratio, peer):
    """Returns the bar of a ratio and its figure."""
    end, one = across(ratio), across(1)
    drawn = f'<rect class="peer{peer}" x="{min(end, one):.1f}" y="{y}" width="{max(abs(end - one), 1):.1f}" height="{BAR}"/>'
    side, anchor = (4, "start") if ratio >= 1 else (-4, "end")
    return [drawn, text(end + side, y + BAR - 1.5, f"{ratio:.2f}" if ratio < 100 else f"{ratio:,.0f}", anchor, "figure")]


def drawn(peers, calls, count):
    """Returns the plot. Of each call there are its name and its ratio to each peer, or None, among `count` keys."""
    parts, y = [], TOP
    for name, ratios in calls:
        there = [(i, ratio) for i, ratio in enumerate(ratios) if ratio is not None]
        if not there:
            continue
        parts.append(text(LEFT - 40, y + len(there) * BAR / 2 + 4.5, name, "end"))
        for i, ratio in there:
            parts += bar(y, ratio, i)
            y += BAR
        y += GAP
    title = f"The time of a call among {count:,} keys, as a multiple of that in other libraries"
    return "\n".join(
        [
            f'<svg xmlns="http://www.w3.org/2000/svg" viewBox="0 0 {WIDTH} {y + 12}" role="img">',
            f"<title>{title}</title>",
            f"<style>{STYLE}</style>",
            f'<rect class="paper" width="{WIDTH}" height="{y + 12}" rx="8"/>',
            text(20, 30, title, kind="title"),
            *legend(peers),
            *axis(y),
            *parts,
            "</svg>\n",
        ]
    )
