"""A chart of the table of the loops in docs/BENCHMARKS.md: CPU time on one processor beside each other channel, on a
logarithmic scale. A bar to the left of 1 is won, one to the right lost."""
import math
import re

from parts.compare import Differs
from parts.pages import TOP, rows

PAGE = "docs/BENCHMARKS.md"
CHART = TOP / "docs" / "benchmarks.svg"
LEFT, MIDDLE, OCTAVE, ROW, HEAD = 330, 620, 75, 17, 62


def at(ratio):
    """Where a ratio is from left to right."""
    return MIDDLE + OCTAVE * math.log2(ratio)


def text(x, y, anchor, words, style=""):
    return f'<text x="{x:.1f}" y="{y:.1f}" text-anchor="{anchor}"{style}>{words}</text>'


def line(x, top, bottom, colour):
    return f'<line x1="{x:.1f}" y1="{top:.1f}" x2="{x:.1f}" y2="{bottom:.1f}" stroke="{colour}"/>'


def rectangle(x, y, width, height, colour):
    return f'<rect x="{x:.1f}" y="{y:.1f}" width="{width:.1f}" height="{height}" fill="{colour}"/>'


def bar(y, ratio, low, high):
    """A bar from 1 to the median, and a thin one from the first to the third quartile."""
    begin, end = sorted([at(ratio), at(1)])
    beside, anchor = (at(low) - 5, "end") if ratio < 1 else (at(high) + 5, "start")
    return [
        rectangle(begin, y - 9, end - begin, 9, "#1b7f79" if ratio < 1 else "#c8741a"),
        rectangle(at(low), y - 5.2, at(high) - at(low), "1.5", "#222"),
        text(beside, y, anchor, f"{ratio:.2f}"),
    ]


def loops():
    """Each loop, with each other channel and the median and both quartiles of its ratios."""
    found = []
    for heads, cells in rows(PAGE):
        if heads[:2] == ["Loop", "Channel"]:
            channel = cells[1].replace("`", "").replace(", ", " ", 1)
            if cells[0]:
                found.append((cells[0].replace("`", ""), []))
            elif numbers := re.fullmatch(r"([\d.]+) \(([\d.]+)–([\d.]+)\)", cells[3]):
                found[-1][1].append((channel, *map(float, numbers.groups())))
    return found


def draw():
    y, body = 0, []
    for loop, beside in loops():
        y += 7
        body.append(text(10, HEAD + y + ROW, "start", loop, ' font-weight="bold"'))
        for name, *ratios in beside:
            y += ROW
            body += [text(LEFT, HEAD + y, "end", name), *bar(HEAD + y, *ratios)]
    if not body:
        raise Differs(f"{PAGE}: it has no table of loops")
    foot = HEAD + y + 12
    scale = []
    for ratio in ("0.125", "0.25", "0.5", "1", "2", "4", "8", "16"):
        x = at(float(ratio))
        scale += [line(x, HEAD, foot, "#222" if ratio == "1" else "#ddd"), text(x, foot + 14, "middle", ratio)]
    return "\n".join([
        f'<svg xmlns="http://www.w3.org/2000/svg" width="960" height="{foot + 20}" viewBox="0 0 960 {foot + 20}" '
        'font-family="sans-serif" font-size="11" fill="#222">',
        '<rect width="100%" height="100%" fill="#fff"/>',
        text(10, 20, "start", "CPU time of oneshot on one processor, where the other channel takes 1",
             ' font-size="14" font-weight="bold"'),
        text(10, 38, "start", "Left of 1 oneshot is faster, right of 1 slower. A thin line leads from the first to the "
             "third quartile. Each step doubles."),
        *scale, *body, "</svg>", "",
    ])
