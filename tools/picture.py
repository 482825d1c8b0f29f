"""Draws the outcomes of a script as an SVG: steps along, choices down, and a legend that says what happened. Where several threads
call, each return is marked with its caller, as `1: write y 62`."""

from __future__ import annotations

import html
from dataclasses import dataclass

from tools.naming import cut, loud, named, said_calls, shown, what_happened
from tools.program import CHOICES, Found

LEFT, WIDTH, ROW, LANE, LETTER = 80, 900, 26, 12, 5.3
LANES, SHORTEST, LONGEST = 9, 8, 34
# Colours from old to new (viridis), and where there are verdicts of good outcomes and of bad ones.
SCALES = {
    None: ("440154", "482878", "3e4989", "31688e", "26828e", "1f9e89", "35b779", "6ece58", "b5de2b", "fde725"),
    True: ("00441b", "238b45", "74c476", "c7e9c0"),
    False: ("67000d", "cb181d", "fb6a4a", "fcbba1"),
}


@dataclass(frozen=True)
class Verdict:
    """What a command that looked at the tree of an outcome said."""

    is_good: bool
    why: str
    output: str


def colour(share: float, is_good: bool | None) -> str:
    """Returns the colour at a share, from 0 (old) to 1 (new), of the scale of this verdict."""
    scale = SCALES[is_good]
    place = share * (len(scale) - 1)
    low = min(int(place), len(scale) - 2)
    parts = zip(bytes.fromhex(scale[low]), bytes.fromhex(scale[low + 1]))
    return "#" + "".join(f"{round(a + (b - a) * (place - low)):02x}" for a, b in parts)


def colours(found: Found, verdicts: list[Verdict] | None) -> list[str]:
    last = max(len(found.outcomes) - 1, 1)
    return [colour(at / last, verdicts[at].is_good if verdicts else None) for at in range(len(found.outcomes))]


def text(x: float, y: float, said: str, *, size: int = 12, anchor: str = "start", more: str = "") -> str:
    return f'<text x="{x:.1f}" y="{y:.1f}" font-size="{size}" text-anchor="{anchor}"{more}>{html.escape(said)}</text>'


def returns(found: Found) -> list[tuple[int, list[int]]]:
    """Returns the places of the stops with which calls return, and the numbers of these calls, from 0."""
    marks, before = [], 0
    for place, stop in enumerate(found.stops):
        count = len(found.outcomes[found.at(CHOICES[0], stop)].calls)
        if count > before:
            marks.append((place, list(range(before, count))))
            before = count
    return marks


def label(found: Found, calls: list[int], width: int) -> str:
    """Returns the label of calls that return together: their words, or their numbers where there are many."""
    said = said_calls(found)
    words = loud([said[call] for call in calls])
    if width < SHORTEST or len(words) > 3:
        return str(calls[0] + 1) if len(calls) == 1 else f"{calls[0] + 1} to {calls[-1] + 1}"
    return cut("; ".join(cut(word, width) for word in words), LONGEST)


def placed_labels(found: Found, step: float) -> list[tuple[float, int, str, list[int]]]:
    """Returns for each moment at which calls return its place, a lane in which its label meets no other, the label and the calls.
    Labels get shorter until the lanes suffice; where even numbers meet, only some are shown."""
    marks = returns(found)
    for width in (26, 18, 12, 1):
        free = [-1.0] * LANES
        placed = []
        for place, calls in marks:
            said, x = label(found, calls, width), LEFT + place * step
            lane = next((at for at, end in enumerate(free) if end < x), None)
            if lane is not None:
                free[lane] = x + len(said) * LETTER + 6
            placed.append((x, -1 if lane is None else lane, said, calls))
        if all(lane >= 0 for _, lane, _, _ in placed) or width == 1:
            return placed
    return []


def draw_returns(found: Found, step: float, top: float, bottom: float) -> list[str]:
    """Draws a line where calls return, and above it their label, with a halo that keeps it apart from the lines behind it."""
    lines, labels = [], []
    for x, lane, said, calls in placed_labels(found, step):
        y = top - 10 - max(lane, 0) * LANE
        note = html.escape("\n".join(shown(found.whole.calls[call]) for call in calls))
        start = y if lane >= 0 else top
        lines.append(f'<line x1="{x:.1f}" y1="{start:.1f}" x2="{x:.1f}" y2="{bottom}" stroke="black" stroke-width="0.5"/>')
        if lane >= 0:
            halo = ' stroke="white" stroke-width="3" paint-order="stroke"'
            labels.append(f"<g>{text(x + 2, y + 3, said, size=9, more=halo)}<title>{note}</title></g>")
    return [*lines, *labels]


def draw_rows(found: Found, step: float, top: float, fills: list[str], names: list[str]) -> list[str]:
    out = []
    for at, choice in enumerate(CHOICES):
        y = top + at * ROW
        out.append(text(LEFT - 8, y + 16, named(choice), anchor="end"))
        for low, high, number in found.spans(choice):
            first, last = found.stops[low], found.stops[high - 1]
            steps = f"{first}" if first == last else f"{first} to {last}"
            note = html.escape(f"outcome {number + 1}: {names[number]}\nafter {steps} steps, {named(choice)}")
            x, width = LEFT + low * step, (high - low) * step
            out.append(
                f'<rect class="span" data-outcome="{number}" data-steps="{steps}" data-choice="{named(choice)}" x="{x:.2f}" y="{y}" '
                f'width="{width:.2f}" height="{ROW - 4}" fill="{fills[number]}"><title>{note}</title></rect>'
            )
            if width > 3:
                out.append(f'<line x1="{x:.2f}" y1="{y}" x2="{x:.2f}" y2="{y + ROW - 4}" stroke="white" stroke-width="0.6"/>')
    return out


def draw_axis(found: Found, step: float, bottom: float) -> list[str]:
    places = sorted({part * (len(found.stops) - 1) // 6 for part in range(7)})
    out = [text(LEFT + at * step, bottom + 12, str(found.stops[at]), size=10, anchor="middle") for at in places]
    out.append(text(LEFT + WIDTH / 2, bottom + 28, "steps before the power goes; above, the calls where they return", anchor="middle"))
    return out


def draw_legend(top: float, fills: list[str], names: list[str], verdicts: list[Verdict] | None) -> list[str]:
    out = [text(LEFT, top, "outcomes, from old to new")]
    for number, name in enumerate(names):
        y = top + 10 + number * 16
        verdict = "" if verdicts is None else "good: " if verdicts[number].is_good else "BAD: "
        out.append(f'<rect class="span" data-outcome="{number}" x="{LEFT}" y="{y}" width="14" height="12" fill="{fills[number]}"/>')
        out.append(text(LEFT + 20, y + 10, f"{number + 1}", size=11))
        out.append(text(LEFT + 46, y + 10, verdict + name, size=11))
    return out


def drawing(found: Found, title: str, verdicts: list[Verdict] | None) -> tuple[list[str], float]:
    """Returns the parts of the picture of a script in a mode, and how high it is."""
    step = WIDTH / len(found.stops)
    fills, names = colours(found, verdicts), what_happened(found)
    lanes = max([lane for _, lane, _, _ in placed_labels(found, step)], default=0) + 1
    top = 44 + lanes * LANE
    bottom = top + len(CHOICES) * ROW
    parts = [
        text(LEFT, 18, title, more=' font-weight="bold"'),
        *draw_rows(found, step, top, fills, names),
        *draw_returns(found, step, top, bottom),
        *draw_axis(found, step, bottom),
        *draw_legend(bottom + 54, fills, names, verdicts),
    ]
    return parts, bottom + 74 + len(names) * 16


def stacked(drawings: list[tuple[list[str], float]]) -> str:
    """Returns the SVG of drawings, one above the other."""
    width, height, parts = LEFT + WIDTH + 180, 0.0, []
    for drawn, high in drawings:
        parts += drawn if not height else [f'<g transform="translate(0 {height})">', *drawn, "</g>"]
        height += high
    head = f'<svg xmlns="http://www.w3.org/2000/svg" width="{width}" height="{height:g}" viewBox="0 0 {width} {height:g}" font-family="sans-serif">'
    return "\n".join([head, '<rect width="100%" height="100%" fill="white"/>', *parts, "</svg>", ""])


def picture(found: Found, title: str, verdicts: list[Verdict] | None) -> str:
    """Returns the SVG."""
    return stacked([drawing(found, title, verdicts)])
