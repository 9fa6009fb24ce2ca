"""A picture of a run, as SVG that is written without any library: how long its jobs took, and what they are worth."""

import html
import math

from .compare import Row
from ..score import A_DISC, GREATEST_EVALUATION

WIDTH, HEIGHT, LEFT, TOP, GAP = 720, 220, 70, 50, 90
RANGES = 12  # of points of the evaluation


def draw(rows: list[Row], title: str) -> str:
    """The picture: above, how many jobs took how long (each bar is twice as long a time as the one before it); below, how many have which
    value: points of the evaluation, and the ends of games in discs."""
    times = [row.milliseconds for row in rows if row.moves != ("",) and row.milliseconds > 0]
    values = [int(row.value) for row in rows if row.value.lstrip("-").isdecimal()]
    text = [f'<svg xmlns="http://www.w3.org/2000/svg" width="{LEFT + WIDTH + 30}" height="{2 * HEIGHT + TOP + 2 * GAP}" font-family="sans-serif" font-size="12">',
            '<rect width="100%" height="100%" fill="white"/>',
            f'<text x="{LEFT}" y="24" font-size="16">{html.escape(title)}: {len(rows)} positions</text>']  # fmt: skip
    text += bars(TOP, "milliseconds", time_bars(times), "#4477aa")
    text += bars(TOP + HEIGHT + GAP, "value, seen by the player to move", value_bars(values), "#228833")
    return "\n".join([*text, "</svg>", ""])


def time_bars(times: list[float]) -> list[tuple[str, int]]:
    """How many times lie between two powers of 2."""
    if not times:
        return []
    places = [math.floor(math.log2(time)) for time in times]
    return [(f"{2.0**place:g}", places.count(place)) for place in range(min(places), max(places) + 1)]


def value_bars(values: list[int]) -> list[tuple[str, int]]:
    """How many values lie in each range: lost games, twelve ranges of points, won games."""
    found = []
    ends = [value // A_DISC if value >= 0 else -(-value // A_DISC) for value in values if abs(value) > GREATEST_EVALUATION]
    for least, most in ((-64, -33), (-32, -17), (-16, -1)):
        found.append((f"{least}..{most} d", sum(least <= discs <= most for discs in ends)))
    places = [min(RANGES * (value + GREATEST_EVALUATION) // (2 * GREATEST_EVALUATION), RANGES - 1) for value in values if abs(value) <= GREATEST_EVALUATION]
    for number in range(RANGES):
        found.append((f"{-GREATEST_EVALUATION + 2 * GREATEST_EVALUATION * number / RANGES:+.0f}", places.count(number)))
    for least, most in ((1, 16), (17, 32), (33, 64)):
        found.append((f"{least}..{most} d", sum(least <= discs <= most for discs in ends)))
    return found


def bars(top: int, label: str, counts: list[tuple[str, int]], colour: str) -> list[str]:
    """One diagram: a bar for each name, with its number above it."""
    most, bottom = max([1, *(count for _, count in counts)]), top + HEIGHT
    step = max(1, 10 ** (len(str(most)) - 1) // (2 if most < 2 * 10 ** (len(str(most)) - 1) else 1))
    text = [f'<text x="{LEFT}" y="{bottom + 58}">{html.escape(label)}</text>',
            f'<line x1="{LEFT}" y1="{bottom}" x2="{LEFT + WIDTH}" y2="{bottom}" stroke="black"/>',
            f'<line x1="{LEFT}" y1="{top}" x2="{LEFT}" y2="{bottom}" stroke="black"/>',
            f'<text x="{LEFT - 52}" y="{top + HEIGHT / 2:.0f}" text-anchor="middle" transform="rotate(-90 {LEFT - 52} {top + HEIGHT / 2:.0f})">positions</text>']  # fmt: skip
    for count in range(0, most + 1, step):
        y = bottom - count / most * (HEIGHT - 20)
        text.append(f'<line x1="{LEFT - 4}" y1="{y:.1f}" x2="{LEFT}" y2="{y:.1f}" stroke="black"/>')
        text.append(f'<text x="{LEFT - 8}" y="{y + 4:.1f}" text-anchor="end" font-size="10">{count}</text>')
    for number, (name, count) in enumerate(counts):
        wide = WIDTH / len(counts)
        left, height = LEFT + number * wide, count / most * (HEIGHT - 20)
        text.append(f'<rect x="{left + 2:.1f}" y="{bottom - height:.1f}" width="{wide - 4:.1f}" height="{height:.1f}" fill="{colour}"/>')
        if count:
            text.append(f'<text x="{left + wide / 2:.1f}" y="{bottom - height - 4:.1f}" text-anchor="middle">{count}</text>')
        turned = f'transform="rotate(-40 {left + wide / 2:.1f} {bottom + 16})"'
        text.append(f'<text x="{left + wide / 2:.1f}" y="{bottom + 16}" text-anchor="end" font-size="10" {turned}>{html.escape(name)}</text>')
    return text
