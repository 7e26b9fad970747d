"""The numbers of bars and charts, which templates draw."""
import datetime
from collections.abc import Mapping
from typing import Any

from wb_tools.answers import STATES

WIDTH = 1000  # of a bar, in its own units
LEAST = 6  # of a part of a bar, so that it can be seen
GAP = 3  # between two parts
DAYS = 28  # of a chart
HEIGHT = 30  # of a chart above and below its line


def bar(counts: Mapping[str, int]) -> list[dict[str, Any]]:
    """The parts of a bar, in the order of the states: each as long as its count, and no shorter than can be seen."""
    parts = [(state, counts[state]) for state in STATES if counts.get(state, 0) > 0]
    total, free = sum(count for _, count in parts), WIDTH - GAP * (len(parts) - 1) - LEAST * len(parts)
    found, x = [], 0.0
    for state, count in parts:
        width = LEAST + free * count / total
        found.append({"state": state, "count": count, "x": round(x, 1), "width": round(width, 1)})
        x += width + GAP
    return found


def days_until(now: int) -> list[str]:
    """The last days up to now."""
    today = datetime.datetime.fromtimestamp(now, datetime.timezone.utc).date()
    return [str(today - datetime.timedelta(back)) for back in reversed(range(DAYS))]


def chart(days: Mapping[str, Mapping[str, int]], now: int) -> dict[str, Any]:
    """What was built and what failed on each of the last days: the first above a line and the second below."""
    found = [{"day": day, "built": 0, "failed": 0} | dict(days.get(day, {})) for day in days_until(now)]
    most = max(1, *(max(one["built"], one["failed"]) for one in found))
    for one in found:
        one["up"], one["down"] = (scaled(one[key], most) for key in ("built", "failed"))
    depth = max(one["down"] for one in found)
    return {"days": found, "most": most, "height": HEIGHT + 2 + depth, "built": sum(one["built"] for one in found),
            "failed": sum(one["failed"] for one in found)}


def scaled(count: int, most: int) -> float:
    return round(max(HEIGHT * count / most, 1.5), 1) if count else 0
