"""Charts of what stands in a ledger from left to right, as SVG for a page."""
from collections.abc import Iterable
from dataclasses import dataclass, field

from lib.words import count_words, escaped, time_words


@dataclass(slots=True)
class Place:
    """Where something stands in a ledger: its event's number, and its header's time."""

    number: int
    time: int


class Axis:
    """From left to right: by the headers' times, or by the events' numbers where all have the same."""

    def __init__(self, places: Iterable[Place]) -> None:
        places = list(places)
        times = [place.time for place in places]
        self.by_time = bool(times) and min(times) < max(times)
        found = times if self.by_time else [place.number for place in places]
        self.first = min(found, default=0)
        self.last = max(found, default=0)

    def column(self, place: Place, columns: int) -> int:
        at = (place.time if self.by_time else place.number) - self.first
        return at * columns // (self.last - self.first + 1)

    def ends(self) -> list[str]:
        """Its two ends, or its one."""
        ends = dict.fromkeys((self.first, self.last))
        return [time_words(end) if self.by_time else f"event {end}" for end in ends]

    def order(self) -> str:
        """What it is in the order of."""
        return "the times of their headers, UTC" if self.by_time else "their events' numbers"


@dataclass(slots=True)
class Column:
    """What a chart has at one place: heights by their colours, and the events that they come from."""

    heights: dict[int, int] = field(default_factory=dict)
    count: int = 0
    first: int = 0
    last: int = 0

    def add(self, number: int, colour: int, height: int) -> None:
        self.heights[colour] = self.heights.get(colour, 0) + height
        if self.count == 0:
            self.first = number
        self.count += self.last != number or self.count == 0
        self.last = number

    def whole(self) -> int:
        return sum(self.heights.values())

    def words(self, names: dict[int, str]) -> str:
        """What it is made of, by the names of the colours."""
        events = f"event {self.first}"
        if self.count > 1:
            events = f"{self.count:,} events from {self.first} to {self.last}"
        parts = (f"{names[colour]} {height:,}" for colour, height in sorted(self.heights.items()))
        return f"{events}: {', '.join(parts)}"


class Chart:
    """Stacked columns, each of which tells what it is made of."""

    def __init__(self, axis: Axis, columns: int, what: str, names: dict[int, str]) -> None:
        self.axis = axis
        self.what = what
        self.names = names
        self.columns = [Column() for _ in range(columns)]

    def add(self, place: Place, colour: int, height: int) -> None:
        at = self.axis.column(place, len(self.columns))
        self.columns[at].add(place.number, colour, height)

    def page_part(self) -> str:
        """The chart, between what it shows and the ends of its axis, and the key of its colours."""
        highest = max(column.whole() for column in self.columns)
        ends = "".join(f"<span>{end}</span>" for end in self.axis.ends())
        marks = "".join(
            self._mark(at, column, highest) for at, column in enumerate(self.columns) if column.count
        )
        return (
            f"<p>{self.what}, in the order of {self.axis.order()}. The highest column has "
            f"{count_words(highest)}.</p>"
            f'<svg role="img" aria-label="{self.what}" viewBox="0 0 {len(self.columns)} 100" '
            f'preserveAspectRatio="none">{marks}</svg><p class="ends">{ends}</p>{self._key()}'
        )

    def _mark(self, at: int, column: Column, highest: int) -> str:
        # The whole height, so that what a low column is made of is told there too.
        rects = [f'<rect class="room" x="{at}" y="0" width="1" height="100"/>']
        top = 100.0
        for colour, height in sorted(column.heights.items()):
            part = 100 * height / (highest or 1)
            top -= part
            rects.append(
                f'<rect class="c{colour}" x="{at}" y="{top:.3f}" width=".86" height="{part:.3f}"/>'
            )
        return f"<g><title>{escaped(column.words(self.names))}</title>{''.join(rects)}</g>"

    def _key(self) -> str:
        return '<p class="key">' + " ".join(
            f'<span><i class="c{colour}"></i>{escaped(name)}</span>'
            for colour, name in self.names.items()
        ) + "</p>"


def bar(part: int, whole: int, colour: int) -> str:
    width = 100 * part / whole if whole else 0
    return f'<span class="bar"><span class="c{colour}" style="width:{width:.3f}%"></span></span>'
