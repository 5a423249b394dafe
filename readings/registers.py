"""Registers of meters, for the page that is a file and the one that is served: what they are called, which say most of a meter, how their
numbers are drawn and what was used of them."""
from __future__ import annotations

from collections.abc import Sequence
from dataclasses import dataclass
from decimal import Decimal

from readings.page_texts import NAMES, PREFIXED, QUALIFIERS, QUANTITIES, counted, prefix_for, time_text, value_text
from readings.used import RISING, Used

# what a qualifier of these did is in the value already
CALCULATED = ("factor-", "constant-")
# behind these qualifiers a register that rises still does
STILL_RISING = {"forward", "backward", "uncorrected", "atbaseconditions"}
# what says most of a meter, first
MAIN = ("energy", "volume", "hca", "mass", "power", "flow", "flowtemperature", "externaltemperature")
MOST_POINTS = 300


@dataclass(frozen=True)
class Register:
    """What the values of a kind have in common."""
    quantity: str
    unit: str
    function: str = "instantaneous"
    storage: int = 0
    tariff: int = 0
    subunit: int = 0
    qualifiers: str = ""
    modifiers: str = ""

    def words(self) -> list[str]:
        """What its qualifiers make of the quantity; what they calculate is in the value already."""
        return [word for word in self.qualifiers.split() if not word.startswith(CALCULATED)]

    @property
    def name(self) -> str:
        """What it is called."""
        return " ".join([QUANTITIES.get(self.quantity, self.quantity), *(QUALIFIERS.get(word, word) for word in self.words())])

    def place(self) -> list[str]:
        """The function and the place of a register that isn't the meter's main one."""
        parts = [] if self.function == "instantaneous" else [self.function]
        numbers = {"storage": self.storage, "tariff": self.tariff, "subunit": self.subunit}
        return parts + [f"{word} {number}" for word, number in numbers.items() if number]

    @property
    def of_what(self) -> str:
        """What tells it apart from other registers of its name: its place, and the bytes of its qualifiers where no words say all of
        them."""
        is_told = not self.modifiers or self.qualifiers and not any(it.startswith(CALCULATED) for it in self.qualifiers.split())
        return ", ".join(self.place() + ([] if is_told else [f"modifiers {self.modifiers}"]))

    @property
    def title(self) -> str:
        """Its name, and what tells it apart."""
        return ", ".join(part for part in (self.name, self.of_what) if part)

    def is_main(self) -> bool:
        """Whether it is what its quantity's name says; one whose modifiers no words tell may be anything else."""
        return not self.place() and not self.words() and (not self.modifiers or bool(self.qualifiers))

    @property
    def rank(self) -> tuple[bool, int]:
        """Its place among those of a meter: the main ones first, in the order of what they say of it."""
        return not self.is_main(), MAIN.index(self.quantity) if self.quantity in MAIN else len(MAIN)

    @property
    def is_curve(self) -> bool:
        """Whether its values are drawn over time."""
        return self.storage == 0 and self.quantity not in NAMES and self.quantity not in ("date", "datetime")

    @property
    def rises(self) -> bool:
        """Whether it only rises, but for a meter that is reset or replaced, so that its differences are what was used."""
        return self.quantity in RISING and self.function == "instantaneous" and not self.storage and set(self.words()) <= STILL_RISING

    def text(self, value: str, prefix: tuple[str, int], raw: str | None = None) -> str:
        """A value as a person reads it."""
        return value_text(self.quantity, self.unit, value, prefix, raw)

    def used_text(self, amount: Decimal, greatest: Decimal | int) -> tuple[str, str]:
        """What was used in a period, as a number and in words, with the prefix that the greatest one of all periods takes."""
        number = format(amount, "f")
        return number, self.text(number, prefix_for(greatest) if self.unit in PREFIXED else ("", 0))


def used_notes(used: Used, is_longer: bool) -> list[str]:
    """What is to be known of what was used in a period: that the register fell, and from when on it is counted where that lies further
    back."""
    return ["reset or replaced"] * used.fell + [f"from {time_text(used.since)}"] * is_longer


def curve_words(name: str, count: int, low: str, high: str, start: str, end: str) -> str:
    """What a curve shows, for those who don't see it."""
    return f"{name}: {counted(count, 'value', 'values')} from {low} to {high}, {start} to {end or start}"


def thinned(points: list[tuple[float, float]]) -> list[tuple[float, float]]:
    """At most MOST_POINTS of the points, with the least and the greatest of each stretch."""
    if len(points) <= MOST_POINTS:
        return points
    size = -(-len(points) // (MOST_POINTS // 2))
    kept: list[tuple[float, float]] = []
    for start in range(0, len(points), size):
        stretch = points[start:start + size]
        kept += sorted({min(stretch, key=lambda it: it[1]), max(stretch, key=lambda it: it[1])})
    return kept


def line_of(moments: Sequence[float], numbers: Sequence[float]) -> str:
    """The points of a line over 600 by 120; where all are of one moment they stand side by side."""
    places: Sequence[float] = moments if moments[-1] > moments[0] else range(len(numbers))
    shown = thinned(list(zip(places, numbers)))
    low, height = min(numbers), max(numbers) - min(numbers)
    begin, across = places[0], 600 / (places[-1] - places[0])
    base, up = (110.5, 100 / height) if height > 0 else (60, 0)
    return " ".join([f"{int((x - begin) * across)},{int(base - (y - low) * up)}" for x, y in shown])
