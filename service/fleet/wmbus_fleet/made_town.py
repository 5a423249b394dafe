"""A made town: houses of flats whose meters send all at the same pace, each heard by its house's gateway, encrypted with keys of its own."""
from __future__ import annotations

import random
from collections.abc import Iterator

from wmbus_service.made_building import (
    COLD_WATER, GAS, HEAT, LISTENS, MAKER, NEIGHBOUR, OWN, POWER, RESPONSE, WARM_WATER, Building, MadeMeter, address_of,
)

# of each kind of meter what it is called, its mode, and what a flat uses in a year (kWh or m³)
KINDS = ((HEAT, "Heat", 7, 6_200), (COLD_WATER, "Cold water", 7, 45), (WARM_WATER, "Warm water", 5, 22), (POWER, "Power", 7, 2_400),
         (GAS, "Gas", 5, 900))
FIRST = 50_000_000
LISTENING = 0


class Town:
    """The meters, in the order in which they send, and which of so many gateways hears each."""

    def __init__(self, count: int, gateways: int, begin: int) -> None:
        draw = random.Random("the made town of wmbus-fleet demo")
        # (made for what it says of a meter's next telegram)
        self.building = Building(begin, 0)
        self.gateways = gateways
        self.meters = [self._meter(draw, place, begin) for place in range(count)]
        self.neighbour = MadeMeter("", address_of(NEIGHBOUR, 71_188_040, HEAT), 7, draw.randbytes(16), 15_000, 21_400, heard=begin)
        # (one meter's key is written down wrong)
        self.wrong = self.meters[-1]

    @staticmethod
    def _meter(draw: random.Random, place: int, begin: int) -> MadeMeter:
        kind, name, mode, in_a_year = KINDS[place % len(KINDS)]
        used = in_a_year * draw.uniform(0.6, 1.5)
        return MadeMeter(f"{name}, flat {place // len(KINDS) + 1}", address_of(MAKER, FIRST + place, kind), mode, draw.randbytes(16), used,
                         used * draw.uniform(0.6, 4), heard=begin)

    def roster(self) -> str:
        """Its roster, in which one meter has another's key."""
        lines = (meter.line().replace(meter.key.hex(), self.neighbour.key.hex()) if meter is self.wrong else meter.line()
                 for meter in self.meters)
        return f"wmbus-roster 2\nown {OWN}\n" + "".join(lines)

    def names(self) -> str:
        """The names of its meters, line by line."""
        return "".join(f"{meter.address.hex()} {meter.name}\n" for meter in self.meters)

    def sent(self, begin: int, end: int, moment: int) -> Iterator[tuple[int, str]]:
        """What the meters of these places send at a moment: which gateway hears it, and the line. The first one listens each time, and
        answers what it got."""
        for place in range(begin, end):
            meter = self.meters[place]
            is_first = place == LISTENING
            yield place % self.gateways, self.building.sent(meter, moment, access=LISTENS if is_first else None)
        if begin == 0:
            yield 0, self.building.sent(self.neighbour, moment)

    def answer(self, moment: int) -> tuple[int, str]:
        """The answer of the meter that listens to the command that it got."""
        return LISTENING % self.gateways, self.building.sent(self.meters[LISTENING], moment, control=RESPONSE, access=LISTENS)

