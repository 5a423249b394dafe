"""How a meter is looked for: by the number on its label, its address or its name."""
from __future__ import annotations

import re
from dataclasses import dataclass

# a label's number as it is printed, also in pieces, behind its maker, and as the page itself tells it, with version and device type; or its
# last digits
LABEL = re.compile("(?:[A-Za-z]{3} ?)?((?:[0-9][ .-]?){8})(?:[0-9a-fA-F]{2} [0-9a-fA-F]{2})?|(?:[A-Za-z]{3} ?)?((?:[0-9][ .-]?){3,7})")
# the fourteen signs of DIN 43863-5, in which the number stands last
SIGNS = re.compile("[0-9A-Za-z] ?[A-Za-z]{3} ?[0-9A-Fa-f]{2} ?((?:[0-9] ?){8})")
ADDRESS = re.compile("[0-9a-fA-F]{4,16}")


@dataclass(frozen=True)
class Wanted:
    """What somebody looks for: a part of a name, and where it may be such the first digits of an address, and the last ones of a number."""

    name: str
    address: str = ""
    number: str = ""

    def finds(self, address: str, name: str, is_in_service: bool) -> bool:
        """Whether a meter is so. By its name one that is out of service isn't found: the one in its place may have the same name."""
        return bool(is_in_service and self.name in name.casefold() or self.address and address.startswith(self.address)
                    or self.number and number_of(address).endswith(self.number))


def wanted(text: str) -> Wanted:
    """What a text looks for."""
    label = SIGNS.fullmatch(text) or LABEL.fullmatch(text)
    number = re.sub("[^0-9]", "", next(it for it in label.groups() if it)) if label else ""
    return Wanted(text.casefold(), text.lower() if ADDRESS.fullmatch(text) else "", number)


def number_of(address: str) -> str:
    """The number on a meter's label, which stands in the address with its low byte first."""
    return "".join(address[place:place + 2] for place in (10, 8, 6, 4))


def pattern_of(number: str) -> str:
    """How an address is, in SQL's words, whose label's number ends with these digits."""
    pairs = [number[max(0, place - 2):place] for place in range(len(number), 0, -2)]
    return f"____{''.join(f'{pair:_>2}' for pair in pairs)}%"
