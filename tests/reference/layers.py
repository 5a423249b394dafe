"""The layers of a telegram: link layer, its extension, authentication and fragmentation, transport header.

EN 13757-4 and EN 13757-7; docs/FORMATS.md, "What a telegram says"."""
from dataclasses import dataclass

from reference.reasons import Reason

LINK = 10
UPLINKS = frozenset((0x44, 0x46, 0x47, 0x48, 0x08, 0x18, 0x28, 0x38))
RESPONSES = frozenset((0x08, 0x18, 0x28, 0x38))
ELL_SHORT, ELL_LONG, ELL_OTHERS, AFL = 0x8C, 0x8E, (0x8D, 0x8F), 0x90
ELL_SIZES = {ELL_SHORT: 3, ELL_LONG: 11}
TPL_SIZES = {0x7A: 5, 0x8A: 5, 0x72: 13, 0x8B: 13}
MORE, MCL, ML, MCR, MAC, KI = 0x4000, 0x2000, 0x1000, 0x0800, 0x0400, 0x0200
UNUSED = 0x8100
AFL_FIELDS = ((MCL, 1), (KI, 2), (MCR, 4), (MAC, 8), (ML, 2))


class LayerFault(Reason):
    """Why a layer can't be read, in the report's words behind `layers`."""


@dataclass(frozen=True)
class Afl:
    """The fields of the authentication and fragmentation layer (`fields_bytes`); an absent one is empty."""

    control: int
    fields: dict[int, bytes]

    @property
    def number(self) -> int:
        """FID, the number of the fragment."""
        return self.control & 0xFF

    @property
    def is_last(self) -> bool:
        """No more fragments follow."""
        return not self.control & MORE

    @property
    def is_fragment(self) -> bool:
        """`is_fragment`: all but a last one with the number 0 or 1, which is a whole message."""
        return not self.is_last or self.number > 1


@dataclass(frozen=True)
class Tpl:
    """A transport header (`tpl_bytes`) and what stands behind it."""

    raw: bytes
    body: bytes

    @property
    def long_address(self) -> bytes | None:
        """The address that a long header names, M first (`header_order` undone)."""
        if TPL_SIZES[self.raw[0]] == 5:
            return None
        return self.raw[5:7] + self.raw[1:5] + self.raw[7:9]

    @property
    def _short(self) -> bytes:
        return self.raw[9:] if self.long_address else self.raw[1:]

    @property
    def access(self) -> int:
        """The access number."""
        return self._short[0]

    @property
    def configuration(self) -> int:
        """The configuration field."""
        return int.from_bytes(self._short[2:4], "little")

    @property
    def mode(self) -> int:
        """`mode_of`: bits 12 to 8."""
        return self.configuration >> 8 & 31

    @property
    def encrypted(self) -> int:
        """How many bytes are encrypted, by `blocks_of` (bits 7 to 4)."""
        return (self.configuration >> 4 & 15) * 16

    @property
    def derivation(self) -> int:
        """`derivation_of`: bits 5 and 4 of the extension of mode 7."""
        return self._short[4] >> 4 & 3

    @property
    def key_id(self) -> int:
        """`key_id_of`: bits 3 to 0 of the extension of mode 7."""
        return self._short[4] & 15


@dataclass(frozen=True)
class Layers:
    """What stands in a telegram (`IsLayers`): either `tpl`, or the `piece` of a message that a fragment has."""

    control: int
    link: bytes
    communication: int | None
    afl: Afl | None
    tpl: Tpl | None
    piece: bytes
    fault: Reason | None = None

    @property
    def target(self) -> bytes:
        """`target_of`: the meter that a long header names, else the link address."""
        return (self.tpl and self.tpl.long_address) or self.link


def read_tpl(content: bytes) -> Tpl:
    """`tpl_at`: a transport header, or its fault (`IsTplFault`)."""
    if not content:
        raise LayerFault("truncated", 0)
    size = TPL_SIZES.get(content[0])
    if size is None:
        raise LayerFault("unbuilt", f"{content[0]:02x}")
    if len(content) >= size and content[size - 1] & 31 == 7:
        size += 1
    if len(content) < size:
        raise LayerFault("truncated", len(content))
    return Tpl(content[:size], content[size:])


def read_afl(content: bytes) -> tuple[Afl, bytes]:
    """`afl_at`: the layer and what stands behind it, or its fault (`IsAflFault`), the first one."""
    if len(content) < 4:
        raise LayerFault("truncated", len(content))
    control = int.from_bytes(content[2:4], "little")
    there = [(bit, size) for bit, size in AFL_FIELDS if control & bit]
    size = 2 + sum(size for _, size in there)
    if content[1] != size:
        raise LayerFault("length", content[1], size)
    if len(content) < 2 + size:
        raise LayerFault("truncated", len(content))
    fields, place = {}, 4
    for bit, width in there:
        fields[bit] = content[place:place + width]
        place += width
    afl = Afl(control, fields)
    if is_misplaced(afl):
        raise LayerFault("place", f"{control:04x}")
    if afl.is_fragment and afl.number == 0:
        raise LayerFault("fidzero")
    return afl, content[place:]


def afl_bytes(afl: Afl) -> bytes:
    """`afl_bytes`: the layer as it is sent, without the bits of FCL that say nothing."""
    fields = b"".join(afl.fields.values())
    return bytes([AFL, 2 + len(fields)]) + (afl.control & ~UNUSED).to_bytes(2, "little") + fields


def is_misplaced(afl: Afl) -> bool:
    """`is_misplaced`: the MAC stands in the last fragment alone, all other fields in the first one."""
    if not afl.is_fragment:
        return False
    return (not afl.is_last and MAC in afl.fields) or (afl.number > 1 and bool(afl.fields.keys() - {MAC}))


def _read_ell(content: bytes) -> tuple[int | None, bytes]:
    """`ell_at`: the communication control, if there is an extension, and what stands behind it."""
    if not content or content[0] not in (ELL_SHORT, ELL_LONG, *ELL_OTHERS):
        return None, content
    if content[0] in ELL_OTHERS:
        raise LayerFault("kind", f"{content[0]:02x}")
    size = ELL_SIZES[content[0]]
    if len(content) < size:
        raise LayerFault("truncated", len(content))
    return content[1], content[size:]


def read_layers(telegram: bytes) -> Layers:
    """`layers_of`: what stands in a telegram, or the fault of the first layer that can't be read."""
    control, link, layer = telegram[1], telegram[2:LINK], "ell"
    try:
        communication, rest = _read_ell(telegram[LINK:])
        layer, afl = "afl", None
        if rest[:1] == bytes([AFL]):
            afl, rest = read_afl(rest)
        if afl and afl.is_fragment:
            return Layers(control, link, communication, afl, None, rest)
        layer = "tpl"
        return Layers(control, link, communication, afl, read_tpl(rest), b"")
    except LayerFault as fault:
        return Layers(control, link, None, None, None, b"", Reason(f"{layer} {fault.words}", *fault.values))
