"""Messages of modes 5 and 7 opened, and the refusals in their order (`Checked5`, `Genuine7`, `Refusal5`, `Refusal7`).

OMS Volume 2; docs/FORMATS.md, "Which refusal comes first"."""
from dataclasses import dataclass

from reference.ciphers import METER_CIPHER, METER_MAC, cbc_decrypted, cmac, derived
from reference.layers import MAC, MCL, MCR, ML, Tpl
from reference.reasons import Reason

AUTHENTICATION, MAC_OF_EIGHT = 15, 5
CHECK = b"\x2f\x2f"
OMS_DERIVATION = 1


class Refusal(Reason):
    """Why a step stores and sends nothing, in the report's words behind `refused`."""


@dataclass(frozen=True)
class Message:
    """A whole message: its transport header with its body, and the authentication fields that came with it."""

    tpl: Tpl
    fields: dict[int, bytes]


@dataclass(frozen=True)
class Keys:
    """A meter's address and its keys as they are now."""

    address: bytes
    first: bytes
    second: bytes | None


def _judge_blocks(tpl: Tpl) -> None:
    """`blocks`: whether the encrypted bytes are there."""
    if tpl.encrypted > len(tpl.body):
        raise Refusal("blocks", tpl.encrypted, len(tpl.body))


def _payload(tpl: Tpl, key: bytes, vector: bytes) -> bytes:
    """The decrypted blocks and what stands behind them."""
    return cbc_decrypted(key, vector, tpl.body[:tpl.encrypted]) + tpl.body[tpl.encrypted:]


def open5(message: Message, keys: Keys, last: int | None) -> tuple[int, bytes]:
    """`opened5`: the access number and the payload of a message of mode 5."""
    tpl = message.tpl
    if tpl.mode != 5:
        raise Refusal("mode", tpl.mode, 5)
    _judge_blocks(tpl)
    if not tpl.encrypted:
        raise Refusal("unchecked")
    payload = _payload(tpl, keys.first, keys.address + bytes([tpl.access]) * 8)
    if payload[:2] != CHECK:
        raise Refusal("check", payload[:2].hex())
    if tpl.access == last:
        raise Refusal("access", tpl.access)
    return tpl.access, payload


def open7(message: Message, keys: Keys, last: int | None) -> tuple[int, bytes]:
    """`opened7`: the counter and the payload of a message of mode 7."""
    tpl, fields = message.tpl, message.fields
    if tpl.mode != 7:
        raise Refusal("mode", tpl.mode, 7)
    if not {MCL, MCR, MAC} <= fields.keys() or fields[MCL][0] & AUTHENTICATION != MAC_OF_EIGHT:
        raise Refusal("noauth")
    if tpl.derivation != OMS_DERIVATION:
        raise Refusal("kdf", tpl.derivation)
    _judge_blocks(tpl)
    counter, key = int.from_bytes(fields[MCR], "little"), key_of(tpl, keys)
    identification = keys.address[2:6]
    mac_input = fields[MCL] + fields[MCR] + fields.get(ML, b"") + tpl.raw + tpl.body
    if cmac(derived(key, METER_MAC, counter, identification), mac_input)[:8] != fields[MAC]:
        raise Refusal("mac")
    payload = _payload(tpl, derived(key, METER_CIPHER, counter, identification), bytes(16))
    if last is not None and counter <= last:
        raise Refusal("stale", counter, last)
    return counter, payload


def key_of(tpl: Tpl, keys: Keys) -> bytes:
    """`key_of`: the second key where the header names key 1 and there is one, else the first."""
    return keys.second if tpl.key_id == 1 and keys.second else keys.first
