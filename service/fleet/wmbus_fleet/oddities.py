"""What nobody can take of what gateways say, counted by the gateway's name, and what to do about it."""
from __future__ import annotations

import logging
import time
from collections import Counter
from collections.abc import Iterable, Mapping, Sequence

from . import store
from .messages import Message, frames_in
from .programs import Fence
from .store import Database

log = logging.getLogger("wmbus")

# (a clock is set right by some seconds again and again)
SLACK = 60
FORM, HEADERS = "a message that is out of form", "a message whose headers can't be read"
ELSEWHERE = "a message that came into another area's queue"
FAILING, FAR = "a message at which the intake fails", "a message of an epoch that is far above now (its clock was wrong, or somebody else has its name)"
SET_BACK = "a message of later moments under a number that was taken before (its file or its clock was set back)"
DIFFERS = "another message under a number that was taken before (its file was set back, or two machines have its name)"
MANY = "a message more than its part while others waited, for which it is asked again"
# answers of this intake that are none of the program's
FAR_ANSWER, OTHER_ANSWER = "far", "other"
REMEDIES = {SET_BACK: (
    "; where that goes on nothing that it hears is taken until it begins anew. On its machine, as root: systemctl stop wmbus-gateway"
    " wmbus-receiver@RECEIVER; rm /var/lib/wmbus/gateway.{}.db* /var/lib/wmbus/spool/RECEIVER.*.lines; systemctl start"
    " wmbus-receiver@RECEIVER wmbus-gateway")}
Oddities = Counter[tuple[str, str]]


def of_answers(fences: Mapping[str, Fence], messages: Sequence[Message], answers: Sequence[str], rubbish: Iterable[tuple[str, str]]
               ) -> Oddities:
    """Of each gateway what nobody can take of it, and how often; of some messages it was known before."""
    found = Counter(rubbish)
    epochs = {name: epoch for name, (epoch, _) in fences.items()}
    for message, answer in zip(messages, answers, strict=True):
        if answer == "unknown":
            found[message.gateway, "a message, though no such gateway is known"] += 1
        elif answer == FAR_ANSWER:
            found[message.gateway, FAR] += 1
        elif answer == "again" and message.epoch < epochs[message.gateway]:
            found[message.gateway, "a message of an epoch that is over"] += 1
        elif answer == "take":
            epochs[message.gateway] = message.epoch
            found[message.gateway, "a line that is no frame"] += len(message.lines) - len(frames_in(message.lines))
    return +found


def remedy_of(gateway: str, what: str) -> str:
    """What to do about what a gateway says, where that isn't just left."""
    return REMEDIES.get(what, "").format(gateway)


def put(database: Database, found: Mapping[tuple[str, str], int]) -> None:
    """Counts them on, and says once what is new."""
    for (gateway, what), times in sorted(found.items()):
        count = store.one(database, "insert into oddity values (%s, %s, %s, %s) on conflict (gateway, what) do update set times ="
                                    " oddity.times + excluded.times, last_made = excluded.last_made returning times",
                          (gateway, what, times, time.time()))
        if count == times:
            log.warning("%s sent %s, which is left (`wmbus-fleet status` counts them)%s", gateway, what, remedy_of(gateway, what))
