"""Days, as the page and retention cut them: by this machine's zone, and by the moments at which readings were heard."""
from __future__ import annotations

import os
import time

from .page.shared import FIRST_TIME, GRACE, LAST_TIME, hour_of

# in front of the first day of 2026 no clock is set
LEAST = 1_767_225_600.0
# a reading whose receiver's clock has a time that isn't after its session's, where that session's clock was set; no other counts for what
# was used
IS_TIMED = f"(moment between {FIRST_TIME} and {LAST_TIME} and (moment <= made + {GRACE} or made < {LEAST:.0f}))"
# when a reading was heard, as the page tells it
HEARD = f"case when {IS_TIMED} then moment else made end"


def day_of(moment: float) -> str:
    """The day of a moment: 2026-11-29."""
    year, month, day = hour_of(int(moment))[:3]
    return f"{year:04d}-{month:02d}-{day:02d}"


def zone_now() -> str:
    """The zone in which days are cut now: two of another name, or of other hours, are two."""
    offsets = (-(time.timezone if not is_summer else time.altzone) // 60 for is_summer in range(1 + bool(time.daylight)))
    return os.environ.get("TZ") or " ".join(f"{name} {minutes:+d}" for name, minutes in zip(time.tzname, offsets, strict=False))
