"""The words, numbers and differences that the page has in common with bin/report_page."""
from __future__ import annotations

from .. import tool_modules  # noqa: F401  (the way to the modules below)
from readings.explained import row_of
from readings.page_texts import (
    FIRST_TIME, GRACE, LAST_TIME, NAMES, PREFIXED, REPEATS, WRONG_KEY, counted, grouped, is_address, is_number, is_time, label_of, maker_of,
    prefix_for, time_text, times, type_of, words_of_page, zone_text,
)
from readings.registers import Register, curve_words, line_of, used_notes
from readings.used import Used, hour_of, rising_points, used_of

__all__ = [
    "FIRST_TIME", "GRACE", "LAST_TIME", "NAMES", "PREFIXED", "REPEATS", "WRONG_KEY", "Register", "Used", "counted", "curve_words", "grouped",
    "hour_of", "is_address", "is_number", "is_time", "label_of", "line_of", "maker_of", "prefix_for", "rising_points", "row_of", "time_text", "times",
    "type_of", "used_notes", "used_of", "words_of_page", "zone_text",
]
