"""What the scripts keep_readings (keep), report_page (page) and sessions of bin/ do: the database of readings (schema), its page, and
rounds of sessions."""
