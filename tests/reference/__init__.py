"""A second implementation of what `wmbus hear`, `wmbus collect`, `wmbus continue` and `wmbus steps` print.

It is written from docs/DEFINITIONS.md, docs/FORMATS.md and the public standards, and shares no code with the
program."""
