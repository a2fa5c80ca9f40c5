"""A small model of the script language.

It is written from docs/DEFINITIONS.md, docs/SCRIPT.md, docs/DECISIONS.md and one specification
file, crates/mapdb_facts/specs/WellFormed.antt, and shares no code with the program. It is as plain
as the definitions: no index, and nothing is kept between two questions but what a copy holds.
"""
