"""The table that the crate lang_rows answers, whose last parts are made by tools: each from a line that says so to the next such line."""
import os
import re

TABLE = os.path.join(os.path.dirname(os.path.dirname(os.path.abspath(__file__))), "crates", "lang_rows", "stdin")
MADE = "# Made by "


def renewed(table, tool, about, rows):
    """A table with the part of a tool anew, or behind the others where it has none."""
    parts = re.split(rf"(?m)^(?={MADE})", table)
    begins = f"{MADE}{tool}"
    kept = [part for part in parts if not part.startswith(begins)]
    at = next((number for number, part in enumerate(parts) if part.startswith(begins)), len(parts))
    kept.insert(at, f"{begins}{about}\n\n{rows}")
    return "\n\n".join(part.strip("\n") for part in kept) + "\n"


def renew(tool, about, rows):
    """Writes the part of a tool anew."""
    with open(TABLE, encoding="utf-8") as file:
        text = renewed(file.read(), tool, about, rows)
    with open(TABLE, "w", encoding="utf-8") as file:
        file.write(text)
    print(len(rows.splitlines()), "lines")
