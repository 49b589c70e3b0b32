"""The table of a campaign's cases: its columns, what a row may have, and the key of a case, a sum of all that its answer depends on.

The table is a text with a tab between two columns; `-` is nothing, and a line that begins with `#` is passed over.

    name        letters, digits, `_`, `-` and `.`, beginning with a letter or digit: the name of the case and of its folder
    model       the nominal model, a file
    faults      the fault file
    top         a top event, or `@FILE`: for `analyse` a file that has the event, for `fmea` one of top events with `;` between
    size        of how many faults a set has at most; `-` is all of them (`analyse` alone)
    depth       how many steps the search may look ahead
    wants       `analyse` or `fmea`
    seconds     of how much processor time, and
    megabytes   of how much memory a run has at most; `-` is what the campaign has for all

Names of files are those seen from the folder of the table. The key of a case is made of the bytes of its files and of its row, and is the
name of the folder that its answer goes to: so other bytes are another answer, and a file that was only touched is the same one.
"""
import hashlib
import json
import os
import re

COLUMNS = ("name", "model", "faults", "top", "size", "depth", "wants", "seconds", "megabytes")
NUMBER = re.compile(r"0|[1-9][0-9]{0,9}")
PAGE = "campaign.html"
LIMITS = {"seconds": 600, "megabytes": 4000}


class Wrong(Exception):
    """Why a table can't be taken, in a sentence."""


def read_cases(path, limits=LIMITS):
    """Returns the rows of a table by the names of the cases, in its order, or tells what is wrong with the first line that is."""
    try:
        with open(path, encoding="utf-8") as it:
            lines = it.read().split("\n")
    except (OSError, UnicodeDecodeError) as why:
        raise Wrong(f"the table {path} can't be read: {why}") from None
    found = {}
    for number, line in enumerate(lines, 1):
        if not line.strip() or line.startswith("#"):
            continue
        cells = [it.strip() for it in line.split("\t")]
        if cells == list(COLUMNS):
            continue
        wrong = wrong_with(cells, found)
        if wrong:
            raise Wrong(f"{path}:{number}: {wrong}")
        found[cells[0]] = row_of(cells, limits)
    if not found:
        raise Wrong(f"{path}: the table has no case")
    return found


def wrong_with(cells, found):
    """Returns what is wrong with the cells of a line, or None."""
    if len(cells) != len(COLUMNS):
        return f"{len(cells)} columns with tabs between, and not {len(COLUMNS)}: {' '.join(COLUMNS)}"
    row = dict(zip(COLUMNS, cells))
    if not re.fullmatch(r"[A-Za-z0-9][\w.-]*", row["name"], re.A) or row["name"] == "last":
        return f"{row['name']!r} is no name for a case"
    if row["name"] in found:
        return f"an earlier case is named {row['name']}"
    if row["wants"] not in ("analyse", "fmea"):
        return f"{row['wants']!r} is wanted, and not analyse or fmea"
    empty = next((it for it in ("model", "faults", "top") if row[it] in ("", "-", "@")), None)
    if empty:
        return f"the case has no {empty}"
    if row["wants"] == "fmea" and (row["size"] not in ("0", "1", "2") or not row["top"].startswith("@")):
        return "fmea wants a size of 0 to 2, and @FILE as its top events"
    for it in ("size", "depth", "seconds", "megabytes"):
        if not NUMBER.fullmatch(row[it]) and (row[it] != "-" or it == "depth"):
            return f"{row[it]!r} is no {it}"
    return None


def row_of(cells, limits):
    """Returns a row by its columns, with the limits of all where it has none of its own."""
    row = dict(zip(COLUMNS, cells))
    return {**row, **{it: int(most if row[it] == "-" else row[it]) for it, most in limits.items()}}


def files_of(row):
    """Returns the files of a case, by what each is."""
    files = {"model": row["model"], "faults": row["faults"]}
    return {**files, "top": row["top"][1:]} if row["top"].startswith("@") else files


def bytes_of(row):
    """Returns what the files of a case hold, with None for one that is missing or can't be read."""
    found = {}
    for what, path in files_of(row).items():
        try:
            with open(path, "rb") as it:
                found[what] = it.read()
        except OSError:
            found[what] = None
    return found


def key_of(row, data):
    """Returns the key of a case whose files hold these bytes."""
    sums = {what: None if text is None else hashlib.sha256(text).hexdigest() for what, text in data.items()}
    asked = {it: row[it] for it in ("size", "depth", "wants", "seconds", "megabytes")}
    asked["top"] = None if "top" in sums else row["top"]
    return hashlib.sha256(json.dumps([sums, asked], sort_keys=True).encode()).hexdigest()[:16]


def there(row):
    """Returns the files of a case that are there."""
    return [it for it in files_of(row).values() if os.path.isfile(it)]
