"""The answers of odds, fmea and orders as tables with the names of faults, where the short form is used; others stay as they are printed."""
import re

from running.verbs import SHOWN

ENDED = {"complete": "complete: no other minimal set exists, in traces of any length",
         "bounded": "bounded: only traces of at most {} steps were searched"}


def by_program():
    """Returns the verbs whose reports a program shows."""
    return SHOWN


def of(verb, report, names):
    """Returns the bytes of a report in plain tables. `names` returns the names of all faults, where the report doesn't have them."""
    text = report.decode()
    if verb == "odds":
        return odds_table(text).encode()
    if verb == "fmea":
        return fmea_table(text).encode()
    if verb == "orders":
        return order(text, names()).encode()
    return report


def aligned(rows):
    """Returns rows as lines, each column as wide as its widest cell."""
    widths = [max(len(row[at]) for row in rows) for at in range(len(rows[0]))]
    return "".join("  ".join(cell.ljust(width) for cell, width in zip(row, widths)).rstrip() + "\n" for row in rows)


def names_of(text):
    """Returns the names of the faults of a report by their numbers."""
    return dict(re.findall(r"^fault (\d+) (\S+)$", text, re.M))


def named(numbers, names):
    return " ".join(names[it] for it in numbers.split()) or "no fault"


def ending(line):
    """Returns the line on how a search ended in plain words."""
    words = line.split()
    return ENDED[words[0]].format(*words[1:2])


def odds_table(text):
    """Returns the sets of odds with their bounds and the names of their faults."""
    names = names_of(text)
    sets = re.findall(r"^set((?: \d+)*)$", text, re.M)
    bounds = re.findall(r"^odds \d+ (\S+)$", text, re.M)
    rows = [("set", "size", "at most", "faults")]
    rows += [(str(at), str(len(it.split())), bound, named(it, names)) for at, (it, bound) in enumerate(zip(sets, bounds), 1)]
    total, within = re.search(r"^sum (\S+) within (\d+)$", text, re.M).groups()
    units = f"{int(within) // 10**18}.{int(within) % 10**18:018}"
    last, _, size = re.search(r"^(complete|bounded .*)(\nsize (\d+))?$", text, re.M).groups()
    how = ending(last) if size is None else ending(last).replace("minimal set", f"minimal set of at most {size} fault{'' if size == '1' else 's'}")
    return f"{aligned(rows)}\nsum at most {total}, and above the exact sum by at most {units}\n\n{how}\n"


def fmea_table(text):
    """Returns the table of fmea with the names of the faults, and how each column ended."""
    names = names_of(text)
    tops = re.findall(r"^top (\d+) (.*)$", text, re.M)
    rows = [("faults", *(f"event {it}" for it, _ in tops))]
    rows += [(named(numbers, names), *entries.split()) for numbers, entries in re.findall(r"^row ([\d ]*): (.*)$", text, re.M)]
    return aligned(rows) + "\n" + "".join(f"event {number}: {ending(how)}\n" for number, how in tops)


SAID = {"before": "{0} always comes before {1}", "after": "{0} always comes after {1}", "together": "{0} and {1} always come together",
        "either": "the order of {0} and {1} is not always the same: two traces follow in which it differs",
        "none": "no trace reaches the event with exactly these faults"}


def order(text, names):
    """Returns an order in a sentence, and the traces that show it."""
    first, _, traces = text.partition("\n")
    one, other, said, steps = re.fullmatch(r"pair (\d+) (\d+) (\w+)(?: to (\d+) bits \d+)?", first).groups()
    sentence = SAID[said].format(names[int(one) - 1], names[int(other) - 1])
    how = f"bounded: only traces of at most {steps} steps were searched" if steps else "complete: in traces of any length"
    return f"{sentence}\n{how}\n{traces}"
