"""Takes the sets of an accepted certificate in place of a search, for `show --cert` and `odds --cert`; and knows certificates by their kinds.

The certificate is read once, and a copy of what was read is given to `check`. Where that accepts it, its sets are exactly the minimal cut sets
of at most as many faults as its size, and a report is made of them as `analyse` prints one. The bounds of `odds --cert` are computed here, by
the rule of `odds`: a product of marks in units of 10^-18, rounded up at each step.
"""
import re
import tempfile

from running import answering, explaining, kept, outputs, programs, short, smv, tables, telling
from running.answering import Refused
from running.short import Wrong

UNITS = 10**18


class Certificate:
    """An accepted certificate: its sets, their traces, and its size; and the names of the faults."""

    def __init__(self, text, size, names):
        self.sets, self.traces, self.size, self.names = [], [], size, names
        lines, at = text.split("\n"), 3
        while lines[at].partition(" ")[0] == "set":
            count = int(lines[at + 1].split()[1])
            self.sets.append([int(it) for it in lines[at].split()[1:]])
            self.traces.append(lines[at + 2:at + 2 + count])
            at += 2 + count

    def head(self):
        """Returns the lines of a report on the faults and the sets."""
        found = [f"faults {len(self.names)}", *(f"fault {at} {it}" for at, it in enumerate(self.names, 1)), f"sets {len(self.sets)}"]
        return [*found, *(" ".join(map(str, ["set", *it])) for it in self.sets)]

    def ending(self):
        """Returns the last lines of a report: it is complete, for sets of at most so many faults where that is not all."""
        return ["complete", *([f"size {self.size}"] if self.size is not None else [])]


def accepted(path, asked, cert):
    """Returns the certificate of a file, where the program accepts it."""
    values = {it: asked.values[it] for it in ("--model", "--faults", "--causes", "--top") if it in asked.values}
    try:
        data = kept.read(cert)
    except FileNotFoundError:
        data = None
    except OSError as error:
        raise Wrong(f"{short.shown(cert)} can't be read: {error.strerror}", 7) from None
    with tempfile.TemporaryDirectory(prefix="xsap-cert-") as folder:
        copy = f"{folder}/cert"
        if data is not None:
            kept.write(copy, data)
        verb = "check-causes" if "--causes" in values else "check"
        words = [verb, *(it for pair in values.items() for it in pair), "--cert"]
        status, said = answering.captured(path, [*words, copy], asked)
    said = said.decode()
    if status in explaining.REFUSED:
        raise Refused(said.partition("\n")[0], [*words, cert], status)
    if status:
        raise Wrong(f"the certificate can't be judged: {explaining.SILENT.get(status, f'status {status}')}", status)
    size = re.search(r"^size (\d+)$", said, re.M)
    return Certificate(data.decode(), size and int(size[1]), names_of(path, asked))


def names_of(path, asked):
    """Returns the names of the faults, and behind them those of the causes."""
    return [*answering.faults_of(path, asked), *causes_of(asked)]


def causes_of(asked):
    """Returns the names of the common causes that are asked about."""
    if "--causes" not in asked.values:
        return []
    tokens = smv.tokens_of(telling.text_of(asked.values["--causes"]))
    return [it.tokens[1].text for it in smv.parts_of(tokens, "causes") if len(it.tokens) > 1]


def has_first_moment(path, asked):
    """Returns whether the extension has a trace at all, by an analysis of the event FALSE."""
    with tempfile.TemporaryDirectory(prefix="xsap-first-") as folder:
        words = ["analyse", "--model", asked.values["--model"], "--faults", asked.values["--faults"], "--top", "FALSE", "--depth", "1000000000",
                 "--extended", f"{folder}/x.smv", "--cert", f"{folder}/cert"]
        status, said = answering.captured(path, words, asked)
    if status not in (0, 1):
        raise Wrong(f"the first moment can't be looked at: {explaining.SILENT.get(status, f'status {status}')}", status)
    return b"\nno first moment\n" not in said


def report_of(path, asked, it):
    """Returns the report of an analysis that has found what a certificate has."""
    lines = it.head()
    for at, trace in enumerate(it.traces, 1):
        lines += [f"trace {at}", *trace]
    if not it.sets and not has_first_moment(path, asked):
        lines.append("no first moment")
    return "".join(f"{line}\n" for line in [*lines, *it.ending()]).encode()


def show(asked):
    """Shows an accepted certificate, and returns the status."""
    path, program = programs.find(kept.PROGRAMS[0]), programs.find(answering.SHOW)
    outputs.judge(asked)
    report = report_of(path, asked, accepted(path, asked, asked.values["--cert"]))
    return answering.put(asked.own.get("--output"), answering.in_form(path, program, asked, report), 0)


def odds(path, asked):
    """Prints the bounds of the sets of an accepted certificate, and returns the status."""
    it = accepted(path, asked, asked.own["--cert"])
    units = marks(path, asked, it.names)
    bounds = [bound([units[number - 1] for number in one]) for one in it.sets]
    lines = [*it.head(), *(f"odds {at} {decimal(one)}" for at, one in enumerate(bounds, 1)),
             f"sum {decimal(sum(bounds))} within {sum(max(len(one) - 1, 0) for one in it.sets)}", *it.ending()]
    report = "".join(f"{line}\n" for line in lines)
    text = report if answering.form_of(asked) == "exact" else tables.odds_table(report)
    return answering.put(asked.own.get("--output"), text.encode(), 0)


def marks(path, asked, names):
    """Returns the marks of the faults in units, after the program has looked at all of them."""
    words = ["odds", *(it for option in ("--model", "--faults", "--top") for it in (option, asked.values[option])), "--depth", "0"]
    status, said = answering.captured(path, words, asked)
    if status in explaining.REFUSED:
        raise Refused(said.partition(b"\n")[0].decode(errors="replace"), words, status)
    if status not in (0, 1):
        raise Wrong(f"the marks can't be looked at: {explaining.SILENT.get(status, f'status {status}')}", status)
    items = smv.items_of_faults(smv.tokens_of(telling.text_of(asked.values["--faults"])))
    found = {f"{it.inside.name}.{it.name}": units_of(it) for it in items if it.kind == "MODE"}
    return [found[".".join(it.split(".")[-2:])] for it in names]


def units_of(item):
    """Returns the units of the mark of a mode, which the program takes for a probability."""
    texts = [it.text for it in item.tokens]
    whole, _, part = "".join(texts[3:texts.index("}")]).partition(".")
    return int(whole) * UNITS + int(part.ljust(18, "0") or "0")


def bound(units):
    """Returns the product of marks, rounded up at each step."""
    found = units[0] if units else UNITS
    for it in units[1:]:
        found = -(-found * it // UNITS)
    return found


def decimal(units):
    return f"{units // UNITS}.{units % UNITS:018}"


def kind_of(data):
    """Returns the verb that has written a certificate, where its text shows it."""
    lines = data.split(b"\n", 3)
    if re.search(rb"(?m)^own#1 = ", data):
        return "causes"
    if lines[1:3] and re.fullmatch(rb"bits \d+ faults 0 size 0", lines[1]):
        return "orders"
    return "analyse" if re.search(rb"(?m)^trace \d+$", data) else None


def note_of(verb, line, cert):
    """Returns what is to be told where a certificate is refused since it is of another verb, or None."""
    judge = {"analyse": "check", "causes": "check-causes", "orders": "check-orders"}
    try:
        kind = kind_of(kept.read(cert)) if verb in judge.values() and line.startswith("not accepted line") else None
    except OSError:
        return None
    if kind is None or judge[kind] == verb or (kind == "orders" and line != "not accepted line 2 rule 1"):
        return None
    what = "it has no fault, as one of" if kind == "orders" else "this is a certificate of"
    return f"{what} {kind}, which {judge[kind]} judges"
