#!/usr/bin/env python3
"""Makes the page of a campaign, one file of HTML, from the records and reports of its cases.

  page.py PAGE      with the options of answer.py

The tables are: the cases by endings; what was asked and how long it took; the minimal cut sets by names; the tables of fmea; and what changed
against the last campaign, as `xsap diff` tells it. The reports of this campaign are then kept in results/last for the next one, and what
results/ has of other keys and of cases that are gone is removed. The page links to nothing outside the campaign's folder.
"""
import argparse
import html
import json
import os
import re
import shutil
import subprocess
import sys
import time

sys.dont_write_bytecode = True
from cases import bytes_of, files_of, key_of, read_cases

ENDINGS = {"complete": "complete", "bounded": "bounded", "refused": "refused", "memory": "out of memory", "time": "out of time",
           "missing": "files missing", "failed": "failed"}
LAST = "results/last"


def text(it):
    return html.escape(str(it))


def code(it):
    return f"<code>{text(it)}</code>"


def read(path):
    with open(path, encoding="utf-8", errors="replace") as it:
        return it.read()


def said_by(xsap, *words):
    """Returns the status of a run of xsap, and what it printed."""
    done = subprocess.run([xsap, *words], stdin=subprocess.DEVNULL, stdout=subprocess.PIPE)
    return done.returncode, done.stdout.decode(errors="replace")


class Case:
    """A case with its answer: its row, its folder, its records, its report, and of an analysis the sets by the names of their faults."""

    def __init__(self, row):
        self.row, self.name = row, row["name"]
        self.folder = f"results/{self.name}/{key_of(row, bytes_of(row))}"
        self.record = json.loads(read(f"{self.folder}/run.json"))
        self.ending, self.sentence = self.record["ending"], self.record["sentence"]
        self.has_report = self.ending in ("complete", "bounded")
        self.is_table = row["wants"] == "fmea"
        self.check = None if self.is_table else json.loads(read(f"{self.folder}/check.json"))
        self.sets = None
        if self.has_report and not self.is_table:
            names = dict(re.findall(r"^fault (\d+) (.*)$", self.report(), re.M))
            self.sets = [[names[it] for it in line.split()] for line in re.findall(r"^set((?: \d+)*)$", self.report(), re.M)]

    def report(self):
        return read(f"{self.folder}/report")

    def seconds(self, record):
        return f"{record['seconds']['processor']:.2f}" if record and record["seconds"] else ""


def table(caption, note, heads, rows, kind=""):
    """Returns a table with a caption. A cell is a text of HTML, or one with its class; the first of a row is its head."""
    if not rows:
        return ""
    numbers = [it.startswith("#") for it in heads]
    heads = [it.lstrip("#") for it in heads]
    lines = [f'<table class="{kind}"><caption>{text(caption)}<span>{text(note)}</span></caption>', "<thead><tr>"]
    lines += [f'<th scope="col"{" class=number" if number else ""}>{text(head)}</th>' for head, number in zip(heads, numbers)]
    lines.append("</tr></thead><tbody>")
    for row in rows:
        cells = [f'<tr><th scope="row">{row[0]}</th>']
        for cell, head, number in zip(row[1:], heads[1:], numbers[1:]):
            cell, own = cell if isinstance(cell, tuple) else (cell, "")
            own = f"{own} number".strip() if number else own
            cells.append(f'<td data-label="{text(head)}"{f" class={chr(34)}{own}{chr(34)}" if own else ""}>{cell}</td>')
        lines.append("".join(cells) + "</tr>")
    return "\n".join([*lines, "</tbody></table>\n"])


def matrix(cases):
    """Returns the table of the cases by endings. What a case that did not end well tells stands under its ending."""
    heads = {key: it for key, it in ENDINGS.items() if key != "failed" or any(case.ending == "failed" for case in cases)}
    rows = []
    for case in cases:
        cells = {key: "" for key in heads}
        if case.ending in ("refused", "missing", "failed"):
            mark, rest = heads[case.ending], case.sentence.removeprefix("refused ")
        else:
            mark, _, rest = case.sentence.partition(": ")
        words = f'<span class="mark">{text(mark)}</span>' + (f": {text(rest)}" if rest else "")
        cells[case.ending] = (words, case.ending)
        rows.append([text(case.name), *cells.values()])
    return table("Cases by endings", "Bounded answers are for traces of at most so many steps; complete ones for all.",
                 ["case", *heads.values()], rows, "matrix")


def asked_of(cases):
    """Returns the table of what was asked, how its certificate was judged, how long it took, and where the report is."""
    rows = []
    for case in cases:
        row, links = case.row, f'<a href="{text(case.folder)}/report">report</a>'
        judged = ""
        if case.check and case.check["accepted"] is not None:
            links += f' <a href="{text(case.folder)}/cuts.cert">certificate</a>'
            judged = (text(case.check["sentence"]), "complete" if case.check["accepted"] else "refused")
        size = "all" if row["size"] == "-" else row["size"]
        files = f'{code(row["model"])}<br>{code(row["faults"])}'
        rows.append([text(case.name), text(row["wants"]), files, code(row["top"]), size, row["depth"], judged,
                     case.seconds(case.record), case.seconds(case.check), links])
    return table("What was asked, and how long it took", "Seconds are those of the processor. Each certificate was judged by a second process.",
                 ["case", "verb", "files", "top event", "#size", "#depth", "certificate", "#seconds", "#check's seconds", "links"], rows)


def listed(sets, kind=""):
    """Returns sets of names as a list."""
    items = "".join(f'<li class="{kind}">{code(" ".join(it)) if it else "no fault"}</li>' for it in sets)
    return f'<ul class="sets{" many" if len(sets) > 8 else ""}">{items}</ul>'


def sets_of(cases):
    """Returns the table of the minimal cut sets, by the names of their faults."""
    rows = []
    for case in cases:
        if case.sets is not None:
            size = f", for sets of at most {case.row['size']}" if case.row["size"] != "-" else ""
            held = listed(case.sets[:60]) if case.sets else "none"
            held += f"<p class=about>and {len(case.sets) - 60} more, in the report</p>" if len(case.sets) > 60 else ""
            rows.append([text(case.name), (text(case.sentence + size), ""), str(len(case.sets)), held])
    return table("Minimal cut sets", "Of a bounded answer sets may be missing, and a listed one need not be minimal.",
                 ["case", "answer", "#sets", "minimal cut sets"], rows, "listing")


def effects_of(cases):
    """Returns the table of failure modes and effects: for each top event of a case the least rows that suffice for it."""
    rows = []
    for case in cases:
        if not case.is_table or not case.has_report:
            continue
        report = case.report()
        names = dict(re.findall(r"^fault (\d+) (.*)$", report, re.M))
        entries = [(it[0].split(), it[1].split()) for it in re.findall(r"^row([ \d]*): (.*)$", report, re.M)]
        events = [it.strip() for it in re.sub(r"--[^\n]*", "", read(files_of(case.row)["top"])).split(";") if it.strip()]
        for at, ending in enumerate(re.findall(r"^top \d+ (.*)$", report, re.M)):
            least = []
            for numbers, said in entries:
                if said[at] == "yes" and not any(set(it) <= set(numbers) for it in least):
                    least.append(numbers)
            open_rows = sum(said[at] == "unknown" for _, said in entries)
            held = listed([[names[it] for it in numbers] for numbers in least]) if least else "none"
            held += f"<p class=about>{open_rows} rows are open</p>" if open_rows else ""
            rows.append([text(case.name), code(events[at] if at < len(events) else at + 1), text(ending), case.row["size"], held])
    return table("Failure modes and effects", "For each top event the least rows of the table that suffice for it.",
                 ["case", "top event", "answer", "#size", "rows that suffice"], rows, "listing")


def change_of(case, xsap):
    """Returns what changed in a case against the last campaign, as HTML."""
    kept = f"{LAST}/{case.name}"
    if not os.path.isfile(f"{kept}.json"):
        return "new case"
    old = json.loads(read(f"{kept}.json"))
    ended = "" if old["sentence"] == case.sentence else f"<p>{text(old['sentence'])} before, {text(case.sentence)} now</p>"
    if read(f"{kept}.report") == case.report():
        return ended or "nothing"
    if case.is_table or not case.has_report or old["ending"] not in ("complete", "bounded"):
        return ended or "<p>the table has other rows</p>"
    status, said = said_by(xsap, "diff", f"{kept}.report", f"{case.folder}/report")
    if status not in (0, 1):
        return ended + f"<p>{text(said)}</p>"
    for sign, words in (("-", "gone"), ("+", "come")):
        found = [it.split() for mark, it in re.findall(r"^([-+=]) (.*)$", said, re.M) if mark == sign]
        ended += f'<p class="{words}">{words} {len(found)}</p>{listed(found, words)}' if found else ""
    return ended or "nothing"


def changes(cases, xsap):
    """Returns the table of what changed, and a line for the cases that are gone."""
    if not os.path.isdir(LAST):
        return "<p class=about>This is the first campaign here: there is nothing to compare it with.</p>\n"
    found = [(case, change_of(case, xsap)) for case in cases]
    rows = [[text(case.name), it] for case, it in found if it != "nothing"]
    same = sum(it == "nothing" for _, it in found)
    gone = sorted({it.removesuffix(".json") for it in os.listdir(LAST) if it.endswith(".json")} - {case.name for case in cases})
    rows += [[text(name), "the case is no longer in the table"] for name in gone]
    if not rows:
        return f"<p class=about>Against the last campaign nothing changed: {same} cases have the same answer.</p>\n"
    return table("What changed against the last campaign", f"By names of faults, as xsap diff tells it; {same} cases have the same answer.",
                 ["case", "change"], rows, "listing")


def page_of(cases, xsap):
    """Returns the whole page."""
    counts = {key: sum(case.ending == key for case in cases) for key in ENDINGS}
    judged = [case.check["accepted"] for case in cases if case.check and case.check["accepted"] is not None]
    chips = "".join(f'<li class="{key}"><b>{count}</b>{ENDINGS[key]}</li>' for key, count in counts.items() if count)
    version = " · ".join(said_by(xsap, "--version")[1].strip().split("\n")[:3])
    style = read(os.path.join(os.path.dirname(os.path.realpath(__file__)), "page.css"))
    return (
        f'<!DOCTYPE html>\n<html lang="en"><head><meta charset="utf-8"><meta name="viewport" content="width=device-width, initial-scale=1">\n'
        f"<title>Campaign</title>\n<style>\n{style}</style></head><body>\n<h1>Campaign of {len(cases)} cases</h1>\n"
        f'<p class="about">{time.strftime("%Y-%m-%d %H:%M UTC", time.gmtime())} · {text(version)}</p>\n'
        f'<ul class="counts">{chips}</ul>\n<p>{sum(judged)} of {len(judged)} certificates were accepted by a second process.</p>\n'
        f"{matrix(cases)}{changes(cases, xsap)}{sets_of(cases)}{effects_of(cases)}{asked_of(cases)}</body></html>\n"
    )


def keep(cases):
    """Keeps the answers for the next campaign to compare with, and removes what is of other keys and of cases that are gone."""
    shutil.rmtree(LAST, ignore_errors=True)
    os.makedirs(LAST)
    for case in cases:
        shutil.copy(f"{case.folder}/run.json", f"{LAST}/{case.name}.json")
        shutil.copy(f"{case.folder}/report", f"{LAST}/{case.name}.report")
    now = {case.name: os.path.basename(case.folder) for case in cases}
    for name in sorted(os.listdir("results")):
        if name != "last" and name not in now:
            shutil.rmtree(f"results/{name}", ignore_errors=True)
        for key in os.listdir(f"results/{name}") if name in now else []:
            if key != now[name]:
                shutil.rmtree(f"results/{name}/{key}", ignore_errors=True)


def main():
    words = argparse.ArgumentParser(description=__doc__, formatter_class=argparse.RawDescriptionHelpFormatter)
    words.add_argument("page")
    words.add_argument("--cases", default="cases.tsv")
    words.add_argument("--xsap", required=True)
    words.add_argument("--seconds", type=int, default=600)
    words.add_argument("--megabytes", type=int, default=4000)
    asked = words.parse_args()
    rows = read_cases(asked.cases, {"seconds": asked.seconds, "megabytes": asked.megabytes})
    cases = [Case(row) for row in rows.values()]
    data = page_of(cases, asked.xsap)
    with open(asked.page, "w", encoding="utf-8") as it:
        it.write(data)
    keep(cases)
    return 0


if __name__ == "__main__":
    sys.exit(main())
