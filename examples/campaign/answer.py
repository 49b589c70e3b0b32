#!/usr/bin/env python3
"""Answers one case of a campaign, or checks the certificate of an answer: one run of xsap in a process of its own.

  answer.py run NAME KEY REPORT CERT RECORD     runs `analyse` or `fmea`; RECORD, a JSON object, has how the run ended and what it took
  answer.py check NAME KEY CERT RECORD          runs `check` of a certificate; an empty CERT is none

with --cases TABLE, --xsap COMMAND, --seconds N and --megabytes N, the limits of cases without their own. The files of the case are read
once, and copied into a temporary folder where xsap reads them; where their key is no longer KEY nothing is written. A run that is refused,
bounded, out of time or out of memory, or whose files are missing, is an answer like any other: the status is 0. It is 1, with a sentence,
where the case can't be answered at all.
"""
import argparse
import json
import os
import re
import resource
import shutil
import subprocess
import sys
import tempfile
import time

sys.dont_write_bytecode = True
from cases import PAGE, Wrong, bytes_of, files_of, key_of, read_cases

NO_PROGRAM, OUT_OF_MEMORY = 70, 8
REFUSED = (2, 3, 4, 5, 6, 9, 10)
# The signals of a process that is out of its processor time, and of one that the system kills, which it mostly does for want of memory.
OUT_OF_TIME, KILLED = -24, -9
MEGABYTE = 1 << 20
# (a top event with more bytes is refused, and the system takes no word that is far longer)
LONGEST_TOP = 65536


def limited(row):
    """Returns what sets the limits of a case in the process that is to run it: processor seconds, and megabytes of its own memory."""
    def limit():
        resource.setrlimit(resource.RLIMIT_CPU, (row["seconds"], row["seconds"] + 5))
        resource.setrlimit(resource.RLIMIT_DATA, (row["megabytes"] * MEGABYTE,) * 2)
        resource.setrlimit(resource.RLIMIT_CORE, (0, 0))
    return limit


def make_ready(xsap):
    """Has xsap unpack its program where it has not yet, outside the limits of a case, or says why there is none."""
    try:
        done = subprocess.run([*xsap, "--exact"], stdin=subprocess.DEVNULL, stdout=subprocess.DEVNULL, stderr=subprocess.PIPE)
    except OSError as why:
        raise Wrong(f"{xsap[0]} can't be run: {why}") from None
    if done.returncode == NO_PROGRAM:
        raise Wrong(done.stderr.decode(errors="replace").strip())


def run(xsap, words, folder, row):
    """Runs xsap in a folder, and returns its status, its output, what it told on standard error, and the seconds that it took."""
    make_ready(xsap)
    before, begun = resource.getrusage(resource.RUSAGE_CHILDREN), time.monotonic()
    try:
        done = subprocess.run([*xsap, "--explain", *words], cwd=folder, stdin=subprocess.DEVNULL, stdout=subprocess.PIPE,
                              stderr=subprocess.PIPE, preexec_fn=limited(row))
    except (OSError, ValueError) as why:
        raise Wrong(f"{xsap[0]} can't be run: {why}") from None
    told = done.stderr.decode(errors="replace")
    if done.returncode == NO_PROGRAM:
        raise Wrong(told.strip())
    after = resource.getrusage(resource.RUSAGE_CHILDREN)
    used = after.ru_utime + after.ru_stime - before.ru_utime - before.ru_stime
    return done.returncode, done.stdout, told, {"processor": round(used, 2), "wall": round(time.monotonic() - begun, 2)}


def ending_of(status, said, told, row):
    """Returns how a run ended: a word, and a sentence."""
    line = said.decode(errors="replace").split("\n")[0]
    steps = re.search(rb"^(?:top \d+ )?bounded (\d+)", said, re.M)
    if status == 0 or (status == 1 and steps):
        return ("bounded", f"bounded {steps[1].decode()}") if status else ("complete", "complete")
    if status in REFUSED:
        place = re.match(r"xsap: (.*)", told)
        means = re.search(r"^means: (.*)", told, re.M)
        return "refused", f"{line}: {means[1] if means else told.strip()}{f' ({place[1]})' if place else ''}"
    if status == OUT_OF_TIME:
        return "time", f"out of time: more than {row['seconds']} processor seconds"
    if status == OUT_OF_MEMORY:
        return "memory", f"out of memory: more than {row['megabytes']} megabytes"
    if status == KILLED:
        return "memory", "killed by the system, which mostly does so for want of memory"
    return "failed", f"status {status}: {told.strip() or line}"


def words_of(row, data):
    """Returns the words of a case's run, over the files of its temporary folder."""
    words = [row["wants"], "--model", "model.smv", "--faults", "faults.fei", "--depth", row["depth"]]
    if row["wants"] == "fmea":
        return [*words, "--tops", "tops", "--size", row["size"]]
    words += ["--top", top_of(row, data), "--extended", "extended.smv", "--cert", "cuts.cert"]
    return words if row["size"] == "-" else [*words, "--size", row["size"]]


def top_of(row, data):
    """Returns the top event of an analysis: the word of the row, or what its file has."""
    return os.fsdecode(data["top"].strip()[:LONGEST_TOP + 1]) if "top" in data else row["top"]


def lay_out(folder, data):
    """Writes the files of a case into a folder, under names of their own."""
    for what, name in (("model", "model.smv"), ("faults", "faults.fei"), ("top", "tops")):
        if what in data:
            with open(f"{folder}/{name}", "wb") as it:
                it.write(data[what])


def taken(asked):
    """Returns the row of the asked case and the bytes of its files, or says that they are no longer those of its key."""
    rows = read_cases(asked.cases, {"seconds": asked.seconds, "megabytes": asked.megabytes})
    if asked.name not in rows:
        raise Wrong(f"{asked.cases} has no case {asked.name}")
    row = rows[asked.name]
    data = bytes_of(row)
    if key_of(row, data) != asked.key:
        raise Wrong(f"the files of {asked.name} have changed since the campaign began: start it once more")
    return row, data


def answered(row, data, asked):
    """Runs a case, and returns its record, its report and its certificate."""
    missing = [path for what, path in files_of(row).items() if data[what] is None]
    if missing:
        sentence = f"there is no file {' and no file '.join(missing)}, or it can't be read"
        return {"ending": "missing", "sentence": sentence, "seconds": None}, sentence.encode() + b"\n", b""
    if row["wants"] == "analyse" and "\0" in top_of(row, data):
        sentence = f"the file {files_of(row)['top']} has a byte 0, and no word has one"
        return {"ending": "failed", "sentence": sentence, "seconds": None}, sentence.encode() + b"\n", b""
    with tempfile.TemporaryDirectory(prefix="case-") as folder:
        lay_out(folder, data)
        status, said, told, seconds = run(asked.xsap, words_of(row, data), folder, row)
        ending, sentence = ending_of(status, said, told, row)
        cert = b""
        if ending == "complete" and row["wants"] == "analyse":
            with open(f"{folder}/cuts.cert", "rb") as it:
                cert = it.read()
    report = said if ending in ("complete", "bounded") else f"{sentence}\n".encode()
    return {"ending": ending, "sentence": sentence, "seconds": seconds}, report, cert


def checked(row, data, asked):
    """Checks a certificate, and returns the record of that."""
    if not os.path.getsize(asked.files[0]):
        return {"accepted": None, "sentence": "no certificate", "seconds": None}
    with tempfile.TemporaryDirectory(prefix="case-") as folder:
        lay_out(folder, data)
        shutil.copy(asked.files[0], f"{folder}/cuts.cert")
        words = ["check", "--model", "model.smv", "--faults", "faults.fei", "--top", top_of(row, data), "--cert", "cuts.cert"]
        status, said, told, seconds = run(asked.xsap, words, folder, row)
    sentence = " ".join(said.decode().split()) if not status else ending_of(status, said, told, row)[1]
    return {"accepted": not status, "sentence": sentence, "seconds": seconds}


def put(path, data):
    with open(path, "wb") as it:
        it.write(data)


def remove_older(asked):
    """Removes the answers that a case had with other files or another row, and the page, which stands for a whole campaign alone."""
    if os.path.exists(PAGE):
        os.remove(PAGE)
    own = os.path.dirname(os.path.abspath(asked.files[-1]))
    beside = os.path.dirname(own)
    for it in os.listdir(beside) if os.path.basename(own) == asked.key else []:
        if it != asked.key:
            shutil.rmtree(f"{beside}/{it}", ignore_errors=True)


def main():
    words = argparse.ArgumentParser(description=__doc__, formatter_class=argparse.RawDescriptionHelpFormatter)
    words.add_argument("does", choices=("run", "check"))
    words.add_argument("name")
    words.add_argument("key")
    words.add_argument("files", nargs="+")
    words.add_argument("--cases", default="cases.tsv")
    words.add_argument("--xsap", required=True, type=lambda it: [os.path.abspath(it) if "/" in it else it])
    words.add_argument("--seconds", type=int, default=600)
    words.add_argument("--megabytes", type=int, default=4000)
    asked = words.parse_args()
    if len(asked.files) != {"run": 3, "check": 2}[asked.does]:
        words.error("run has three files, and check two")
    try:
        row, data = taken(asked)
        if asked.does == "check":
            record = checked(row, data, asked)
        else:
            remove_older(asked)
            record, report, cert = answered(row, data, asked)
            put(asked.files[0], report)
            put(asked.files[1], cert)
        put(asked.files[-1], json.dumps(record, indent=1).encode() + b"\n")
    except Wrong as why:
        print(f"{asked.name}: {why}", file=sys.stderr)
        return 1
    return 0


if __name__ == "__main__":
    sys.exit(main())
