"""Runs an analysis for sizes in turn: sets of at most 1 fault, then of at most 2, and so on up to all, each layer with a certificate.

Each layer is one run of the program with the words of `analyse`, its own `--size` and its own name for the certificate: of `cuts.cert` it is
`cuts.1.cert`, `cuts.2.cert` and so on; the last layer, without `--size`, has `cuts.cert` itself. A line on standard error tells of each
layer that ended. The report of the last complete layer goes to standard output, at the end. The layers end where all faults are in, where a
layer is not complete, or with the seconds that were given; a layer that is broken off leaves nothing that it wrote.
"""
import os
import re
import signal
import subprocess
import tempfile
import time

from running import explaining, programs, watching
from running.outputs import state_of

REFUSED, NONE_ENDED = 2, 124
ENDED = {8: "out of memory", 7: "a file failed"}


class Broken(Exception):
    """A signal that ends the layers, by its number."""


class Layer:
    """A layer that ended: its size, or None for all faults, its status, its report, its certificate and its seconds."""

    def __init__(self, size, status, report, cert, seconds):
        self.size, self.status, self.report, self.cert, self.seconds = size, status, report, cert, seconds

    def told(self):
        """Returns the line that tells of the layer."""
        what = "all sets" if self.size is None else f"all sets of at most {self.size} fault{'' if self.size == 1 else 's'}"
        took = f"{self.seconds:.1f} s"
        if self.status not in (0, 1):
            return f"{what}: not known, {ENDED.get(self.status, f'status {self.status}')} ({took})"
        sets = re.search(rb"^sets (\d+)$", self.report, re.M)[1].decode()
        steps = re.search(rb"^bounded (\d+)", self.report, re.M)
        if self.status:
            return f"{what}: not complete, bounded {steps[1].decode()}: {sets} ({took})"
        return f"{what}: {sets}, complete, with the certificate {explaining.printable(self.cert)} ({took})"


def parted(words):
    """Returns the words of analyse without those of the layers, and the seconds, or None; or a sentence on what is wrong."""
    left, seconds = [], None
    for at in range(0, len(words), 2):
        pair = words[at:at + 2]
        if pair[0] == "--size":
            return "--layers sets the sizes, so --size is not for it"
        if pair[0] != "--seconds":
            left += pair
        elif seconds is not None or len(pair) < 2 or not re.fullmatch("[1-9][0-9]{0,8}", pair[1]):
            return "--seconds wants a number from 1 to 999999999, once"
        else:
            seconds = int(pair[1])
    return left, seconds


def changed(words, **values):
    """Returns words with other values of these options."""
    return [values.get(words[at - 1][2:], it) if at % 2 else it for at, it in enumerate(words)]


def faults_of(path, given):
    """Returns how many faults the extension of a case has, or None where the program refuses it."""
    if not {"--model", "--faults"} <= set(given):
        return None
    with tempfile.TemporaryDirectory(prefix="xsap-layers-") as folder:
        words = ["extend", "--model", given["--model"], "--faults", given["--faults"], "--extended", f"{folder}/extended.smv"]
        done = subprocess.run([path, *words], stdin=subprocess.DEVNULL, stdout=subprocess.PIPE)
    return int(done.stdout.split()[1]) if done.returncode == 0 else None


def cert_of(name, size):
    """Returns the name of a layer's certificate."""
    if size is None or (os.path.exists(name) and not os.path.isfile(name)):
        return name
    root, end = os.path.splitext(name)
    return f"{root}.{size}{end}"


def run_layer(path, words, size, seconds, watch):
    """Runs one layer, and returns it, or None where it has not ended within so many seconds. Where it is neither complete nor bounded, what it
    has written is removed. Where there is what shows how far it is, the program that prints news is run."""
    given, begun = dict(zip(words[::2], words[1::2])), time.monotonic()
    files = {it: state_of(given[it]) for it in ("--extended", "--cert")}
    path, errors = (watching.program(), {"stderr": subprocess.PIPE}) if watch else (path, {})
    child, held = explaining.begin([path, "analyse", *words, *(["--size", str(size)] if size else [])], stdin=subprocess.DEVNULL,
                                   stdout=subprocess.PIPE, **errors)
    status = None
    try:
        explaining.let_go(held)
        report = watching.follow(child, watch, seconds) if watch else child.communicate(timeout=seconds)[0]
        status = child.wait()
        return Layer(size, status, report, given["--cert"], time.monotonic() - begun)
    except subprocess.TimeoutExpired:
        return None
    finally:
        if watch:
            watch.end(status not in (0, 1, *explaining.REFUSED))
        if status not in (0, 1):
            child.kill()
            child.wait()
            for option, before in files.items():
                if os.path.isfile(given[option]) and state_of(given[option]) != before:
                    os.unlink(given[option])


def layers(path, words, count, seconds, watched):
    """Runs the layers, tells of each, and returns each that ended. Those after the first write the same extension, so it is not kept."""
    given, begun = dict(zip(words[::2], words[1::2])), time.monotonic()
    with tempfile.TemporaryDirectory(prefix="xsap-layers-") as folder:
        for size in [*range(1, count), None]:
            own = {"cert": cert_of(given["--cert"], size), **({} if size == 1 or count <= 1 else {"extended": f"{folder}/extended.smv"})}
            left = None if seconds is None else seconds - (time.monotonic() - begun)
            layer = run_layer(path, changed(words, **own), size, left, watched()) if left is None or left > 0 else None
            if layer is None:
                programs.tell(f"{seconds} seconds are over: no further layer")
                return
            yield layer
            if layer.status not in explaining.REFUSED:
                programs.tell(layer.told())
            if layer.status:
                return


def put(report):
    """Writes a report to standard output, and returns whether that failed."""
    try:
        while report:
            report = report[os.write(1, report):]
    except OSError:
        return True
    return False


def broken_off(number, _):
    raise Broken(number)


def run(path, words, explains, hand_on=put, watched=lambda: None):
    """Runs the layers of these words of analyse, and returns the status of the last one that ended. The report is handed on by a function that
    returns whether this failed. Another one returns what shows how far a layer is, or None."""
    found = parted(words)
    if isinstance(found, str):
        programs.tell(found)
        return REFUSED
    words, seconds = found
    given = dict(zip(words[::2], words[1::2]))
    count = faults_of(path, given) if len(words) % 2 == 0 and {"--extended", "--cert"} <= set(given) else None
    if count is None:
        # (the program tells what is wrong)
        return explaining.run(path, ["analyse", *words]) if explains else programs.hand_over(path, ["analyse", *words])
    explaining.handle_signals(broken_off)
    last, complete, ended_by = None, None, None
    try:
        for last in layers(path, words, count, seconds, watched):
            complete = complete if last.status else last
    except Broken as why:
        ended_by = why.args[0]
    explaining.handle_signals(signal.SIG_DFL)
    if last is None and not ended_by:
        return NONE_ENDED
    failed = hand_on((complete or last).report) if last else False
    if ended_by or last.status < 0:
        explaining.end_by(ended_by or -last.status)
    if last.status in explaining.REFUSED and explains:
        explaining.explain(last.report.split(b"\n")[0].decode(errors="replace"), ["analyse", *words])
    return explaining.FAILED if failed else last.status
