"""What the tools know of the program's answers: a run in a folder, and what a report says outside the texts of its traces and in them."""
import os
import pathlib
import re
import signal
import subprocess
import tempfile

TRACE = re.compile(rb"trace [0-9]+\n")


def run(program, words, folder, seconds=60):
    """Returns the status of a run in a folder, what it said, and its standard error; None and a line where it takes longer."""
    try:
        done = subprocess.run([program, *words], cwd=folder, stdin=subprocess.DEVNULL, capture_output=True, timeout=seconds)
    except subprocess.TimeoutExpired:
        return None, b"(no answer in %d seconds)\n" % seconds, b""
    return done.returncode, done.stdout, done.stderr


def lines_and_traces(said):
    """Returns the lines of a report without those of its traces, each with its line feed, and the text of each trace."""
    lines, traces, inside = [], [], False
    for line in said.splitlines(keepends=True):
        if inside and (line.startswith(b"moment ") or b" = " in line):
            traces[-1] += line
            continue
        inside = TRACE.fullmatch(line) is not None
        if inside:
            traces.append(b"")
        lines.append(line)
    return lines, traces


def sets_of(lines):
    """Returns the numbers of each set that a report lists."""
    return [line.split()[1:] for line in lines if re.fullmatch(rb"set( [0-9]+)*\n", line)]


def failed_text(lines, numbers):
    """Returns what `replay` says of a trace that reaches the event and has failed exactly the faults of these numbers."""
    names = dict(line.split()[1:3] for line in lines if line.startswith(b"fault "))
    return b"reaches\n" + b" ".join([b"failed", *(names[it] for it in numbers)]) + b"\n"


def cost_of(program, words, given, most):
    """Returns the processor seconds of a run over these files, by their names and bytes, the most megabytes that it had at a time, and
    its status; it is killed after so many seconds."""
    with tempfile.TemporaryDirectory() as folder:
        for name, text in given.items():
            (pathlib.Path(folder) / name).write_bytes(text)
        process = subprocess.Popen([program, *words], cwd=folder, stdin=subprocess.DEVNULL, stdout=subprocess.DEVNULL)
        previous = signal.signal(signal.SIGALRM, lambda *_: process.kill())
        signal.alarm(most)
        _, status, used = os.wait4(process.pid, 0)
        signal.alarm(0)
        signal.signal(signal.SIGALRM, previous)
        process.returncode = os.waitstatus_to_exitcode(status)
        return used.ru_utime + used.ru_stime, used.ru_maxrss / 1000, process.returncode


def seconds_of(program, words, given, most):
    """Returns the processor seconds of a run over these files, by their names and bytes, and its status; it is killed after so many
    seconds."""
    seconds, _, status = cost_of(program, words, given, most)
    return seconds, status
