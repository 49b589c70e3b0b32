"""Puts what xsap_show shows of a report into a file: `show FILE .. --output FILE`."""
import os
import subprocess

from running import answering, explaining, kept, outputs, programs
from running.short import Wrong, shown


def run(words):
    """Shows a report, its output in a file where that could be shown, and returns the status."""
    try:
        words, name = parted(words)
    except Wrong as why:
        programs.tell(str(why))
        return why.status
    done = subprocess.run([programs.find(kept.PROGRAMS[2]), *words], stdout=subprocess.PIPE)
    if done.returncode:
        os.write(1, done.stdout)
        return done.returncode if done.returncode > 0 else explaining.FAILED
    return answering.put(name, done.stdout, 0)


def parted(words):
    """Returns the words of the program that shows, and the name of the output."""
    left, name, at = [], None, 0
    while at < len(words):
        option, is_joined, value = words[at].partition("=")
        if option != "--output":
            left.append(words[at])
        elif name is not None:
            raise Wrong("--output is given twice")
        else:
            at += not is_joined
            name = value if is_joined else words[at] if at < len(words) else ""
        at += 1
    if not name:
        raise Wrong("--output needs a value")
    outputs.may_be_written(name)
    if any(outputs.is_same(name, it) for it in left[1:2] if it != "-"):
        raise Wrong(f"{shown(name)} of --output is the report, and would be overwritten")
    return left, name
