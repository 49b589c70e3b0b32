"""The files that a run of the short form writes: what stands there already is looked at before the run, and what is half after it is removed.

No output takes the place of a file that the run reads, under whatever name, nor without --force that of a file that is no such output:
an extension as the program prints it, a certificate, or a model of `make` with its instructions.
"""
import os
import re

from running.short import Wrong, shown

# How an extension is told from a model that someone has written: every line is printed as the program prints it, and there is a mode.
PRINTED = re.compile(rb"(?:(?:MODULE|VAR|IVAR|FROZENVAR|DEFINE|CONSTANTS|ASSIGN|INIT|INVAR|TRANS)\b[^\n]*|  \S[^\n]*)")
MODE = re.compile(rb"(?m)^  (\S+)#mode : \{\1#nominal, ")
MADE = {
    "--model": re.compile(rb"MODULE Relay\(feed\)\nVAR\n  out : boolean;\nASSIGN\n  out := feed;\n"
                          rb"MODULE main\nVAR\n(?:  r\d+ : Relay\((?:TRUE|r\d+\.out)\);\n)+"
                          rb"DEFINE\n  dead := .*;\n"),
    "--faults": re.compile(rb"EXTENSION OF MODULE Relay\n  SLICE R AFFECTS out WITH\n    MODE off : Permanent StuckAt\(FALSE\);\n"),
}
KINDS = {"--extended": "extension", "--cert": "certificate", "--model": "model of make", "--faults": "file of make"}


def is_such(option, data):
    """Returns whether the bytes of a file are such an output, so that a new one may take its place."""
    if not data:
        return True
    if option == "--extended":
        return MODE.search(data) is not None and all(PRINTED.fullmatch(it) for it in data.rstrip(b"\n").split(b"\n"))
    return data.startswith(b"xsap-certificate ") if option == "--cert" else MADE[option].fullmatch(data) is not None


def is_same(one, other):
    """Returns whether two names are of one file."""
    try:
        return os.path.samefile(one, other)
    except OSError:
        return os.path.abspath(one) == os.path.abspath(other)


def judge(asked):
    """Looks at the names of all outputs before anything is run, or says what is wrong with one."""
    written = asked.written()
    if "--output" in asked.own:
        written["--output"] = asked.own["--output"]
    others = asked.read()
    for option, name in written.items():
        for other, path in others.items():
            if is_same(name, path):
                raise Wrong(f"{shown(name)} of {option} is the file of {other}, and would be overwritten")
        others[option] = name
        may_be_written(name)
        if option != "--output" and "--force" not in asked.own:
            stays(option.partition(" ")[0], name)


def may_be_written(name):
    """Looks whether a file can be written, or says why it can't."""
    folder = os.path.dirname(os.path.abspath(name))
    if os.path.isdir(name):
        raise Wrong(f"{shown(name)} can't be written: it is a folder", 7)
    if not os.path.isdir(folder):
        raise Wrong(f"{shown(name)} can't be written: there is no folder {shown(folder)}", 7)
    if not os.access(name if os.path.exists(name) else folder, os.W_OK):
        raise Wrong(f"{shown(name)} can't be written: it is not permitted", 7)


def stays(option, name):
    """Looks whether a file stands there that is no such output, or says so."""
    if not os.path.isfile(name):
        return
    try:
        with open(name, "rb") as it:
            is_ours = is_such(option, it.read())
    except OSError as error:
        raise Wrong(f"{shown(name)} can't be read: {error.strerror}", 7) from None
    if not is_ours:
        kind = KINDS[option]
        a_new = f"{option} NAME takes another name" if option in ("--extended", "--cert") else "give another name"
        raise Wrong(f"{shown(name)} is there already, and is no {kind} that this program wrote: {a_new}, and --force overwrites it")


def state_of(path):
    """Returns what tells whether a file was written, or None where there is none."""
    try:
        found = os.stat(path)
    except OSError:
        return None
    return found.st_mtime_ns, found.st_size, found.st_ino


def states_of(asked):
    return {it: state_of(it) for it in asked.written().values()}


def changed(before):
    """Returns the files that were written since they were looked at."""
    return [it for it, state in before.items() if state_of(it) != state]


def remove(before):
    """Removes the files that were written since they were looked at."""
    for it in changed(before):
        if os.path.isfile(it):
            os.unlink(it)


def why_failed(asked):
    """Returns which file has failed and why, as far as the system tells, or None."""
    for name in asked.read().values():
        try:
            with open(name, "rb") as it:
                it.read(1)
        except OSError as error:
            return f"{shown(name)} can't be read: {error.strerror}"
    for name in asked.written().values():
        folder = os.path.dirname(os.path.abspath(name))
        try:
            may_be_written(name)
            if os.statvfs(folder).f_bavail == 0:
                return f"{shown(name)} can't be written: no space is left there"
        except Wrong as why:
            return str(why)
        except OSError:
            pass
    return None
