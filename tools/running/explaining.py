"""Runs the program as a child and explains its refusal on standard error, where a person reads along.

What the program prints goes on to standard output as it comes, byte for byte, and its status, or the signal that ended it, becomes that
of the front. A signal to the front goes on to the program. Where the run ended with a refusal, the line is given to xsap_explain with the
file that was refused, which the words of the run name.
"""
import os
import re
import signal
import subprocess
import tempfile

from running import kept, programs
from running.machine import Unready
from running.short import printable
from running.verbs import VERBS, short_usage

PIECE = 65536
# No line of a refusal has so many bytes, and these are the statuses that go with one.
LONGEST_LINE = 256
REFUSED = (2, 3, 4, 5, 6, 9, 10)
FAILED = 7
# What is to be said of a status without a line.
SILENT = {7: "a file or standard output failed (the program does not tell which): a directory, a pipe or an unreadable file as an input, "
             "an output that can't be written, or a full disk", 8: "memory ran out", 11: "a word of the command line is no text"}
PASSED_ON = ("SIGINT", "SIGQUIT", "SIGTERM", "SIGHUP", "SIGUSR1", "SIGUSR2")


def run(path, words):
    """Runs the program with these words, explains how it ended, and returns its status. Where a signal ended it, so ends the front."""
    try:
        child = subprocess.Popen([path, *words], stdout=subprocess.PIPE, preexec_fn=end_with_parent)
    except OSError as error:
        raise Unready(f"{path} can't be run: {error.strerror}") from None
    handle_signals(lambda number, _: child.send_signal(number))
    first, failed = relay(child.stdout.fileno())
    # (where it failed, the program finds its pipe closed)
    child.stdout.close()
    status = child.wait()
    handle_signals(signal.SIG_DFL)
    if status < 0 and not (failed and status == -signal.SIGPIPE):
        end_by(-status)
    if failed:
        # (so ends the program itself, also where a pipe is closed)
        return FAILED
    if status in REFUSED:
        explain(first.partition(b"\n")[0].decode(errors="replace"), words)
    elif status in SILENT:
        programs.tell(f"status {status}: {SILENT[status]}")
    return status


def end_with_parent():
    """Has the system end the program where the front is killed."""
    try:
        import ctypes

        ctypes.CDLL(None).prctl(1, int(signal.SIGKILL))
    except (AttributeError, ImportError, OSError):
        pass


def begin(words, **how):
    """Starts a program while signals are held back, so that none comes before it is known what to end, and returns it and the signals that were
    held back before, for let_go."""
    before = signal.pthread_sigmask(signal.SIG_BLOCK, [getattr(signal, it) for it in PASSED_ON])
    try:
        return subprocess.Popen(words, preexec_fn=lambda: (let_go(before), end_with_parent()), **how), before
    except BaseException:
        let_go(before)
        raise


def let_go(before):
    """Holds back these signals alone; one that has come meanwhile comes now."""
    signal.pthread_sigmask(signal.SIG_SETMASK, before)


def handle_signals(handler):
    """Sets what is done at the signals that go on to the program, but for those that whoever began the run ignores."""
    for name in PASSED_ON:
        number = getattr(signal, name)
        if signal.getsignal(number) is not signal.SIG_IGN:
            signal.signal(number, handler)


def relay(source):
    """Hands on what comes from the program, and returns the beginning of it, and whether it could not be handed on."""
    first = b""
    while True:
        piece = os.read(source, PIECE)
        if not piece:
            return first, False
        first = (first + piece)[:LONGEST_LINE]
        while piece:
            try:
                piece = piece[os.write(1, piece):]
            except OSError:
                return first, True


def end_by(number):
    """Ends the front by the signal that ended the program."""
    import resource

    # (the program has left its core, where it leaves one)
    resource.setrlimit(resource.RLIMIT_CORE, (0, 0))
    signal.signal(number, signal.SIG_DFL) if number not in (signal.SIGKILL, signal.SIGSTOP) else None
    os.kill(os.getpid(), number)


def refused_file(line, words):
    """Returns the option whose value a line refuses, or None where it refuses no file and no word of a top event."""
    found = re.match(r"refused (\w+) |not accepted (moment|line) ", line)
    subject = found and (found[1] or found[2])
    option = {"model": "--model", "faults": "--faults", "causes": "--causes", "trace": "--trace", "cert": "--cert",
              "moment": "--trace", "line": "--cert", "top": "--tops" if "--tops" in words[1::2] else "--top"}.get(subject)
    return option if option in words[1::2] else None


def explain(line, words):
    """Prints what xsap_explain says of a line, below the name of what was refused."""
    given = dict(zip(words[1::2], words[2::2]))
    option = refused_file(line, words)
    name = given.get(option, "")
    try:
        if option == "--top":
            with tempfile.NamedTemporaryFile(prefix="xsap-top-") as it:
                it.write(os.fsencode(name))
                it.flush()
                said = explained(line, it.name)
            shown = "the word of --top"
        else:
            said, shown = explained(line, name or "-"), printable(name)
    except (OSError, Unready) as why:
        return programs.tell(f"the refusal can't be explained: {why}")
    place = re.search(r"line (\d+)(?:, column (\d+))?:", said)
    if option == "--top":
        head = f"{shown}, column {place[2]}" if place else shown
    elif option:
        head = ":".join([shown, *(it for it in place.groups() if it)]) if place else shown
        head += f" ({option})"
    else:
        head = "the words" if line.startswith("refused words") else "the set"
    lines = [head, *f"{said}{usage(line, words)}".rstrip("\n").split("\n"), *(f"note: {it}" for it in notes(line, words))]
    programs.tell("\n".join(lines))
    return None


def notes(line, words):
    """Returns what is found beside what xsap_explain says: the name in question, what to write instead, and a certificate of another verb."""
    from running import certified, telling

    note = certified.note_of(words[0], line, dict(zip(words[1::2], words[2::2])).get("--cert", ""))
    return [*telling.notes_of(line, words), *([note] if note else [])]


def explained(line, name):
    """Returns what xsap_explain says of a line and the file of that name."""
    path = programs.find(kept.PROGRAMS[1])
    done = subprocess.run([path, "explain", name], input=f"{line}\n".encode(), stdout=subprocess.PIPE)
    if done.returncode:
        raise Unready(done.stdout.decode(errors="replace").strip() or f"xsap_explain ended with {done.returncode}")
    return done.stdout.decode(errors="replace")


def usage(line, words):
    """Returns, where words were refused, the word that was and the options of the verb."""
    found = re.match(r"refused words (\d) at (\d+)$", line)
    if not found or words[:1] == [] or words[0] not in VERBS:
        return ""
    place = int(found[2])
    shown = f"word {place} is {printable(words[place - 1])}\n" if found[1] != "5" and 0 < place <= len(words) else ""
    missing = [it for it in VERBS[words[0]][1].split() if it.startswith("--") and it not in words[1::2]]
    shown += f"missing: {' '.join(missing)}\n" if found[1] == "5" and missing else ""
    return f"{shown}{words[0]} {VERBS[words[0]][1]}\nor, with defaults: {words[0]} {short_usage(words[0])}\n"
