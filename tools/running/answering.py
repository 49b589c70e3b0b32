"""Runs the program for the short form, and shows its answer with names: on standard output the answer, all else on standard error.

The exact form is made of the short one (short.py), the names of outputs are looked at (outputs.py), and then the program is run. The report
of analyse and causes is shown by xsap_show, that of other verbs in a table of tables.py, and with `--format exact` it stays as it was
printed. A refusal is told on standard error, with the program's status. What a run that failed has begun to write is removed. How far a
search is, is shown meanwhile (watching.py).
"""
import os
import re
import signal
import subprocess

from running import explaining, kept, outputs, programs, short, tables, telling, watching
from running.machine import Unready
from running.short import Wrong, shown

WHAT = {"--extended": "the extension", "--cert": "the certificate", "--model": "the model", "--faults": "the instructions"}
SHOW = kept.PROGRAMS[2]


class Refused(Exception):
    """The line by which the program has refused an exact form, with its words and the status."""

    def __init__(self, line, words, status):
        super().__init__(line)
        self.line, self.words, self.status = line, words, status


class Broken(Exception):
    """The number of the signal that has ended the program."""

    def __init__(self, number):
        super().__init__(f"ended by the signal {number}")
        self.number = number


def run(words, does=None):
    """Does what the short form asks for, by the program or by another function of what is asked, and returns the status."""
    asked = None
    try:
        asked = short.read(words)
        return (does or by_program)(asked)
    except Wrong as why:
        programs.tell(str(why))
        return why.status
    except Refused as why:
        return refused(asked, why)
    except Broken as why:
        explaining.end_by(why.number)
        return explaining.FAILED


def by_program(asked):
    """Has the program answer what is asked, and returns the status."""
    if "--tops" in asked.own:
        from running import events

        outputs.judge(asked)
        return events.run(asked)
    path = programs.find(kept.PROGRAMS[0])
    show = programs.find(SHOW) if asked.verb in tables.by_program() and form_of(asked) != "exact" else None
    outputs.judge(asked)
    if "--set" in asked.values:
        number(path, asked)
    if asked.verb == "odds" and "--cert" in asked.own:
        from running import certified

        return certified.odds(path, asked)
    return in_layers(path, show, asked) if "--layers" in asked.own else answer(path, show, asked)


def in_layers(path, show, asked):
    """Runs an analysis for sizes in turn, shows the report of the last complete one, and returns the status."""
    from running import layers

    for size in range(1, len(faults_of(path, asked))):
        if "--force" not in asked.own:
            outputs.stays("--cert", layers.cert_of(asked.values["--cert"], size))
    words = [*asked.exact()[1:], *(["--seconds", asked.own["--seconds"]] if "--seconds" in asked.own else [])]

    def hand_on(report):
        line = report.partition(b"\n")[0].decode(errors="replace")
        if line.startswith("refused"):
            refused(asked, Refused(line, asked.exact(), 0))
            return False
        return put(asked.own.get("--output"), in_form(path, show, asked, report), 0) == explaining.FAILED

    return layers.run(path, words, False, hand_on, lambda: watching.watch_of(path, asked))


def form_of(asked):
    return asked.own.get("--format", "text")


def answer(path, show, asked):
    """Runs the program, shows what it has said, and returns the status."""
    words, before, status = asked.exact(), outputs.states_of(asked), None
    try:
        status, report = captured(path, words, asked, watching.watch_of(path, asked))
    finally:
        if status not in (0, 1):
            outputs.remove(before)
    if status in (0, 1):
        tell_written(asked, before, status)
        return put(asked.own.get("--output"), in_form(path, show, asked, report), status)
    if status in explaining.REFUSED:
        raise Refused(report.partition(b"\n")[0].decode(errors="replace"), words, status)
    return failed(asked, status)


def failed(asked, status):
    """Tells why a run failed, as far as that is known, and returns its status."""
    why = outputs.why_failed(asked) if status == explaining.FAILED else None
    programs.tell(why or f"status {status}: {explaining.SILENT.get(status, 'the program has not told why')}")
    return status


def captured(path, words, asked, watch=None):
    """Runs the program by the exact form, which is printed where that is asked for, and returns its status and what it said. Where the run is
    watched, it is the program that prints news; that of several events always does, and its news is dropped where it is not."""
    path, errors = (path if is_several(path) else watching.program(), {"stderr": subprocess.PIPE}) if watch else (path, {})
    errors = {"stderr": subprocess.DEVNULL} if not watch and is_several(path) else errors
    if "--verbose" in asked.own:
        programs.tell(f"runs {short.command_of([path, *words])}")
    try:
        child, held = explaining.begin([path, *words], stdout=subprocess.PIPE, **errors)
    except (OSError, ValueError) as error:
        raise Unready(f"{path} can't be run: {getattr(error, 'strerror', None) or error}") from None
    explaining.handle_signals(lambda number, _: child.send_signal(number))
    explaining.let_go(held)
    said = watching.follow(child, watch) if watch else child.stdout.read()
    child.stdout.close()
    status = child.wait()
    explaining.handle_signals(signal.SIG_DFL)
    if watch:
        watch.end(status not in (0, 1, *explaining.REFUSED))
    if status < 0:
        raise Broken(-status)
    return status, said


def is_several(path):
    """Returns whether the program is that of several events."""
    return os.path.basename(path) == kept.PROGRAMS[4]


def faults_of(path, asked):
    """Returns the names of the faults of a case in their order, by a run of `extend` that leaves no file."""
    import tempfile

    with tempfile.TemporaryDirectory(prefix="xsap-faults-") as folder:
        words = ["extend", "--model", asked.values["--model"], "--faults", asked.values["--faults"], "--extended", f"{folder}/extended.smv"]
        status, said = captured(path, words, asked)
    if status in explaining.REFUSED:
        raise Refused(said.partition(b"\n")[0].decode(errors="replace"), words, status)
    if status:
        raise Wrong(f"the faults can't be listed: {explaining.SILENT.get(status, f'status {status}')}", status)
    return re.findall(r"^fault \d+ (\S+)$", said.decode(), re.M)


def number(path, asked):
    """Puts numbers in the place of the names of faults, and takes the two faults of a set of two where none are named."""
    given = [it for it in re.split(r"[\s,]+", asked.values["--set"]) if it]
    named = [*given, *(asked.values[it] for it in ("--first", "--second") if it in asked.values)]
    if not all(it.isdigit() for it in named):
        names = faults_of(path, asked)
        wrong = next((it for it in named if not it.isdigit() and it not in names), None)
        if wrong:
            raise Wrong(f"there is no fault {shown(wrong)}{short.meant(wrong, names)}", 10)
        given = [it if it.isdigit() else str(names.index(it) + 1) for it in given]
        for option in ("--first", "--second"):
            if asked.values.get(option, "") in names:
                asked.values[option] = str(names.index(asked.values[option]) + 1)
    if len(given) == 2:
        # (where one is named, the other one is meant)
        rest = [it for it in given if it not in (asked.values.get("--first"), asked.values.get("--second"))] or given
        asked.values.setdefault("--first", rest[0])
        asked.values.setdefault("--second", rest[-1])
    for option in ("--first", "--second"):
        if option not in asked.values:
            raise Wrong(short.missing(asked.verb, option))
    is_named = asked.values["--set"].replace(",", " ").split() != given
    asked.values["--set"] = " ".join(sorted(given, key=int) if is_named else given)


def tell_written(asked, before, status):
    """Tells which files were written."""
    found = outputs.changed(before)
    named = [f"{explaining.printable(name)} ({WHAT[option]})" for option, name in asked.written().items() if name in found]
    if named:
        programs.tell(f"wrote {' and '.join(named)}")
    cert = asked.written().get("--cert")
    if cert and cert not in found:
        stays = f"; {explaining.printable(cert)} is of an earlier run" if os.path.isfile(cert) else ""
        programs.tell(f"no certificate was written: {'the answer is bounded' if status else 'this answer has none'}{stays}")


def in_form(path, show, asked, report):
    """Returns a report in the form that is asked for, or as it is where it can't be shown."""
    if form_of(asked) == "exact":
        return report
    if not show:
        try:
            return tables.of(asked.verb, report, lambda: faults_of(path, asked))
        except (Wrong, Refused, OSError, LookupError, AttributeError) as why:
            # (an answer is not lost where a file has changed meanwhile)
            programs.tell(f"this is the report as the program printed it, since it can't be shown with names: {why}")
            return report
    words = ["show", "-", "--format", form_of(asked), *(["--full"] if "--full" in asked.own else [])]
    try:
        done = subprocess.run([show, *words], input=report, stdout=subprocess.PIPE)
    except OSError as error:
        programs.tell(f"{show} can't be run, so this is the report as the program printed it: {error.strerror}")
        return report
    if done.returncode:
        programs.tell(f"{SHOW} ended with {done.returncode}, so this is the report as the program printed it")
        return report
    return done.stdout


def mode_of(name):
    """Returns the permissions of a file, or those that a new one has."""
    if os.path.exists(name):
        return os.stat(name).st_mode & 0o777
    mask = os.umask(0o077)
    os.umask(mask)
    return 0o666 & ~mask


def put(name, data, status):
    """Writes an answer to a file or, without a name, to standard output, and returns the status. Where the file fails, it goes to standard
    output."""
    if name is not None:
        try:
            if os.path.exists(name) and not os.path.isfile(name):
                with open(name, "wb") as it:
                    it.write(data)
            else:
                kept.write(os.path.realpath(name), data, mode_of(name))
            return status
        except OSError as error:
            programs.tell(f"{shown(name)} can't be written: {error.strerror}; the answer goes to standard output")
            status = explaining.FAILED
    try:
        while data:
            data = data[os.write(1, data):]
    except OSError:
        return explaining.FAILED
    return status


def refused(asked, why):
    """Tells a refusal on standard error, and returns its status."""
    if why.line.startswith("refused words"):
        programs.tell(short.words_wrong(why.words, why.line))
    else:
        from running.certified import note_of

        note = note_of(why.words[0], why.line, why.words[-1] if why.words[-2:-1] == ["--cert"] else asked.values.get("--cert", ""))
        telling.tell(why.line, why.words, asked.top_file, [note] if note else [])
    return why.status
