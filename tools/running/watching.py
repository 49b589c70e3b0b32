"""Shows on standard error what a running search has come to, by the news that xsap_watched prints: how far it is, and the sets that it has found.

  set 2: Drive.jam proof.Coil.welded (7 steps)
  frontier 3 · 2 sets · 00:12

On a terminal the second line stays in place, drawn once a second at most, with the sets above it as they are found. Elsewhere it comes each ten
seconds, without the sets. A run that ends within a second shows nothing. The sets are cut sets that need not be minimal; one that contains a
set that was found later is gone. Where a run is broken off, the sets that were not shown are, and then how far it was. Nothing here has a part
in an answer.
"""
import os
import selectors
import subprocess
import tempfile
import time

from running import kept, programs
from running.short import printable
from running.verbs import SEARCHING

WATCHED = kept.PROGRAMS[3]
PIECE = 65536
# How long a run shows nothing on a terminal, after how long it shows how far it is on a terminal and elsewhere, in seconds.
QUIET, ON_TERMINAL, ELSEWHERE = 1, 1, 10
# The verbs whose sets are those of the report.
LISTED = ("analyse", "causes", "odds", "fmea")
CLEARED = "\r\x1b[K"


class Found:
    """A set: its number in the order in which sets were found, the numbers of its faults, and the steps of its trace."""

    def __init__(self, number, faults, steps):
        self.number, self.faults, self.steps = number, faults, steps


class Search:
    """What a search has come to: which one of the run it is, the frontier, what stands of its certificate, and the sets that are not gone."""

    def __init__(self, event=0):
        self.event, self.frontier, self.is_complete, self.goal, self.sets, self.found = event, 0, False, None, [], 0

    def after(self, line):
        """Returns what the search has come to after a line of news, or raises ValueError where it is none."""
        kind, *numbers = line.split(" ")
        numbers = [int(it) for it in numbers]
        if kind == "frontier" and numbers == [0]:
            return Search(self.event + 1)
        if kind == "frontier" and len(numbers) == 1:
            self.frontier = numbers[0]
        elif kind == "set" and numbers:
            self.found += 1
            faults = frozenset(numbers[1:])
            self.sets = [*(it for it in self.sets if not faults <= it.faults), Found(self.found, faults, numbers[0])]
        elif kind == "invariant" and not numbers:
            self.is_complete = True
        elif kind == "goal" and len(numbers) == 2:
            self.goal = numbers
        else:
            raise ValueError(line)
        return self

    def stage(self):
        """Returns how far the search is, in words."""
        if self.goal and self.is_complete:
            return f"certificate, goal {self.goal[0] + 1} of {self.goal[1]}"
        return "no further set" if self.is_complete else f"frontier {self.frontier}"


class Watch:
    """What is shown of a run of a verb. It is given the names of faults by a function, and what the time is by another."""

    def __init__(self, verb, names, is_terminal, clock=time.monotonic):
        self.verb, self.find_names, self.is_terminal, self.clock = verb, names, is_terminal, clock
        self.search, self.names, self.begun, self.drawn, self.is_drawn = Search(), None, clock(), None, False
        # The last set that was shown of the search.
        self.shown = (0, 0)

    def hear(self, data):
        """Takes in the lines of what the program printed on standard error, and returns what is left of the last one."""
        *lines, rest = data.split(b"\n")
        for it in lines:
            try:
                self.search = self.search.after(it.decode())
            except ValueError:
                self.clear()
                programs.show(f"{it.decode(errors='replace')}\n")
        return rest

    def show(self):
        """Shows what is due."""
        now = self.clock()
        every = ON_TERMINAL if self.is_terminal else ELSEWHERE
        if self.search.event and now - self.begun >= QUIET and now - (self.begun if self.drawn is None else self.drawn) >= every:
            self.drawn = now
            if self.is_terminal:
                self.show_sets()
            self.draw()

    def line(self):
        """Returns the line on how far the run is."""
        it, seconds = self.search, int(self.clock() - self.begun)
        time_of = f"{seconds // 3600}:" if seconds >= 3600 else ""
        time_of += f"{seconds % 3600 // 60:02}:{seconds % 60:02}"
        event = [f"event {it.event}"] if self.verb == "fmea" else []
        sets = [f"{len(it.sets)} set{'' if len(it.sets) == 1 else 's'}"] if self.verb in LISTED else []
        return " · ".join([*event, it.stage(), *sets, time_of])

    def draw(self):
        """Draws the line, on a terminal in the place of the one before."""
        if not self.is_terminal:
            return programs.tell(self.line())
        try:
            width = os.get_terminal_size(2).columns
        except OSError:
            width = 0
        self.is_drawn = True
        return programs.show(f"{CLEARED}{self.line()[:width - 1 if width > 1 else None]}")

    def clear(self):
        """Takes the line in place away."""
        if self.is_drawn:
            programs.show(CLEARED)
            self.is_drawn = False

    def show_sets(self):
        """Shows the sets that were found since, but for those that are gone."""
        it = self.search
        new = [one for one in it.sets if (it.event, one.number) > self.shown] if self.verb in LISTED else []
        if not new:
            return
        self.clear()
        if self.shown == (0, 0):
            programs.tell("these are cut sets, found so far; they need not be minimal:")
        self.shown = (it.event, new[-1].number)
        event = f"event {it.event}, " if self.verb == "fmea" else ""
        for one in new:
            named = " ".join(self.name(fault) for fault in sorted(one.faults)) or "no fault"
            programs.show(f"  {event}set {one.number}: {named} ({one.steps} step{'' if one.steps == 1 else 's'})\n")

    def name(self, fault):
        """Returns the name of a fault, or its number where the names can't be found."""
        if self.names is None:
            self.names = self.find_names()
        return printable(self.names[fault - 1]) if fault <= len(self.names) else str(fault)

    def end(self, is_broken):
        """Takes the line away, and tells of a run that was broken off what it has found."""
        self.clear()
        if is_broken and self.search.event:
            self.show_sets()
            programs.tell(f"broken off: {self.line()}")


def names_of(path, asked):
    """Returns the names of the faults of a case, and behind them those of its causes, or as many as can be found."""
    from running import certified

    try:
        with tempfile.TemporaryDirectory(prefix="xsap-faults-") as folder:
            words = ["extend", "--model", asked.values["--model"], "--faults", asked.values["--faults"], "--extended", f"{folder}/extended.smv"]
            done = subprocess.run([path, *words], stdin=subprocess.DEVNULL, stdout=subprocess.PIPE)
        named = [it.split(" ")[2] for it in done.stdout.decode().split("\n") if it.startswith("fault ")]
        return [*named, *(certified.causes_of(asked) if done.returncode == 0 else [])]
    except (OSError, LookupError, ValueError):
        return []


def watch_of(path, asked):
    """Returns what shows how far a run is, or None where nothing is to be shown."""
    if asked.verb not in SEARCHING or "--quiet" in asked.own:
        return None
    try:
        os.fstat(2)
    except OSError:
        return None
    return Watch("fmea" if "--tops" in asked.own else asked.verb, lambda: names_of(path, asked), os.isatty(2) and os.environ.get("TERM") != "dumb")


def program():
    """Returns where the program stands that prints news."""
    return programs.find(WATCHED)


def follow(child, watch, seconds=None):
    """Returns what a program prints, while its news is shown. Raises TimeoutExpired where it has not ended within so many seconds."""
    said, left, ends = [], b"", float("inf") if seconds is None else time.monotonic() + seconds
    with selectors.DefaultSelector() as ready:
        for it in (child.stdout, child.stderr):
            ready.register(it, selectors.EVENT_READ)
        while ready.get_map():
            for key, _ in ready.select(max(min(ON_TERMINAL, ends - time.monotonic()), 0)):
                piece = os.read(key.fd, PIECE)
                if not piece:
                    ready.unregister(key.fileobj)
                elif key.fileobj is child.stdout:
                    said.append(piece)
                else:
                    left = watch.hear(left + piece)
            watch.show()
            if ready.get_map() and time.monotonic() >= ends:
                raise subprocess.TimeoutExpired(child.args, seconds)
    child.stdout.close()
    child.stderr.close()
    return b"".join(said)
