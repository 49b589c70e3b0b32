"""Proves and builds the programs here, by rt ci over a copy of their crates, or runs the program without proof, by rt try."""
import os
import re
import shutil
import subprocess
import tempfile
import time

from repository import PARTS, TOP, below, copy_parts, lines
from running import kept, programs
from running.machine import Unready
from running.verbs import file_options

LOG = f"{TOP}/crates/{kept.PROGRAMS[0]}/out/prove.log"
# What a program is run on by rt ci, beside its code.
RUN_ON = ("stdin", "stdout", "args", "status")
DONE = re.compile(r"rt: (\w+) (?:(is kept): |(proved|NOT PROVED))")


def command():
    """Returns the path of the kit's command, or says that it is missing."""
    found = shutil.which("rt")
    if not found:
        raise Unready("the command rt of the kit is not on the path, and --prove and --unproved need it (release/release.txt names the kit)")
    return found


def room():
    """Returns the folder in which copies are laid out: git's own of the checkout, where that can be written."""
    git = f"{TOP}/.git"
    return git if os.path.isdir(git) and os.access(git, os.W_OK) else None


def clear_rooms():
    """Removes the copies that were left where a run was killed."""
    at = room()
    for name in os.listdir(at) if at else []:
        owner = re.match(r"xsap-(\d+)-", name)
        if owner and not os.path.exists(f"/proc/{owner[1]}"):
            shutil.rmtree(f"{at}/{name}", ignore_errors=True)


def lay_out(names, folder):
    """Makes a repository of these crates, with what the programs are run on. Its edits that must be refused stay out."""
    rows = lines()
    with open(f"{folder}/crates.txt", "w", encoding="utf-8") as it:
        it.write("".join(f"{rows[name]}\n" for name in names))
    if os.path.isfile(f"{TOP}/HANDLES"):
        shutil.copy(f"{TOP}/HANDLES", folder)
    os.mkdir(f"{folder}/.git")
    for name in names:
        copy_parts(name, folder, (*PARTS, "data"), shutil.copy2)
        for it in RUN_ON:
            if os.path.isfile(f"{TOP}/crates/{name}/{it}"):
                shutil.copy(f"{TOP}/crates/{name}/{it}", f"{folder}/crates/{name}")


def prove():
    """Proves all crates of the programs and builds these, with a line on standard error for each crate, and returns the status."""
    rt, begun = command(), time.time()
    names = sorted({it for name in kept.PROGRAMS for it in [name, *below(name)]})
    try:
        clear_rooms()
        os.makedirs(os.path.dirname(LOG), exist_ok=True)
        with tempfile.TemporaryDirectory(prefix=f"xsap-{os.getpid()}-", dir=room()) as folder, open(LOG, "w", encoding="utf-8") as log:
            lay_out(names, folder)
            programs.tell(f"proving {len(names)} crates; what rt ci says goes to {LOG}")
            if run_ci(rt, folder, len(names), log):
                raise Unready(f"not everything is proved: the end of {LOG} tells why")
            for name in kept.PROGRAMS:
                path = programs.built(name)
                kept.write(path, kept.read(f"{folder}/crates/{name}/out/{name}"), 0o755)
                # (so that a source which changed meanwhile is newer)
                os.utime(path, (begun, begun))
    except OSError as error:
        raise Unready(f"--prove can't go on: {error.strerror} ({error.filename})") from None
    programs.tell(f"proved and built in {(time.time() - begun) / 60:.0f} min: {', '.join(map(programs.built, kept.PROGRAMS))}")
    return 0


def run_ci(rt, folder, count, log):
    """Runs rt ci in a folder, tells of each crate that is done, and returns the status."""
    begun, done = time.monotonic(), set()
    with subprocess.Popen([rt, "ci"], cwd=folder, stdin=subprocess.DEVNULL, stdout=subprocess.PIPE, stderr=subprocess.STDOUT) as ran:
        try:
            for line in ran.stdout:
                line = line.decode(errors="replace")
                log.write(line)
                log.flush()
                found = DONE.match(line)
                if found and found[1] not in done:
                    done.add(found[1])
                    how = "kept" if found[2] else found[3].lower()
                    programs.tell(f"{len(done)} of {count} crates after {(time.monotonic() - begun) / 60:.0f} min: {found[1]} {how}")
        except BaseException:
            ran.terminate()
            raise
    return ran.returncode


def unproved(words):
    """Runs the program without proofs, and returns its status. Names of files are made absolute, since it runs in a folder of its own."""
    rt, options, spelled = command(), file_options(), list(words)
    for at in range(2, len(words), 2):
        if words[at - 1] in options and words[at]:
            spelled[at] = os.path.join(os.getcwd(), words[at])
    programs.tell("not proved: it is compiled, which takes some minutes, and run without any proof")
    run = [rt, "try", "--seconds", "3600", "--", *spelled]
    return subprocess.run(run, cwd=f"{TOP}/crates/{kept.PROGRAMS[0]}", stdin=subprocess.DEVNULL).returncode
