"""Which program is run: one that was proved and built here, or the kept one, or beside an installed front the installed one."""
import os
import signal

from running import kept, machine
from running.machine import Unready

TOP = os.path.dirname(os.path.dirname(os.path.dirname(os.path.realpath(__file__))))
# What --install writes beside the front that it copies.
INSTALLED = f"{TOP}/{kept.TEXT}"
WHAT_TO_DO = "./xsap --prove proves and builds the program here, and ./xsap --unproved WORDS .. runs it without proof"


def show(text):
    """Prints a text on standard error, where there is one."""
    try:
        os.write(2, text.encode(errors="replace"))
    except OSError:
        pass


def tell(text):
    """Prints a line of the command itself on standard error."""
    show(f"xsap: {text}\n")


def is_installed():
    return os.path.isfile(INSTALLED)


def built(name):
    """Returns where a program that is proved and built here stands."""
    return f"{TOP}/crates/{name}/out/{name}"


def release():
    """Returns the release, or says why there is none to take programs from."""
    return kept.Release(TOP if is_installed() else f"{TOP}/release")


def chosen(name):
    """Returns where a program stands that is proved and built here of these sources, and else None and the release that keeps it, or says
    why there is neither."""
    from repository import is_current, sources_sum

    if is_current(name):
        return built(name), None
    try:
        found = release()
        if found.programs[name]["sources"] != sources_sum(name):
            raise Unready("release/ keeps a program of other sources than these")
    except Unready as why:
        stale = ", and the one that was built here is older than a source" if os.path.exists(built(name)) else ""
        raise Unready(f"{why}{stale}: {WHAT_TO_DO}") from None
    return None, found


def find(name):
    """Returns where a program stands that can be run, or says why there is none. A kept one is unpacked where it was not."""
    if is_installed():
        if not release().is_at(name, f"{TOP}/{name}"):
            raise Unready(f"{TOP}/{name} is not the program that was installed, so it is not run: install it again")
        return f"{TOP}/{name}"
    path, found = chosen(name)
    if path:
        return path
    lacks = machine.lacking()
    if lacks:
        raise Unready(lacks)
    try:
        path, is_new = kept.unpack(found, name)
    except Unready as why:
        raise Unready(f"{why}: {WHAT_TO_DO}") from None
    if is_new and name == kept.PROGRAMS[0]:
        tell("this is the kept program of release/, which .ci/run compares with the one that it proves; ./xsap --prove proves it here")
    return path


def as_given():
    """Gives the signals back that python ignores, so that a program meets them as it would by itself."""
    for it in ("SIGPIPE", "SIGXFSZ"):
        signal.signal(getattr(signal, it), signal.SIG_DFL)


def hand_over(path, words):
    """Goes on as the program with these words."""
    as_given()
    try:
        os.execv(path, [path, *words])
    except OSError as error:
        raise Unready(f"{path} can't be run: {error.strerror}") from None
