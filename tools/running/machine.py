"""What a kept program needs of the machine, and how it is told that something is not there."""
import os
import resource

CPUINFO = "/proc/cpuinfo"
# The processor's level for which the kit compiles, x86-64-v2, and the C library whose calls the programs name.
FLAGS = ("cx16", "lahf_lm", "popcnt", "pni", "sse4_1", "sse4_2", "ssse3")
LIBC = (2, 34)
# The bytes of stack that a program gets: expressions of the greatest height take a quarter of it.
STACK = 8 << 20


class Unready(Exception):
    """Why there is nothing to run, in a sentence without its end."""


def processor():
    return os.uname().machine


def libc():
    """Returns the name and version of the C library, or nothing where it is not known."""
    try:
        return os.confstr("CS_GNU_LIBC_VERSION") or ""
    except (AttributeError, OSError, ValueError):
        return ""


def flags():
    """Returns the flags of the first processor, or None where they can't be read."""
    try:
        with open(CPUINFO, encoding="utf-8", errors="replace") as it:
            for line in it:
                if line.startswith("flags"):
                    return set(line.partition(":")[2].split())
    except OSError:
        pass
    return None


def lacking():
    """Returns what the machine lacks to run a kept program, or None."""
    if processor() != "x86_64":
        return f"the kept program is for x86-64 Linux, and this machine is {processor()}"
    known = flags()
    missing = [it for it in FLAGS if known is not None and it not in known]
    if missing:
        return f"the kept program needs an x86-64-v2 processor, and this one lacks {', '.join(missing)}"
    name, _, version = libc().partition(" ")
    numbers = version.split(".")
    if name != "glibc" or not all(it.isdigit() for it in numbers[:2]) or tuple(map(int, numbers[:2])) < LIBC:
        return f"the kept program needs glibc 2.34 or later, and this machine has {libc() or 'another C library'}"
    return None


def widen_stack():
    """Has the programs that are run from here get their stack, or as much of it as the system lets them have."""
    soft, hard = resource.getrlimit(resource.RLIMIT_STACK)
    wanted = STACK if hard == resource.RLIM_INFINITY else min(STACK, hard)
    if soft != resource.RLIM_INFINITY and soft < wanted:
        resource.setrlimit(resource.RLIMIT_STACK, (wanted, hard))
