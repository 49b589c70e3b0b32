"""Stand-ins for the programs and for the kit, and a repository with them in a temporary folder, for the test of the command ./xsap."""
import contextlib
import os
import pathlib
import pty
import shutil
import subprocess
import sys
import time

HERE = pathlib.Path(__file__).resolve().parent.parent

# Begins the command on a machine that is as wanted: what os tells of it is given here.
MACHINE = """
import os, runpy, sys
top, kind, libc, cpu, sys.argv = sys.argv[1], sys.argv[2], sys.argv[3], sys.argv[4], sys.argv[5:]
sys.path.insert(0, f"{top}/tools")
sys.dont_write_bytecode = True
from running import machine
machine.processor, machine.libc, machine.CPUINFO = lambda: kind, lambda: libc, cpu
del sys.path[0]
runpy.run_path(sys.argv[0], run_name="__main__")
"""
GOOD_FLAGS = "fpu cx16 lahf_lm popcnt pni sse4_1 sse4_2 ssse3"
# The stand-in for the program: its verbs do what the tests want of it.
PROGRAM = """#!/bin/sh
# {mark}
case "$1" in
extend) echo "refused model flat 8 at 2"; exit 3 ;;
check) echo "not accepted line 5 rule 6"; exit 6 ;;
replay) echo "refused top parse 1 at 2"; exit 5 ;;
odds) echo "refused words 5 at 2"; exit 2 ;;
make) head -c 3000000 /dev/zero | tr '\\0' x; exit 1 ;;
fmea) kill -TERM $$; sleep 5 ;;
causes) echo begun; exec sleep 20 ;;
orders) exit 7 ;;
check-orders) cat; exit 0 ;;
*) for word in "$@"; do printf '[%s]' "$word"; done; echo " {mark}" ;;
esac
"""
# The stand-in for the program where sizes are asked in turn: the top event says what each analysis does.
LAYERED = """#!/bin/sh
verb=$1
[ $# -gt 0 ] && shift
while [ $# -gt 1 ]; do
    case "$1" in --model) model=$2 ;; --cert) cert=$2 ;; --extended) extended=$2 ;; --size) size=$2 ;; --top) top=$2 ;; --depth) depth=$2 ;; esac
    shift 2
done
faults=$(cat "$model" 2>/dev/null || echo 3)
[ "$verb" = extend ] && { echo "faults $faults"; exit 0; }
[ -z "$cert" ] && { echo "refused words 5 at 2"; exit 2; }
[ "$top" = bad ] && { echo "refused top flat 8 at 0"; exit 5; }
echo "extended $size" > "$extended"
case "$top$size" in
slow2|stuck1) echo begun > "$cert"; exec sleep 20 ;;
big2) echo begun > "$cert"; exit 8 ;;
shallow2) printf 'faults 3\\nsets 2\\nbounded 9 bits 5\\nsize 2\\n'; exit 1 ;;
esac
echo "cert $size" > "$cert"
printf 'faults %s\\nsets %s\\nwords [%s][%s][%s]\\ncomplete\\n' "$faults" "${size:-7}" "$top" "$depth" "$size"
[ -n "$size" ] && echo "size $size"
exit 0
"""
SHOW = """#!/bin/sh
for word in "$@"; do printf '<%s>' "$word"; done; echo " shown"
[ "$2" = - ] && cat
exit 1
"""
# The stand-in for the program that prints news: it tells of three sets, makes a file where it has, and its top event says what more it does.
WATCHED = """#!/bin/sh
while [ $# -gt 1 ]; do
    case "$1" in --cert|--extended) echo begun > "$2" ;; --top) top=$2 ;; esac
    shift
done
printf 'frontier 0\\nfrontier 1\\nset 1 1 2\\nset 1 3 4\\nset 2 2\\nfrontier 7\\n' >&2
[ "$top" = invariant ] && printf 'invariant\\ngoal 11 80\\n' >&2
[ "$top" = noise ] && echo noise >&2
[ "$top" = full ] && exit 8
[ "$top" = quick ] && exit 0
touch told
exec sleep 20
"""
# The stand-in for the program of several events: it begins its outputs, tells of the second event, and does not end.
TOPS = """#!/bin/sh
while [ $# -gt 1 ]; do
    case "$1" in --extended) echo begun > "$2" ;; --cert) echo begun > "${2}1.cert" ;; esac
    shift
done
printf 'frontier 0\\nfrontier 1\\nfrontier 0\\nfrontier 7\\n' >&2
echo 'event 1'
touch told
exec sleep 20
"""
EXPLAIN = """#!/bin/sh
read -r line
printf 'means: explained <%s>\\nin line 2, column 7:\\n' "$line"
if [ -f "$2" ]; then printf 'text: '; cat "$2"; fi
"""
KIT = """#!/bin/sh
echo "rt $*" >> "$CALLS"
case "$1" in
version) echo "${KIT_LINE:-stand-in kit 1}" ;;
try) shift; for word in "$@"; do printf '[%s]' "$word"; done; echo; exit 4 ;;
ci) [ -e must-fail ] && exit 9
    echo "rt: low is kept: an earlier run"; echo "rt: xsap_program proved"
    echo "rt: xsap_program: its tests are proved"; echo "rt: xsap_explain NOT PROVED"
    [ -n "$FAILS" ] && exit 1
    [ -n "$TOUCH" ] && touch "$TOUCH"
    for name in xsap_program xsap_explain xsap_show xsap_watched xsap_tops; do
        mkdir -p crates/$name/out; cp crates/$name/src/main.rt crates/$name/out/$name
    done ;;
esac
"""


class Failed(Exception):
    """What a test found."""


def wants(found, wanted, what=""):
    if found != wanted:
        raise Failed(f"{what or 'got'} {found!r}, and not {wanted!r}")


class Place:
    """A repository with stand-ins, in a folder."""

    def __init__(self, folder):
        self.top, self.home = pathlib.Path(folder) / "repository", pathlib.Path(folder) / "home"
        self.bin, self.calls, self.cpu = pathlib.Path(folder) / "bin", pathlib.Path(folder) / "calls", pathlib.Path(folder) / "cpuinfo"
        for it in (self.top, self.home, self.bin):
            it.mkdir()
        (self.top / "tools").mkdir()
        shutil.copytree(HERE / "tools/running", self.top / "tools/running", ignore=shutil.ignore_patterns("__pycache__"))
        for it in ("xsap", "HANDLES", "tools/repository.py", "tools/release"):
            shutil.copy(HERE / it, self.top / it)
        for it in ("docs", "examples/crossing"):
            shutil.copytree(HERE / it, self.top / it)
        self.write("crates.txt", "# crates\nlow:\nother:\nxsap_explain: low\nxsap_show: low\nxsap_program: low # the program\nxsap_watched: low\n"
                   "xsap_tops: low\n")
        self.write("crates/low/src/lib.rt", "//! Low.\n")
        self.write("crates/low/proofs/Lib.antt", "")
        self.write("crates/other/src/lib.rt", "//! Other.\n")
        # (the stand-in for the kit builds a program of its code)
        self.write("crates/xsap_program/src/main.rt", PROGRAM.format(mark="first"))
        self.write("crates/xsap_explain/src/main.rt", EXPLAIN)
        self.write("crates/xsap_show/src/main.rt", SHOW)
        self.write("crates/xsap_watched/src/main.rt", WATCHED)
        self.write("crates/xsap_tops/src/main.rt", TOPS)
        self.write("../bin/rt", KIT).chmod(0o755)
        self.write("../cpuinfo", f"processor : 0\nflags\t\t: {GOOD_FLAGS}\n")
        self.machine = ["x86_64", "glibc 2.36", str(self.cpu)]
        self.environment = {"PATH": f"{self.bin}:/usr/local/bin:/usr/bin:/bin", "HOME": str(self.home), "CALLS": str(self.calls), "LC_ALL": "C.UTF-8"}

    def write(self, name, text):
        path = self.top / name
        path.parent.mkdir(parents=True, exist_ok=True)
        path.write_text(text, encoding="utf-8")
        return path

    def build(self, mark="first"):
        """Puts the programs where rt ci leaves them, newer than every source."""
        for name, text in (("xsap_program", PROGRAM.format(mark=mark)), ("xsap_explain", EXPLAIN), ("xsap_show", SHOW),
                           ("xsap_watched", WATCHED), ("xsap_tops", TOPS)):
            path = self.write(f"crates/{name}/out/{name}", text)
            path.chmod(0o755)
            later = time.time() + 5
            os.utime(path, (later, later))

    def real(self, *programs):
        """Puts programs that were built elsewhere where rt ci leaves them."""
        for path in programs:
            to = self.top / "crates" / os.path.basename(path) / "out" / os.path.basename(path)
            to.parent.mkdir(parents=True, exist_ok=True)
            shutil.copy(path, to)
            to.chmod(0o755)
            os.utime(to, (time.time() + 5,) * 2)
        return self

    def layered(self):
        """Puts a program where rt ci leaves it that answers analyses by their top event and size."""
        self.build()
        path = self.write("crates/xsap_program/out/xsap_program", LAYERED)
        later = time.time() + 5
        os.utime(path, (later, later))

    def release(self, mark="first"):
        """Makes release/ of programs that are built, which are then removed."""
        self.build(mark)
        wants(self.tool("release")[0], 0, "tools/release ends with")
        for name in ("xsap_program", "xsap_explain", "xsap_show", "xsap_watched", "xsap_tops"):
            shutil.rmtree(self.top / f"crates/{name}/out")
        return self

    def tool(self, name, *words):
        """Returns the status and the output of a tool of the repository."""
        done = subprocess.run([sys.executable, "-S", self.top / "tools" / name, *words], env=self.environment, stdin=subprocess.DEVNULL,
                              stdout=subprocess.PIPE, stderr=subprocess.STDOUT, text=True)
        return done.returncode, done.stdout

    def command(self, *words, front=None):
        front = front or self.top / "xsap"
        return [sys.executable, "-S", "-c", MACHINE, str(pathlib.Path(front).resolve().parent), *self.machine, str(front), *words]

    def run(self, *words, front=None, **how):
        """Returns the status, the standard output and the standard error of the command."""
        given = {"stdin": subprocess.DEVNULL, "stdout": subprocess.PIPE, "stderr": subprocess.PIPE, "env": self.environment, "cwd": self.top, **how}
        done = subprocess.run(self.command(*words, front=front), timeout=60, **given)
        error = (done.stderr or b"").decode(errors="replace")
        if "Traceback" in error:
            raise Failed(f"{words}: {error[-900:]}")
        return done.returncode, (done.stdout or b"").decode(errors="replace"), error

    def on_terminal(self, *words):
        """The same where standard error is a terminal."""
        try:
            ours, its = pty.openpty()
        except OSError:
            # (a machine without terminals: it is as with the word)
            return self.run("--explain", *words)
        try:
            status, said, _ = self.run(*words, stderr=its)
        finally:
            os.close(its)
        error = b""
        with contextlib.suppress(OSError):
            while piece := os.read(ours, 65536):
                error += piece
        os.close(ours)
        return status, said, error.decode().replace("\r\n", "\n")

    def not_run(self, *words, why, **how):
        """Sees that the command runs nothing, and tells why in one sentence."""
        status, said, error = self.run(*(words or ("analyse", "--x")), **how)
        wants((status, said), (70, ""), f"where {why!r} is expected: {error!r}: status and output")
        if why not in error or not error.startswith("xsap: ") or error.count("\n") != 1:
            raise Failed(f"tells {error!r}, and not {why!r}")
