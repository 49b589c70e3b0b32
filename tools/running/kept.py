"""The programs that are kept in release/, as rt ci proved and built them: each compressed, and a text with the sums of all.

    xsap release 1
    kit KIT                 the line of rt version
    program NAME            and of each program:
    bytes N                   its length
    sum SUM                   its sum, by SHA-256 as the others
    packed SUM                that of release/NAME.xz
    sources SUM               that of what its bytes are made of (sources_of in tools/repository.py)
    all SUM                 the sum of the lines above

tools/release writes them. A program is unpacked only where all of these sums are right, and run only where its own is.
"""
import hashlib
import os
import re
import subprocess
import tempfile

from running.machine import Unready

PROGRAMS = ("xsap_program", "xsap_explain", "xsap_show", "xsap_watched", "xsap_tops")
HEAD, TEXT = "xsap release 1", "release.txt"
KEYS = ("bytes", "sum", "packed", "sources")
FORM = re.compile(rf"{HEAD}\nkit (.*)\n((?:program \w+\n" + "".join(rf"{it} [0-9a-f]+\n" for it in KEYS) + r")+)all [0-9a-f]+\n")
ONE = re.compile(r"program (\w+)\n" + "".join(rf"{it} ([0-9a-f]+)\n" for it in KEYS))


def sum_of(data):
    return hashlib.sha256(data).hexdigest()


def read(path):
    with open(path, "rb") as it:
        return it.read()


def text_of(kit, programs):
    """Returns the text of a release of this kit, with the values of each program by its name."""
    text = f"{HEAD}\nkit {kit}\n"
    for name, values in programs.items():
        text += f"program {name}\n" + "".join(f"{key} {values[key]}\n" for key in KEYS)
    return f"{text}all {sum_of(text.encode())}\n"


class Release:
    """A folder with kept programs: the line of their kit, and the values of each program by its name."""

    def __init__(self, folder):
        """Reads the text of the folder, or says why it can't be taken."""
        self.folder = folder
        try:
            text = read(f"{folder}/{TEXT}").decode(errors="replace")
        except FileNotFoundError:
            raise Unready("there is no release/ with kept programs") from None
        found = FORM.fullmatch(text)
        self.kit = found[1] if found else ""
        self.programs = {it[1]: dict(zip(KEYS, it.groups()[1:])) for it in ONE.finditer(found[2])} if found else {}
        if not found or text_of(self.kit, self.programs) != text or set(self.programs) != set(PROGRAMS):
            raise Unready(f"release/{TEXT} is not as tools/release wrote it, so nothing of release/ is run")

    def program(self, name):
        """Returns the bytes of a kept program, or says why they can't be taken."""
        values, path = self.programs[name], f"{self.folder}/{name}.xz"
        packed = read(path) if os.path.isfile(path) else b""
        data = unpacked(packed) if sum_of(packed) == values["packed"] else b""
        if sum_of(data) != values["sum"] or str(len(data)) != values["bytes"]:
            raise Unready(f"release/{name}.xz is not the file that release/{TEXT} tells of, so it is not run")
        return data

    def is_at(self, name, path):
        """Returns whether a kept program stands unpacked at a place, whole and executable."""
        try:
            return sum_of(read(path)) == self.programs[name]["sum"] and os.access(path, os.X_OK)
        except OSError:
            return False


def packed_of(data):
    """Returns the bytes of a program compressed."""
    import lzma

    filters = [{"id": lzma.FILTER_X86}, {"id": lzma.FILTER_LZMA2, "preset": 9 | lzma.PRESET_EXTREME}]
    return lzma.compress(data, lzma.FORMAT_XZ, lzma.CHECK_CRC64, filters=filters)


def unpacked(data):
    """Returns what was compressed. A python without the module lzma leaves it to the command xz."""
    try:
        import lzma

        return lzma.decompress(data, lzma.FORMAT_XZ)
    except ImportError:
        try:
            return subprocess.run(["xz", "-dc"], input=data, stdout=subprocess.PIPE, stderr=subprocess.DEVNULL).stdout
        except OSError:
            raise Unready("this python3 has no module lzma, and there is no command xz to unpack release/ with") from None
    except (lzma.LZMAError, EOFError):
        return b""


def write(path, data, mode=0o644):
    """Writes a file apart and then renames it, so that nobody meets half of it."""
    folder = os.path.dirname(path)
    os.makedirs(folder, exist_ok=True)
    number, part = tempfile.mkstemp(prefix=f".{os.path.basename(path)}-", dir=folder)
    try:
        with os.fdopen(number, "wb") as it:
            it.write(data)
            os.fchmod(it.fileno(), mode)
        os.replace(part, path)
    except BaseException:
        os.unlink(part)
        raise


def cache():
    """Returns the user's folder for what can be made anew, or None where he has none."""
    given = os.environ.get("XDG_CACHE_HOME", "")
    folder = given if os.path.isabs(given) else os.path.expanduser("~/.cache")
    return f"{folder}/xsap" if os.path.isabs(folder) else None


def is_private(folder):
    """Returns whether nobody but the user can change what stands in a folder of the cache."""
    try:
        found = [os.stat(it) for it in (folder, os.path.dirname(folder))]
    except OSError:
        return False
    return all(it.st_uid == os.geteuid() and not it.st_mode & 0o022 for it in found)


def unpack(release, name):
    """Returns where the program stands that is kept under a name, and whether it was unpacked just now: beside the release in a folder
    that git ignores, or where nothing can be written there in the user's cache."""
    beside, apart = f"{release.folder}/out", cache() and f"{cache()}/{release.programs[name]['sum'][:16]}"
    folders = [beside, apart] if apart else [beside]
    for folder in folders:
        if (folder == beside or is_private(folder)) and release.is_at(name, f"{folder}/{name}"):
            return f"{folder}/{name}", False
    data, tried = release.program(name), []
    for folder in folders:
        why = "what is written there can't be run"
        try:
            for it in (os.path.dirname(folder), folder) if folder == apart else ():
                os.makedirs(it, 0o700, exist_ok=True)
            if folder == apart and not is_private(folder):
                why = "others can write there"
            else:
                write(f"{folder}/{name}", data, 0o755)
                if release.is_at(name, f"{folder}/{name}"):
                    return f"{folder}/{name}", True
        except OSError as error:
            why = error.strerror
        tried.append(f"{folder} ({why})")
    raise Unready(f"the kept program can't be unpacked into {' or '.join(tried)}")
