"""What the tools know of the repository: which crates there are, what each stands on, and how a crate is laid out in a folder of its own.

A crate in a folder of its own, with the built libraries below it, can be checked or built beside others: rt holds the folders that it
works in, and so does one crate after another where they stand together.
"""
import hashlib
import os
import shutil

TOP = os.path.dirname(os.path.dirname(os.path.realpath(__file__)))
PARTS = ("src", "specs", "proofs")


def lines():
    """Returns the lines of crates.txt by the names of the crates."""
    with open(f"{TOP}/crates.txt", encoding="utf-8") as it:
        rows = [line.partition("#")[0].strip() for line in it]
    return {row.partition(":")[0].split()[0]: row for row in rows if row}


def uses():
    """Returns for each crate the crates of this repository that its line names."""
    rows = lines()
    return {name: [it for it in row.partition(":")[2].split() if it in rows] for name, row in rows.items()}


def below(name):
    """Returns the crates of this repository that a crate stands on."""
    named, found, left = uses(), set(), [name]
    while left:
        more = [it for it in named.get(left.pop(), []) if it not in found]
        found.update(more)
        left += more
    return sorted(found)


def link_or_copy(old, new):
    try:
        os.link(old, new)
    except OSError:
        shutil.copy2(old, new)


def lay_out(name, room, parts, copy_function=shutil.copy2):
    """Makes a repository of a crate, with these of its folders, and the crates below it, as they are built. Returns its folder."""
    rows, libraries = lines(), below(name)
    with open(f"{room}/crates.txt", "w", encoding="utf-8") as it:
        it.write("".join(f"{rows[crate]}\n" for crate in [*libraries, name]))
    if os.path.isfile(f"{TOP}/HANDLES"):
        shutil.copy(f"{TOP}/HANDLES", room)
    for crate in libraries:
        copy_parts(crate, room, (*PARTS, "out/rlib"), link_or_copy)
    copy_parts(name, room, parts, copy_function)
    return f"{room}/crates/{name}"


def copy_parts(crate, room, parts, copy_function):
    for part in parts:
        if os.path.isdir(f"{TOP}/crates/{crate}/{part}"):
            shutil.copytree(f"{TOP}/crates/{crate}/{part}", f"{room}/crates/{crate}/{part}", copy_function=copy_function)


def sources_of(name):
    """Returns a text of all that a program's bytes are made of beside the kit: HANDLES, and of its crate and of each below it the line of
    crates.txt and the files of code with their sums. Specifications and proofs are erased before code is made, so they are left out."""
    rows, text = lines(), ""
    if os.path.isfile(f"{TOP}/HANDLES"):
        text += f"HANDLES {sum_of(f'{TOP}/HANDLES')}\n"
    for crate in sorted([*below(name), name]):
        text += f"crate {rows[crate]}\n"
        found = (f"{at}/{it}" for at, _, names in os.walk(f"{TOP}/crates/{crate}/src") for it in names if it.endswith(".rt"))
        text += "".join(f"{os.path.relpath(path, TOP)} {sum_of(path)}\n" for path in sorted(found))
    return text


def sum_of(path):
    """Returns the sum of a file, by SHA-256."""
    with open(path, "rb") as it:
        return hashlib.sha256(it.read()).hexdigest()


def sources_sum(name):
    """Returns the sum of all that a program's bytes are made of beside the kit."""
    return hashlib.sha256(sources_of(name).encode()).hexdigest()


def is_current(name):
    """Returns whether the program was built in its crate's out/, and no file that it was proved and built of is newer."""
    program = f"{TOP}/crates/{name}/out/{name}"
    if not os.access(program, os.X_OK):
        return False
    built = os.path.getmtime(program)
    files = [f"{TOP}/crates.txt", f"{TOP}/HANDLES"]
    for crate in [*below(name), name]:
        for part in PARTS:
            files += [f"{at}/{it}" for at, _, names in os.walk(f"{TOP}/crates/{crate}/{part}") for it in names]
    return all(os.path.getmtime(it) <= built for it in files if os.path.exists(it))
