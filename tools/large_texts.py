"""What the recipes of the large cases are made of: the steps of runs, what reports say, and texts of models and instructions.

A step is the words of a run, the status, and what it says without the texts of traces, as a text or a pattern; a step of `orders` that
shows traces has the names of its set, and one of `causes` has which faults each cause strikes, so that the traces can be judged. Or it is
a function that changes files in the folder or looks at them, and returns what is wrong.

Where the text of a written extension is compared, the model is written as the program prints one.
"""
DEEP = 1_000_000_000
MODEL_BYTES, TRACE_BYTES, CERTIFICATE_BYTES, TOP_BYTES = 1 << 20, 1 << 24, 1 << 28, 1 << 16
MOST_BITS, MOST_COST, MOST_FAULTS, MOST_MODES, MOST_TOPS, HIGHEST = 4096, 50_000, 256, 256, 64, 1000
FILES = ["--model", "m", "--faults", "f"]
# What a boolean that is held by `:=` costs, and what a slice with one permanent mode and no guard adds, with the bit of its fault.
HELD_COST, SLICE_COST = 3, 46

# Words of the verbs, over the files m and f and those that a verb has of its own.


def extend(status, said):
    return [*"extend --model m --faults f --extended x".split()], status, said


def analyse(top, status, said, depth=DEEP, more=()):
    return ["analyse", *FILES, "--top", top, "--depth", str(depth), "--extended", "x", "--cert", "c", *more], status, said


def check(top, status, said, cert="c"):
    return ["check", *FILES, "--top", top, "--cert", cert], status, said


def replay(top, status, said, trace="t"):
    return ["replay", *FILES, "--trace", trace, "--top", top], status, said


def fmea(size, status, said, depth=DEEP):
    return ["fmea", *FILES, "--tops", "t", "--size", str(size), "--depth", str(depth)], status, said


def make(number, stages, depth, status, said):
    return ["make", "--number", str(number), "--stages", str(stages), "--depth", str(depth), "--model", "a", "--faults", "b"], status, said


def odds(top, status, said, depth=DEEP):
    return ["odds", *FILES, "--top", top, "--depth", str(depth)], status, said


def causes(top, status, said, struck, depth=DEEP):
    return ["causes", *FILES, "--causes", "s", "--top", top, "--depth", str(depth), "--cert", "c"], status, said, struck


def check_causes(top, status, said):
    return ["check-causes", *FILES, "--causes", "s", "--top", top, "--cert", "c"], status, said


def ordering(verb, top, count, first, second):
    """The words of an order in the set of the faults from 1 to a number."""
    numbers = " ".join(str(it) for it in range(1, count + 1))
    return [verb, *FILES, "--top", top, "--set", numbers, "--first", str(first), "--second", str(second)]


def orders(top, count, first, second, status, said, names, depth=DEEP):
    return [*ordering("orders", top, count, first, second), "--depth", str(depth), "--cert", "c"], status, said, names


def check_orders(top, count, first, second, claim, status, said):
    return [*ordering("check-orders", top, count, first, second), "--claim", claim, "--cert", "c"], status, said


def wrote(name, text):
    """A step that compares a written file."""
    def look(folder):
        found = (folder / name).read_text()
        at = next((i for i, (a, b) in enumerate(zip(found, text)) if a != b), min(len(found), len(text)))
        return [] if found == text else [f"{name} differs at byte {at}: {found[at:at + 60]!r}, wanted {text[at:at + 60]!r}"]

    return look


def rename(old, new):
    """A step that takes one file for another."""
    def move(folder):
        (folder / new).write_bytes((folder / old).read_bytes())
        return []

    return move


def becomes(name, text):
    """A step that writes a file."""
    def write(folder):
        (folder / name).write_text(text)
        return []

    return write


def filled(name, head, tail, size):
    """A step that writes a file of so many bytes, with zeros between its beginning and its end, that the system need not keep."""
    def write(folder):
        with open(folder / name, "wb") as file:
            file.truncate(size)
            file.write(head.encode())
            file.seek(size - len(tail))
            file.write(tail.encode())
        return []

    return write


def edited(line, old, new):
    """A step that writes the certificate as `k` with a line changed, counted from 1."""
    def change(folder):
        lines = (folder / "c").read_text().split("\n")
        found, lines[line - 1] = lines[line - 1], new
        (folder / "k").write_text("\n".join(lines))
        return [] if found == old else [f"line {line} of the certificate is {found[:80]!r}, wanted {old!r}"]

    return change


# What reports say.


def faults_said(names):
    return f"faults {len(names)}\n" + "".join(f"fault {i} {it}\n" for i, it in enumerate(names, 1))


def sets_said(sets):
    return f"sets {len(sets)}\n" + "".join(" ".join(["set", *map(str, it)]) + "\n" for it in sets)


def report(names, sets, end="complete\n"):
    """What an analysis says, without the texts of its traces."""
    return faults_said(names) + sets_said(sets) + "".join(f"trace {i + 1}\n" for i in range(len(sets))) + end


def singles(count):
    return [[i] for i in range(1, count + 1)]


# Models and instructions.


def each(piece, count, between=""):
    """Returns the pieces for the numbers from 1 on, in which `@` stands for the number."""
    return between.join(piece.replace("@", str(i)) for i in range(1, count + 1))


def each_line(piece, count):
    """Returns the pieces for the numbers from 1 on, each on a line of its own."""
    return each(f"{piece}\n", count)


def units(count, more=""):
    """A model of units that nothing takes down, with further items of `main` behind them."""
    return f"MODULE Unit\nVAR\n  down : boolean;\nASSIGN\n  down := FALSE;\nMODULE main\nVAR\n{each_line('  u@ : Unit;', count)}{more}"


LOST = "EXTENSION OF MODULE Unit\n  SLICE Fail AFFECTS down WITH\n    MODE lost : Permanent StuckAt(TRUE);\n"


def unit_names(count):
    return [f"u{i}.Fail.lost" for i in range(1, count + 1)]


def downs(numbers, by):
    return by.join(f"u{i}.down" for i in numbers)


ANY, ALL = " | ", " & "
# A boolean that a fault sets, with as many further items as wanted behind it.
LAMP = "MODULE main\nVAR\n  x : boolean;\nASSIGN\n  x := FALSE;\n"
STUCK = "EXTENSION OF MODULE main\n  SLICE S AFFECTS x WITH\n    MODE on : Permanent StuckAt(TRUE);\n"


def slice_text(name, variable, modes):
    """The instructions of a slice whose modes are each a name with a mark or not, a kind with the effect, and a guard or nothing."""
    lines = "".join(f"    MODE {mode} : {effect}{' WHEN ' + guard if guard else ''};\n" for mode, effect, guard, *_ in modes)
    return f"  SLICE {name} AFFECTS {variable} WITH\n{lines}"


def woven(name, variable, declared, modes):
    """The sections that a slice adds to its module, as the manual tells how they are written. A mode has a fourth part, the branch of its
    effect, and a fifth, the further section or nothing; both with @ for the name of the mode."""
    at, nominal = f"{name}#mode", f"{name}#nominal"
    steps, reads, free, rules = "", "", f"{{{nominal}}}", ""
    symbols = [f"{name}#{mode.split()[0]}" for mode, *_ in modes]
    for symbol, (_, effect, guard, branch, rule) in zip(symbols, modes):
        stays = symbol if effect.startswith("Permanent") else f"{{{symbol}, {nominal}}}"
        steps += f"({at} = {symbol}) : {stays}; "
        reads += f"({at} = {symbol}) : {branch}; "
        free = f"({free} union ({guard or 'TRUE'} ? {{{symbol}}} : {{{nominal}}}))"
        rules += f"TRANS\n  {rule.replace('@', symbol)};\n" if rule else ""
    return (
        f"VAR\n  {variable}#nominal : {declared};\n  {at} : {{{', '.join([nominal, *symbols])}}};\nASSIGN\n  init({at}) := {nominal};\n"
        f"  next({at}) := case {steps}TRUE : {free}; esac;\n  {variable} := case {reads}TRUE : {variable}#nominal; esac;\n{rules}"
    )


def definitions(cost, name="x"):
    """Defines that cost so much, each of which needs the one behind it, and that all mean the name."""
    count, rest = divmod(cost - 1, 3)
    chain = "".join(f"  d{i} := d{i + 1} & {name};\n" for i in range(1, count))
    return f"DEFINE\n{chain}  d{count} := {name} & {name};\n  e := {'!' * rest}{name};\n"


def low(name, leaves):
    """The conjunction of a name with itself, with so many leaves, as a tree that is not high."""
    many, rest = divmod(leaves, 200)
    parts = ["(" + "&".join([name] * 200) + ")"] * many + [name] * rest
    return f"({'&'.join(parts)})"
