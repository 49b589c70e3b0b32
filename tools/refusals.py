"""What the tools know of the manual's tables of refusals: their rows, the examples that stand in them, and what the program says of one."""
import os
import re
import shlex
import subprocess
import tempfile

TOP = os.path.dirname(os.path.dirname(os.path.realpath(__file__)))
MANUAL = f"{TOP}/docs/MANUAL.md"
# The tables of refusals, by what is refused, and that on how a place is found.
TITLES = {"words": "**Words** (status 2)", "model": "**The model** (status 3)", "faults": "**The instructions** (status 4)",
          "top": "**The top event** (status 5)", "trace": "**The trace** (status 6)", "cert": "**The certificate** (status 6)",
          "causes": "**The file of causes** (status 9)", "set": "**The set of an order** (status 10)"}
PLACES = "**How the place P is found.**"
# How the program is called, over the files m, f and t.
EXTEND = "extend --model m --faults f --extended x".split()
ODDS = "odds --model m --faults f --top on --depth 0".split()
CAUSES = "causes --model m --faults f --causes t --top on --depth 0 --cert c".split()
TOPS = "fmea --model m --faults f --tops t --size 0 --depth 0".split()
REPLAY = "replay --model m --faults f --trace t --top".split()
CHECK = "check --model m --faults f --cert t --top".split()
# What an example of the instructions that begins with `..` stands behind.
BEGIN = "EXTENSION OF MODULE main SLICE L AFFECTS on WITH"
CODE = re.compile(r"`([^`]*)`")
NUMBERS = {"ten": 10}


def manual():
    """Returns the text of the manual."""
    with open(MANUAL, encoding="utf-8") as it:
        return it.read()


def block_after(text, words):
    """Returns the block of code that follows the words."""
    return re.search(r"```\n(.*?)```", text[text.index(words):], re.S)[1]


def rows_of(text, title):
    """Returns the cells of the rows of the table that follows a title."""
    table = re.search(r"\n\|.*?(?=\n\n)", text[text.index(title):], re.S)[0]
    rows = [[it.strip().replace("\0", "|") for it in line.replace(r"\|", "\0").strip("|").split("|")] for line in table.strip().split("\n")]
    return rows[2:]


def sentences_of(text, title):
    """Returns the second cell of each row of a table, by the first."""
    return {row[0]: row[1] for row in rows_of(text, title)}


def pairs_of(example, said, prefix):
    """Returns the examples of a row with what is said of each, or nothing where they are told in other words."""
    texts = CODE.findall(example)
    lines = [prefix + it for it in CODE.findall(said)]
    alone = not re.sub(r"a file|the word|[;, ]", "", CODE.sub("", example)) and texts
    if not alone or len(lines) not in (1, len(texts)):
        return []
    kinds = ["file" if part.rstrip().endswith("a file") else "word" for part in CODE.split(example)[0:-1:2]]
    return list(zip(texts, kinds, lines * len(texts) if len(lines) == 1 else lines))


def changed(text, example):
    """Returns the text that an example makes of a trace or a certificate, or None where it is told in other words."""
    lines = text.split("\n")[:-1]
    if example == "an empty file":
        return ""
    for it in re.split(" and (?=line)", example):
        number = int((re.search(r"line (\d+)", it) or [0, 0])[1])
        new = re.fullmatch(r"line \d+ as `([^`]*)`", it)
        alone = re.fullmatch(r"the first (\w+) lines alone", it)
        if new:
            lines[number - 1] = new[1]
        elif it == f"line {number} twice":
            lines.insert(number, lines[number - 1])
        elif it == f"line {number} taken out":
            del lines[number - 1]
        elif alone:
            del lines[NUMBERS[alone[1]]:]
        elif it == f"cut after line {number}":
            del lines[number:]
        elif it == f"cut within line {number}":
            return "\n".join(lines[:number])[:-1]
        else:
            return None
    return "".join(f"{it}\n" for it in lines)


class Examples:
    """The examples of the tables: what each is, the words and the files of its run, and the line that is said; and how many are told
    in words."""

    def __init__(self, text):
        self.text, self.cases, self.told_in_words = text, [], 0
        self.lamp = {"m": block_after(text, "`lamp.smv`:"), "f": block_after(text, "`lamp.fei`:")}
        self.add_words()
        self.add_inputs()
        self.add_trace()
        self.add_certificates()

    def add(self, row, example, said, prefix, make):
        """Adds the examples of a row, each run as `make` says of its text and its kind, a word or a file."""
        pairs = pairs_of(example, said, prefix)
        self.told_in_words += not pairs
        self.cases.extend((f"{row[0]}: {it[0]}", *make(*it[:2]), it[2]) for it in pairs)

    def add_words(self):
        """Adds those of the words, of the set of an order, and of what is left out of the language."""
        for row in rows_of(self.text, "### What is left out"):
            self.add(row, row[1], row[2], "", lambda it, _: (EXTEND, {"m": it, "f": ""}))
        for row in rows_of(self.text, TITLES["words"]):
            self.add(row, row[3] or "``", row[4], "", lambda it, _: (shlex.split(it), {}))
        for row in rows_of(self.text, TITLES["set"]):
            self.add(row, row[2], row[3], "refused set ", lambda it, _: (shlex.split(it), self.lamp))

    def add_inputs(self):
        """Adds those of the model, the instructions, the causes and the top events."""
        for row in rows_of(self.text, TITLES["model"]):
            self.add(row, row[2], row[3], "refused model ", lambda it, _: (EXTEND, {"m": it, "f": ""}))
        for row in rows_of(self.text, TITLES["faults"]):
            verb = ODDS if row[0].startswith("`mark ") else EXTEND
            self.add(row, row[2], row[3], "refused faults ",
                     lambda it, _, verb=verb: (verb, {"m": self.lamp["m"], "f": it.replace("..", BEGIN, 1)}))
        for row in rows_of(self.text, TITLES["causes"]):
            self.add(row, row[2], row[3], "refused causes ", lambda it, _: (CAUSES, {**self.lamp, "t": it}))
        for row in rows_of(self.text, TITLES["top"]):
            self.add(row, row[2], row[3], "refused top ",
                     lambda it, kind: (TOPS, {**self.lamp, "t": it}) if kind == "file" else ([*REPLAY, it], self.lamp))

    def add_trace(self):
        """Adds those of the trace: changes of the one that the manual shows."""
        model, faults, trace = (block_after(self.text, f"`{it}`:") for it in ("pulse.smv", "pulse.fei", "glitch.trace"))
        for what, example, line in examples_told(self.text, TITLES["trace"]):
            self.add_changed(f"{what}: {example}", trace, example, [*REPLAY, "seen & !pulse"], {"m": model, "f": faults}, line)

    def add_certificates(self):
        """Adds those of the certificate: changes of the two that the manual shows."""
        title = TITLES["cert"]
        small = re.search(r"of the model `([^`]*)`", self.text[self.text.index(title):])[1].replace("\n", " ")
        certificate, lamps = block_after(self.text, title), block_after(self.text, "## The text of a certificate")
        for what, example, line in examples_told(self.text, title):
            if example.startswith("in the lamp's, "):
                self.add_changed(f"{what}: {example}", lamps, example.removeprefix("in the lamp's, "), [*CHECK, "!on"], self.lamp, line)
            else:
                self.add_changed(f"{what}: {example}", certificate, example, [*CHECK, "x"], {"m": small, "f": ""}, line)

    def add_changed(self, what, base, example, words, files, line):
        """Adds an example that changes a text."""
        made = changed(base, example)
        self.told_in_words += made is None
        if made is not None:
            self.cases.append((what, words, {**files, "t": made}, line))


def examples_told(text, title):
    """Returns what each example of a table that changes a text is about, the example, and the line that is said."""
    for row in rows_of(text, title):
        examples, said = row[2].split("; "), CODE.findall(row[3])
        for example, line in zip(examples, said) if len(examples) == len(said) else []:
            yield row[0], example, line


def said_by(program, words, files):
    """Returns the first line that a run says in a folder with these files."""
    with tempfile.TemporaryDirectory(prefix="manual-") as folder:
        for name, text in files.items():
            with open(f"{folder}/{name}", "w", encoding="utf-8") as it:
                it.write(text)
        ran = subprocess.run([program, *words], cwd=folder, stdin=subprocess.DEVNULL, stdout=subprocess.PIPE, timeout=300)
    return ran.stdout.decode(errors="replace").split("\n")[0]
