"""Wrong bodies in the form of edits: which functions an edit changes, and what the checker's output says of it."""
import os
import re

from repository import PARTS, TOP

MOST = 4
HEAD = re.compile(r"^( *)((?:pub(?:\([^)]*\))? )?)(?:const )?(?:unsafe )?fn (\w+)")
# What a proof file says where an edit took away a name that it cites.
GONE = re.compile(r"has no field|is not in scope|has no `|was not admitted|is no name|not admitted")


def crates():
    return sorted(it for it in os.listdir(f"{TOP}/crates") if os.path.isdir(f"{TOP}/crates/{it}/src"))


def edits_of(name, folder):
    """Returns the paths of a crate's edits in a folder, in order."""
    at = f"{TOP}/crates/{name}/{folder}"
    found = sorted(os.listdir(at)) if os.path.isdir(at) else []
    return [f"{at}/{it}" for it in found if it.endswith(".edit")]


def plants_of(name):
    return [Plant(name, folder, it) for folder in ("must-fail", "edits") for it in edits_of(name, folder)]


class Function:
    """A function in a file of src/: its lines, from 0 and the end not among them, its path and whether others see it."""

    def __init__(self, path, line, end, owner, name, is_public):
        self.path, self.line, self.end, self.owner, self.name, self.is_public = path, line, end, owner, name, is_public
        module = path.removeprefix("src/").removesuffix(".rt").removesuffix("/mod")
        parts = [] if module in ("lib", "main") else module.split("/")
        self.module = "::".join(parts)
        self.shown = "::".join([*parts, *([owner] if owner else []), name])

    def verdicts(self, crate, said):
        """Returns the checker's words of this function, of all impls where several have one of its name. It may name a method by the
        module of its type."""
        module = f"{re.escape(self.module)}::" if self.module else ""
        found = re.findall(rf"(?m)^fn {crate}::{module}(?:[\w+]+::)*{self.name}(?:::[^\s:]+)*: (.*)$", said)
        if not found and self.owner:
            found = re.findall(rf"(?m)^fn {crate}::(?:\w+::)*{re.escape(self.owner)}::{self.name}: (.*)$", said)
        return found

    def in_proofs(self, said):
        """Returns the errors in the files of this function's proof, and those in its cycle's files that name a goal of it."""
        folder = re.escape("/".join(self.module.split("::"))) if self.module else "proofs"
        at, error = rf"(?m)^(?:note: )?(?:\./)?proofs/(?:{folder}/)?(?:[\w+]+/)*", r"/\w+\.antt:\d+:\d+: (?:error: )?"
        found = re.findall(rf"{at}{self.name}{error}(.*(?:\n  .*)?)$", said)
        found += re.findall(rf"{at}\+\w+{error}(`(?:invariant-)?{self.name}-.*(?:\n  .*)?)$", said)
        return [re.sub(r"\s+", " ", it) for it in found]


def owner_of(line):
    """Returns the name by which the checker calls an impl: Items, Items+Name, or with its trait MemoryDeskDesk."""
    head = re.match(r"(?:unsafe )?impl(<[^>]*(?:<[^>]*>[^>]*)*>)? (.*?)(?: where\b.*)?(?: *\{)?$", line)
    if not head:
        return ""
    parameters = re.findall(r"[<,] *(?:const )?(\w+)", head[1] or "")
    trait, _, of = head[2].rpartition(" for ")
    name, _, rest = re.sub(r"'\w+,? ?", "", of).partition("<")
    given = re.findall(r"\w+", rest)
    shown = name.rpartition("::")[2] + "".join(f"+{it}" for it in given if not all(it in parameters for it in given))
    return shown + "".join(re.findall(r"\w+", trait.rpartition("::")[2] if "<" not in trait else trait))


def functions_in(path, text):
    """Returns the functions of a text of src/ in the layout of rt fmt, where a function ends with a brace under its first letter."""
    lines, owner, found = text.split("\n"), "", []
    for number, line in enumerate(lines):
        if re.match(r"(unsafe )?impl\b", line):
            owner = owner_of(line)
        elif re.match(r"(pub )?trait\b", line):
            owner = re.search(r"trait (\w+)", line)[1]
        elif line == "}":
            owner = ""
        head = HEAD.match(line)
        if not head:
            continue
        end = next((i for i in range(number, len(lines)) if re.match(rf"^{head[1]}\}}", lines[i])), number)
        if end > number or line.rstrip().endswith("}"):
            found.append(Function(path, number, end + 1, owner if head[1] else "", head[3], bool(head[2].strip() == "pub")))
    return found


def functions_of(name):
    """Returns the functions of a crate, with their files."""
    top, found = f"{TOP}/crates/{name}", []
    for at, _, names in sorted(os.walk(f"{top}/src")):
        for it in sorted(names):
            if it.endswith(".rt"):
                with open(f"{at}/{it}", encoding="utf-8") as file:
                    path = os.path.relpath(f"{at}/{it}", top)
                    found += [(path, function) for function in functions_in(path, file.read())]
    return found


class Plant:
    """An edit of a crate: its pairs of texts, why it does not fit, if so, and the functions that it changes."""

    def __init__(self, crate, folder, path):
        self.crate, self.folder = crate, folder
        self.name = os.path.basename(path).removesuffix(".edit")
        self.label = f"{crate}/{self.name}"
        self.pairs, self.why, self.stays, self.functions, self.outer = [], None, None, {}, []
        with open(path, encoding="utf-8") as it:
            self.why = self.read(it.read().split("\n"))
        self.names = [it.shown for it in self.functions.values()]
        self.shown = " ".join(self.names[:3])

    def read(self, lines):
        path, old, texts = None, None, {}
        for line in lines:
            word, _, rest = line.partition(":")
            rest = rest.removeprefix(" ")
            if word == "file":
                path = rest.strip()
                if os.path.normpath(path) != path or path.split("/")[0] not in PARTS:
                    return f"no file of src, specs or proofs: {path}"
            elif word == "stays":
                self.stays = rest.strip()
            elif word == "old":
                old = rest
            elif word == "new":
                if not path or not old:
                    return "a line 'new:' with no 'file:' and 'old:' before it"
                if path not in texts:
                    if not os.path.isfile(f"{TOP}/crates/{self.crate}/{path}"):
                        return f"there is no file {path}"
                    with open(f"{TOP}/crates/{self.crate}/{path}", encoding="utf-8") as it:
                        texts[path] = it.read()
                found = texts[path].count(old)
                if found != 1:
                    return f"in {path} {found} times, and not once: {old.strip()}"
                self.find(path, texts[path], old)
                texts[path] = texts[path].replace(old, rest)
                self.pairs.append((path, old, rest))
                old = None
        return None if self.pairs and old is None else "a pair of 'old:' and 'new:' is not whole"

    def find(self, path, text, old):
        """Finds the functions in which a text is, or those that name the constant or table that it is a part of."""
        number = text[:text.index(old)].count("\n")
        inner = [it for it in functions_in(path, text) if it.line <= number < it.end]
        if inner:
            it = max(inner, key=lambda it: it.line)
            self.functions[path, it.line] = it
            return
        heads = [re.match(r"(?:pub(?:\([^)]*\))? )?(?:const|static) (\w+)", line) for line in text.split("\n")[:number + 1]]
        named = next((it[1] for it in reversed(heads) if it), None)
        for at, it in functions_of(self.crate) if named else []:
            with open(f"{TOP}/crates/{self.crate}/{at}", encoding="utf-8") as file:
                body = "\n".join(file.read().split("\n")[it.line:it.end])
            if re.search(rf"\b{named}\b", body):
                self.functions[at, it.line] = it

    def is_apart(self, group):
        """Returns whether this edit changes other functions than those of a group, and can be made beside them."""
        own = set(self.functions)
        return bool(own) and all(it.functions and not own & set(it.functions) for it in group)

    def lines_of(self, path):
        return [range(it.line + 1, it.end + 1) for (at, _), it in self.functions.items() if at == path]

    def is_blamed(self, said):
        """Returns whether an error is in a line of a function that this edit changes."""
        return any(int(number) in lines for path, number in re.findall(r"(src/[\w/]+\.rt):(\d+)", said) for lines in self.lines_of(path))

    def judged(self, said):
        """Returns what a check came to for the functions that this edit changes, or None where it does not tell."""
        if not self.functions:
            return "STAYS" if re.search(r"(?m)^logic=proved", said) else "refused by the check of the whole crate"
        verdicts = [line for it in self.functions.values() for line in it.verdicts(self.crate, said)]
        in_proofs = [line for it in self.functions.values() for line in it.in_proofs(said)]
        goals = [goal for line in verdicts for goal in re.findall(r"`([^`\s]+)`", line.partition("did not prove")[2].partition(";")[0])]
        goals += [goal for line in self.in_source(said) for goal in re.findall(r"\(`([^`\s]+)`\)", line)]
        goals += [re.match(r"`([^`]+)`|", it)[1] for it in in_proofs if not GONE.search(it)]
        goals = list(dict.fromkeys(it for it in goals if it and re.fullmatch(r"(?:[\w+]+::)?[a-z][\w-]+", it)))
        if goals:
            return f"refused by {', '.join(goals[:6])}"
        if any(GONE.search(it) for it in in_proofs):
            return f"NAME GONE: {in_proofs[0][:120]}"
        return "STAYS" if verdicts and all(it.startswith("proved") for it in verdicts) else None

    def in_source(self, said):
        """Returns what is said of lines of the functions that this edit changes."""
        found = re.findall(r"(?m)^(?:note: |warning: )?(?:\./)?(src/[\w/]+\.rt):(\d+):\d+: (.*)$", said)
        return [rest for path, number, rest in found if any(int(number) in lines for lines in self.lines_of(path))]
