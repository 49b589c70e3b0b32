"""Wrong bodies that are made from right ones: one thing in a function's body is turned, as a test, a number, a name of an enumeration or
the order of two arguments, or a line that does something is left out.

`wrong_bodies(crate)` has for each public function that promises something and that no edit changes the edits that can be made of it so, the
most telling first.
"""
import functools
import glob
import re

from planted import Plant, functions_of, plants_of
from repository import TOP

# What is turned, and what into: the most telling first. A comparison and an operator stand between spaces, which brackets of types don't.
TURNS = [
    (r" <= ", " < "), (r" >= ", " > "), (r" < ", " <= "), (r" > ", " >= "), (r" == ", " != "), (r" != ", " == "),
    (r" && ", " || "), (r" \|\| ", " && "), (r"\bif !", "if "), (r"\btrue\b", "false"), (r"\bfalse\b", "true"),
    (r" \+ 1\b", " + 2"), (r" - 1\b", " - 2"), (r" \* 2\b", " * 3"), (r" / 2\b", " / 3"), (r" % 2\b", " % 3"),
    (r" \+ ", " - "), (r" - ", " + "), (r"\.first\(", ".last("), (r"\.last\(", ".first("), (r"\.min\(", ".max("), (r"\.max\(", ".min("),
    (r"\.is_empty\(\)", ".len() == 1"), (r"\.is_some\(\)", ".is_none()"), (r"\.is_none\(\)", ".is_some()"),
    (r"\.is_ok\(\)", ".is_err()"), (r"\.is_err\(\)", ".is_ok()"),
    (r"(?<![\w.])0(?![\w.])", "1"), (r"(?<![\w.])1(?![\w.])", "2"), (r"(?<![\w.])2(?![\w.])", "3"),
    (r"\((\w+), (\w+)\)", r"(\2, \1)"), (r"\((\w+), (\w+), (\w+)\)", r"(\1, \3, \2)"), (r"\((\w+), (self\.\w+)\)", r"(\2, \1)"),
    (r"\.neg\(\)", ""), (r"\bSome\(\w+\)$", "None"),
    (r"self\.(\w+)\.len\(\)", r"self.\1.len() + 1"), (r"\.len\(\)( as u64)?$", r".len()\1 + 1"),
    (r"\[(\w*[a-z]\w*)\]", "[0]"), (r"\.(at|get)\((\w*[a-z]\w*)\)", r".\1(0)"), (r"\((\w+), (\w+), (\w+), (\w+)\)", r"(\1, \2, \4, \3)"),
]

# A line that does something, and no more than that: it is left out.
DOES = re.compile(r" *(?!let |return |if |for |while |match |break|continue)[\w.&*:]+(\.|\().*\)\??;$")

# What a function answers in place of its body, by the type of its answer. Want of memory is none of these: any call may answer it.
ANSWERS = [
    (r"bool", ("true", "false")), (r"[ui](8|16|32|64|128|size)", ("0", "1")), (r"Option<.*>", ("None",)), (r"&(?:'\w+ )?\[.*\]", ("&[]",)),
    (r"&(?:'\w+ )?str", ('""',)), (r"", ("",)),
]

# Names that stand for want of memory: no value becomes one of them, for the same reason.
FREE = ("OutOfMemory", "Memory")


class Turned(Plant):
    """An edit that was made: a function, and the same with another line in the place of one of its lines."""

    def __init__(self, crate, path, function, lines, number, new):
        self.crate, self.folder, self.name, self.label = crate, "made", function.shown, f"{crate}/{function.shown}"
        old = lines[function.line:function.end]
        turned = [*lines[function.line:number], new, *lines[number + 1:function.end]]
        self.pairs, self.why, self.stays = [(path, "\n".join(old), "\n".join(turned))], None, None
        self.functions, self.names = {(path, function.line): function}, [function.shown]
        self.shown = f"`{lines[number].strip()}` as `{new.strip()}`"


def lines_of_body(lines, function):
    """Returns the numbers of the lines of a function's body, without those of its contract and comments."""
    begin = next((i for i in range(function.line, function.end) if re.match(r" *\{$", lines[i]) or lines[i].rstrip().endswith("{")
                  and not re.match(r" *(ensures|requires)\b", lines[i])), function.end)
    return [i for i in range(begin + 1, function.end - 1)
            if lines[i].strip() and not lines[i].strip().startswith("//") and "ghost" not in lines[i]]


def answers_of(signature):
    """Returns what a function may answer at once, by the type in its signature."""
    found = re.search(r"\) -> (.*?)(?: *\{)?$", signature)
    answer = found[1].strip() if found else ""
    inner = re.fullmatch(r"(?:Result|io::Result)<(\(\)|.*?)(?:, [\w:]+)?>", answer)
    wanted = ("" if inner[1] == "()" else inner[1]) if inner else answer
    values = next((values for kind, values in ANSWERS if re.fullmatch(kind, wanted)), ())
    return [f"return Ok({it or '()'});" if inner else f"return {it};".replace(" ;", ";") for it in values]


def signature_of(lines, function):
    """Returns the lines of a function from its name to its answer, as one."""
    taken = []
    for line in lines[function.line:function.end]:
        if re.match(r" *(ensures|requires)\b|\{| *\{$", line):
            break
        taken.append(line.strip())
    return " ".join(taken)


@functools.cache
def enumerations():
    """Returns of each enumeration of the crates its names, each with what it holds as it is written."""
    found = {}
    for path in glob.glob(f"{TOP}/crates/*/src/*.rt"):
        with open(path, encoding="utf-8") as it:
            for name, within in re.findall(r"^(?:pub(?:\(crate\))? )?enum (\w+)[^{]*\{\n(.*?)^\}", it.read(), re.M | re.S):
                found[name] = re.findall(r"^    ([A-Z]\w*)(\(.*\))?(?: = \d+)?,$", within, re.M)
    return found


def renamed(line):
    """Returns the line with another name of an enumeration, one that holds the same, in the place of the first that stands there as a
    value, or None."""
    for it in re.finditer(r"\b([A-Z]\w*)::([A-Z]\w*)\b(?![{:])", line):
        holds = dict(enumerations().get(it[1], []))
        alike = [name for name in holds if holds[name] == holds.get(it[2]) and name not in FREE]
        if it[2] in alike and len(alike) > 1 and "=>" not in line[it.end():]:
            return f"{line[:it.start(2)]}{alike[(alike.index(it[2]) + 1) % len(alike)]}{line[it.end(2):]}"
    return None


def turns_of(crate, path, function, text):
    """Returns the edits that can be made of a function's body."""
    made = []
    lines = text.split("\n")
    body = lines_of_body(lines, function)
    made += [Turned(crate, path, function, lines, number, it) for number in body if (it := renamed(lines[number]))]
    for old, new in TURNS:
        for number in body:
            turned = re.sub(old, new, lines[number], count=1)
            if turned != lines[number] and not re.search(r"\w, alloc\b", turned):
                made.append(Turned(crate, path, function, lines, number, turned))
    made += [Turned(crate, path, function, lines, number, "") for number in body if DOES.fullmatch(lines[number])]
    for it in answers_of(signature_of(lines, function)) if body else []:
        made.append(Turned(crate, path, function, lines, body[0], f"{it} {lines[body[0]].strip()}"))
    return made


def wrong_bodies(crate):
    """Returns for each such function of a crate its name and the edits that can be made of it."""
    planted = {it for plant in plants_of(crate) for it in plant.functions}
    found = []
    for path, function in functions_of(crate):
        if function.is_public and (path, function.line) not in planted:
            with open(f"{TOP}/crates/{crate}/{path}", encoding="utf-8") as it:
                text = it.read()
            if any(re.match(r" *ensures\b", line) for line in text.split("\n")[function.line:function.end]):
                found.append((f"{crate}/{function.shown}", turns_of(crate, path, function, text)))
    return found
