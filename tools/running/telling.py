"""Tells a refusal as compilers do: file, line and column, what is wrong with which name, the line with a caret, and what to write instead.

  model.smv:3:10: error: the name 'feedd' means nothing here; a similar name is 'feed'
      3 |   out := feedd;
        |          ^~~~~
        = refused model flat 8 at 3: a name means nothing, or an instance stands where a value is needed

The line of the program tells a byte, an item or a line of a file; which name of the item it is, is found here by the same rules (smv.py). What
people write in other dialects of SMV has a note with the rewriting (dialects.py). The last line is the program's own, with the sentence that
xsap_explain has for it. Nothing here decides anything: where a name can't be found, the item is shown.
"""
import os
import re

from running import dialects, explaining, programs, smv
from running.machine import Unready
from running.short import near, printable

LINE = re.compile(r"refused (\w+) (\w+) (\d+) at (\d+)|not accepted moment (\d+) (\w+)|not accepted line (\d+) rule (\d+)")
OPTIONS = {"model": "--model", "faults": "--faults", "causes": "--causes", "trace": "--trace", "cert": "--cert"}


class Told:
    """What is told of a refusal: a sentence, the bytes of the text that it is about, or None, and notes."""

    def __init__(self, sentence, at=None, end=None, notes=()):
        self.sentence, self.at, self.end, self.notes = sentence, at, end, list(notes)


class Seen:
    """A refusal with the texts that it is about: subject, part, number and place of the line, and the name and the text of the file."""

    def __init__(self, line, words, top_file=None):
        self.line, self.values = line, dict(zip(words[1::2], words[2::2]))
        found = LINE.fullmatch(line)
        self.is_known = found is not None
        self.subject, self.part, number, place, moment, why, of_line, rule = found.groups() if found else [None] * 8
        if moment or of_line:
            self.subject, self.part = ("trace", why) if moment else ("cert", "rule")
            number, place = rule or 0, moment or of_line
        self.number, self.place = int(number or 0), int(place or 0)
        self.is_word = self.subject == "top" and "--tops" not in self.values
        self.name = top_file or "--top" if self.is_word else self.values.get(OPTIONS.get(self.subject, "--tops"), "")
        self.name = "--set" if self.subject == "set" else self.name
        self.text = os.fsencode(self.values["--top"]).decode("latin-1") if self.is_word else text_of(self.name)
        self.key = (self.subject, self.part, self.number)

    def model(self):
        return smv.Model(text_of(self.values.get("--model", "")))

    def items(self):
        """Returns the items of the text that was refused."""
        tokens = smv.tokens_of(self.text)
        if self.subject == "model":
            return smv.items_of_model(tokens)
        if self.subject == "faults":
            return smv.items_of_faults(tokens)
        return [smv.Item("top", tokens, "main")] if self.is_word and tokens else smv.parts_of(tokens, self.subject)

    def item(self):
        """Returns the item that the place is the number of, or None."""
        items, number = self.items(), self.place or (1 if self.is_word else 0)
        return items[number - 1] if self.part not in ("lex", "parse", "absent", "length", "read", "rule") and 0 < number <= len(items) else None


def text_of(name):
    """Returns the text of a file, a character for each byte, or nothing where it can't be read."""
    try:
        with open(name, "rb") as it:
            return it.read().decode("latin-1")
    except (OSError, ValueError):
        return ""


def tell(line, words, top_file=None, notes=()):
    """Prints what is to be told of a refusal on standard error."""
    seen = Seen(line, words, top_file)
    if not seen.is_known:
        return programs.tell(line)
    told = safely(seen)
    told.notes += [*dialects.notes_of(seen, told), *notes]
    return programs.show(shown(seen, told))


def notes_of(line, words):
    """Returns what is found beside the line of a refusal: what is wrong with which name, with its place, and notes."""
    seen = Seen(line, words)
    told = safely(seen) if seen.is_known else Told(None)
    notes = [*told.notes, *dialects.notes_of(seen, told)]
    if told.sentence is None or told.at is None or told.at > len(seen.text):
        return notes
    begin = seen.text.rfind("\n", 0, told.at) + 1
    return [f"line {seen.text.count(chr(10), 0, told.at) + 1}, column {told.at - begin + 1}: {told.sentence}", *notes]


def safely(seen):
    """Returns what is to be told of a refusal, or nothing where the text is not read here as the program reads it."""
    try:
        return told_of(seen)
    except (LookupError, ValueError, RecursionError):
        return Told(None)


def meaning(seen):
    """Returns the sentence that xsap_explain has for the line, or None."""
    try:
        said = explaining.explained(seen.line, "/dev/null" if seen.is_word else seen.name or "/dev/null")
    except (OSError, Unready):
        return None
    found = re.match(r"means: (.*)\n", said)
    return found and found[1]


def shown(seen, told):
    """Returns the lines of what is told."""
    means = meaning(seen)
    sentence = told.sentence or means or seen.line
    last = f"{seen.line}: {means}" if means and means != sentence else seen.line
    lines = [*(f"note: {it}" for it in told.notes), f"= {last}"]
    return pointed(seen.name, seen.text, f"error: {sentence}", told.at, told.end, lines)


def pointed(name, text, sentence, at, end, lines):
    """Returns a sentence on a place of a text, with its line and a caret, and further lines below it."""
    name = printable(name)
    if at is None or at > len(text):
        return f"{name}: {sentence}\n" + "".join(f"  {it}\n" for it in lines)
    begin, behind = text.rfind("\n", 0, at) + 1, (text + "\n").index("\n", at)
    number = text.count("\n", 0, at) + 1
    width = max(len(str(number)) + 2, 5)
    blank = re.sub(r"[^\t]", " ", decoded(text[begin:at]))
    length = max(len(decoded(text[at:min(end or at + 1, behind)])), 1)
    return (f"{name}:{number}:{at - begin + 1}: {sentence}\n{number:{width}} | {decoded(text[begin:behind])}\n"
            f"{' ' * width} | {blank}^{'~' * (length - 1)}\n" + "".join(f"{' ' * width} {it}\n" for it in lines))


def decoded(text):
    """Returns bytes of a file as text, with ? for what is none or would move the cursor; tabs stay."""
    it = text.encode("latin-1").decode(errors="replace").replace("\r", "")
    return "".join(one if one.isprintable() or one == "\t" else "?" for one in it)


def told_of(seen):
    """Returns what is to be told of a refusal."""
    if seen.subject == "set":
        number = seen.values.get("--set", "").split()[seen.place - 1]
        return Told(f"there is no fault of the number {number}")
    if seen.part == "absent":
        folder, name = os.path.split(seen.name)
        there = os.listdir(folder or ".") if os.path.isdir(folder or ".") else []
        return Told(f"there is no such file{is_near(name, there)}")
    if seen.part in ("lex", "parse") and seen.number != 3 or seen.part == "lex":
        return told_byte(seen)
    if seen.subject in ("trace", "cert"):
        return told_line(seen)
    item = seen.item()
    if item is None:
        return Told(None)
    told = BY_KEY.get((seen.part, seen.number), lambda *_: None)(seen, item)
    if told:
        return told
    token = in_mode(seen, item) if item.kind == "MODE" else item.head
    return Told(None, token.at, token.end)


def in_mode(seen, item):
    """Returns the token of a mode that a refusal is about: its mark, its effect, its guard, or its name."""
    texts = [it.text for it in item.tokens]
    if seen.part == "mark" and texts[2:3] == ["{"]:
        return item.tokens[3] if texts[3] != "}" else item.tokens[2]
    effect = next((at for at, it in enumerate(texts) if it in ("Permanent", "Transient") and at > 2), None)
    if seen.part == "effect" and effect is not None:
        return item.tokens[effect + 1]
    return (item.value() or [item.head])[0] if seen.part in ("type", "flat") else item.head


def is_near(name, known):
    """Returns a part of a sentence with the known name that is similar to one, where there is one."""
    found = near(name, [it for it in known if it != name])
    return f"; a similar name is '{printable(found)}'" if found else ""


def told_byte(seen):
    """Tells of the byte at which no token begins or a token can't stand."""
    tokens = smv.tokens_of(seen.text)
    token = next((it for it in tokens if it.at == seen.place), None)
    before = next((it for it in reversed(tokens) if it.end <= seen.place), None)
    at = seen.place
    if seen.part == "parse" and seen.number == 2:
        return Told(f"the {'event' if seen.is_word else 'file'} ends too soon", before.end if before else None)
    if token is None:
        return Told(None if seen.number != 1 else f"no token begins with '{decoded(seen.text[at:at + 1])}'", at, at + 1)
    if seen.part == "parse" and seen.number == 4:
        return Told(f"'{token.text}' is left out of the language", at, token.end)
    notes = []
    if seen.part == "parse" and before and before.text != ";" and "\n" in seen.text[before.end:at]:
        line = seen.text.count("\n", 0, before.at) + 1
        notes = [f"a ';' may be missing behind '{before.text}' in line {line}"]
    return Told(f"'{token.text}' can't stand here" if seen.part == "parse" else None, at, token.end, notes)


def told_line(seen):
    """Tells of a line of a trace or a certificate, or of a moment."""
    lines, number = seen.text.split("\n"), seen.place
    if seen.part in ("first", "step", "top") or seen.key == ("trace", "read", 4):
        number = lines.index(f"moment {seen.place}") + 1 if f"moment {seen.place}" in lines else 0
    if not 0 < number <= len(lines) or seen.part == "length":
        return Told(None)
    at = sum(len(it) + 1 for it in lines[:number - 1])
    return Told(None, at, at + max(len(lines[number - 1]), 1))


def scopes_of(seen, item):
    """Returns the instances in which the program judges an item."""
    return [it for it in seen.model().scopes() if it.module == item.module]


def name_wrong(seen, item):
    """Tells which name of an item means nothing, and at which instance where there are several."""
    scopes = scopes_of(seen, item)
    for scope in scopes:
        for names in smv.dotted_of(item.value()):
            wrong = scope.means([it.text for it in names])
            if wrong is None and item.kind != "VAR" and scope.is_instance([it.text for it in names]):
                return Told(f"'{'.'.join(it.text for it in names)}' is an instance, and a value is needed here", names[0].at, names[-1].end)
            if wrong is None:
                continue
            at = min(wrong[0], len(names) - 1)
            name, whole = names[at], ".".join(it.text for it in names)
            of = f" in '{'.'.join(it.text for it in names[:at])}'" if at else " here"
            notes = [f"'{whole}' is judged at the instance {scope.path[:-1]}"] if scope.path and len(scopes) > 1 else []
            return Told(f"the name '{name.text}' means nothing{of}{is_near(name.text, wrong[1])}", name.at, name.end, notes)
    return None


def module_wrong(seen, item):
    """Tells the module that there is not."""
    token = item.instance() if seen.subject == "model" else item.head
    if not token:
        return None
    return Told(f"there is no module '{token.text}'{is_near(token.text, seen.model().formals)}", token.at, token.end)


def target_wrong(seen, item):
    """Tells the variable that a slice affects and that there is not."""
    token = item.tokens[3] if len(item.tokens) > 3 else None
    if not token:
        return None
    kind = "" if seen.number == 3 else is_near(token.text, seen.model().declared.get(item.module, {}))
    what = "is no variable of a VAR section with a finite type" if seen.number == 3 else f"is no name that the module '{item.module}' declares"
    return Told(f"'{token.text}' {what}{kind}", token.at, token.end)


def named_twice(seen, item):
    """Tells a name that was there before, and where."""
    place = seen.place - 1
    same = next((it for it in seen.items()[:place] if it.name == item.name and (seen.number == 3 or it.module == item.module)
                 and it.kind != "ASSIGN"), None)
    notes = [f"it is in line {seen.text.count(chr(10), 0, same.head.at) + 1}, too"] if same else []
    return Told(f"the name '{item.name}' is there for the second time", item.head.at, item.head.end, notes)


def assigned_twice(seen, item):
    """Tells a variable that is assigned already, and where."""
    same = next((it for it in seen.items()[:seen.place - 1] if it.kind == "ASSIGN" and it.name == item.name and it.module == item.module), None)
    notes = [f"the other assignment is in line {seen.text.count(chr(10), 0, same.head.at) + 1}"] if same else []
    return Told(f"'{item.name}' is assigned for this time already", item.head.at, item.head.end, notes)


def target_other(seen, item):
    """Tells a target that is no variable of the module's own."""
    texts = [it.text for it in item.tokens]
    behind = next((it for it, text in zip(item.tokens, texts) if text == ":="), item.head)
    name = "".join(it.text for it in item.tokens if item.head.at <= it.at < behind.at).rstrip(")")
    sentence = f"'{name}' can't be assigned here: it is no state variable that the module '{item.module}' declares"
    return Told(sentence, item.head.at, item.head.at + len(name))


def next_wrong(seen, item):
    """Tells the `next` that may not stand there."""
    found = next((it for it in item.value() or item.tokens if it.text == "next"), None)
    where = {"DEFINE": "a DEFINE", "VAR": "an actual", "MODE": "a guard or Follows", "top": "a top event", "ASSIGN": "this assignment"}
    return found and Told(f"'next' can't stand in {where.get(item.kind, 'this ' + item.kind)}", found.at, found.end)


def input_wrong(seen, item):
    """Tells the input that may not stand there, where a name of the item is one, or a formal that it is given for at an instance."""
    free = item.kind == "TRANS" or item.kind == "ASSIGN" and item.tokens[0].text == "next"
    for scope in scopes_of(seen, item):
        for names in smv.dotted_of(item.value()):
            declared = scope.declared([it.text for it in names])
            is_wrong = not free or ".".join(it.text for it in names) in smv.under_next(item)
            if declared and declared[1].kind == "IVAR" and is_wrong:
                name, own = ".".join(it.text for it in names), declared[1].name
                notes = [f"at the instance {scope.path[:-1]} '{name}' is the input '{own}'"] if name != own else []
                return Told(f"the input '{own}' can't stand here", names[0].at, names[-1].end, notes)
    return None


def case_wrong(seen, item):
    """Tells the last condition of a `case` that is not the word TRUE."""
    tokens = item.tokens
    for at, it in enumerate(tokens):
        if it.text == "esac" and at > 1:
            depth, first = 0, at - 1
            while first > 0 and not (depth == 0 and (tokens[first - 1].text == "case" or tokens[first - 1].text == ";" and first < at - 1)):
                first -= 1
                depth += {"esac": 1, "case": -1}.get(tokens[first].text, 0)
            if tokens[first].text != "TRUE" or tokens[first + 1].text != ":":
                return Told("the last condition of this case is not the word TRUE", tokens[first].at, tokens[first].end)
    return None


def member_wrong(seen, item):
    """Tells the first number among symbols, or the member that stands twice."""
    inside = [it for it in item.tokens[3:] if it.is_name or it.text.isdigit()]
    twice = next((it for at, it in enumerate(inside) if it.text in [one.text for one in inside[:at]]), None)
    if seen.number == 10:
        return twice and Told(f"the member '{twice.text}' is there for the second time", twice.at, twice.end)
    number = next((it for it in inside if it.text.isdigit()), None)
    return number and Told(f"the number {number.text} is a member beside symbols", number.at, number.end)


def strike_wrong(seen, item):
    """Tells which fault of a cause there is not."""
    known = smv.faults_of(seen.model(), smv.items_of_faults(smv.tokens_of(text_of(seen.values.get("--faults", "")))))
    at = next((at for at, it in enumerate(item.tokens) if it.text == "STRIKES"), 0)
    for names in smv.dotted_of(item.tokens[at + 1:]):
        name = ".".join(it.text for it in names)
        if name not in known:
            return Told(f"there is no fault '{name}'{is_near(name, known)}", names[0].at, names[-1].end)
    return None


BY_KEY = {("flat", 3): named_twice, ("flat", 4): named_twice, ("flat", 5): module_wrong, ("flat", 8): name_wrong, ("flat", 9): target_other,
          ("flat", 10): assigned_twice, ("flat", 12): next_wrong, ("flat", 13): input_wrong, ("type", 7): member_wrong, ("type", 8): case_wrong,
          ("type", 10): member_wrong, ("weave", 1): module_wrong, ("weave", 2): target_wrong, ("weave", 3): target_wrong,
          ("weave", 4): named_twice, ("weave", 5): named_twice, ("cause", 1): strike_wrong}
