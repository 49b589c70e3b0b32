"""Reads the short form: files as plain arguments, options anywhere and also as --option=value, and defaults for what is left out.

  analyse model.smv faults.fei --top crash

What is handed to the program is the exact form, each option with its value. A command is in the short form where a file, `--option=value` or
an option that only the short form has stands in the place of an option, so that the program would refuse it. All others are handed on as
they are.
"""
import difflib
import os
import re
import shlex

from running import verbs

# Limits of the program, by their names in its sources; `tools/limits` compares the two.
MOST_FAULTS, MOST_STAGES, MOST_TOP_BYTES, GREATEST_DEPTH, GREATEST_CASE = 256, 64, 65536, 1000000000, 1000000000
# What the numbers of options are, as the sentence on a wrong one has it.
LIMITS = {"--depth": f"0 to {GREATEST_DEPTH}", "--number": f"0 to {GREATEST_CASE}", "--stages": f"1 to {MOST_STAGES}",
          "--first": f"1 to {MOST_FAULTS}", "--second": f"1 to {MOST_FAULTS}"}


class Wrong(Exception):
    """What is wrong with a short form, in a sentence without its end, and the status with which that ends."""

    def __init__(self, why, status=2):
        super().__init__(why)
        self.status = status


class Asked:
    """What the short form asks for: a verb, the values of its options, those of the options that only the short form has, and the name of the file
    that has the top event, or None where it was given as a word."""

    def __init__(self, verb):
        self.verb, self.values, self.own, self.top_file = verb, {}, {}, None

    def exact(self):
        """Returns the exact form."""
        return [self.verb, *(it for option in verbs.options_of(self.verb) if option in self.values for it in (option, self.values[option]))]

    def written(self):
        """Returns the files that the run writes, by their options; the certificates of several events by the option and a number."""
        if "--tops" in self.own:
            from running import events

            return events.written(self)
        return {it: self.values[it] for it in verbs.WRITES.get(self.verb, ())}

    def read(self):
        """Returns the files that the run reads, by their options."""
        files = {it: self.values[it] for it in self.values if it in verbs.file_options() and it not in verbs.WRITES.get(self.verb, ())}
        files.update({it: self.own[it] for it in ("--cert", "--tops") if it in self.own})
        return {**files, **({"--top": self.top_file} if self.top_file else {})}


def options_of(verb):
    """Returns the options of a verb and those that only the short form has, each with what its value is."""
    return {**verbs.options_of(verb), **verbs.short_options(verb)}


def is_short(words):
    """Returns whether the words of a verb are short ones."""
    known, at = options_of(words[0]), 1
    own = [it for it in known if it not in verbs.options_of(words[0])]
    if words[1:2] == ["--layers"]:
        # (layers have an exact form, too)
        own, at = [it for it in own if it not in ("--layers", "--seconds")], 2
    while at < len(words):
        word = words[at]
        if word[:1] not in ("", "-") or word in own or ("=" in word and word.partition("=")[0] in known):
            return True
        at += 2
    return False


def near(word, known):
    """Returns the known word that a word may have meant, or None."""
    return next(iter(difflib.get_close_matches(word, known, 1, 0.6)), None)


def read(words):
    """Returns what the short form of a verb asks for, with every default but those that stand for a run of the program."""
    asked, plain = parted(words)
    room = [it for it in verbs.PLAIN[asked.verb] if it not in asked.values]
    if len(plain) > len(room):
        raise Wrong(f"{shown(plain[len(room)])} is one word too many: {asked.verb} {verbs.short_usage(asked.verb)}")
    asked.values.update(zip(room, plain))
    fill(asked)
    if "--tops" in asked.own:
        from running import events

        events.prepare(asked)
    for option in verbs.options_of(asked.verb):
        if option not in asked.values and f"[{option} " not in verbs.words_of(asked.verb) and option not in ("--first", "--second"):
            raise Wrong(missing(asked.verb, option))
    form = asked.own.get("--format", "text")
    if form not in verbs.forms_of(asked.verb):
        forms = verbs.forms_of(asked.verb)
        raise Wrong(f"--format of {asked.verb} is {', '.join(forms)}, and not {shown(form)}{meant(form, forms)}")
    if "--tops" not in asked.own and asked.values.get("--top", "").startswith("@"):
        asked.top_file = asked.values["--top"][1:]
        asked.values["--top"] = event_of(asked.top_file)
    return asked


def parted(words):
    """Returns what is asked for by options, and the plain words."""
    asked, plain, known, at = Asked(words[0]), [], options_of(words[0]), 1
    while at < len(words):
        word, at = words[at], at + 1
        if not word.startswith("-") or word == "-":
            plain.append(word)
            continue
        option, is_joined, value = word.partition("=")
        if option not in known:
            raise Wrong(f"{asked.verb} has no option {shown(option)}{meant(option, known)}: {verbs.short_usage(asked.verb)}")
        if option in asked.values or option in asked.own:
            raise Wrong(f"{option} is given twice")
        if known[option] is None and is_joined:
            raise Wrong(f"{option} has no value")
        if known[option] is not None and not is_joined:
            if at == len(words) or words[at].partition("=")[0] in known:
                follows = f"{words[at]} follows" if at < len(words) else "none follows"
                raise Wrong(f"{option} needs a value, and {follows}")
            value, at = words[at], at + 1
        (asked.values if option in verbs.options_of(asked.verb) else asked.own)[option] = value
    return asked, plain


def fill(asked):
    """Gives the options that were left out their defaults, those of outputs by the name of the model."""
    for option, value in verbs.DEFAULTS.get(asked.verb, {}).items():
        asked.values.setdefault(option, value)
    if "--model" in asked.values:
        for option, end in verbs.BESIDE.get(asked.verb, {}).items():
            asked.values.setdefault(option, f"{asked.values['--model'].removesuffix('.smv')}{end}")


def missing(verb, option):
    """Returns the sentence on an option that has no default and was left out."""
    what = f"the file {option[2:].upper()}, {verbs.OPTIONS[option]}," if option in verbs.PLAIN[verb] else f"{option} ({verbs.OPTIONS[option]})"
    return f"{what} is missing: {verb} {verbs.short_usage(verb)}"


def meant(word, known):
    """Returns what a wrong word may have meant, as a part of a sentence."""
    found = near(word, list(known))
    return f"; {found} is one" if found else ""


def event_of(name):
    """Returns the event that a file has."""
    try:
        with open(name, "rb") as it:
            data = it.read(MOST_TOP_BYTES + 1)
    except OSError as error:
        raise Wrong(f"{printable(name)}: {error.strerror}, of the file of --top @FILE", 5) from None
    if len(data) > MOST_TOP_BYTES:
        raise Wrong(f"{printable(name)}: the event has more than {MOST_TOP_BYTES} bytes", 5)
    if b"\0" in data:
        raise Wrong(f"{printable(name)}:{data.count(10, 0, data.index(0)) + 1}: a byte 0 is no part of an event", 5)
    try:
        return data.decode()
    except UnicodeDecodeError as error:
        raise Wrong(f"{printable(name)}:{data.count(10, 0, error.start) + 1}: this is no text (UTF-8)", 5) from None


def printable(word):
    """Returns a word with ? for what would move the cursor."""
    return "".join(it if it.isprintable() else "?" for it in word)


def shown(word):
    """Returns a word as it is shown in a sentence."""
    return f"'{printable(word)}'"


def command_of(words):
    """Returns words as a line for a shell."""
    return shlex.join(words)


def number_wrong(words, place):
    """Returns the sentence on a number, a set or a claim that the program has refused at a place of an exact form."""
    option, value = words[place - 2:place]
    limits = {**LIMITS, "--size": "0 to 2" if words[0] == "fmea" else f"0 to {MOST_FAULTS}",
              "--set": "two or more names of faults or rising numbers", "--claim": "before, after, together or none"}
    kind = "" if option in ("--set", "--claim") else "a number from "
    return f"{option} is {kind}{limits[option]}, and not {shown(value)}"


def words_wrong(words, line):
    """Returns the sentence on an exact form that the program has refused in this line."""
    number, place = re.fullmatch(r"refused words (\d) at (\d+)", line).groups()
    place = int(place)
    if number == "7":
        return number_wrong(words, place)
    if number == "8":
        return f"{shown(words[place - 1])} is the name of two files, of {words[place - 2]} and of {words[words.index(words[place - 1]) - 1]}"
    if number == "9":
        return f"the fault of {words[place - 2]} is not in the set, or both are one: {words[place - 1]}"
    return f"the program has refused its words: {line}"


def is_text(words):
    """Returns whether all words are text, as the program takes them."""
    try:
        return bool([os.fsencode(it).decode() for it in words]) or True
    except UnicodeDecodeError:
        return False
