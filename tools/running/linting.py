"""Tells what is lawful in a model and its fault file and mostly a mistake, each with its line. Only what is certain is told.

By runs of the program, so that an answer is worth what the program's is: whether there is a first moment; whether the top event is reached
without a fault; whether each mode is seen, and then changes what is read, for which the written extension is read as a model without
faults, with events over its modes. What a run has answered for traces of at most so many steps alone is told as such. By the text: a
guard that is constantly FALSE, a mode without a mark beside modes with one, and a variable with faults that only conditions bind.
"""
import re
import tempfile

from running import answering, explaining, kept, outputs, programs, smv, telling
from running.answering import Refused
from running.short import Wrong

MOST_EVENTS, MOST_ASSIGNMENTS = 64, 100
OF_TYPES = ("a value outside the type of its variable is no error here: there is no such moment, and what would come later is in no trace",)


class Case:
    """A model and its fault file: their texts and items, the faults, and what was found: warnings, and what is not known."""

    def __init__(self, path, asked, folder):
        self.path, self.asked, self.folder = path, asked, folder
        self.model_name, self.faults_name = asked.values["--model"], asked.values["--faults"]
        self.model_text, self.text = telling.text_of(self.model_name), telling.text_of(self.faults_name)
        self.model = smv.Model(self.model_text)
        self.items = smv.items_of_faults(smv.tokens_of(self.text))
        self.found, self.open = [], []

    def run(self, *words):
        """Returns what the program prints for an exact form, where it is done or bounded."""
        status, said = answering.captured(self.path, words, self.asked)
        if status in explaining.REFUSED:
            raise Refused(said.partition(b"\n")[0].decode(errors="replace"), words, status)
        if status not in (0, 1):
            raise Wrong(f"the program ended with {status}: {explaining.SILENT.get(status, 'it has not told why')}", status)
        return said.decode()

    def of_faults(self, item, sentence, *notes):
        """Keeps a warning on an item of the fault file."""
        token = item.head
        self.found.append(telling.pointed(self.faults_name, self.text, f"warning: {sentence}", token.at, token.end, [f"note: {it}" for it in notes]))

    def of_model(self, token, sentence, *notes):
        """Keeps a warning on a token of the model, or on all of it."""
        at, end = (token.at, token.end) if token else (None, None)
        self.found.append(telling.pointed(self.model_name, self.model_text, f"warning: {sentence}", at, end, [f"note: {it}" for it in notes]))

    def modes(self):
        """Returns the modes of the fault file, each with the paths of the instances that have it."""
        scopes = self.model.scopes()
        return [(it, [scope.path for scope in scopes if scope.module == it.module]) for it in self.items if it.kind == "MODE" and it.inside]


def lint(asked):
    """Tells what is found, and returns the status: 1 where something is told to be a mistake."""
    path = programs.find(kept.PROGRAMS[0])
    outputs.judge(asked)
    with tempfile.TemporaryDirectory(prefix="xsap-lint-") as folder:
        case = Case(path, asked, folder)
        look(case)
    count = len(case.found)
    text = "".join(case.found) + "".join(f"not known: {it}\n" for it in case.open)
    text += f"{count} warning{'' if count == 1 else 's'}\n"
    return answering.put(asked.own.get("--output"), text.encode(), 1 if count else 0)


def look(case):
    """Looks for all that can be told."""
    of_both = ["--model", case.model_name, "--faults", case.faults_name]
    extended = f"{case.folder}/extended.smv"
    case.run("extend", *of_both, "--extended", extended)
    written = ["--extended", f"{case.folder}/again.smv", "--cert", f"{case.folder}/cert"]
    top, depth = case.asked.values.get("--top"), case.asked.values["--depth"]
    # (an event that is refused is told before all else)
    reached = case.run("analyse", *of_both, "--top", top, "--depth", depth, *written, "--size", "0") if top is not None else ""
    by_text(case)
    if "\nno first moment\n" in case.run("analyse", *of_both, "--top", "FALSE", "--depth", depth, *written):
        return case.of_model(None, "there is no first moment: the conditions on it contradict each other, so that nothing is ever reached")
    if "\nset\n" in reached:
        case.of_model(None, "the top event is reached without any fault", "xsap replay and the trace of xsap analyse --size 0 show how")
    elif "\nbounded " in reached:
        case.open.append(f"whether the top event is reached without any fault in more than {depth} steps")
    try:
        by_modes(case, extended, depth)
    except Refused as why:
        # (the text of the extension may be longer than a model may be)
        case.open.append(f"whether each mode is seen, since the extension is no model that is read: {why.line}")
    by_assignments(case, depth)
    return None


def by_modes(case, extended, depth):
    """Looks whether each mode is seen, and changes what is read where it is."""
    stands = [f"{path}{it.inside.name}#mode = {it.inside.name}#{it.name}" for it, paths in case.modes() for path in paths]
    seen, events, order = answers(case, extended, depth, stands), [], []
    for it, paths in case.modes():
        said = [seen.pop(0) for _ in paths]
        told_of_mode(case, it, paths, said, "seen")
        target = it.inside.tokens[3].text
        for path in [path for path, one in zip(paths, said) if one == "yes"]:
            events.append(f"{path}{it.inside.name}#mode = {it.inside.name}#{it.name} & {path}{target} != {path}{target}#nominal")
            order.append((it, path))
    changes = answers(case, extended, depth, events)
    for it in dict.fromkeys(it for it, _ in order):
        paths = [path for one, path in order if one is it]
        said = [one for one, (mode, _) in zip(changes, order) if mode is it]
        told_of_mode(case, it, paths, said, "changes")


# What is told of a mode by the answers no, with the instances in the place of the braces, and unknown.
OF_MODES = {"seen": ("is never seen{}: no trace, of whatever length, has a moment at which it stands", "is seen"),
            "changes": ("changes nothing{}: at each moment at which it stands, '{}' has its own value", "changes anything")}


def told_of_mode(case, item, paths, said, what):
    """Keeps what the answers on a mode at its instances say: no is a warning, unknown is not known."""
    name, (sentence, question) = f"{item.inside.name}.{item.name}", OF_MODES[what]
    no = [path for path, one in zip(paths, said) if one == "no"]
    if no:
        at = "" if len(no) == len(paths) else f" at {', '.join(it[:-1] or 'main' for it in no)}"
        is_guarded = what == "seen" and "WHEN" in [it.text for it in item.tokens]
        notes = ["its guard is never TRUE, or no moment can follow in which it stands"] if is_guarded else []
        case.of_faults(item, f"the mode {name} {sentence.format(at, item.inside.tokens[3].text)}", *notes)
    for path in [path for path, one in zip(paths, said) if one == "unknown"]:
        case.open.append(f"whether {path}{name} {question} in more than {case.asked.values['--depth']} steps")


def answers(case, model, depth, events):
    """Returns for each event over a model without faults whether it is reached: yes, no or unknown."""
    found, nothing = [], f"{case.folder}/nothing.fei"
    open(nothing, "w", encoding="utf-8").close()
    for first in range(0, len(events), MOST_EVENTS):
        with open(f"{case.folder}/tops", "w", encoding="latin-1") as it:
            it.write(";\n".join(events[first:first + MOST_EVENTS]))
        said = case.run("fmea", "--model", model, "--faults", nothing, "--tops", f"{case.folder}/tops", "--size", "0", "--depth", depth)
        found += re.search(r"^row : (.*)$", said, re.M)[1].split()
    return found


def by_assignments(case, depth):
    """Looks whether a value that is assigned for the next moment leaves the type of its variable without a fault, so that traces end there."""
    found = [it for it in case.model.items if it.kind == "ASSIGN" and it.tokens[0].text == "next" and type_of(case, it)][:MOST_ASSIGNMENTS]
    nothing, name = f"{case.folder}/nothing.fei", "xsap#leaves"
    while name in case.model_text:
        name += "#"
    # (an assigned set is no value of a definition, so that such an assignment is passed over)
    taken = [it for it in found if takes(case, [it], name, nothing)]
    if not takes(case, taken, name, nothing):
        return
    places = [(it, scope.path) for it in taken for scope in case.model.scopes() if scope.module == it.module]
    said = each(case, f"{case.folder}/leaves.smv", depth, [f"{path}{name}#{it.tokens[0].at}" for it, path in places])
    for (it, path), one in zip(places, said):
        at = f" at {path[:-1]}" if path else ""
        if one == "yes":
            case.of_model(it.head, f"the value that is assigned to '{it.name}' leaves its type{at} without any fault: traces end there", *OF_TYPES)
        elif one == "unknown":
            case.open.append(f"whether the value that is assigned to {path}{it.name} leaves its type in more than {depth} steps")


def each(case, model, depth, events):
    """Returns the answer for each event, or None where the program refuses it, as one that reaches an input."""
    try:
        return answers(case, model, depth, events)
    except Refused:
        return [None] if len(events) == 1 else [each(case, model, depth, [it])[0] for it in events]


def type_of(case, item):
    """Returns the text of the set of all values of the variable that is assigned, or None where it is boolean or not known."""
    declared = case.model.declared.get(item.module, {}).get(item.name)
    tokens = declared.tokens[2:-1] if declared and declared.kind == "VAR" and not declared.instance() else []
    text = "".join(it.text for it in tokens)
    return None if text in ("", "boolean") else text


def takes(case, items, name, nothing):
    """Writes the model with a definition for each assignment that tells whether its value leaves the type, and returns whether it is taken."""
    text, more = case.model_text, {}
    for it in items:
        value = text[it.value()[0].at:it.tokens[-1].at]
        more[it.module] = more.get(it.module, "") + f"\n{name}#{it.tokens[0].at} := !(({value}\n) in {type_of(case, it)});"
    heads = [(it.tokens[0].at, it.name) for it in case.model.items if it.kind == "MODULE"] + [(len(text), None)]
    parts = [text[:heads[0][0]]]
    for (at, module), (end, _) in zip(heads, heads[1:]):
        parts += [text[at:end], f"\nDEFINE{more[module]}\n" if module in more else ""]
    with open(f"{case.folder}/leaves.smv", "w", encoding="latin-1") as it:
        it.write("".join(parts))
    try:
        case.run("extend", "--model", f"{case.folder}/leaves.smv", "--faults", nothing, "--extended", f"{case.folder}/again.smv")
    except Refused:
        return False
    return True


def by_text(case):
    """Looks for what the texts alone show."""
    modes = [it for it, _ in case.modes()]
    marked = [it for it in modes if [one.text for one in it.tokens[2:3]] == ["{"]]
    for it in modes:
        if marked and it not in marked:
            case.of_faults(it, f"the mode {it.inside.name}.{it.name} has no mark, and others have one: odds refuses this file")
        texts = [one.text for one in it.tokens]
        if "WHEN" in texts and is_false(texts[texts.index("WHEN") + 1:-1]):
            case.of_faults(it, f"the guard of the mode {it.inside.name}.{it.name} is constantly FALSE")
    modules = {it.module for it in case.model.scopes()}
    for it in [it for it in case.items if it.kind == "EXTENSION" and it.name not in modules]:
        case.of_faults(it, f"the module '{it.name}' has no instance, so that there are no faults of these slices")
    for slice_ in [it for it in case.items if it.kind == "SLICE" and len(it.tokens) > 3]:
        by_conditions(case, slice_)


def is_false(texts):
    """Returns whether an expression of truth values alone is FALSE."""
    words = {"TRUE": "True", "FALSE": "False", "!": " not ", "&": " and ", "|": " or ", "(": "(", ")": ")"}
    if not texts or len(texts) > 100 or any(it not in words for it in texts):
        return False
    try:
        return eval("".join(words[it] for it in texts), {"__builtins__": {}}) is False  # (of these words alone)
    except SyntaxError:
        return False


def by_conditions(case, slice_):
    """Looks for an affected variable whose own value nothing gives, beside a condition on what is read of it."""
    target = slice_.tokens[3].text
    for it in case.model.items:
        is_assigned = it.kind == "ASSIGN" and it.name == target and it.tokens[0].text != "init"
        if it.module == slice_.module and (is_assigned or it.kind == "TRANS" and target in smv.under_next(it)):
            return
    conditions, told = [it for it in case.model.items if it.kind in ("INVAR", "TRANS")], []
    for scope, it in [(scope, it) for scope in case.model.scopes() for it in conditions if it.module == scope.module]:
        token = binding(scope, it, slice_.module, target)
        if token and it not in told:
            told.append(it)
            case.of_model(token, f"nothing assigns '{target}', and this {it.kind} binds what is read of it, also while a fault of "
                          f"{slice_.name} stands", f"where it should give '{target}' its own value, write it as an assignment")


def binding(scope, item, module, target):
    """Returns the token by which an INVAR names a variable of a module at an instance, or a TRANS under `next`, or None."""
    for names in smv.dotted_of(item.value()):
        declared = scope.declared([it.text for it in names])
        is_bound = item.kind == "INVAR" or ".".join(it.text for it in names) in smv.under_next(item)
        if is_bound and declared and declared[0] == module and declared[1].name == target:
            return names[0]
    return None
