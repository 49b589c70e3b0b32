"""The verbs of the program with their options, as docs/MANUAL.md has them, and the help that is printed of them.

Help, the completion of words and the front's test read this one table. The program itself knows its verbs by its own.
"""
import os

VERSION = "1.0"
# Each verb with what it does, and its options in the order in which the program asks for them; one in brackets may be left out.
VERBS = {
    "extend": ("writes the model extended with its faults", "--model FILE --faults FILE --extended FILE"),
    "analyse": ("finds the minimal cut sets of a top event, with a trace for each and a certificate",
                "--model FILE --faults FILE --top EXPRESSION --depth NUMBER --extended FILE --cert FILE [--size NUMBER]"),
    "check": ("judges a certificate of analyse, without any search", "--model FILE --faults FILE --top EXPRESSION --cert FILE"),
    "replay": ("judges a trace of the extension, and names the faults that have failed in it",
               "--model FILE --faults FILE --trace FILE --top EXPRESSION"),
    "fmea": ("makes a table of failure modes and effects for several top events",
             "--model FILE --faults FILE --tops FILE --size NUMBER --depth NUMBER"),
    "make": ("makes a model of relays on two rails, to try the program with, and analyses it",
             "--number NUMBER --stages NUMBER --depth NUMBER --model FILE --faults FILE"),
    "causes": ("finds the minimal cut sets of faults and common causes, with a certificate",
               "--model FILE --faults FILE --causes FILE --top EXPRESSION --depth NUMBER --cert FILE"),
    "check-causes": ("judges a certificate of causes", "--model FILE --faults FILE --causes FILE --top EXPRESSION --cert FILE"),
    "orders": ("finds the order in which two faults of a set come, with a certificate",
               "--model FILE --faults FILE --top EXPRESSION --set NUMBERS --first NUMBER --second NUMBER --depth NUMBER --cert FILE"),
    "check-orders": ("judges a certificate of orders",
                     "--model FILE --faults FILE --top EXPRESSION --set NUMBERS --first NUMBER --second NUMBER --claim WORD --cert FILE"),
    "odds": ("bounds the probabilities of the minimal cut sets, by the marks of the modes",
             "--model FILE --faults FILE --top EXPRESSION --depth NUMBER"),
}
# The verbs of the command itself, which are runs of the program, with their options.
OWN_VERBS = {
    "lint": ("reports what is allowed in a model and its fault file and mostly a mistake",
             "--model FILE --faults FILE [--top EXPRESSION] [--depth NUMBER]"),
}
# The words with which show takes the sets of an accepted certificate.
CERTIFIED = {"show": ("shows the sets of an accepted certificate, without a search",
                      "--model FILE --faults FILE --cert FILE --top EXPRESSION [--causes FILE]")}
# The verbs of the program that shows reports, with their words.
SHOWING = {
    "show": ("shows a report of analyse or causes as tables, as a page, or for other tools", "FILE [--format FORM] [--full] [--output FILE]"),
    "diff": ("reports which minimal cut sets are gone and have come from one report to another", "OLD NEW"),
}
# The verbs whose reports that program shows.
SHOWN = ("analyse", "causes", "show")
FORMS = ("text", "csv", "json", "markdown", "html", "open-psa", "dot", "vcd")
SHOWING_WORDS = {
    "FILE": "a report as it was printed; - is standard input",
    "--format FORM": f"{', '.join(FORMS[:-1])} or {FORMS[-1]}; text where none is given",
    "--full": "every value at every moment of a trace, and not only those that change",
    "--output FILE": "where it is shown in place of standard output",
    "OLD": "the one report; - is standard input",
    "NEW": "the other one",
}
OPTIONS = {
    "--model": "the nominal model, in finite-domain SMV",
    "--faults": "the fault instructions",
    "--extended": "the extension, which is written",
    "--top": "the top event, an expression over the model, as 'road & !down'",
    "--tops": "top events with ; between",
    "--depth": "the upper limit on the steps of traces; a large one costs nothing by itself",
    "--size": "of how many faults a set has at most",
    "--cert": "the certificate: written by analyse, causes and orders, read by the checks",
    "--trace": "the trace that is judged",
    "--causes": "the common causes",
    "--set": "numbers of faults, as '2 3'",
    "--first": "the number of one fault of the set",
    "--second": "the number of the other one",
    "--claim": "before, after, together or none",
    "--number": "which of the models",
    "--stages": "how many relays, 1 to 64",
}
# The short form: which options of a verb are given as plain arguments, in this order, and what the others are where they are left out. An output
# is named after the model: of model.smv it is model.extended.smv.
PLAIN = {
    "extend": ("--model", "--faults"),
    "analyse": ("--model", "--faults"),
    "check": ("--model", "--faults", "--cert"),
    "replay": ("--model", "--faults", "--trace"),
    "fmea": ("--model", "--faults", "--tops"),
    "make": ("--model", "--faults"),
    "causes": ("--model", "--faults", "--causes"),
    "check-causes": ("--model", "--faults", "--causes", "--cert"),
    "orders": ("--model", "--faults"),
    "check-orders": ("--model", "--faults", "--cert"),
    "odds": ("--model", "--faults"),
    "lint": ("--model", "--faults"),
    "show": ("--model", "--faults"),
}
DEFAULTS = {
    **{verb: {"--depth": "1000000000"} for verb in ("analyse", "causes", "orders", "odds")},
    "fmea": {"--size": "1", "--depth": "1000000000"},
    "make": {"--number": "1", "--stages": "3", "--depth": "1000000000"},
    "lint": {"--depth": "40"},
}
BESIDE = {
    "extend": {"--extended": ".extended.smv"},
    "analyse": {"--extended": ".extended.smv", "--cert": ".cert"},
    "causes": {"--cert": ".causes.cert"},
    "orders": {"--cert": ".order.cert"},
}
# What each verb writes, in the short form under no name of another file.
WRITES = {"extend": ("--extended",), "analyse": ("--extended", "--cert"), "make": ("--model", "--faults"), "causes": ("--cert",),
          "orders": ("--cert",)}
# The verbs that search, and show meanwhile how far they are.
SEARCHING = ("analyse", "fmea", "make", "causes", "orders", "odds")
# The options that the short form has beside those of the verb, each with what its value is, or None where it has none.
SHORT = {"--format": "FORM", "--full": None, "--output": "FILE", "--force": None, "--verbose": None, "--quiet": None}
SHORT_WORDS = {
    "--tops FILE": "in place of --top: analyses each event of a file, with ; between, in one search; certificates MODEL.1.cert, MODEL.2.cert ..",
    "--cert FILE": "takes the sets of an accepted certificate of analyse in place of a search",
    "--format FORM": "how the answer is shown; exact is the report as the program prints it",
    "--full": "every value at every moment of a trace, and not only those that change",
    "--output FILE": "where the answer goes in place of standard output",
    "--force": "overwrites files that were there before",
    "--verbose": "prints on standard error what is handed to the program",
    "--quiet": "prints nothing of how far the search is",
}
# What follows analyse in place of --size: the words by which the command runs it for sizes in turn.
LAYERS = "--layers [--seconds NUMBER]"
LAYERS_WORDS = {
    "--layers": "the word after analyse, in the short form anywhere: sizes 1, 2, .. in turn, each with a certificate, as cuts.2.cert",
    "--seconds NUMBER": "after how many seconds no further layer is begun, and the running one is interrupted",
}
# The words of the command itself, which come in place of a verb or before it; and those that it has in the repository alone.
OWN = {
    "--help": "this text; --help VERB: a verb's options, one by one",
    "--version": "the version, the commit, the kit, and whether the program was proved here",
    "--explain": "before the arguments of a run: explains a refusal on standard error, as is done on a terminal",
    "--exact": "before the arguments of a run: passes all of them on as they are, and explains nothing",
}
OF_REPOSITORY = {
    "--prove": "proves and builds the programs here, by the kit's command rt",
    "--unproved": "before the arguments of a run: compiles and runs the program without any proof",
    "--install": "installs the programs, a manual page and completions below a folder: --install PREFIX",
}
EXAMPLE = """  cd {folder}
  {command} analyse --model model.smv --faults faults.fei --top crash --depth 40 \\
    --extended /tmp/extended.smv --cert /tmp/cuts.cert
  {command} check --model model.smv --faults faults.fei --top crash --cert /tmp/cuts.cert
"""
STATUSES = """Exit status: 0 done, complete; 1 done, but only up to the depth; 2 to 6, 9, 10 refused, in one line with the place;
7 a file or standard output failed; 8 out of memory; 11 an argument is not text; 70 there is no program to run.
Of lint: 0 no warning, 1 warnings.
Of show and diff: 0 shown, or no difference; 1 the reports differ; 2 wrong arguments; 3 a file is no report; 4 there is no such file."""


def words_of(verb):
    """Returns the options of a verb as the help has them."""
    return {**VERBS, **OWN_VERBS, **CERTIFIED}[verb][1]


def options_of(verb):
    """Returns the options of a verb, each with what its value is."""
    words = words_of(verb).replace("[", "").replace("]", "").split()
    return dict(zip(words[::2], words[1::2]))


def file_options():
    """Returns the options whose values are names of files."""
    return {option for verb in VERBS for option, value in options_of(verb).items() if value == "FILE"}


def short_usage(verb):
    """Returns the short form of a verb: files, what must be given, and in brackets what may be left out."""
    free = {**DEFAULTS.get(verb, {}), **BESIDE.get(verb, {})}
    if verb in ("orders", "check-orders"):
        free = {**free, "--first": "", "--second": ""}
    left = {it: value for it, value in options_of(verb).items() if it not in PLAIN[verb]}
    needed = [f"{it} {value}" for it, value in left.items() if it not in free and f"[{it}" not in words_of(verb)]
    others = [f"[{it} {value}]" for it, value in left.items() if f"{it} {value}" not in needed]
    return " ".join([*(it[2:].upper() for it in PLAIN[verb]), *needed, *others])


def short_options(verb):
    """Returns the options that the short form of a verb has beside its own, each with what its value is."""
    left_out = {*(() if verb in SHOWN else ("--full",)), *(() if verb in WRITES else ("--force",)), *(("--format",) if verb in OWN_VERBS else ()),
                *(() if verb in SEARCHING else ("--quiet",))}
    more = {"odds": {"--cert": "FILE"}, "analyse": {"--tops": "FILE", "--layers": None, "--seconds": "NUMBER"}}.get(verb, {})
    return {**more, **{it: value for it, value in SHORT.items() if it not in left_out}}


def short_help(verb, name):
    """Returns the help on the short form of a verb: its words, what is left out, and the further options."""
    left = {**DEFAULTS.get(verb, {}), **{it: f"MODEL{end}" for it, end in BESIDE.get(verb, {}).items()}}
    free = ", ".join(f"{it} {value}" for it, value in left.items())
    shown = "".join(f"  {word:23} {means}\n" for word, means in SHORT_WORDS.items() if word.split()[0] in short_options(verb))
    shown = shown.replace(SHORT_WORDS["--format FORM"], f"{SHORT_WORDS['--format FORM']}:\n{' ' * 26}{', '.join(forms_of(verb))}")
    return (f"  {name} {verb} {short_usage(verb)}\n" + (f"      where left out: {free}\n" if free else "")
            + ("      --top @FILE has the event of a file\n" if "--top" in options_of(verb) else "") + f"{shown}\nThe exact form, for scripts:\n\n")


def forms_of(verb):
    """Returns the forms in which the answer to the short form can be shown."""
    return (*FORMS, "exact") if verb in SHOWN else ("text", "exact")


def wrapped(text, indent):
    """Returns a list of options as lines of at most some hundred columns, each option with its value."""
    parts, lines = text.replace(" --", "\0--").replace(" [--", "\0[--").split("\0"), [""]
    for part in parts:
        if lines[-1] and len(lines[-1]) + len(part) > 96:
            lines.append("")
        lines[-1] += (" " if lines[-1] else "") + part
    return "".join(f"{indent}{line}\n" for line in lines)


def help_text(name, manual, folder):
    """Returns the help, for a command of this name with the manual at that place, and the example's files in that folder."""
    verbs = "".join(f"  {verb:13} {does}\n{wrapped(options, ' ' * 16)}" for verb, (does, options) in {**VERBS, **OWN_VERBS, **SHOWING}.items())
    words = OWN if os.path.isabs(folder) else {**OWN, **OF_REPOSITORY}
    own = "".join(f"  {word:13} {means}\n" for word, means in words.items())
    layers = f"  {name} analyse {LAYERS} ..   the arguments of analyse but --size: sizes in turn\n"
    example = EXAMPLE.format(folder=folder, command="../../xsap" if name == "./xsap" else name)
    return (
        f"{name} extends SMV models with faults, and finds and certifies the minimal cut sets of a top event.\n\n"
        f"  {name} analyse MODEL FAULTS --top EXPRESSION\n"
        f"  {name} VERB FILE .. --OPTION ..    the short form: files as plain arguments, defaults, and answers with names (--help VERB)\n"
        f"  {name} VERB --OPTION VALUE ..      the exact form: the options in any order, each value a word of its own\n"
        f"{layers}  {name} show FILE, {name} diff OLD NEW\n\n"
        f"{verbs}\n{own}\nAn example{'' if os.path.isabs(folder) else ', at the top of the repository'}:\n{example}\n"
        f"{STATUSES}\nThe manual: {manual}\n"
    )


def help_of(verb, name, manual):
    """Returns the help of one verb."""
    if verb in SHOWING:
        does, words = SHOWING[verb]
        meant = "".join(f"  {word:23} {means}\n" for word, means in SHOWING_WORDS.items() if word in words)
        cert = f"  {name} {verb} {short_usage(verb)}\n      {CERTIFIED[verb][0]}\n\n" if verb in CERTIFIED else ""
        return f"{name} {verb} {does}.\n\n  {name} {verb} {words}\n{cert}\n{meant}\nThe manual: {manual}\n"
    if verb in OWN_VERBS:
        return f"{name} {verb} {OWN_VERBS[verb][0]}.\n\n{short_help(verb, name).partition('The exact form')[0]}The manual: {manual}\n"
    options = "".join(f"  {option + ' ' + value:23} {OPTIONS[option]}\n" for option, value in options_of(verb).items())
    free = "".join(f"  ({option.strip('[]')} may be left out)\n" for option in VERBS[verb][1].split() if option.startswith("["))
    layers = "".join(f"  {word:23} {means}\n" for word, means in LAYERS_WORDS.items()) if verb == "analyse" else ""
    layers = f"\n  {name} analyse {LAYERS} .. runs it for sizes in turn:\n{layers}" if layers else ""
    exact = f"  {name} {verb}\n{wrapped(VERBS[verb][1], ' ' * 4)}\n{options}{free}"
    return f"{name} {verb} {VERBS[verb][0]}.\n\n{short_help(verb, name)}{exact}{layers}\nThe manual: {manual}\n"


def nearest(word):
    """Returns the verb that a word may have meant, or None."""
    import difflib

    return next(iter(difflib.get_close_matches(word.lower(), {**VERBS, **OWN_VERBS, **SHOWING}, 1, 0.6)), None)
