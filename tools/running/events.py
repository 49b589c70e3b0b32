"""Runs an analysis of several top events in one search, and shows its reports as one document.

  analyse model.smv faults.fei --tops FILE

The program is xsap_tops. It reads the words of `analyse`, with the file of the events after --top and after --cert the beginning of the names of
the certificates, and prints a line `event N` before each report. What is looked at before the run, told after it and removed where it fails, is
as for one event; a refusal is told as of `fmea`, which reads the same file. A report is shown by xsap_show as for one event, and the parts are
put together here.
"""
import html
import json
import os
import re
import subprocess

from running import answering, explaining, kept, outputs, programs, smv, watching
from running.short import Wrong, printable, shown
from running.telling import text_of

PROGRAM = kept.PROGRAMS[4]
FORMS = ("text", "csv", "json", "markdown", "html", "exact")
MOST = 64
EVENT = re.compile(rb"(?m)^event (\d+)\n")
# What of a page names a place of it.
PLACES = re.compile(r'\b(id|aria-labelledby|aria-describedby)="([^"]*)"')


def prepare(asked):
    """Looks at what is asked for beside the events, and gives the places of the exact form to the file of the events and its certificates."""
    for option, holds in (("--top", asked.values), ("--layers", asked.own), ("--seconds", asked.own)):
        if option in holds:
            raise Wrong(f"--tops has the events, and each is analysed once, so {option} is not for it")
    form = asked.own.get("--format", "text")
    if form not in FORMS:
        raise Wrong(f"--format of several events is {', '.join(FORMS)}, and not {shown(form)}: --top gives one event")
    asked.values["--top"] = asked.own["--tops"]


def stem_of(name):
    """Returns the beginning of the names of certificates: of `cuts.cert` that of `cuts.1.cert`, `cuts.2.cert` and so on."""
    return name.removesuffix(".cert") + "."


def events_of(name):
    """Returns the texts of the events of a file, each on one line and without comments, as far as they can be read here."""
    return [" ".join(spelled(it.tokens).split()) for it in smv.parts_of(smv.tokens_of(text_of(name)), "top")][:MOST]


def spelled(tokens):
    """Returns the text of tokens, with a space where there is any blank between them."""
    text, end = "", None
    for it in tokens:
        text, end = text + (" " if end not in (None, it.at) else "") + it.text, it.end
    return text.encode("latin-1").decode(errors="replace")


def written(asked):
    """Returns the files that a run may write, by what they are."""
    stem = stem_of(asked.values["--cert"])
    certs = {f"--cert {at}": f"{stem}{at}.cert" for at in range(1, len(events_of(asked.own["--tops"])) + 1)}
    return {"--extended": asked.values["--extended"], **certs}


def run(asked):
    """Has the program analyse the events, shows the reports as one document, and returns the status."""
    show = None if answering.form_of(asked) == "exact" else programs.find(answering.SHOW)
    watch = watching.watch_of(programs.find(kept.PROGRAMS[0]), asked)
    words, before, status = words_of(asked), outputs.states_of(asked), None
    try:
        status, report = answering.captured(programs.find(PROGRAM), words, asked, watch)
    finally:
        if status not in (0, 1):
            outputs.remove(before)
    if status in (0, 1):
        parts = parts_of(report)
        tell_written(asked, before, parts)
        return answering.put(asked.own.get("--output"), document(show, asked, report, parts), status)
    if status in explaining.REFUSED:
        line = report.partition(b"\n")[0].decode(errors="replace")
        raise answering.Refused(line, words if line.startswith("refused words") else table_words(asked), status)
    return answering.failed(asked, status)


def words_of(asked):
    """Returns the words of the program."""
    words = asked.exact()
    words[words.index("--cert") + 1] = stem_of(asked.values["--cert"])
    return words


def table_words(asked):
    """Returns the words with which fmea reads the same files, which tell a refusal."""
    value = asked.values
    return ["fmea", "--model", value["--model"], "--faults", value["--faults"], "--tops", value["--top"], "--size", "1", "--depth", value["--depth"]]


def parts_of(report):
    """Returns the report of each event, by its number."""
    found = EVENT.split(report)
    return {int(at): it for at, it in zip(found[1::2], found[2::2])}


def tell_written(asked, before, parts):
    """Tells which files were written, and which events have no certificate."""
    files, found = asked.written(), outputs.changed(before)
    named = [f"{explaining.printable(files['--extended'])} (the extension)"]
    named += [f"{explaining.printable(name)} (of event {option.split()[1]})" for option, name in files.items() if name in found and "cert" in option]
    programs.tell(f"wrote {', '.join(named[:-1])} and {named[-1]}" if named[1:] else f"wrote {named[0]}")
    for at, it in parts.items():
        cert = files.get(f"--cert {at}")
        if re.search(rb"(?m)^bounded ", it):
            stays = f"; {explaining.printable(cert)} is of an earlier run" if cert and os.path.isfile(cert) else ""
            programs.tell(f"no certificate of event {at} was written: the answer is bounded{stays}")


def document(show, asked, report, parts):
    """Returns the reports in the form that is asked for, as one document, or as they were printed where they can't be shown."""
    form, events = answering.form_of(asked), events_of(asked.own["--tops"])
    if form == "exact":
        return report
    done = {}
    for at, it in parts.items():
        done[at] = shown_part(show, asked, it)
        if done[at] is None:
            return report
    told = [(at, events[at - 1] if at <= len(events) else "", it) for at, it in done.items()]
    return MAKES[form](told).encode()


def shown_part(show, asked, report):
    """Returns the report of one event in the form that is asked for, or None where the program does not show it."""
    words = [show, "show", "-", "--format", answering.form_of(asked), *(["--full"] if "--full" in asked.own else [])]
    try:
        done = subprocess.run(words, input=report, stdout=subprocess.PIPE)
    except OSError as error:
        programs.tell(f"{show} can't be run, so these are the reports as the program printed them: {error.strerror}")
        return None
    if done.returncode:
        programs.tell(f"{answering.SHOW} ended with {done.returncode}, so these are the reports as the program printed them")
        return None
    return done.stdout.decode()


def as_text(told):
    return "\n".join(f"event {at}: {printable(event)}\n\n{it}" for at, event, it in told)


def as_csv(told):
    """Returns one table, with the number of the event before each row."""
    rows = [f"{at},{row}" for at, _, it in told for row in it.split("\n")[1:-1]]
    return "".join(f"{it}\n" for it in ["event,set,size,faults", *rows])


def as_json(told):
    """Returns an array with an element for each event."""
    parts = (f'{{"event":{at},"top":{json.dumps(event, ensure_ascii=False)},"analysis":{it.rstrip()}}}' for at, event, it in told)
    return f"[{','.join(parts)}]\n"


def as_markdown(told):
    return "\n".join(f"## Event {at}: `{printable(event)}`\n\n{it}" for at, event, it in told)


def as_html(told):
    """Returns one page, with a section for each event."""
    head, sections = "", []
    for at, event, it in told:
        head, body = it.split("<main>\n<h1>Minimal cut sets</h1>\n")
        body = body.partition("</main>")[0].replace("<h2", "<h3").replace("</h2>", "</h3>")
        body = PLACES.sub(lambda found: f'{found[1]}="{" ".join(f"event-{at}-{one}" for one in found[2].split())}"', body)
        title = f'<h2 id="event-{at}">Event {at}: <code>{html.escape(printable(event))}</code></h2>\n'
        sections.append(f'<section aria-labelledby="event-{at}">\n{title}{body}</section>\n')
    return (f"{head or NO_EVENT}<main>\n<h1>Minimal cut sets of {len(told)} top event{'' if len(told) == 1 else 's'}</h1>\n{''.join(sections)}"
            "</main>\n</body>\n</html>\n")


NO_EVENT = '<!DOCTYPE html>\n<html lang="en">\n<head>\n<meta charset="utf-8">\n<title>Minimal cut sets</title>\n</head>\n<body>\n'
MAKES = {"text": as_text, "csv": as_csv, "json": as_json, "markdown": as_markdown, "html": as_html}
