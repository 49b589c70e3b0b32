"""What the tools know of the models of the field in bench/: their names by families, and the words with which one is analysed."""
import json
import pathlib
import re

BENCH = pathlib.Path(__file__).resolve().parent.parent / "bench"


def names():
    """Returns the names of the models, those of one family from the smallest on."""
    return sorted((it.stem for it in BENCH.glob("*.smv")), key=lambda it: (family_of(it), _bytes(it), it))


def family_of(name):
    """Returns the family of a model: what stands before its sizes."""
    return re.match("[a-z]+", name)[0]


def families():
    """Returns the names of the models by their families."""
    found = {}
    for name in names():
        found.setdefault(family_of(name), []).append(name)
    return found


def texts(name):
    """Returns the texts of a model, of its instructions and of its top event."""
    smv, fei, top = ((BENCH / f"{name}.{it}").read_text() for it in ("smv", "fei", "top"))
    return smv, fei, top.strip()


def words(name, verb, folder):
    """Returns the words with which a model is analysed to its end, or its certificate checked. Files go into a folder."""
    given = ["--model", f"{BENCH}/{name}.smv", "--faults", f"{BENCH}/{name}.fei", "--top", texts(name)[2]]
    if verb == "check":
        return ["check", *given, "--cert", f"{folder}/c"]
    return ["analyse", *given, "--depth", "100000", "--extended", f"{folder}/x", "--cert", f"{folder}/c"]


def known():
    """Returns the minimal cut sets of the models of which an independent program found them, by name."""
    return {it["name"]: it["sets"] for it in map(json.loads, (BENCH / "known.jsonl").read_text().splitlines())}


def _bytes(name):
    return (BENCH / f"{name}.smv").stat().st_size
