"""What people write in other dialects of SMV, and what to write here: a row for each, with an example, the refusal of it and a rewriting.

A row is found by the refusal and by the text around its place: for a byte the text before it, a NUL, and the text from there on; for an item the
word of its section, `boolean` where a boolean is named in it, a NUL, and its text, or for `flat 8` the text from the name on. tools/dialects
runs each example and each rewriting through the program, and looks that the note is told. Expressions of instructions and of top events have
the same notes.
"""
import re

MODULE = "MODULE main\n"


class Row:
    """A row: its name, the keys of its refusals, the pattern, the note, an example with the line of its refusal, and a rewriting."""

    def __init__(self, name, keys, pattern, note, example, line, rewritten):
        self.name, self.pattern, self.note, self.line = name, re.compile(pattern, re.S), note, line
        self.keys = [tuple(int(it) if it.isdigit() else it for it in key.split()) for key in keys.split(", ")]
        self.example, self.rewritten = (it if it.startswith("MODULE") else MODULE + it for it in (example, rewritten))


LEFT_OUT, TOKEN, BYTE = "model parse 4", "model parse 1", "model lex 1"
ROWS = [
    Row("1 as the last condition", "model type 2, model type 8", r"(?:case|;)\s*1\s*:(?!=)",
        "write the last condition as TRUE: `TRUE : e;` and not `1 : e;`",
        "VAR n : 0..3;\nDEFINE d := case n = 0 : 2; 1 : n; esac;\n", "refused model type 2 at 3",
        "VAR n : 0..3;\nDEFINE d := case n = 0 : 2; TRUE : n; esac;\n"),
    Row("a case without TRUE", "model type 8", r"\bcase\b", "a case ends with `TRUE : e;`: make the last condition TRUE, or add such a branch",
        "VAR n : 0..3;\nDEFINE d := case n < 2 : 1; n >= 2 : 2; esac;\n", "refused model type 8 at 3",
        "VAR n : 0..3;\nDEFINE d := case n < 2 : 1; TRUE : 2; esac;\n"),
    Row("a boolean as a number", "model type 1", r"boolean\0[^;]*(?::=|=)[^;]*\b[01]\b",
        "a boolean is TRUE or FALSE and no number: write FALSE for 0 and TRUE for 1",
        "VAR on : boolean;\nASSIGN init(on) := 0;\n", "refused model type 1 at 3", "VAR on : boolean;\nASSIGN init(on) := FALSE;\n"),
    Row("symbols and numbers in one type", "model type 7", r"\{", "take numbers alone or symbols alone, as `{a, zero}` for `{a, 0}`",
        "VAR x : {a, 0};\nASSIGN init(x) := 0;\n", "refused model type 7 at 2", "VAR x : {a, zero};\nASSIGN init(x) := zero;\n"),
    Row("FAIRNESS", LEFT_OUT, r"\0(?:FAIRNESS|JUSTICE|COMPASSION)\b",
        "leave the section out: traces are finite here, and nothing is asked of what must happen in the end",
        "VAR x : boolean;\nFAIRNESS x\n", "refused model parse 4 at 29", "VAR x : boolean;\n"),
    Row("process", LEFT_OUT, r"\0process\b",
        "all instances step together: give each the input that says whose turn it is, and have it keep its values where it isn't its own",
        "MODULE P\nVAR x : boolean;\nASSIGN next(x) := !x;\nMODULE main\nVAR a : process P;\n", "refused model parse 4 at 68",
        "MODULE P(runs)\nVAR x : boolean;\nASSIGN next(x) := case runs : !x; TRUE : x; esac;\n"
        "MODULE main\nIVAR turn : {one, two};\nVAR a : P(turn = one);\n"),
    Row("self", LEFT_OUT, r"\0self\b", "give the instance what it needs of its names, each as an actual",
        "MODULE M(o)\nMODULE main\nVAR x : boolean;\nm : M(self);\n", "refused model parse 4 at 47",
        "MODULE M(x)\nMODULE main\nVAR x : boolean;\nm : M(x);\n"),
    Row("toint", LEFT_OUT, r"\0toint\b", "write `(b ? 1 : 0)` for `toint(b)` of a boolean b",
        "VAR b : boolean;\nDEFINE d := toint(b) + 1;\n", "refused model parse 4 at 41", "VAR b : boolean;\nDEFINE d := (b ? 1 : 0) + 1;\n"),
    Row("count", LEFT_OUT, r"\0count\b", "write a sum: `(a ? 1 : 0) + (b ? 1 : 0)` for `count(a, b)`",
        "VAR a : boolean;\nb : boolean;\nDEFINE d := count(a, b) > 1;\n", "refused model parse 4 at 54",
        "VAR a : boolean;\nb : boolean;\nDEFINE d := (a ? 1 : 0) + (b ? 1 : 0) > 1;\n"),
    Row("bool as a type", LEFT_OUT, r":\s*\0bool\b", "the type is called boolean", "VAR x : bool;\n", "refused model parse 4 at 20",
        "VAR x : boolean;\n"),
    Row("bool of a number", LEFT_OUT, r"\0bool\s*\(", "write `(n != 0)` for `bool(n)`",
        "VAR n : 0..1;\nDEFINE d := bool(n);\n", "refused model parse 4 at 38", "VAR n : 0..1;\nDEFINE d := (n != 0);\n"),
    Row("word", LEFT_OUT, r"\0(?:word|unsigned|signed)\b", "write a range, as `0..255` for `unsigned word[8]`, with its sums cut by mod",
        "VAR w : word[8];\n", "refused model parse 4 at 20", "VAR w : 0..255;\nASSIGN next(w) := (w + 1) mod 256;\n"),
    Row("array", LEFT_OUT, r"\0array\b", "declare a variable for each place: `x0 : boolean; x1 : boolean;`",
        "VAR x : array 0..1 of boolean;\n", "refused model parse 4 at 20", "VAR x0 : boolean;\nx1 : boolean;\n"),
    Row("integer", LEFT_OUT, r"\0(?:integer|real)\b", "give the variable a range, as `0..100`",
        "VAR n : integer;\n", "refused model parse 4 at 20", "VAR n : 0..100;\n"),
    Row("ISA", LEFT_OUT, r"\0ISA\b", "write the sections of that module here", "MODULE A\nVAR x : boolean;\nMODULE main\nISA A\n",
        "refused model parse 4 at 38", "VAR x : boolean;\n"),
    Row("max", TOKEN, r"\bmax\s*\0\(", "there are no functions: write `(a > b ? a : b)` for `max(a, b)`",
        "VAR x : 0..3;\nDEFINE d := max(x, 2);\n", "refused model parse 1 at 41", "VAR x : 0..3;\nDEFINE d := (x > 2 ? x : 2);\n"),
    Row("min", TOKEN, r"\bmin\s*\0\(", "there are no functions: write `(a < b ? a : b)` for `min(a, b)`",
        "VAR x : 0..3;\nDEFINE d := min(x, 2);\n", "refused model parse 1 at 41", "VAR x : 0..3;\nDEFINE d := (x < 2 ? x : 2);\n"),
    Row("abs", TOKEN, r"\babs\s*\0\(", "there are no functions: write `(a < 0 ? -a : a)` for `abs(a)`",
        "VAR x : -3..3;\nDEFINE d := abs(x);\n", "refused model parse 1 at 42", "VAR x : -3..3;\nDEFINE d := (x < 0 ? -x : x);\n"),
    Row("a range up to a name", TOKEN, r"\.\.\s*\0[A-Za-z_(]|:\s*[A-Za-z_]\w*\s*\0\.\.",
        "the ends of a range are numbers: write `0..3` for `0..N` with N of 3",
        "DEFINE N := 3;\nVAR x : 0..N;\n", "refused model parse 1 at 38", "DEFINE N := 3;\nVAR x : 0..3;\n"),
    Row("several variables at once", TOKEN, r"(?:;|VAR)\s*[A-Za-z_]\w*\s*\0,", "declare each by itself: `x : boolean; y : boolean;`",
        "VAR x, y : boolean;\n", "refused model parse 1 at 17", "VAR x : boolean;\ny : boolean;\n"),
    Row("= for :=", TOKEN, r"(?:ASSIGN|DEFINE|;)\s*(?:(?:init|next)\s*\([^()]*\)|[\w.#$-]+)\s*\0=(?!=)",
        "an assignment and a definition are written with `:=`",
        "VAR x : boolean;\nASSIGN next(x) = !x;\n", "refused model parse 1 at 44", "VAR x : boolean;\nASSIGN next(x) := !x;\n"),
    Row(":= for =", TOKEN, r"(?:INIT|INVAR|TRANS)\b[^;]*\0:=", "INIT, INVAR and TRANS have a condition: write `=`, or put the assignment into ASSIGN",
        "VAR x : boolean;\nTRANS next(x) := !x\n", "refused model parse 1 at 43", "VAR x : boolean;\nTRANS next(x) = !x\n"),
    Row("==", TOKEN, r"=\0=", "equality is written `=`", "VAR x : 0..3;\nDEFINE d := x == 3;\n", "refused model parse 1 at 41",
        "VAR x : 0..3;\nDEFINE d := x = 3;\n"),
    Row("&&", TOKEN, r"&\0&", "`and` is written `&`", "VAR x : boolean;\nDEFINE d := x && !x;\n", "refused model parse 1 at 44",
        "VAR x : boolean;\nDEFINE d := x & !x;\n"),
    Row("||", TOKEN, r"\|\0\|", "`or` is written `|`", "VAR x : boolean;\nDEFINE d := x || !x;\n", "refused model parse 1 at 44",
        "VAR x : boolean;\nDEFINE d := x | !x;\n"),
    Row("// or /* as a comment", TOKEN, r"\0//|\0/\*|/\0[/*]", "a comment is `--` up to the end of the line, or `/--` up to `--/`",
        "VAR x : boolean; // the lamp\n", "refused model parse 1 at 29", "VAR x : boolean; -- the lamp\n"),
    Row("%", BYTE, r"\0%", "the remainder is written `mod`", "VAR x : 0..3;\nDEFINE d := x % 2;\n", "refused model lex 1 at 40",
        "VAR x : 0..3;\nDEFINE d := x mod 2;\n"),
    Row("quotes", BYTE, r"\0[\"']", "a name stands without quotes", "VAR x : {\"red\", \"green\"};\n", "refused model lex 1 at 21",
        "VAR x : {red, green};\n"),
    Row("true and false", "model flat 8", r"\0(?:true|false|True|False)\b", "the truth values are written TRUE and FALSE",
        "VAR x : boolean;\nASSIGN init(x) := true;\n", "refused model flat 8 at 3", "VAR x : boolean;\nASSIGN init(x) := TRUE;\n"),
    Row("next in DEFINE", "model flat 12", r"DEFINE[^\0]*\0",
        "put the condition itself where the definition is used, in TRANS or the value of a next assignment",
        "VAR x : boolean;\nDEFINE rises := !x & next(x);\nTRANS rises | x\n", "refused model flat 12 at 3",
        "VAR x : boolean;\nTRANS !x & next(x) | x\n"),
    Row("init of another module's variable", "model flat 9", r"ASSIGN[^\0]*\0(?:init|next)?\s*\(?\s*[\w#$-]+\s*\.",
        "a module assigns its own variables alone: put the assignment there, or write a condition, as `INIT m.x = e`",
        "MODULE M\nVAR x : boolean;\nMODULE main\nVAR m : M;\nASSIGN init(m.x) := TRUE;\n", "refused model flat 9 at 5",
        "MODULE M\nVAR x : boolean;\nMODULE main\nVAR m : M;\nINIT m.x = TRUE\n"),
    Row("a set in a DEFINE", "model type 3", r"DEFINE[^\0]*\0[^;]*:=\s*\{",
        "a definition has one value: put the set where it is assigned, or make a variable of it",
        "VAR x : 0..3;\nDEFINE low := {0, 1};\nASSIGN next(x) := low;\n", "refused model type 3 at 3", "VAR x : 0..3;\nASSIGN next(x) := {0, 1};\n"),
]


def around(seen, told):
    """Returns the text by which a row is found."""
    item = seen.item()
    if item is not None:
        declared = seen.model().declared.get(item.module, {})
        has_boolean = any(it.text in declared and [one.text for one in declared[it.text].tokens[2:3]] == ["boolean"] for it in item.tokens)
        begin = told.at if seen.part == "flat" and seen.number == 8 and told.at is not None else item.tokens[0].at
        return f"{item.kind}{' boolean' if has_boolean else ''}\0{seen.text[begin:item.tokens[-1].end]}"
    if told.at is None or seen.part not in ("lex", "parse"):
        return None
    return f"{seen.text[max(told.at - 80, 0):told.at]}\0{seen.text[told.at:told.at + 80]}"


def notes_of(seen, told):
    """Returns the notes of the first row that a refusal is of."""
    text = around(seen, told) if seen.subject in ("model", "faults", "top") else None
    key = ("model", seen.part, seen.number)
    found = text and next((it for it in ROWS if key in it.keys and it.pattern.search(text)), None)
    return [found.note] if found else []
