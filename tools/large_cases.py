"""The recipes of the large cases: models near the limits of docs/MANUAL.md, with the answers that follow from how they are made.

`CASES` has each case by its name: a function that returns the files of the case and its steps, as tools/large_texts.py makes them.
Most models are units that nothing takes down but a fault, so that the minimal cut sets of an event over units can be read off the event.
"""
import functools
import random
import re

from large_texts import (
    ALL, ANY, CERTIFICATE_BYTES, DEEP, HELD_COST, HIGHEST, LAMP, LOST, MODEL_BYTES, MOST_BITS, MOST_COST, MOST_FAULTS, MOST_MODES,
    MOST_TOPS, SLICE_COST, STUCK, TOP_BYTES, TRACE_BYTES, analyse, becomes, causes, check, check_causes, check_orders, definitions, downs,
    each, each_line, edited, extend, faults_said, filled, fmea, low, make, odds, orders, rename, replay, report, sets_said, singles,
    slice_text, unit_names, units, woven, wrote)

CASES = {}


def case(name):
    """Puts a recipe among the cases."""
    def put(recipe):
        CASES[name] = recipe
        return recipe

    return put


# The limits on what a model has.


def chain_modules(count):
    """Modules of which each holds the one before it, and `main`; each negates what it holds. The first is the innermost."""
    first = ("M1", "  v : boolean;\nASSIGN\n  v := FALSE;\n")
    others = [(f"M{i}", f"  below : M{i - 1};\n  v : boolean;\nASSIGN\n  v := (!below.v);\n") for i in range(2, count + 1)]
    return [first, *others]


@case("60 modules, each in the next")
def modules():
    inner, flip = chain_modules(59), ("flip", "Permanent Inverted", "", "(!v#nominal)", "")
    main = "MODULE main\nVAR\n  top : M59;\n"
    names = ["top" + ".below" * (59 - i) + f".S{i}.flip" for i in range(59, 0, -1)]
    model = "".join(f"MODULE {name}\nVAR\n{text}" for name, text in inner) + main
    own = lambda text: text.replace("  v :=", "  v#nominal :=")
    made = "".join(f"MODULE {name}\nVAR\n{own(text)}{woven(f'S{i}', 'v', 'boolean', [flip])}" for i, (name, text) in enumerate(inner, 1))
    faults = "".join(f"EXTENSION OF MODULE M{i}\n{slice_text(f'S{i}', 'v', [flip])}" for i in range(1, 60))
    return {"m": model, "f": faults}, [
        extend(0, faults_said(names) + "extended\n"), wrote("x", made + main), analyse("top.v", 0, report(names, singles(59))),
        check("!top.v", 6, "not accepted line 5 rule 6\n")]


def relays(count, fuses):
    """Relays in series, with fuses at some places."""
    feed = lambda i: f"r{i - 1}.out" if i > 1 else "TRUE"
    made = "".join(f"  r{i} : {'Fuse' if i in fuses else 'Relay'}({feed(i)});\n" for i in range(1, count + 1))
    body = "(feed)\nVAR\n  out : boolean;\nASSIGN\n  out := feed;\n"
    return f"MODULE main\nVAR\n{made}MODULE Relay{body}MODULE Fuse{body}"


@case("1,000 instances")
def instances():
    fuses = (1, 500, 999)
    blown = "EXTENSION OF MODULE Fuse\n  SLICE F AFFECTS out WITH\n    MODE blown : Permanent StuckAt(FALSE);\n"
    names = [f"r{i}.F.blown" for i in fuses]
    return {"m": relays(999, fuses), "f": blown}, [
        extend(0, faults_said(names) + "extended\n"), analyse("!r999.out", 0, report(names, singles(3))),
        analyse("r999.out & !r1.out", 0, report(names, [])), analyse("!r999.out", 1, report(names, singles(3), "bounded 1 bits 1008\n"), 1),
        becomes("m", relays(1000, fuses)), extend(3, "refused model flat 14 at 1001\n")]


def wires(count):
    """Wires of which each has the value of the one before it."""
    return f"MODULE main\nVAR\n{each_line('  v@ : boolean;', count)}ASSIGN\n  v1 := FALSE;\n" + "".join(
        f"  v{i} := v{i - 1};\n" for i in range(2, count + 1))


@case("2,000 variables")
def variables():
    live, names = STUCK.replace("x", "v1"), ["S.on"]
    return {"m": wires(1998), "f": live}, [
        extend(0, faults_said(names) + "extended\n"), analyse("v1998", 0, report(names, [[1]])), analyse("v1998 & !v999", 0, report(names, [])),
        becomes("m", wires(1999)), extend(4, "refused faults flat 14 at 0\n"), becomes("f", ""),
        analyse("v1999", 0, report([], [])), becomes("m", wires(2000)), extend(0, "faults 0\nextended\n"),
        becomes("m", wires(2001)), extend(3, "refused model flat 14 at 2002\n")]


@case("2,000 variables with no first moment")
def no_first_moment():
    return {"m": wires(2000) + "INIT\n  v2000;\n", "f": ""}, [analyse("v2000", 0, report([], [], "no first moment\ncomplete\n"))]


def wide(count, more=""):
    """Numbers of 31 bits that stay 0, beside 32 units of 4 bits with their faults."""
    kept = "ASSIGN\n" + each("  init(n@) := 0;\n  next(n@) := n@;\n", count)
    return units(32, each_line("  n@ : 0..2147483647;", count) + more + kept)


@case("4,096 bits of a state")
def bits():
    assert 128 * 31 + 32 * 4 == MOST_BITS
    names, top = unit_names(32), "u1.down & u32.down | n64 = 7"
    return {"m": wide(128), "f": LOST}, [
        extend(0, faults_said(names) + "extended\n"), analyse(top, 0, report(names, [[1, 32]])),
        analyse(top, 1, report(names, [[1, 32]], "bounded 1 bits 4096\n"), 1),
        becomes("m", wide(128, "  c : boolean;\n")), extend(4, "refused faults type 9 at 0\n"),
        becomes("m", wide(128, each_line("  c@ : boolean;", 97))), extend(3, "refused model type 9 at 0\n")]


@case("500 inputs, 500 latches, 400 frozen numbers")
def inputs():
    latched = "ASSIGN\n  x := FALSE;\n" + each("  init(s@) := FALSE;\n  next(s@) := s@ | i@;\n", 500)
    model = f"MODULE main\nIVAR\n{each_line('  i@ : boolean;', 500)}VAR\n  x : boolean;\n{each_line('  s@ : boolean;', 500)}FROZENVAR\n" \
        f"{each_line('  f@ : 0..3;', 400)}{latched}DEFINE\n  set := {each('s@', 500, ALL)};\n  three := {each('f@ = 3', 400, ALL)};\n"
    return {"m": model, "f": STUCK}, [
        analyse("set & three & x", 0, report(["S.on"], [[1]])), analyse("set & three", 0, report(["S.on"], [[]])),
        analyse("set & three & f1 < 3", 0, report(["S.on"], []))]


# Expressions.


def shapes(height):
    """Expressions over x of this height, each with whether it is TRUE where x is FALSE and where x is TRUE."""
    more = height - 1
    return [
        ("!" * more + "x", more % 2 == 1, more % 2 == 0), (" & ".join(["x"] * height), False, True), (" -> ".join(["x"] * height), True, True),
        ("x ? x : " * more + "x", False, True), ("case x : TRUE; TRUE : " * more + "x" + "; esac" * more, False, True),
        ("0 = " + "- " * (more - 1) + "n", True, True), (" + ".join(["n"] * more) + " < 1", True, True), ("x = " * more + "x", more % 2 == 1, True)]


@case("expressions of height 1,000")
def heights():
    head = LAMP.replace("  x : boolean;\n", "  x : boolean;\n  n : 0..1;\n").replace("ASSIGN\n", "ASSIGN\n  n := 0;\n")
    defines = "DEFINE\n" + "".join(f"  d{i} := {text};\n" for i, (text, _, _) in enumerate(shapes(HIGHEST)))
    faulty = ALL.join(f"{'' if on else '!'}d{i}" for i, (_, _, on) in enumerate(shapes(HIGHEST)))
    sound = ALL.join(f"{'' if off else '!'}d{i}" for i, (_, off, _) in enumerate(shapes(HIGHEST)))
    steps = [analyse(faulty, 0, report(["S.on"], [[1]])), analyse(f"!({sound}) & !x", 0, report(["S.on"], []))]
    for text, _, _ in shapes(HIGHEST + 1):
        steps += [becomes("m", f"{head}DEFINE\n  d := {text};\n"), extend(3, "refused model parse 3 at 0\n")]
    return {"m": head + defines, "f": STUCK}, steps


@case("parentheses nested 1,000 times")
def nested():
    text = lambda depth: "(" * depth + "x" + ")" * depth
    model = lambda depth: f"{LAMP}DEFINE\n  d := {text(depth)};\nTRANS\n  next({text(depth)}) | TRUE;\n"
    return {"m": model(HIGHEST), "f": STUCK, "t": text(HIGHEST)}, [
        analyse(f"d & {text(HIGHEST)}", 0, report(["S.on"], [[1]])),
        analyse(text(HIGHEST + 1), 5, "refused top parse 3 at 0\n"), fmea(0, 0, "faults 1\nfault 1 S.on\ntops 1\ntop 1 complete\nrow : no\n"),
        becomes("t", text(HIGHEST + 1)), fmea(0, 5, "refused top parse 3 at 0\n"), becomes("m", model(HIGHEST + 1)),
        extend(3, "refused model parse 3 at 0\n")]


@case("guards, followed values and events of height 1,000")
def high_guards():
    model = LAMP.replace("  x : boolean;\n", "  x : boolean;\n  y : boolean;\n").replace("ASSIGN\n", "ASSIGN\n  y := FALSE;\n")
    signs = lambda height: "!" * (height - 1)
    faults = lambda guard, value: STUCK.replace(";", f" WHEN {signs(guard)}y;") \
        + f"  SLICE T AFFECTS y WITH\n    MODE as : Permanent Follows({signs(value)}x);\n"
    names = ["S.on", "T.as"]
    # (an odd number of signs: S may come where y is FALSE, and T makes y the opposite of x)
    return {"m": model, "f": faults(HIGHEST, HIGHEST)}, [
        extend(0, faults_said(names) + "extended\n"), analyse("x & y", 0, report(names, [])), analyse("!x & y", 0, report(names, [[2]])),
        analyse(f"{signs(HIGHEST)}x", 0, report(names, [[]])), analyse(f"{signs(HIGHEST)}!x", 5, "refused top parse 3 at 0\n"),
        becomes("f", faults(HIGHEST + 1, 1)), extend(4, "refused faults parse 3 at 0\n"),
        becomes("f", faults(1, HIGHEST + 1)), extend(4, "refused faults parse 3 at 0\n")]


@case("a model that costs 50,000")
def costs():
    model = lambda cost: LAMP + definitions(cost - HELD_COST)
    return {"m": model(MOST_COST), "f": ""}, [
        extend(0, "faults 0\nextended\n"), analyse("d1", 0, report([], [])), analyse("!d1", 0, report([], [[]])),
        becomes("m", model(MOST_COST + 1)), extend(3, "refused model type 9 at 0\n"), becomes("f", STUCK),
        becomes("m", model(MOST_COST - SLICE_COST)), extend(0, "faults 1\nfault 1 S.on\nextended\n"),
        analyse("d1", 0, report(["S.on"], [[1]])), analyse("d1 & !d9999", 0, report(["S.on"], [])),
        becomes("m", model(MOST_COST - SLICE_COST + 1)), extend(4, "refused faults type 9 at 0\n")]


@case("a top event that costs 50,000, and one of 65,536 bytes")
def top_costs():
    exact = "!" + low("x", MOST_COST // 2)
    above, padded = "!" + exact, "x" + " " * (TOP_BYTES - 1)
    assert len(above) <= TOP_BYTES
    return {"m": LAMP, "f": STUCK}, [
        analyse(exact, 0, report(["S.on"], [[]])), analyse(exact[1:], 0, report(["S.on"], [[1]])),
        analyse(above, 5, "refused top type 9 at 0\n"), analyse(padded, 0, report(["S.on"], [[1]])),
        analyse(padded + " ", 5, "refused top length 1 at 65536\n")]


@case("products of 31 bits")
def products():
    model = "MODULE main\nVAR\n  n : 0..46340;\nASSIGN\n  n := 46340;\nDEFINE\n" + each_line("  p@ := n * n;", 8)
    three = "EXTENSION OF MODULE main SLICE S AFFECTS n WITH MODE low : Permanent StuckAt(3);"
    every = lambda value: each(f"p@ = {value}", 8, ALL)
    return {"m": model, "f": three}, [
        analyse(every(9), 0, report(["S.low"], [[1]])), analyse(every(46340 * 46340), 0, report(["S.low"], [[]])),
        analyse("p1 != p8 | p2 = 10", 0, report(["S.low"], []))]


@case("a variable of 2,000 symbols")
def symbols():
    model = f"MODULE main\nVAR\n  x : {{{each('s@', 2000, ', ')}}};\nASSIGN\n  x := s1;\n"
    faults = "EXTENSION OF MODULE main SLICE S AFFECTS x WITH MODE last : Permanent StuckAt(s2000); MODE wild : Transient Random;"
    names = ["S.last", "S.wild"]
    return {"m": model, "f": faults}, [
        extend(0, faults_said(names) + "extended\n"), analyse("x = s2000", 0, report(names, [[1], [2]])),
        analyse("x = s1999", 0, report(names, [[2]]))]


# Faults and instructions.


@case("256 faults of 256 units")
def faults():
    names, count = unit_names(MOST_FAULTS), MOST_FAULTS
    everyone = range(1, count + 1)
    return {"m": units(count), "f": LOST}, [
        extend(0, faults_said(names) + "extended\n"), analyse(downs(everyone, ANY), 0, report(names, singles(count))),
        becomes("m", units(count + 1)), extend(4, "refused faults weave 9 at 3\n")]


@case("certificates of size 256 and less")
def sizes():
    names, count = unit_names(MOST_FAULTS), MOST_FAULTS
    top, head = downs(range(1, count + 1), ALL), f"bits {4 * count} faults {count} size {count}"
    whole = report(names, [list(range(1, count + 1))])
    above = "refused words 7 at 15\n"
    return {"m": units(count), "f": LOST}, [
        analyse(top, 0, whole, more=["--size", str(count)]), check(top, 0, "accepted\n"),
        edited(2, head, f"{head[:-len(str(count))]}{count + 1}"), check(top, 6, "not accepted line 2 rule 1\n", "k"),
        edited(2, head, f"{head[:-len(str(count))]}{count - 1}"), check(top, 6, "not accepted line 4 rule 2\n", "k"),
        analyse(top, 0, report(names, [], f"complete\nsize {count - 1}\n"), more=["--size", str(count - 1)]),
        check(top, 0, f"accepted\nsize {count - 1}\n"),
        analyse(f"u1.down & u{count}.down", 0, report(names, [], "complete\nsize 1\n"), more=["--size", "1"]),
        analyse("u1.down", 2, above, more=["--size", "257"])]


@case("256 modes of a slice")
def modes():
    modes_of = lambda count: [(f"m{i}", "Permanent StuckAt(TRUE)", "", "TRUE", "") for i in range(1, count + 1)]
    instructions = lambda count: f"EXTENSION OF MODULE main\n{slice_text('S', 'x', modes_of(count))}"
    names = [f"S.m{i}" for i in range(1, MOST_MODES + 1)]
    made = LAMP.replace("  x :=", "  x#nominal :=") + woven("S", "x", "boolean", modes_of(MOST_MODES))
    return {"m": LAMP, "f": instructions(MOST_MODES)}, [
        extend(0, faults_said(names) + "extended\n"), wrote("x", made), analyse("x", 0, report(names, singles(MOST_MODES))),
        analyse("x", 1, report(names, singles(MOST_MODES), f"bounded 1 bits {2 + MOST_MODES.bit_length() + MOST_MODES}\n"), 1),
        becomes("f", instructions(MOST_MODES + 1)), extend(4, "refused faults weave 9 at 259\n")]


def six_modes(i):
    """Six modes of a slice on the number n that is 5, with guards that are always TRUE, but for the fourth, whose guard never is."""
    own, at, digits = f"n{i}#nominal", f"S{i}#mode", "9" * 12
    always = functools.reduce(lambda a, b: f"({a} & {b})", [f"(n{1 + (i + it) % 40} < 10)" for it in range(11)])
    fixed, frozen = f"(n{i} - 2)", f"((next({at}) = @) -> (next(n{i}) = n{i}))"
    return [
        (f"high {{0.{digits}}}", "Permanent StuckAt(9)", always, "9", ""),
        (f"up {{0.{digits}}}", "Permanent Offset(4)", always, f"((({own} + 4) > 9) ? 9 : ((({own} + 4) < 0) ? 0 : ({own} + 4)))", ""),
        (f"wild {{0.{digits}}}", "Transient Random", always, "0..9", ""),
        (f"never {{0.{digits}}}", "Permanent StuckAt(9)", f"({always} & (n{i} > 9))", "9", ""),
        (f"frozen {{0.{digits}}}", "Permanent Frozen", always, "0..9", frozen),
        (f"ramp {{0.{digits}}}", "Permanent RampDown(2, 1)", always, "0..9", f"((next({at}) = @) -> (next(n{i}) = (({fixed} > 1) ? {fixed} : 1)))")]


@case("40 slices with 6 modes, in instructions of 50 thousand bytes")
def slices():
    model = f"MODULE main\nVAR\n{each_line('  n@ : 0..9;', 40)}ASSIGN\n{each_line('  n@ := 5;', 40)}"
    instructions = "EXTENSION OF MODULE main\n" + "".join(slice_text(f"S{i}", f"n{i}", six_modes(i)) for i in range(1, 41))
    made = re.sub(r"(n\d+) :=", r"\1#nominal :=", model) + "".join(woven(f"S{i}", f"n{i}", "0..9", six_modes(i)) for i in range(1, 41))
    names = [f"S{i}.{mode}" for i in range(1, 41) for mode in ("high", "up", "wild", "never", "frozen", "ramp")]
    assert len(instructions) > 50_000
    said = faults_said(names) + "tops 2\ntop 1 complete\ntop 2 complete\n" + "".join(
        f"row{it} : {'yes' if it in (' 37', ' 38', ' 39') else 'no'} {'yes' if it in (' 237', ' 240') else 'no'}\n"
        for it in ["", *(f" {i}" for i in range(1, 241))])
    again = [extend(0, "faults 0\nextended\n"), wrote("x", made)]
    return {"m": model, "f": instructions, "t": "n7 = 9; n40 = 1"}, [
        extend(0, faults_said(names) + "extended\n"), wrote("x", made),
        analyse("n7 = 9 & n7 = n40 - 1 & n40 < 6", 0, report(names, [])), fmea(1, 0, said), rename("x", "m"), becomes("f", ""), *again]


@case("24 faults of which each lets the next one come")
def chain():
    count, bits_of = 24, sum((2 * i - 1).bit_length() for i in range(1, 25))
    model = f"MODULE main\nVAR\n{each_line('  x@ : boolean;', count)}ASSIGN\n{each_line('  x@ := FALSE;', count)}"
    modes_of = lambda i: [("on", "Permanent StuckAt(TRUE)", f"x{i - 1}" if i > 1 else "", "TRUE", "")]
    names, everyone = [f"S{i}.on" for i in range(1, count + 1)], list(range(1, count + 1))
    instructions = "EXTENSION OF MODULE main\n" + "".join(slice_text(f"S{i}", f"x{i}", modes_of(i)) for i in everyone)
    end = f"bounded {count - 1} bits {3 * count + bits_of}\n"
    return {"m": model, "f": instructions}, [
        analyse("x24", 0, report(names, [everyone])), analyse("x24", 1, report(names, [], end), count - 1),
        analyse("x24 & !x1", 0, report(names, [])),
        orders("x24", count, 1, count, 0, f"pair 1 {count} before\n", names), check_orders("x24", count, 1, count, "before", 0, "accepted\n"),
        orders("x24", count, count, 2, 0, f"pair {count} 2 after\n", names), check_orders("x24", count, count, 2, "after", 0, "accepted\n")]


@case("two of 20 units")
def two_of():
    count, names = 20, unit_names(20)
    pairs = [[a, b] for a in range(1, count + 1) for b in range(a + 1, count + 1)]
    top = " + ".join(f"(u{i}.down ? 1 : 0)" for i in range(1, count + 1)) + " >= 2"
    return {"m": units(count), "f": LOST}, [analyse(top, 0, report(names, pairs))]


# Certificates and traces that are made without the program.


def hand_certificate(count):
    """A certificate of so many booleans that begin as FALSE and stay so: its clauses are numbered by the rules of the manual's
    clause lists, each list from its one true literal on: five clauses for each boolean at first and at a step, three for each `|`."""
    numbers, base = range(1, count + 1), lambda i: 1 + 5 * (i - 1)
    clauses = [f"clause -{i + 1}" for i in numbers]
    first = [f"step -{i + 1} : 1 {base(i) + 5} {base(i) + 3}" for i in numbers]
    following = [f"step -{i + 1 + count} : {base(i) + 5} {base(i) + 3} {base(count) + 5 + i}" for i in numbers]
    kept = 3 * count - 1
    hints = [kept + 1, *(it for i in range(2, count + 1) for it in (kept + i, 3 * (i - 1) + 1)), kept]
    return "\n".join([
        "xsap-certificate 2", f"bits {count} faults 0 size 0", "sets 0", f"invariant {count}", *clauses, f"first {count}", *first,
        f"next {count}", *following, "bad 1", f"step : {' '.join(map(str, hints))}", "end", ""])


@case("a certificate of 1,000 clauses that is made without the program")
def certificate():
    count = 1000
    model = f"MODULE main\nVAR\n{each_line('  x@ : boolean;', count)}ASSIGN\n"
    model += each("  init(x@) := FALSE;\n  next(x@) := x@;\n", count)
    text, top, last = hand_certificate(count), each("x@", count, ANY), 3 * count + 8
    final = text.split("\n")[last - 1]
    cut = final.rsplit(" ", 1)[0]
    return {"m": model, "f": "", "c": text}, [
        check(top, 0, "accepted\n"), edited(last, final, cut), check(top, 6, f"not accepted line {last} rule 10\n", "k"),
        edited(count + 6, "step -2 : 1 6 4", "step -2 : 1 6 5"), check(top, 6, f"not accepted line {count + 6} rule 9\n", "k"),
        edited(count + 4, f"clause -{count + 1}", f"clause -{count + 2}"), check(top, 6, f"not accepted line {count + 4} rule 8\n", "k"),
        becomes("c", "old"), analyse(top, 0, report([], [])), check(top, 0, "accepted\n")]


@case("a certificate of 268,435,456 bytes, in which a trace is no text")
def longest_certificate():
    head, tail = "xsap-certificate 2\nbits 4 faults 1 size 1\nsets 1\nset 1\ntrace 1\n", "\ninvariant 0\nfirst 0\nnext 0\nbad 0\nend\n"
    return {"m": LAMP, "f": STUCK}, [
        filled("c", head, tail, CERTIFICATE_BYTES), check("x", 6, "not accepted line 5 rule 4\n"),
        filled("c", head, tail, CERTIFICATE_BYTES + 1), check("x", 6, f"refused cert length 1 at {CERTIFICATE_BYTES}\n")]


def shifting(moments, odd=None):
    """A trace of a counter and 20 places through which an input is shifted, and a lamp that goes out for one moment in the middle and at
    the end; at the odd moment the last place has the other value."""
    draw, places, lines = random.Random(1), [False] * 20, []
    for at in range(moments):
        is_out = at in (moments // 2, moments - 1)
        given = draw.random() < 0.5
        shown = [it != (at == odd and i == 19) for i, it in enumerate(places)]
        lines.append(f"moment {at}\ngiven = {'TRUE' if given else 'FALSE'}\nn = {at}\n")
        lines += [f"s{i} = {'TRUE' if it else 'FALSE'}\n" for i, it in enumerate(shown, 1)]
        lines.append(f"x = {'TRUE' if is_out else 'FALSE'}\nx#nominal = FALSE\nS#mode = S#{'on' if is_out else 'nominal'}\n")
        places = [given, *places[:19]]
    return "".join(lines)


@case("traces of 5,000 moments")
def traces():
    count = 5000
    shifted = "  init(s1) := FALSE;\n  next(s1) := given;\n" + "".join(f"  init(s{i}) := FALSE;\n  next(s{i}) := s{i - 1};\n" for i in range(2, 21))
    model = f"MODULE main\nIVAR\n  given : boolean;\nVAR\n  n : 0..{count - 1};\n{each_line('  s@ : boolean;', 20)}  x : boolean;\n" \
        f"ASSIGN\n  init(n) := 0;\n  next(n) := n + 1;\n{shifted}  x := FALSE;\n"
    top, text, lines = f"n = {count - 1} & x", shifting(count), 26
    blinks = STUCK.replace("Permanent", "Transient")
    longest = text + "\n" * (TRACE_BYTES - len(text))
    said = "reaches\nfailed S.on\n"
    missing = text.replace("n = 3000\n", "")
    return {"m": model, "f": blinks, "t": text}, [
        replay(top, 0, said), replay(f"!({top})", 6, f"not accepted moment {count - 1} top\n"),
        becomes("t", shifting(count, 4321)), replay(top, 6, "not accepted moment 4321 step\n"),
        becomes("t", missing), replay(top, 6, "refused trace read 4 at 3000\n"),
        becomes("t", text.replace("moment 4999\n", "moment 5000\n")), replay(top, 6, f"refused trace read 1 at {4999 * lines + 1}\n"),
        becomes("t", longest), replay(top, 0, said), becomes("t", longest + "\n"), replay(top, 6, f"refused trace length 1 at {TRACE_BYTES}\n")]


# The other verbs.


@case("64 top events and 256 faults")
def tops():
    names, count = unit_names(MOST_FAULTS), MOST_FAULTS
    # (the last two are reached by no set, and by the empty one)
    wanted = [{i} if i % 2 else {i, i + 64} for i in range(1, MOST_TOPS - 1)]
    events = [downs(sorted(it), ALL) for it in wanted] + ["u1.down & !u1.down", "TRUE"]
    rows = [set(), *({a} for a in range(1, count + 1)), *({a, b} for a in range(1, count + 1) for b in range(a + 1, count + 1))]
    entries = lambda row: " ".join([*("yes" if it <= row else "no" for it in wanted), "no", "yes"])
    head = faults_said(names) + f"tops {MOST_TOPS}\n" + each_line("top @ complete", MOST_TOPS)
    said = "".join(f"{' '.join(['row', *map(str, sorted(row))])} : {entries(row)}\n" for row in rows)
    return {"m": units(count), "f": LOST, "t": ";".join(events)}, [
        fmea(2, 0, head + said), becomes("t", ";".join([*events, "TRUE"])), fmea(2, 5, "refused top count 1 at 65\n")]


def rails_of(number, stages):
    """How many stages the generated case has on each of its two rails."""
    on_first = 0
    for _ in range(stages):
        number = (1103515245 * number + 12345) % 2**31
        on_first += number // 65536 % 2 == 0
    return on_first, stages - on_first


@case("generated cases of 64 stages")
def generated():
    steps = [make(1, 65, 1, 2, "refused words 7 at 5\n"), make(DEEP + 1, 64, 1, 2, "refused words 7 at 3\n")]
    for number, depth, end in ((1, 1, "bounded 1"), (DEEP, 1, "bounded 1"), (1, DEEP, "complete")):
        a, b = rails_of(number, 64)
        steps.append(make(number, 64, depth, 1 if end == "bounded 1" else 0, f"stages 64 variables 192 faults 64 bits 256 sets {a * b} {end}\n"))
    return {}, steps


@case("the greatest depth, and one more")
def depths():
    return {"m": LAMP, "f": STUCK}, [
        analyse("x", 0, report(["S.on"], [[1]]), DEEP), analyse("x", 2, "refused words 7 at 9\n", DEEP + 1),
        analyse("x", 0, report(["S.on"], [[1]]), "0000000040"), analyse("x", 2, "refused words 7 at 9\n", f"{DEEP:011}")]


@case("256 marks")
def marks():
    count, one = MOST_FAULTS, 10**18
    shares = [3**20 * i + 1 for i in range(1, count + 1)]
    model = f"MODULE main\nVAR\n{each_line('  x@ : boolean;', count)}ASSIGN\n{each_line('  x@ := FALSE;', count)}"
    instructions = "EXTENSION OF MODULE main\n" + "".join(
        slice_text(f"S{i}", f"x{i}", [(f"on {{0.{it:018}}}", "Permanent StuckAt(TRUE)", "")]) for i, it in enumerate(shares, 1))
    sets = [*singles(count - 2), [count - 1, count]]
    bounds = [*shares[:-2], -(-shares[-2] * shares[-1] // one)]
    shown = lambda units: f"{units // one}.{units % one:018}"
    lines = "".join(f"odds {i} {shown(it)}\n" for i, it in enumerate(bounds, 1)) + f"sum {shown(sum(bounds))} within 1\n"
    said = faults_said([f"S{i}.on" for i in range(1, count + 1)]) + sets_said(sets) + lines + "complete\n"
    top = each("x@", count - 2, ANY) + f" | x{count - 1} & x{count}"
    return {"m": model, "f": instructions}, [
        odds(top, 0, said), becomes("f", instructions.replace("{0.", "{2.", 1)), odds(top, 4, "refused faults mark 2 at 3\n")]


@case("256 faults and causes, with windows of 100 steps")
def common_causes():
    count, struck = 240, {f"C{k}": [f"u{i}.Fail.lost" for i in range(15 * k - 14, 15 * k + 1)] for k in range(1, 17)}
    text = lambda window: "".join(f"CAUSE {name} WITHIN 0..{window} STRIKES {', '.join(strikes)};\n" for name, strikes in struck.items())
    names, top = [*unit_names(count), *struck], "u1.down & u240.down"
    said = report(names, [[1, 240], [1, 256], [240, 241], [241, 256]])
    one_more = "CAUSE C17 WITHIN 0..0 STRIKES u1.Fail.lost;\n"
    return {"m": units(count), "f": LOST, "s": text(100)}, [
        causes(top, 0, said, struck), check_causes(top, 0, "accepted\n"), check_causes("u1.down", 6, re.compile(r"not accepted line \d+ rule \d+\n")),
        causes("u1.down & !u1.down", 0, report(names, []), struck), check_causes("u1.down & !u1.down", 0, "accepted\n"),
        becomes("s", text(101)), causes(top, 9, "refused causes cause 5 at 1\n", struck),
        becomes("s", text(100) + one_more), causes(top, 9, "refused causes cause 6 at 17\n", struck)]


@case("orders in a set of 256 faults")
def order_of_all():
    count, names = MOST_FAULTS, unit_names(MOST_FAULTS)
    top, never = downs(range(1, count + 1), ALL), downs(range(1, count), ALL) + f" & !u{count}.down"
    return {"m": units(count), "f": LOST}, [
        orders(top, count, 1, count, 0, f"pair 1 {count} either\ntrace 1\ntrace 2\n", names),
        orders(top, count, 1, count, 1, f"pair 1 {count} none to 0 bits {4 * count + 2}\n", names, 0),
        orders(never, count, 1, count, 0, f"pair 1 {count} none\n", names), check_orders(never, count, 1, count, "none", 0, "accepted\n"),
        becomes("m", units(count - 1)), orders("u1.down", count, 1, count, 10, f"refused set count 1 at {count}\n", names)]


@case("an order in a set of 256 faults that a guard makes")
def guarded_order():
    count = MOST_FAULTS
    model = units(count - 1, "  late : Late(u1.down);\n") + "MODULE Late(go)\nVAR\n  down : boolean;\nASSIGN\n  down := FALSE;\n"
    late = "EXTENSION OF MODULE Late\n  SLICE Slow AFFECTS down WITH\n    MODE lost : Permanent StuckAt(TRUE) WHEN go;\n"
    names, top = [*unit_names(count - 1), "late.Slow.lost"], downs(range(1, count), ALL) + " & late.down"
    return {"m": model, "f": LOST + late}, [
        orders(top, count, 1, count, 0, f"pair 1 {count} before\n", names), check_orders(top, count, 1, count, "before", 0, "accepted\n"),
        check_orders(top, count, 1, count, "after", 6, re.compile(r"not accepted line \d+ rule \d+\n"))]


@case("files of 1,048,576 bytes")
def lengths():
    padded = lambda text, more=0: text + "\n" * (MODEL_BYTES - len(text) + more)
    surge = "CAUSE Surge WITHIN 0..0 STRIKES S.on;"
    said = report(["S.on", "Surge"], [[1], [2]])
    table = "faults 1\nfault 1 S.on\ntops 1\ntop 1 complete\nrow : no\nrow 1 : yes\n"
    at = f"length 1 at {MODEL_BYTES}\n"
    return {"m": padded(LAMP), "f": padded(STUCK), "s": padded(surge), "t": padded("x")}, [
        causes("x", 0, said, {"Surge": ["S.on"]}), fmea(1, 0, table), becomes("s", padded(surge, 1)),
        causes("x", 9, f"refused causes {at}", {}), becomes("t", padded("x", 1)), fmea(1, 5, f"refused top {at}"),
        becomes("f", padded(STUCK, 1)), extend(4, f"refused faults {at}"), becomes("m", padded(LAMP, 1)), extend(3, f"refused model {at}")]


# Further shapes.


@case("1,000 modules, each in the next")
def deep_modules():
    inner = chain_modules(999)
    model = "".join(f"MODULE {name}\nVAR\n{text}" for name, text in inner) + "MODULE main\nVAR\n  b : M999;\n"
    flip = "EXTENSION OF MODULE M1\n  SLICE S AFFECTS v WITH\n    MODE flip : Permanent Inverted;\n"
    names = ["b" + ".below" * 998 + ".S.flip"]
    return {"m": model, "f": flip}, [
        extend(0, faults_said(names) + "extended\n"), analyse("b.v", 0, report(names, [[1]])), analyse("b.v & b.below.v", 0, report(names, []))]


@case("expressions handed through 998 instances")
def handed():
    made = "".join(f"  r{i} : Not({f'!r{i - 1}.out' if i > 1 else 'x'});\n" for i in range(1, 999))
    model = LAMP.replace("ASSIGN", f"{made}ASSIGN") + "MODULE Not(in_)\nVAR\n  out : boolean;\nASSIGN\n  out := in_;\n"
    # (997 signs lie between the first and the last)
    return {"m": model, "f": STUCK}, [
        analyse("!r998.out", 0, report(["S.on"], [[1]])), analyse("r998.out = r997.out", 0, report(["S.on"], []))]


@case("256 faults that may be there from the first moment on")
def at_first():
    count, names = MOST_FAULTS, unit_names(MOST_FAULTS)
    top, away = downs(range(1, count + 1), ANY), LOST.replace("WITH", "INITIALLY ANY WITH")
    added = woven("Fail", "down", "boolean", [("lost", "Permanent StuckAt(TRUE)", "", "TRUE", "")])
    added = added.replace("init(Fail#mode) := Fail#nominal", "init(Fail#mode) := {Fail#nominal, Fail#lost}")
    made = units(count).replace("  down :=", "  down#nominal :=").replace("MODULE main", f"{added}MODULE main")
    return {"m": units(count), "f": away}, [
        extend(0, faults_said(names) + "extended\n"), wrote("x", made),
        analyse(top, 1, report(names, singles(count), f"bounded 0 bits {4 * count}\n"), 0),
        analyse(f"u1.down & u{count}.down", 0, report(names, [[1, count]]))]


@case("60 faults that have come and gone")
def gone():
    count = 60
    latch = "  down := FALSE;\n  init(seen) := FALSE;\n  next(seen) := seen | down;\n"
    model = units(count).replace("  down : boolean;\n", "  down : boolean;\n  seen : boolean;\n").replace("  down := FALSE;\n", latch)
    model += f"DEFINE\n  all := {each('u@.seen', count, ALL)};\n  now := {each('u@.down', count, ANY)};\n"
    names = unit_names(count)
    return {"m": model, "f": LOST.replace("Permanent", "Transient")}, [
        analyse("all & !now", 0, report(names, [list(range(1, count + 1))])),
        analyse("all & !now", 1, report(names, [], f"bounded 1 bits {5 * count}\n"), 1)]


@case("a ring of 100 cells")
def ring():
    cells = "".join(f"  c{i} : Cell(c{i - 1 or 100}.v);\n" for i in range(1, 101))
    model = f"MODULE Cell(prev)\nVAR\n  v : boolean;\nASSIGN\n  init(v) := FALSE;\n  next(v) := v & prev;\nMODULE main\nVAR\n{cells}"
    raised = "EXTENSION OF MODULE Cell\n  SLICE S AFFECTS v WITH\n    MODE on : Permanent StuckAt(TRUE);\n"
    return {"m": model, "f": ""}, [
        analyse("c50.v", 0, report([], [])), becomes("f", raised),
        analyse("c50.v", 0, report([f"c{i}.S.on" for i in range(1, 101)], [[50]]))]


@case("a case of 4,000 branches and a set of 4,000 numbers")
def branches():
    count = 4000
    cases = "".join(f"n = {i} : {count - i}; " for i in range(1, count))
    odd = ", ".join(str(i) for i in range(1, 2 * count, 2))
    model = f"MODULE main\nVAR\n  n : 0..{count - 1};\nASSIGN\n  n := 0;\nDEFINE\n  d := case {cases}TRUE : 0; esac;\n  odd := n in {{{odd}}};\n"
    faults = f"EXTENSION OF MODULE main SLICE S AFFECTS n WITH MODE last : Permanent StuckAt({count - 1}); MODE up : Permanent Offset(6);"
    names = ["S.last", "S.up"]
    return {"m": model, "f": faults}, [
        analyse("d = 1 & odd", 0, report(names, [[1]])), analyse(f"d = {count - 6}", 0, report(names, [[2]])), analyse("d = 7", 0, report(names, []))]


@case("a trace of 2,000 variables and 400 moments")
def wide_trace():
    count, moments = 1998, 400
    names = [f"v{i}" for i in range(1, count + 1)]
    off = "".join(f"{it} = FALSE\n" for it in names) + "v1#nominal = FALSE\nS#mode = S#nominal\n"
    on = off.replace("v1#nominal = FALSE\n", "").replace("FALSE", "TRUE").replace("S#nominal", "S#on") + "v1#nominal = FALSE\n"
    text = "".join(f"moment {i}\n{on if i == moments - 1 else off}" for i in range(moments))
    late = f"moment 300\n{off}"
    return {"m": wires(count), "f": STUCK.replace("x", "v1"), "t": text}, [
        replay("v1998", 0, "reaches\nfailed S.on\n"), replay("!v1998", 6, "not accepted moment 399 top\n"),
        becomes("t", text.replace(late, late.replace("v1998 = FALSE", "v1998 = TRUE"))), replay("v1998", 6, "not accepted moment 300 step\n"),
        becomes("t", text.replace(late, late.replace("v1998 = FALSE", "v1998 = 0"))),
        replay("v1998", 6, f"refused trace read 3 at {300 * 2001 + 1999}\n")]


@case("9,900 conditions and 3,300 specifications, each in its section")
def sections():
    model = LAMP + each("INVAR\n  TRUE;\nTRANS\n  TRUE;\nINIT\n  TRUE;\n", 3300) + each_line("CTLSPEC AG x @", 3300)
    written = LAMP.replace("  x :=", "  x#nominal :=") + each("INVAR\n  TRUE;\nTRANS\n  TRUE;\nINIT\n  TRUE;\n", 3300)
    written += woven("S", "x", "boolean", [("on", "Permanent StuckAt(TRUE)", "", "TRUE", "")])
    return {"m": model, "f": STUCK}, [
        extend(0, "faults 1\nfault 1 S.on\nextended\n"), wrote("x", written), analyse("x", 0, report(["S.on"], [[1]]))]


@case("a table of 256 faults to depth 0")
def shallow_table():
    names, count = unit_names(MOST_FAULTS), MOST_FAULTS
    rows = ["", *(f" {a}" for a in range(1, count + 1)), *(f" {a} {b}" for a in range(1, count + 1) for b in range(a + 1, count + 1))]
    said = faults_said(names) + f"tops 1\ntop 1 bounded 0 bits {4 * count}\n" + "".join(f"row{it} : unknown\n" for it in rows)
    return {"m": units(count), "f": LOST, "t": "u1.down;"}, [
        fmea(2, 1, said, 0), fmea(3, 2, "refused words 7 at 9\n", 0)]


# What a cause with one strike adds to the cost of an extension with one fault, where bits of its two events stand in place of that of
# the fault; and what an order adds.
CAUSE_COST, ORDER_COST = 151 - 14, 34


@case("causes and orders that make the cost 50,000")
def staged_costs():
    lamps = "MODULE main\nVAR\n  x : boolean;\n  y : boolean;\nASSIGN\n  x := FALSE;\n  y := FALSE;\n"
    both = STUCK + "  SLICE T AFFECTS y WITH\n    MODE on : Permanent StuckAt(TRUE);\n"
    one = lambda more: LAMP + definitions(MOST_COST - HELD_COST - SLICE_COST - CAUSE_COST + more)
    two = lambda more: lamps + definitions(MOST_COST - 2 * (HELD_COST + SLICE_COST) - ORDER_COST + more)
    said = report(["S.on", "Surge"], [[1], [2]])
    asked = ("d1 & y", 2, 1, 2, 0, "pair 1 2 either\ntrace 1\ntrace 2\n", ["S.on", "T.on"])
    return {"m": one(0), "f": STUCK, "s": "CAUSE Surge WITHIN 0..0 STRIKES S.on;"}, [
        causes("d1", 0, said, {"Surge": ["S.on"]}), becomes("m", one(1)), causes("d1", 9, "refused causes type 9 at 0\n", {}),
        becomes("m", two(0)), becomes("f", both), orders(*asked), becomes("m", two(1)),
        orders("d1 & y", 2, 1, 2, 4, "refused faults type 9 at 0\n", []), extend(0, faults_said(["S.on", "T.on"]) + "extended\n")]


@case("orders that make the bits 4,096")
def staged_bits():
    names = unit_names(32)
    model = wide(128).replace("n1 : 0..2147483647", "n1 : 0..536870911")
    top = "u1.down & u2.down"
    return {"m": model, "f": LOST}, [
        orders(top, 2, 1, 2, 0, "pair 1 2 either\ntrace 1\ntrace 2\n", names[:2]),
        becomes("m", model.replace("n1 : 0..536870911", "n1 : 0..536870912")),
        orders(top, 2, 1, 2, 4, "refused faults type 9 at 0\n", []), analyse(top, 0, report(names, [[1, 2]]))]
