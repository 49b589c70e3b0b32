"""The texts of tools/people: those that are refused, with what is reported of each, and those that lint looks at, with what it reports."""
# Texts that are refused: the model, the instructions, further words of `analyse`, and the first line that is printed, with the text that is
# marked and a note. Columns are counted in the text by hand.
SENSOR = ("MODULE Sensor(line)\nVAR\n  seen : boolean;\nASSIGN\n  seen := {};\n"
          "MODULE main\nVAR\n  power : boolean;\n  a : Sensor({});\n  b : Sensor(power);\n")
SLICE = "EXTENSION OF MODULE {}\n  SLICE Eye AFFECTS {} WITH\n    MODE blind {{{}}} : Permanent {};\n"
GOOD = (SENSOR.format("line", "power"), SLICE.format("Sensor", "seen", "0.1", "StuckAt(FALSE)"))
REFUSED = (
    (SENSOR.format("lien", "power"), GOOD[1], [], "m:5:11: error: the name 'lien' means nothing here; a similar name is 'line'", "lien",
     "'lien' is judged at the instance a"),
    (SENSOR.format("line", "powre"), GOOD[1], [], "m:9:14: error: the name 'powre' means nothing here; a similar name is 'power'", "powre", ""),
    (SENSOR.format("line", "power").replace("b : Sensor", "b : Senser"), GOOD[1], [],
     "m:10:7: error: there is no module 'Senser'; a similar name is 'Sensor'", "Senser", ""),
    (SENSOR.format("line.x", "power"), GOOD[1], [], "m:5:16: error: the name 'x' means nothing in 'line'", "x", ""),
    (SENSOR.format("line", "power") + "INIT a\n", GOOD[1], [], "m:11:6: error: 'a' is an instance, and a value is needed here", "a", ""),
    (SENSOR.format("line", "power") + "  seen : boolean;\n  power : 0..3;\n", GOOD[1], [],
     "m:12:3: error: the name 'power' is there for the second time",
     "power", "it is in line 8, too"),
    (SENSOR.format("line", "power").replace("seen : boolean;", "seen : boolean"), GOOD[1], [], "m:4:1: error: 'ASSIGN' can't stand here",
     "ASSIGN",
     "a ';' may be missing behind 'boolean' in line 3"),
    (SENSOR.format("line @ 1", "power"), GOOD[1], [], "m:5:16: error: no token begins with '@'", "@", ""),
    (SENSOR.format("line", "power") + "DEFINE\n  \tup := next(a.seen);\n", GOOD[1], [], "m:12:10: error: 'next' can't stand in a DEFINE", "next",
     "put the condition itself"),
    (GOOD[0], SLICE.format("Senso", "seen", "", "Random"), [], "f:1:21: error: there is no module 'Senso'; a similar name is 'Sensor'",
     "Senso", ""),
    (GOOD[0], SLICE.format("Sensor", "sean", "", "Random"), [],
     "f:2:21: error: 'sean' is no name that the module 'Sensor' declares; a similar name is 'seen'", "sean", ""),
    (GOOD[0], SLICE.format("Sensor", "seen", "", "Offset(1)"), [],
     "f:3:31: error: the effect is not for this type, or the constant of another class",
     "Offset", ""),
    (GOOD[0], SLICE.format("Sensor", "seen", "", "Random WHEN lines"), [],
     "f:3:43: error: the name 'lines' means nothing here; a similar name is 'line'", "lines",
     "'lines' is judged at the instance a"),
    (*GOOD, ["--top=a.sen"], "--top:1:3: error: the name 'sen' means nothing in 'a'; a similar name is 'seen'", "sen", ""),
    (*GOOD, ["--top", "!a.seen & pwoer"], "--top:1:11: error: the name 'pwoer' means nothing here; a similar name is 'power'", "pwoer", ""),
    (*GOOD, ["--top", "a.seen == power"], "--top:1:9: error: '=' can't stand here", "=", "equality is written `=`"),
    (*GOOD, ["--top", "true"], "--top:1:1: error: the name 'true' means nothing here", "true", "the truth values are written TRUE and FALSE"),
    (SENSOR.format("line", "power").replace("VAR\n  power", "IVAR\n  power").replace("  a :", "VAR\n  a :"), GOOD[1], [],
     "m:5:11: error: the input 'power' can't stand here", "line", "at the instance a 'line' is the input 'power'"),
    (*GOOD, ["--top", "a.seen &"], "--top:1:9: error: the event ends too soon", None, ""),
)

# Models and fault files with what lint tells of them: the first lines of its warnings, and its last lines.
LAMP = "MODULE main\nVAR\n  on : boolean;\n  x : boolean;\nASSIGN\n  on := TRUE;\n  x := on;\n"
FAULT = "EXTENSION OF MODULE main\n  SLICE S AFFECTS {} WITH\n    MODE off : Permanent {};\n"
COUNTER = "MODULE main\nVAR\n  n : 0..63;\n  x : boolean;\nASSIGN\n  init(n) := 0;\n  next(n) := n < 63 ? n + 1 : n;\n  x := TRUE;\n"
SEEN = "MODULE Eye\nVAR\n  seen : boolean;\nMODULE main\nVAR\n  src : boolean;\n  a : Eye;\n{}\n"
LINTED = (
    ("nothing", LAMP, FAULT.format("x", "StuckAt(FALSE)"), ["--top", "!x"], [], []),
    ("no first moment", LAMP + "INIT on & !x\n", FAULT.format("on", "StuckAt(FALSE)"), [],
     ["m: warning: there is no first moment: the conditions on it contradict each other, so that nothing is ever reached"], []),
    ("reached without a fault", LAMP, FAULT.format("x", "StuckAt(FALSE)"), ["--top=x"],
     ["m: warning: the top event is reached without any fault"], []),
    ("bounded", COUNTER, FAULT.format("x", "StuckAt(FALSE) WHEN n = 50"), ["--top", "n = 60", "--depth=10"], [],
     ["not known: whether the top event is reached without any fault in more than 10 steps",
      "not known: whether S.off is seen in more than 10 steps"]),
    ("an instance that leaves its type",
     "MODULE C(go, i)\nVAR\n  n : 0..3;\n  k : {1, 2};\nASSIGN\n  init(n) := 0;\n  next(n) := go ? n + 1 : n;\n  next(k) := i ? 3 : k;\n"
     "MODULE main\nIVAR\n  i : boolean;\nVAR\n  on : boolean;\n  a : C(on, i);\n  b : C(!on, i);\nASSIGN\n  on := FALSE;\n", "", [],
     ["m:7:8: warning: the value that is assigned to 'n' leaves its type at b without any fault: traces end there"], []),
    ("a value that leaves its type", COUNTER.replace("n < 63 ? n + 1 : n", "x ? n + 1 -- up\n : n"), FAULT.format("x", "StuckAt(FALSE)"),
     ["--depth=100"],
     ["m:7:8: warning: the value that is assigned to 'n' leaves its type without any fault: traces end there"], []),
    ("a set that stays in its type", COUNTER.replace("n < 63 ? n + 1 : n", "{n, 0}"), FAULT.format("x", "StuckAt(FALSE)"), [], [], []),
    ("never seen", LAMP, FAULT.format("x", "StuckAt(FALSE) WHEN !on"), [],
     ["f:3:10: warning: the mode S.off is never seen: no trace, of whatever length, has a moment at which it stands"], []),
    ("a guard that is FALSE", LAMP, FAULT.format("x", "Inverted WHEN !(TRUE | FALSE)"), [],
     ["f:3:10: warning: the guard of the mode S.off is constantly FALSE",
      "f:3:10: warning: the mode S.off is never seen: no trace, of whatever length, has a moment at which it stands"], []),
    ("stuck at what it is", LAMP, FAULT.format("x", "StuckAt(TRUE)"), [],
     ["f:3:10: warning: the mode S.off changes nothing: at each moment at which it stands, 'x' has its own value"], []),
    ("no mark beside marks", LAMP, FAULT.format("x", "StuckAt(FALSE)") + "    MODE no {0.1} : Permanent Inverted;\n", [],
     ["f:3:10: warning: the mode S.off has no mark, and others have one: odds refuses this file"], []),
    ("an INVAR that binds", SEEN.format("INVAR a.seen = src"), FAULT.format("seen", "Inverted").replace("main", "Eye"), [],
     ["m:8:7: warning: nothing assigns 'seen', and this INVAR binds what is read of it, also while a fault of S stands"], []),
    ("a TRANS that binds", SEEN.format("TRANS src | next(a.seen)"), FAULT.format("seen", "Inverted").replace("main", "Eye"), [],
     ["m:8:18: warning: nothing assigns 'seen', and this TRANS binds what is read of it, also while a fault of S stands"], []),
    ("a TRANS that reads", SEEN.format("TRANS a.seen | next(src)"), FAULT.format("seen", "Inverted").replace("main", "Eye"), [], [], []),
    ("no instance", LAMP + "MODULE Eye\nVAR\n  seen : boolean;\n", FAULT.format("seen", "Inverted").replace("main", "Eye"), [],
     ["f:1:21: warning: the module 'Eye' has no instance, so that there are no faults of these slices"], []),
)
