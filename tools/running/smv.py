"""Reads the texts of models, fault files, causes and top events as far as telling of them needs: tokens with their places, items, and names.

The program has read the text before and has refused something in it, so what is looked for here is where, and under which name. Texts are
bytes as they stand in the file, one character each (latin-1), so that places are those of the program. An item is one as the program
numbers them; a scope is an instance of a module, in which names mean what they mean to the program.
"""
import re

TOKEN = re.compile(r"(?P<blank>[ \t\r\f\n]+|/--.*?--/|--[^\n]*)|(?P<word>[A-Za-z_](?:[A-Za-z0-9_$#]|-(?![->]))*)|(?P<number>[0-9]+)"
                   r"|(?P<sign>:=|\.\.|!=|<=|>=|<->|->|[(){}\[\],;:.!&|=<>+\-*/?])", re.S)
LISTS = ("VAR", "IVAR", "FROZENVAR", "DEFINE", "CONSTANTS", "ASSIGN")
ALONE = ("INIT", "INVAR", "TRANS")
SKIPPED = ("CTLSPEC", "SPEC", "LTLSPEC", "PSLSPEC", "INVARSPEC", "COMPUTE")
SECTIONS = ("MODULE", *LISTS, *ALONE, *SKIPPED)
LEFT_OUT = ("process", "self", "count", "toint", "bool", "word", "array", "of", "real", "integer", "signed", "unsigned", "ISA", "FAIRNESS",
            "JUSTICE", "COMPASSION")
RESERVED = {*SECTIONS, *LEFT_OUT, "case", "esac", "mod", "next", "init", "union", "in", "xor", "xnor", "TRUE", "FALSE", "boolean"}
MOST_SCOPES, DEEPEST = 1000, 100


class Token:
    """A token: its text, where it begins, and whether it is a word that is no reserved one."""

    def __init__(self, text, at, is_name):
        self.text, self.at, self.is_name, self.end = text, at, is_name, at + len(text)

    def __repr__(self):
        return f"{self.text}@{self.at}"


def tokens_of(text):
    """Returns the tokens of a text up to the first place where there is none."""
    found, at = [], 0
    while at < len(text):
        it = TOKEN.match(text, at)
        if not it:
            break
        if it.lastgroup != "blank":
            found.append(Token(it[0], at, it.lastgroup == "word" and it[0] not in RESERVED))
        at = it.end()
    return found


def end_of_item(tokens, at):
    """Returns the place behind the `;` that ends an item, outside every `case`."""
    cases = 0
    while at < len(tokens):
        cases += {"case": 1, "esac": -1}.get(tokens[at].text, 0)
        at += 1
        if tokens[at - 1].text == ";" and cases <= 0:
            return at
    return at


class Item:
    """An item: what it is (a section word, or EXTENSION, SLICE or MODE), its tokens, and the module and the slice that it stands in."""

    def __init__(self, kind, tokens, module=None, inside=None):
        self.kind, self.tokens, self.module, self.inside = kind, tokens, module, inside
        heads = {"MODULE": 1, "EXTENSION": 3, "SLICE": 1, "MODE": 1}
        at = heads.get(kind, 0)
        self.head = tokens[at] if at < len(tokens) else tokens[0]
        if kind == "ASSIGN" and self.head.text in ("init", "next") and len(tokens) > 2:
            self.head = tokens[2]
        self.name = self.head.text

    def value(self):
        """Returns the tokens of the expressions of the item."""
        texts = [it.text for it in self.tokens]
        if self.kind in ("DEFINE", "ASSIGN"):
            return self.tokens[texts.index(":=") + 1:] if ":=" in texts else []
        if self.kind == "MODE":
            begin = next((at for at, it in enumerate(texts) if it in ("Follows", "WHEN") and at > texts.index(":")), None) if ":" in texts else None
            return [] if begin is None else [it for it in self.tokens[begin:] if it.text not in ("Follows", "WHEN")]
        if self.kind == "VAR" and self.instance():
            return self.tokens[3:]
        return self.tokens[1:] if self.kind in ALONE else self.tokens if self.kind == "top" else []

    def instance(self):
        """Returns the token of the module of which the item declares an instance, or None."""
        return self.tokens[2] if self.kind == "VAR" and len(self.tokens) > 2 and self.tokens[2].is_name and self.tokens[3:4] and \
            self.tokens[3].text in ("(", ";") else None


def items_of_model(tokens):
    """Returns the items of a model."""
    found, module = [], None
    heads = [at for at, it in enumerate(tokens) if it.text in SECTIONS or it.text in ("FAIRNESS", "JUSTICE", "COMPASSION")] + [len(tokens)]
    for head, behind in zip(heads, heads[1:]):
        kind = tokens[head].text
        if kind == "MODULE":
            module = tokens[head + 1].text if head + 1 < behind else ""
        if kind in ("MODULE", "CONSTANTS", *ALONE):
            found.append(Item(kind, tokens[head:behind], module))
        at = head + 1
        while kind in LISTS and kind != "CONSTANTS" and at < behind:
            first, at = at, min(end_of_item(tokens, at), behind)
            found.append(Item(kind, tokens[first:at], module))
    return found


def items_of_faults(tokens):
    """Returns the items of a fault file."""
    found, at, module, inside = [], 3 if tokens and tokens[0].text == "FAULT" else 0, None, None
    while at < len(tokens):
        first, kind = at, tokens[at].text
        if kind == "EXTENSION":
            at += 4
            module = tokens[first + 3].text if first + 3 < len(tokens) else None
        elif kind == "SLICE":
            at += 7 if [it.text for it in tokens[at + 4:at + 5]] == ["INITIALLY"] else 5
        else:
            while at < len(tokens) and tokens[at].text != ":":
                at += 1
            at = end_of_item(tokens, at)
        it = Item(kind, tokens[first:at], module, inside if kind == "MODE" else None)
        inside = it if kind == "SLICE" else inside
        found.append(it)
    return found


def parts_of(tokens, kind):
    """Returns the tops or causes of a list, which end by `;`."""
    found, at = [], 0
    while at < len(tokens):
        first, at = at, end_of_item(tokens, at)
        found.append(Item(kind, [it for it in tokens[first:at] if it.text != ";" or kind != "top"] or tokens[first:at], "main"))
    return found


def dotted_of(tokens):
    """Returns the names among tokens, each a list of tokens: `a.b.c` is one of three."""
    found = []
    for at, it in enumerate(tokens):
        if it.is_name and found and at > 1 and tokens[at - 1].text == "." and tokens[at - 2] is found[-1][-1]:
            found[-1].append(it)
        elif it.is_name:
            found.append([it])
    return found


def under_next(item):
    """Returns the names that stand under `next` in an item, with dots."""
    found, depth, inside = set(), 0, None
    names = {it[0].at: ".".join(one.text for one in it) for it in dotted_of(item.tokens)}
    for at, it in enumerate(item.tokens):
        depth += {"(": 1, ")": -1}.get(it.text, 0)
        if it.text == "next" and inside is None:
            inside = depth
        elif inside is not None and depth == inside and it.text == ")":
            inside = None
        elif inside is not None and it.at in names:
            found.add(names[it.at])
    return found


class Model:
    """The modules of a model by their names, each with formals and items, and the symbols of all."""

    def __init__(self, text):
        self.items, self.formals, self.declared, self.symbols = items_of_model(tokens_of(text)), {}, {}, set()
        for it in self.items:
            if it.kind == "MODULE":
                self.formals.setdefault(it.name, [token.text for token in it.tokens[2:] if token.is_name])
                self.declared.setdefault(it.name, {})
            elif it.kind in ("VAR", "IVAR", "FROZENVAR", "DEFINE") and it.module in self.declared:
                self.declared[it.module].setdefault(it.name, it)
            if it.kind in ("VAR", "IVAR", "FROZENVAR") and not it.instance() or it.kind == "CONSTANTS":
                self.symbols.update(token.text for token in it.tokens[1:] if token.is_name)

    def names(self, module):
        """Returns the names that mean something in a module: formals, what it declares, and symbols."""
        return [*self.formals.get(module, []), *self.declared.get(module, {}), *sorted(self.symbols)]

    def scopes(self):
        """Returns the instances of the model depth-first, by declaration, from main."""
        found, left = [], [Scope(self, "", "main", None, {})]
        while left and len(found) < MOST_SCOPES:
            scope = left.pop()
            found.append(scope)
            left += reversed(list(scope.inner().values()))
        return found


class Scope:
    """An instance: its path, its module, the scope that declares it, and the actuals of its formals, as tokens."""

    def __init__(self, model, path, module, outer, actuals):
        self.model, self.path, self.module, self.outer, self.actuals = model, path, module, outer, actuals
        self.depth = outer.depth + 1 if outer else 0

    def inner(self):
        """Returns the instances that are declared here, by their names."""
        declared = self.model.declared.get(self.module, {})
        found = {name: it for name, it in declared.items() if it.instance()} if self.depth < DEEPEST else {}
        return {name: Scope(self.model, f"{self.path}{name}.", it.instance().text, self, self.actuals_of(it)) for name, it in found.items()}

    def actuals_of(self, item):
        """Returns the actuals of an instance by the formals of its module."""
        found, depth = [[]], 0
        for it in item.tokens[3:]:
            depth += {"(": 1, "{": 1, ")": -1, "}": -1}.get(it.text, 0)
            if depth == 1 and it.text == ",":
                found.append([])
            elif depth > 1 or depth == 1 and it.text != "(":
                found[-1].append(it)
        return dict(zip(self.model.formals.get(item.instance().text, []), found))

    def is_instance(self, names, steps=0):
        """Returns whether a dotted name stands for an instance."""
        first, rest = names[0], names[1:]
        if first in self.actuals and self.outer and steps < DEEPEST:
            return self.outer.is_instance([*(it.text for it in self.actuals[first] if it.is_name), *rest] or [first], steps + 1)
        inner = self.inner().get(first)
        return inner is not None and (not rest or inner.is_instance(rest, steps + 1))

    def declared(self, names, steps=0):
        """Returns the module that declares what a dotted name stands for, and its item, or None where it stands for nothing that is declared."""
        first, rest = names[0], names[1:]
        if first in self.actuals and self.outer:
            actual = self.actuals[first]
            is_plain = len(actual) % 2 and all(it.text == "." for it in actual[1::2]) and steps < DEEPEST
            return self.outer.declared([*(it.text for it in actual[::2]), *rest], steps + 1) if is_plain else None
        item = self.model.declared.get(self.module, {}).get(first)
        if not rest or item is None:
            return item and (self.module, item)
        inner = self.inner().get(first)
        return inner and inner.declared(rest, steps + 1)

    def means(self, names, steps=0):
        """Returns None where a dotted name means something, and else the number of the part that means nothing, with the names that would."""
        first, rest = names[0], names[1:]
        if steps > DEEPEST:
            return None
        if first in self.actuals and self.outer:
            actual = self.actuals[first]
            dotted = [it.text for it in actual if it.is_name]
            if len(dotted) * 2 - 1 != len(actual) or any(it.text != "." for it in actual[1::2]):
                return (1, []) if rest else None
            wrong = self.outer.means([*dotted, *rest], steps + 1)
            return wrong and (max(1 + wrong[0] - len(dotted), 0), wrong[1])
        declared = self.model.declared.get(self.module, {})
        if first in declared and declared[first].instance():
            wrong = self.inner()[first].means(rest, steps + 1) if rest and first in self.inner() else None
            return wrong and (wrong[0] + 1, wrong[1])
        if first in declared or first in self.model.formals.get(self.module, []):
            return (1, []) if rest else None
        if not rest and first in self.model.symbols:
            return None
        return (0, self.model.names(self.module))


def faults_of(model, items):
    """Returns the names of all faults that instructions with these items give a model."""
    found = []
    for scope in model.scopes():
        found += [f"{scope.path}{it.inside.name}.{it.name}" for it in items if it.kind == "MODE" and it.module == scope.module and it.inside]
    return found
