"""Readers of the forms in which xsap_show shows a report for other tools: a page, two fault trees and value changes.

Each knows the form by its own rules, and nothing of how the program writes it. A reader raises ValueError (or an error of the parser that
it stands on) where a text breaks the rules of its form.
"""
import html.parser
import itertools
import re
import xml.etree.ElementTree

IDENTIFIER = re.compile(r"[A-Za-z_][A-Za-z0-9_]*(-[A-Za-z0-9_]+)*")
VOID = {"meta", "br", "hr", "input", "img"}


def demand(holds, what):
    if not holds:
        raise ValueError(what)


# fault trees

def expanded(node, formulas, open_nodes=()):
    """Returns the sets of basic events of a node, in the order of its formula."""
    demand(node not in open_nodes, f"{node} stands on itself")
    if node not in formulas:
        return [[node]]
    kind, arguments = formulas[node]
    parts = [expanded(it, formulas, (*open_nodes, node)) for it in arguments]
    if kind == "or":
        return list(itertools.chain(*parts))
    return [list(itertools.chain(*it)) for it in itertools.product(*parts)]


def read_open_psa(text):
    """Returns the sets of the gate `top` by the labels of their events, the labels of all events, and the comment of a fault tree."""
    root = xml.etree.ElementTree.fromstring(text, xml.etree.ElementTree.XMLParser(target=xml.etree.ElementTree.TreeBuilder(insert_comments=True)))
    demand(root.tag == "opsa-mef", f"the root is {root.tag}")
    formulas, labels, comments = {}, {}, []
    for it in root.iter():
        if it.tag is xml.etree.ElementTree.Comment:
            comments.append(it.text.strip())
        elif it.tag == "define-gate":
            demand(len(it) == 1 and it.get("name") not in formulas, f"the gate {it.get('name')}")
            formulas[it.get("name")] = formula_of(it[0])
        elif it.tag == "define-basic-event":
            demand([part.tag for part in it] == ["label"] and it.get("name") not in labels, f"the event {it.get('name')}")
            labels[it.get("name")] = it[0].text
    names = {*formulas, *labels}
    demand(all(IDENTIFIER.fullmatch(it) for it in names), f"{names} are no names")
    demand(len(names) == len(formulas) + len(labels), "a gate is an event")
    demand(all(it in names for _, arguments in formulas.values() for it in arguments), "a name is not defined")
    return [[labels[it] for it in found] for found in expanded("top", formulas)], list(labels.values()), comments


def formula_of(node):
    """Returns whether a formula is an `or`, and its arguments. One argument is handed on."""
    if node.tag in ("gate", "basic-event"):
        return "and", [node.get("name")]
    if node.tag == "constant":
        demand(node.get("value") in ("true", "false"), "a constant")
        return ("and" if node.get("value") == "true" else "or"), []
    demand(node.tag in ("and", "or") and len(node) > 1, f"{node.tag} of {len(node)} arguments")
    demand(all(it.tag in ("gate", "basic-event") for it in node), "an argument")
    return node.tag, [it.get("name") for it in node]


LABEL = r'"((?:[^"\\]|\\.)*)"'


def read_dot(text):
    """Returns the sets of the node `top` by the labels of the ellipses, and the label of a graph in DOT."""
    lines = text.split("\n")
    demand(lines[0] == "digraph sets {" and lines[-2:] == ["}", ""], "the braces")
    nodes, edges, label = {}, {}, None
    for line in lines[1:-2]:
        node = re.fullmatch(rf"  (\w+) \[(?:shape=(\w+), )?label={LABEL}\];", line)
        edge = re.fullmatch(r"  (\w+) -> \{((?: \w+)+) \};", line)
        graph = re.fullmatch(rf'  graph \[fontname="Helvetica", labelloc=b, label={LABEL}\];', line)
        if node:
            demand(node[1] not in nodes, f"the node {node[1]} stands twice")
            nodes[node[1]] = node[2] or "box", undotted(node[3])
        elif edge:
            demand(edge[1] not in edges, f"the edges of {edge[1]} stand twice")
            edges[edge[1]] = edge[2].split()
        elif graph:
            label = undotted(graph[1])
        else:
            demand(re.fullmatch(r"  (node|edge) \[[^]\"]*(\"Helvetica\")?[^]\"]*\];", line), f"the line {line!r}")
    demand(all(it in nodes for at in edges for it in [at, *edges[at]]), "a node has no line")
    demand({*nodes} == {"top", *(it for found in edges.values() for it in found)}, "a node stands alone")
    formulas = {}
    for name, (shape, words) in nodes.items():
        children = edges.get(name, [])
        if shape == "ellipse":
            demand(not children, f"{name} has edges")
            continue
        wanted = "box" if len(children) < 2 else "house" if name == "top" else "trapezium"
        demand(shape == wanted, f"{name} is a {shape}, and not a {wanted}")
        last = words.rpartition("\n")[2]
        demand(len(children) == 1 or last == {"house": "OR", "trapezium": "AND"}.get(shape, "never: no set" if name == "top" else "always: no fault"),
               f"{name} is labelled {words!r}")
        formulas[name] = "or" if shape == "house" or last == "never: no set" else "and", children
    return [[nodes[it][1] for it in found] for found in expanded("top", formulas)], label


def undotted(label):
    """Returns what Graphviz draws of a label: escapes and references are read, and `\\n` ends a line."""
    read = re.sub(r"\\(.)", lambda it: "\n" if it[1] == "n" else it[1], label)
    demand(not re.search(r"&(?!amp;)", read), f"the reference in {label!r}")
    return read.replace("&amp;", "&")


# value changes

def read_vcd(text):
    """Returns the comment, the scopes with their variables (name, type and size), and of each scope the values at each moment, by places."""
    head, _, body = text.partition("$enddefinitions $end\n")
    comment, scopes, places, now = None, [], {}, []
    for words in re.findall(r"\$(\w+)((?: \S+)*) \$end\n|\$upscope \$end\n|([^\n]+)\n", head):
        demand(not words[2], f"the line {words[2]!r}")
        given = words[1].split()
        if words[0] == "comment":
            comment = words[1].strip()
        elif words[0] == "scope":
            demand(given[0] == "module", "a scope")
            scopes.append((given[1], []))
        elif words[0] == "var":
            demand(len(given) == 4 and given[2] not in places, f"the variable {given}")
            places[given[2]] = len(scopes) - 1, len(scopes[-1][1])
            scopes[-1][1].append((re.sub(r"%(..)", lambda it: chr(int(it[1], 16)), given[3]), given[0], int(given[1])))
    values = [[] for _ in scopes]
    now = [[None] * len(variables) for _, variables in scopes]
    at = -1
    for line in body.splitlines():
        if line.startswith("#"):
            demand(int(line[1:]) == at + 1, f"the time {line}")
            if at >= 0:
                for found, it in zip(values, now):
                    found.append(list(it))
            at += 1
            continue
        change = re.fullmatch(r"([01])(\S+)|b([01]+) (\S+)|r(-?\d+) (\S+)|s(\S+) (\S+)", line)
        demand(change, f"the change {line!r}")
        code = change[2] or change[4] or change[6] or change[8]
        scope, place = places[code]
        now[scope][place] = value_of(change, scopes[scope][1][place])
    return comment, scopes, values


def value_of(change, variable):
    """Returns the value to which a variable changes, as a report has it."""
    _, kind, size = variable
    if change[1]:
        demand((kind, size) == ("wire", 1), f"a bit of a {kind}")
        return "TRUE" if change[1] == "1" else "FALSE"
    if change[3]:
        demand((kind, size) == ("integer", 64) and len(change[3]) <= 64, f"bits of a {kind}")
        return str(int(change[3], 2) - (2 ** 64 if len(change[3]) == 64 and change[3][0] == "1" else 0))
    demand(kind == ("real" if change[5] else "string"), f"{change[0]} of a {kind}")
    return change[5] or change[7].replace("\\\\", "\\")


# pages

class Page(html.parser.HTMLParser):
    """What a page has: its tables, the tags that were used with their attributes, and the text below each name of a tag."""

    def __init__(self, text):
        super().__init__(convert_charrefs=True)
        self.open, self.tags, self.tables, self.cell, self.texts = [], [], [], None, []
        self.feed(text)
        self.close()
        demand(not self.open, f"{self.open} stay open")

    def handle_starttag(self, tag, attrs):
        self.tags.append((tag, dict(attrs)))
        demand(len(dict(attrs)) == len(attrs), f"an attribute stands twice in {tag}")
        if tag in VOID:
            return
        found = []
        self.open.append((tag, found))
        self.texts.append((tag, found))
        if tag == "table":
            self.tables.append({"caption": "", "rows": []})
        elif tag == "tr":
            self.tables[-1]["rows"].append([])
        elif tag in ("th", "td", "caption"):
            self.cell = [tag, dict(attrs).get("scope"), ""]

    def handle_startendtag(self, tag, attrs):
        self.tags.append((tag, dict(attrs)))

    def handle_endtag(self, tag):
        demand(self.open and self.open.pop()[0] == tag, f"</{tag}> ends another tag")
        if tag == "caption":
            self.tables[-1]["caption"] = self.cell[2]
        elif tag in ("th", "td"):
            self.tables[-1]["rows"][-1].append(tuple(self.cell))
        if tag in ("th", "td", "caption"):
            self.cell = None

    def handle_data(self, data):
        if self.cell:
            self.cell[2] += data
        for _, found in self.open[-1:]:
            found.append(data)

    def text_of(self, tag):
        return ["".join(found) for name, found in self.texts if name == tag]


def read_html(text):
    """Returns a page and its pictures, each as an element."""
    page = Page(text)
    demand(text.startswith("<!DOCTYPE html>\n") and page.tags[0] == ("html", {"lang": "en"}), "the head")
    for tag, attributes in page.tags:
        demand(tag not in ("script", "link", "img", "iframe", "a", "object", "embed", "base"), f"a tag {tag}")
        demand(not {"href", "src", "srcset", "action", "style"} & {*attributes}, f"{attributes}")
        demand(not any(it.startswith("on") for it in attributes), f"{attributes}")
    names = [attributes["id"] for _, attributes in page.tags if "id" in attributes]
    demand(len(names) == len({*names}), "an id stands twice")
    for _, attributes in page.tags:
        demand(all(it in names for it in (attributes.get("aria-labelledby") or "").split()), f"{attributes} names no element")
    demand(not re.search(r"url\(|@import|https?:", text), "a link")
    return page, [xml.etree.ElementTree.fromstring(it) for it in re.findall(r"<svg.*?</svg>", text, re.S)]


def read_lanes(picture):
    """Returns the places between the moments of a picture, and its lanes: the name, and of each bar its meaning, its class, where it begins and
    ends, and how high the line of it is."""
    edges = [int(it) for it in re.findall(r"M(\d+) ", picture.find("path[@class='grid']").get("d"))]
    lanes = []
    for it in picture:
        if it.tag == "text" and it.get("class") == "name":
            lanes.append((it.text, []))
        elif it.tag == "g":
            lanes[-1][1].append((it.find("title").text, *bar_of(it)))
    return edges, lanes


def bar_of(group):
    """Returns the class of a bar, where it begins and ends, and the height of its line."""
    box, line = group.find("rect"), group.find("path[@class='level']")
    if box is not None:
        return box.get("class"), int(box.get("x")) - 2, int(box.get("x")) + int(box.get("width")) + 2, None
    if line is None:
        return None, None, None, None
    begin, _, height, end = map(int, re.fullmatch(r"M(\d+) (\d+)V(\d+)H(\d+)", line.get("d")).groups())
    return "level", begin, end, -height
