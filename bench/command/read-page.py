#!/usr/bin/env python3
"""read-page.py PAGE [TEXT]: reads a page that `--report` wrote, by Python's own HTML reader, and prints what it says in lines.

Fails where the page is not well formed, has a tag, an attribute or a style that could run or fetch something, or where the maps' marks are not
exactly those of the ranges: those of the text that `--text` wrote beside the page, or without one of the page's own table.
"""
import re, sys
from html.parser import HTMLParser

TAGS = set("html head meta title style body main header p h1 time section h2 h3 table thead tbody tr th td dl div dt dd svg rect ul li span strong code".split())
ATTRIBUTES = set("lang charset http-equiv content name class id viewbox preserveaspectratio role aria-label aria-hidden x y width height".split())
EMPTY = {"meta"}


class Node:
    def __init__(self, tag, attributes, parent):
        self.tag, self.attributes, self.parent, self.children = tag, attributes, parent, []

    def all(self, tag=None, kind=None):
        for child in self.children:
            if isinstance(child, Node):
                if (tag is None or child.tag == tag) and (kind is None or kind in child.attributes.get("class", "").split()):
                    yield child
                yield from child.all(tag, kind)

    def one(self, tag=None, kind=None):
        found = list(self.all(tag, kind))
        assert len(found) == 1, (tag, kind, len(found))
        return found[0]

    def text(self):
        return "".join(child.text() if isinstance(child, Node) else child for child in self.children)


class Reader(HTMLParser):
    def __init__(self):
        super().__init__(convert_charrefs=True)
        self.at = self.root = Node("", {}, None)
        self.types = []

    def handle_decl(self, decl):
        self.types.append(decl)

    def handle_starttag(self, tag, attributes):
        assert tag in TAGS, "tag " + tag
        names = [name for name, _ in attributes]
        assert len(names) == len(set(names)) and set(names) <= ATTRIBUTES, (tag, names)
        node = Node(tag, dict(attributes), self.at)
        self.at.children.append(node)
        if tag not in EMPTY:
            self.at = node

    def handle_startendtag(self, tag, attributes):
        self.handle_starttag(tag, attributes)
        if tag not in EMPTY:
            self.at = self.at.parent

    def handle_endtag(self, tag):
        assert tag == self.at.tag, "end of %s in %s" % (tag, self.at.tag)
        self.at = self.at.parent

    def handle_data(self, data):
        self.at.children.append(data)

    def handle_comment(self, data):
        raise AssertionError("a comment")

    def handle_pi(self, data):
        raise AssertionError("an instruction")


def read(name):
    reader = Reader()
    with open(name, "rb") as file:
        text = file.read().decode("utf-8")
    assert not re.search("[\x00-\x08\x0b-\x1f\x7f]", text), "a control character"
    reader.feed(text)
    reader.close()
    assert reader.at is reader.root and reader.types == ["DOCTYPE html"], "not a whole page"
    assert text.endswith("</html>\n")
    return reader.root


def check_head(root):
    policy = [meta.attributes["content"] for meta in root.all("meta") if meta.attributes.get("http-equiv") == "Content-Security-Policy"]
    assert policy == ["default-src 'none'; style-src 'unsafe-inline'"], policy
    style = root.one("style").text()
    assert not re.search("url|@import|http|expression|<", style), "the style fetches"
    assert "size:A4" in style


def ranges_of(root, text):
    """(kind, first, last) of each: setting, sheet, other, stray."""
    for line in text or []:
        if line.startswith("W "):
            continue
        kind, first, last, rest = re.match(r"([SX]) (\d+)\.\.(\d+) length \d+ (.*)", line).groups()
        if kind == "X":
            yield "strays", int(first), int(last)
        elif ", no sheet sets it" in rest:
            yield "others", int(first), int(last)
        else:
            yield "sheets" if "aker's, entry " in rest else "settings", int(first), int(last)
    if text is None:
        for table in root.all("table", "ranges"):
            for row in list(table.all("tr"))[1:]:
                cells = [cell.text() for cell in row.all("td")]
                first, last = map(int, cells[1].split(".."))
                lane = "strays" if cells[0] == "X stray" else "settings"
                if lane == "settings" and len(cells) == 7:
                    lane = "others" if cells[6] == "no sheet sets it" else "sheets"
                yield lane, first, last


def check_marks(lane, start, length, wanted, name):
    """Each range lies under a mark, and each mark's ends are a range's."""
    marks = [tuple(int(box.attributes[key]) for key in ("x", "width")) for box in lane.all("rect")]
    titles = [tuple(map(int, re.match(r"(\d+)\.\.(\d+)", box.text()).groups())) for box in lane.all("rect")]
    wanted = [(max(first, start), min(last, start + length - 1)) for first, last in wanted if first < start + length and last >= start]
    column = lambda at: (at - start) * 1000 // length
    assert marks == sorted(marks) and all(0 <= x and width >= 1 and x + width <= 1000 for x, width in marks), (name, marks)
    under = {}
    for number, (x, width) in enumerate(marks):
        for at in range(x, x + width):
            assert at not in under, (name, "two marks at", at)
            under[at] = number
    for first, last in wanted:
        assert under[column(first)] == under[column(last)], (name, first, last)
    starts, ends = {first for first, _ in wanted}, {last for _, last in wanted}
    for (x, width), (first, last) in zip(marks, titles):
        assert first in starts and last in ends, (name, first, last)
        assert x == column(first) and x + width == max(column(last + 1), column(last) + 1), (name, x, width, first, last)
    return len(marks)


def check_maps(root, ranges, facts):
    length = int(facts["length"])
    stretches = [("image", 0, length)]
    if "Region at" in facts:
        stretches.append(("region", int(facts["Region at"]), int(facts["Region's bytes"])))
    else:
        assert not [node for node in root.all("div", "map") if node.attributes["id"] == "region"]
    for name, start, stretch in stretches:
        map_of = [node for node in root.all("div", "map") if node.attributes["id"] == name]
        assert len(map_of) == 1
        for kind in ("settings", "sheets", "others", "strays"):
            lanes = list(map_of[0].all("svg", kind))
            wanted = [(first, last) for lane, first, last in ranges if lane == kind]
            assert lanes or not wanted, (name, kind)
            for lane in lanes:
                print("marks %s %s %d" % (name, kind, check_marks(lane, start, stretch, wanted, kind)))


def main(page, text=None):
    root = read(page)
    check_head(root)
    title, name = root.one("head").one("title").text(), root.one("h1").text()
    assert title.endswith(": " + re.sub(r"U\+[0-9A-F]{4,}", "?", name)), (title, name)
    print("title " + title[:-2 - len(re.sub(r"U\+[0-9A-F]{4,}", "?", name))])
    print("h1 " + name)
    made = re.fullmatch(r"Made on (\d{4}-\d\d-\d\d \d\d:\d\d:\d\d UTC) by (.*\(\d+\)) on (.+), with pajurenda (\S+)\.", root.one("p", "made").text())
    assert made, root.one("p", "made").text()
    print("user %s host %s" % made.groups()[1:3])
    about = {fact.one("dt").text(): fact.one("dd").text() for fact in root.one("dl", "about").all("div")}
    print("by %s %s" % (made.group(4), about["Library proved with"]))
    assert re.fullmatch("[0-9a-f]{64}|unknown archive", about["SHA-256 of the library's archive"]), about
    for kind in ("report-number", "remark"):
        for given in root.all("p", kind):
            print(kind + " " + given.text())
    verdict = root.one("section", "verdict")
    print("verdict %s (%s)" % (verdict.one("p", "word").text(), verdict.attributes["class"].split()[1]))
    print("because " + list(verdict.all("p"))[1].text())
    for values in verdict.all("p", "values"):
        print("values " + values.text())
    for open_one in verdict.all("p", "unchecked"):
        print("unchecked " + open_one.text())
    for naming in root.all("section", "naming"):
        for line in naming.all("p"):
            print("naming " + line.text())
    for row in list(root.one("table", "files").all("tr"))[1:]:
        for path in row.all("div", "path"):
            print("path %s|%s" % (next(row.all("td")).text(), path.text()))
            path.parent.children.remove(path)
        print("file " + "|".join(cell.text() for cell in row.all("td")))
    parts = [node for node in root.one("main").children if isinstance(node, Node)]
    order = [node.tag if node.tag == "header" else node.attributes.get("class", "").split(" ")[0] or node.one("h2").text() for node in parts]
    print("order " + ", ".join(order))
    assert [node.tag for node in root.one("div", "signed").children if isinstance(node, Node)] == ["section", "div"]
    signing = root.one("div", "signing")
    assert [(node.tag, node.attributes["class"]) for node in signing.children if isinstance(node, Node)] == [("p", "signed-for"), ("section", "sign-off")]
    print("signed " + signing.one("p", "signed-for").text())
    for count in root.all("p", "count-right"):
        print("right " + count.text())
    facts = {}
    for pair in root.all("dl"):
        for fact in pair.all("div"):
            key = fact.one("dt").text()
            facts["shipped " + key if key in facts else key] = fact.one("dd").text()
    for key, value in facts.items():
        print("fact %s: %s" % (key, value))
    for table in root.all("table"):
        kind = table.attributes["class"].split()[0]
        for row in [] if kind == "files" else list(table.all("tr"))[1:]:
            print(kind + " " + "|".join(cell.text() for cell in row.all("td")))
    for note in root.all("p", "note"):
        if note.text().startswith("…"):
            print("rest " + note.text())
    if "FSP header at" in facts:
        facts["length"] = list(root.one("table", "files").all("tr"))[1].one("td", "number").text()
        whole = None
        if text is not None:
            with open(text, encoding="utf-8", errors="replace") as file:
                whole = file.read().split("\n")[:-1]
        check_maps(root, list(ranges_of(root, whole)), facts)


main(*sys.argv[1:])
