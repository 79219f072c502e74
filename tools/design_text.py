"""Reads designs that are written as short texts, and gives each as JSON in the form of tools/message.py.

A file has one design after another. A line that begins with `#` is a remark.

    == WHAT IT SHOWS
    device NAME                  the device that it is tried on
    property KEY=VALUE           a property of the netlist
    leaf T: in a, out z          a declaration without a cell; its ports
    cell T: in a[3:0], inout b   a declaration with a cell; the lines below are of it
      has u TYPE KEY=VALUE       an instance
      again u                    the same instance once more in the cell's list
      net n: a[0] u.z u.b[1]     a net and the port bits that it names
    more T                       another cell of the declaration, of which the lines below are
    into T                       the lines below are once more of the declaration's first cell
    port T.a KEY=VALUE           a property of a port
    levels T 21 2 GND            cells T0 to T20, each with 2 instances of the next, the last with 2 of GND
    top T                        the top, where it isn't the first declaration
    set cellDecls/0/name "x"     changes the JSON, at last

A word that is declared may have another name in the netlist, written behind `=`: `has u2=u T`, `in b2=a[0]`. A port of
another declaration is shared by `again T.a` among the ports, one of the same declaration stands twice by `again a`. The
value of a property is a text, behind `:=` a number, behind `?=` a Bool. A bit of a bus is written by its index from 0.

A leaf that has no declaration in the text is one of LEAVES; these follow the declarations of the text.
"""
import json
import re

LEAVES = {
    "DRV": "out O",
    "LOAD": "in I",
    "GND": "out G",
    "VCC": "out P",
    "FD": "in C, in D, out Q",
    "BUFFER": "in I, out O",
    "PAD": "inout T",
    **{f"LUT{k}": ", ".join([f"in I{i}" for i in range(k)] + ["out O"]) for k in range(1, 8)},
}
DIRECTIONS = {"in": 0, "out": 1, "inout": 2}
TAGS = {"=": 0, ":=": 1, "?=": 2}


class Declaration:
    def __init__(self, number):
        self.number, self.ports = number, {}


class Text:
    """One design: its declarations, and the netlist as it grows."""

    def __init__(self, lines):
        self.declarations = {}
        self.value = {"topInst": {"name": "top"}, "cellDecls": [], "portList": [], "instList": [], "cellList": []}
        self.changes, self.later, self.place = [], [], None
        self.device = None
        for line in lines:
            self.take(*line.strip().partition(" ")[::2])
        while self.later:
            self.later.pop(0)()
        for where, what in self.changes:
            *path, last = where.split("/")
            inner = self.value
            for step in path:
                inner = inner[int(step) if isinstance(inner, list) else step]
            inner[int(last) if isinstance(inner, list) else last] = what

    def take(self, word, rest):
        if word in ("leaf", "cell"):
            name, _, ports = rest.partition(":")
            self.declare(name, ports)
            if word == "cell":
                self.open(name.partition("=")[0])
        elif word == "more":
            self.open(rest)
        elif word == "into":
            self.own = self.declarations[rest]
            self.cell = next(cell for cell in self.value["cellList"] if cell["index"] == self.own.number)
        elif word == "has":
            self.has(rest)
        elif word == "again":
            self.cell["insts"].append(self.here[rest][0])
        elif word == "net":
            name, _, bits = rest.partition(":")
            net = {"name": name, "portInsts": []}
            self.cell["nets"].append(net)
            self.later.append(lambda here=self.here, own=self.own: net["portInsts"].extend(
                self.bit(here, own, bit) for bit in bits.split()))
        elif word == "levels":
            self.levels(*rest.split())
        elif word == "device":
            self.device = rest
        elif word == "property":
            self.value["propMap"] = {"entries": self.properties(rest)}
        elif word == "port":
            name, _, words = rest.partition(" ")
            owner, _, port = name.partition(".")
            number = self.declarations[owner].ports[port]
            self.value["portList"][number]["propMap"] = {"entries": self.properties(words)}
        elif word == "top":
            self.later.append(lambda: self.value["topInst"].update(cell=self.declaration(rest).number))
        elif word == "set":
            where, _, what = rest.partition(" ")
            self.changes.append((where, json.loads(what)))
        else:
            raise ValueError(f"{word} {rest}")

    def declare(self, name, ports):
        word, _, name = name.partition("=") if "=" in name else (name, "", name)
        declared = self.declarations[word] = Declaration(len(self.value["cellDecls"]))
        listed = []
        self.value["cellDecls"].append({"name": name, "ports": listed})
        for port in filter(None, map(str.strip, ports.split(","))):
            direction, rest = port.split(" ", 1)
            if direction == "again":
                owner, _, other = rest.rpartition(".")
                number = self.declarations[owner or word].ports[other]
                declared.ports.setdefault(other, number)
            else:
                found = re.fullmatch(r"(\w+)(?:\[(\d+):(\d+)\])?(?:=(.*))?", rest)
                number = declared.ports[found[1]] = len(self.value["portList"])
                new = {"name": found[1] if found[4] is None else found[4], "dir": DIRECTIONS[direction]}
                if found[2] is not None:
                    new.update(kind=1, busStart=int(found[2]), busEnd=int(found[3]))
                self.value["portList"].append(new)
            listed.append(number)

    def declaration(self, word):
        if word not in self.declarations:
            self.declare(word, LEAVES[word])
        return self.declarations[word]

    def open(self, word):
        self.own = self.declarations[word]
        self.cell = {"index": self.own.number, "insts": [], "nets": []}
        self.here = {}
        self.value["cellList"].append(self.cell)

    def has(self, rest):
        words = rest.split(" ", 2)
        word, _, name = words[0].partition("=") if "=" in words[0] else (words[0], "", words[0])
        inst = {"name": name}
        if len(words) > 2:
            inst["propMap"] = {"entries": self.properties(words[2])}
        number = len(self.value["instList"])
        self.here[word] = (number, words[1])
        self.cell["insts"].append(number)
        self.value["instList"].append(inst)
        self.later.append(lambda: inst.update(cell=self.declaration(words[1]).number))

    def properties(self, words):
        entries = []
        for key, sign, value in re.findall(r'([^\s=:?]+)(:=|\?=|=)("[^"]*"|\S*)', words):
            value = value.strip('"')
            entries.append({"key": key, "tag": TAGS[sign], "value": value if sign == "=" else int(value)})
        return entries

    def bit(self, here, own, text):
        found = re.fullmatch(r"(?:(\w+)\.)?(\w+)(?:\[(\d+)\])?", text)
        owner = self.declaration(here[found[1]][1]) if found[1] else own
        named = {"port": owner.ports[found[2]]}
        if found[3] is not None:
            named.update(busTag=1, idx=int(found[3]))
        if found[1]:
            named.update(ownerTag=1, inst=here[found[1]][0])
        return named

    def levels(self, word, count, width, last):
        for level in range(int(count)):
            self.declare(f"{word}{level}", "")
        for level in range(int(count)):
            self.open(f"{word}{level}")
            for i in range(int(width)):
                self.has(f"i{i} {word}{level + 1}" if level + 1 < int(count) else f"i{i} {last}")


def designs(path):
    """What each design of a file shows, its device and its JSON."""
    found = []
    for line in open(path, encoding="utf8"):
        line = line.rstrip("\n")
        if line.startswith("== "):
            found.append((line[3:], []))
        elif line.strip() and not line.lstrip().startswith("#"):
            found[-1][1].append(line)
    for what, lines in found:
        try:
            text = Text(lines)
        except Exception as error:
            raise ValueError(f"{what}: {error!r}") from error
        names = text.value.get("strList") or names_in(text.value)
        yield what, text.device, dict(text.value, strList=names)


def names_in(value):
    """The texts of a JSON value, each once."""
    if isinstance(value, str):
        return [value]
    inner = value.values() if isinstance(value, dict) else value if isinstance(value, list) else []
    return list(dict.fromkeys(name for one in inner for name in names_in(one)))
