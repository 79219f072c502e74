"""Reads a logical netlist from its bytes, as docs/FORMATS.md says, apart from the project's own code: the first frame fault of
the whole message in reading order, else the first index that is out of its list, else all that the netlist says in one line.
"""
import struct

LIST_SIZES = {"Text": 2, "List(UInt32)": 4, "List(Text)": 6}
TOLD = {("PortInstance", "busTag"): "bus_tag", ("PortInstance", "ownerTag"): "owner_tag", ("Port", "kind"): "kind_tag"}


class Fault(Exception):
    """What is told of a file that has no reading."""


class Rule(Exception):
    """A rule that breaks at a pointer."""


class Frame:
    """A file's segments, and what may still be spent on following pointers."""

    def __init__(self, file):
        count = struct.unpack_from("<I", file)[0] + 1 if len(file) >= 4 else 0
        if count > 512:
            raise Fault("F2 at word 0:0")
        at = 8 * (count // 2 + 1)
        if len(file) < max(at, 4):
            raise Fault("F1 at word 0:0")
        self.segments = []
        for words in struct.unpack_from(f"<{count}I", file, 4):
            self.segments.append(file[at:at + 8 * words])
            at += 8 * words
        if len(file) != at:
            raise Fault("F1 at word 0:0")
        self.left = 2 * sum(len(segment) // 8 for segment in self.segments) + 64

    def word(self, segment, at):
        return struct.unpack_from("<Q", self.segments[segment], 8 * at)[0]

    def inside(self, segment, start, words):
        if segment >= len(self.segments) or start < 0 or 8 * (start + words) > len(self.segments[segment]):
            raise Rule("F3")

    def target(self, segment, at):
        """What a pointer describes, and the segment and the place where that begins; None for the default."""
        word = self.word(segment, at)
        if word == 0:
            return None
        if word & 3 == 2:
            pad, home, wide = word >> 3 & 0x1FFFFFFF, word >> 32, word >> 2 & 1
            self.inside(home, pad, 1 + wide)
            far = self.word(home, pad)
            if wide:
                tag = self.word(home, pad + 1)
                if far & 7 != 2 or tag & 3 > 1:
                    raise Rule("F4")
                return tag, far >> 32, far >> 3 & 0x1FFFFFFF
            if far == 0:
                return None
            word, segment, at = far, home, pad
            if word & 3 == 2:
                raise Rule("F4")
        if word & 3 == 3:
            raise Rule("F5")
        offset = word >> 2 & 0x3FFFFFFF
        return word, segment, at + 1 + offset - (offset >> 29 << 30)

    def spend(self, cost):
        if cost > self.left:
            raise Rule("F7")
        self.left -= cost

    def struct(self, segment, at):
        """A struct's segment, place, data words and pointers."""
        found = self.target(segment, at)
        if found is None:
            return 0, 0, 0, 0
        word, home, start = found
        if word & 3:
            raise Rule("F4")
        data, pointers = word >> 32 & 0xFFFF, word >> 48
        self.inside(home, start, data + pointers)
        self.spend(max(1, data + pointers))
        return home, start, data, pointers

    def plain(self, segment, at, size):
        """The segment, place and length of a list of bytes, numbers or pointers."""
        found = self.target(segment, at)
        if found is None:
            return 0, 0, 0
        word, home, start = found
        if word & 3 != 1 or word >> 32 & 7 != size:
            raise Rule("F4")
        count = word >> 35
        words = (count * {2: 1, 4: 4, 6: 8}[size] + 7) // 8
        self.inside(home, start, words)
        self.spend(max(1, words))
        return home, start, count

    def text(self, segment, at):
        if self.target(segment, at) is None:
            return ""
        home, start, count = self.plain(segment, at, 2)
        raw = self.segments[home][8 * start:8 * start + count]
        if raw[-1:] != b"\0":
            raise Rule("F6")
        try:
            return raw[:-1].decode()
        except UnicodeDecodeError:
            raise Rule("F6") from None

    def structs(self, segment, at):
        """The structs of a list, as by `struct`."""
        found = self.target(segment, at)
        if found is None:
            return []
        word, home, start = found
        if word & 3 != 1 or word >> 32 & 7 != 7:
            raise Rule("F4")
        words = word >> 35
        self.inside(home, start, 1 + words)
        tag = self.word(home, start)
        count, data, pointers = tag >> 2 & 0x3FFFFFFF, tag >> 32 & 0xFFFF, tag >> 48
        if tag & 3 or count * (data + pointers) > words:
            raise Rule("F8")
        self.spend(1 + words + (count if data + pointers == 0 else 0))
        return [(home, start + 1 + i * (data + pointers), data, pointers) for i in range(count)]


class Message:
    """The numbers of a message's structs, in dictionaries by field; lists and structs as they stand."""

    def __init__(self, structs, root, file):
        self.structs, self.frame, self.strings = structs, Frame(file), []
        if not self.frame.segments[0]:
            raise Fault("F3 at word 0:0")
        found = self.at(0, 0, self.frame.struct)
        # The string table is read before all else.
        table = next(f for f in structs[root] if f.name == "strList")
        self.strings = self.behind(found, table)
        self.value = self.content(root, found)

    def at(self, segment, word, read, *more):
        try:
            return read(segment, word, *more)
        except Rule as rule:
            raise Fault(f"{rule} at word {segment}:{word}") from None

    def content(self, kind, found):
        segment, start, data, _ = found
        value = {}
        for f in self.structs[kind]:
            if f.is_data:
                there = f.slot < 2 * data
                value[f.name] = struct.unpack_from("<I", self.frame.segments[segment], 8 * start + 4 * f.slot)[0] if there else 0
        for f in self.structs[kind]:
            if not f.is_data and f.name != "strList":
                value[f.name] = self.behind(found, f)
        return value

    def behind(self, found, field):
        segment, start, data, pointers = found
        word, form = start + data + field.slot, field.form
        there = field.slot < pointers
        if form == "Text":
            return self.at(segment, word, self.frame.text) if there else ""
        if form in self.structs:
            return self.content(form, self.at(segment, word, self.frame.struct) if there else (0, 0, 0, 0))
        if not there:
            return []
        if form in LIST_SIZES:
            home, first, count = self.at(segment, word, self.frame.plain, LIST_SIZES[form])
            if form == "List(UInt32)":
                return list(struct.unpack_from(f"<{count}I", self.frame.segments[home], 8 * first))
            return [self.at(home, first + i, self.frame.text) for i in range(count)]
        kind = form[5:-1]
        return [self.content(kind, one) for one in self.at(segment, word, self.frame.structs)]


class Judge:
    """Asks the numbers of a netlist in reading order, and raises the first that is out of its list."""

    def __init__(self, message):
        self.strings, self.root, self.counts = len(message.strings), message.value, {}
        self.declarations, self.ports = self.root["cellDecls"], self.root["portList"]
        self.instances = self.root["instList"]
        self.properties(self.root["propMap"])
        self.instance(self.root["topInst"])
        for declaration in self.declarations:
            ask = self.begin("CellDeclaration")
            ask("name", declaration["name"] < self.strings)
            for port in declaration["ports"]:
                ask("ports", port < len(self.ports))
        for port in self.ports:
            ask = self.begin("Port")
            ask("name", port["name"] < self.strings)
            ask("dir", port["dir"] % 65536 < 3)
            ask("kind", port["kind"] % 65536 < 2)
            self.properties(port["propMap"])
        for instance in self.instances:
            self.instance(instance)
        for cell in self.root["cellList"]:
            self.cell(cell)

    def begin(self, kind):
        """Counts a struct, and gives what asks its fields."""
        index = self.counts[kind] = self.counts.get(kind, -1) + 1

        def ask(field, fits):
            if not fits:
                raise Fault(f"I1 at {kind}.{TOLD.get((kind, field), field)} {index}")
        return ask

    def properties(self, value):
        for entry in value["entries"]:
            ask = self.begin("Entry")
            tag = entry["tag"] % 65536
            ask("key", entry["key"] < self.strings)
            ask("tag", tag < 3)
            ask("value", tag != 0 or entry["value"] < self.strings)

    def instance(self, value):
        ask = self.begin("CellInstance")
        ask("name", value["name"] < self.strings)
        ask("cell", value["cell"] < len(self.declarations))
        self.properties(value["propMap"])

    def cell(self, value):
        ask = self.begin("Cell")
        ask("index", value["index"] < len(self.declarations))
        for instance in value["insts"]:
            ask("insts", instance < len(self.instances))
        for net in value["nets"]:
            self.begin("Net")("name", net["name"] < self.strings)
            for pin in net["portInsts"]:
                self.pin(pin, value)

    def pin(self, pin, cell):
        ask = self.begin("PortInstance")
        owner, inst = pin["ownerTag"] % 65536, pin["inst"]
        ask("port", pin["port"] < len(self.ports))
        # Which declaration must have the port is known where the owner is.
        if owner == 0:
            ask("port", pin["port"] in self.declarations[cell["index"]]["ports"])
        if owner == 1 and inst < len(self.instances):
            ask("port", pin["port"] in self.declarations[self.instances[inst]["cell"]]["ports"])
        port = self.ports[pin["port"]]
        ask("busTag", pin["busTag"] % 65536 == port["kind"] % 65536)
        is_bit = port["kind"] % 65536 == 0
        ask("idx", is_bit or pin["idx"] <= abs(port["busStart"] - port["busEnd"]))
        ask("ownerTag", owner < 2)
        ask("inst", owner == 0 or inst in cell["insts"])


class Teller:
    """Tells a netlist in one line."""

    def __init__(self, message):
        self.strings, self.root = message.strings, message.value

    def name(self, number):
        return f' "{self.strings[number]}"'

    def properties(self, value):
        told = ""
        for entry in value["entries"]:
            kind, number = entry["tag"] % 65536, entry["value"]
            said = [self.name(number) if kind == 0 else None, f" {number}", " true" if number % 2 else " false"][kind]
            told += f" {{{self.name(entry['key'])}{said} }}"
        return told

    def instance(self, value):
        return f"{self.name(value['name'])} of {value['cell']}{self.properties(value['propMap'])}"

    def pin(self, value):
        bus = ["bit", "bus"][value["busTag"] % 65536]
        owner = f"of {value['inst']}" if value["ownerTag"] % 65536 else "own"
        return f" ({value['port']} {bus} {value['idx']} {owner})"

    def told(self):
        root = self.root
        told = f'netlist "{root["name"]}"{self.properties(root["propMap"])}; top{self.instance(root["topInst"])}'
        for one in root["cellDecls"]:
            told += f"; declaration{self.name(one['name'])}" + "".join(f" {port}" for port in one["ports"])
        for one in root["portList"]:
            words = [["input", "output", "inout"][one["dir"] % 65536], ["bit", "bus"][one["kind"] % 65536]]
            told += f"; port{self.name(one['name'])} {' '.join(words)} {one['busStart']} {one['busEnd']}"
            told += self.properties(one["propMap"])
        for one in root["instList"]:
            told += f"; instance{self.instance(one)}"
        for one in root["cellList"]:
            told += f"; cell {one['index']}" + "".join(f" {instance}" for instance in one["insts"])
            for net in one["nets"]:
                told += f", net{self.name(net['name'])}" + "".join(map(self.pin, net["portInsts"]))
        return told


def reading(structs, root, file, names):
    """What is told of a file that is read with these names before it."""
    names = list(dict.fromkeys(names))
    try:
        message = Message(structs, root, file)
        names = list(dict.fromkeys(names + message.strings + [message.value["name"]]))
        Judge(message)
        told = Teller(message).told()
    except Fault as fault:
        told = str(fault)
    return f"{told}; names" + "".join(f' "{name}"' for name in names)
