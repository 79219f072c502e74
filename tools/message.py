#!/usr/bin/env python3
"""Turns messages into text and back, and tells where each field stands. Apart from the project's own code.

usage: message.py encode SCHEMA [--hex] < TEXT > FILE
       message.py decode SCHEMA [--hex] < FILE > TEXT
       message.py places SCHEMA [--hex] < FILE

SCHEMA is a file of examples/schema; its first struct is the message's root. A text is JSON: a struct is an object with
the schema's field names, and a field that is left out is its default. Where the schema calls a number a name, the text
has the name itself; the table of strings lists the names in the order of their first use, unless the text gives
`strList`. A number in the place of a name is taken as it stands.

With --hex a file is hexadecimal digits. `places` prints a line for each field of the message that is there: at which
byte it stands, and the struct's name, the field's and which struct of that name it is in reading order, as ixflow tells
a place. Files have one segment.
"""
import json
import re
import struct
import sys


class Field:
    """A field: its slot among the data or the pointers, and what it holds."""

    def __init__(self, name, form, slot, is_name):
        self.name, self.form, self.slot, self.is_name = name, form, slot, is_name
        self.is_data = form == "UInt32"


def read_schema(path):
    """The structs of a schema by their names, each a list of fields; and the name of the first."""
    structs, first, fields = {}, None, None
    for line in open(path, encoding="utf8"):
        code, _, comment = line.partition("#")
        opened = re.match(r"struct (\w+) \{", code)
        if opened:
            fields = structs.setdefault(opened[1], [])
            first = first or opened[1]
        found = re.match(r"\s+(\w+) @\d+ :([\w()]+);", code)
        if found:
            is_data = found[2] == "UInt32"
            slot = sum(f.is_data == is_data for f in fields)
            fields.append(Field(found[1], found[2], slot, bool(re.match(r"\s*(a )?names?\b", comment))))
    return structs, first


def sections(fields):
    """How many words the data and the pointers of a struct take."""
    data = sum(f.is_data for f in fields)
    return (data + 1) // 2, len(fields) - data


class Writer:
    def __init__(self, structs, root, value):
        self.structs, self.bytes = structs, bytearray()
        self.strings = list(value["strList"]) if "strList" in value else None
        self.known = {}
        if self.strings is None:
            self.note(root, value)
            self.strings = list(self.known)
        self.numbers = {}
        for i, text in enumerate(self.strings):
            self.numbers.setdefault(text, i)
        value = dict(value, strList=self.strings)
        self.put_struct(self.take(1), root, value, False)

    def note(self, kind, value):
        """Notes the names of a struct in the order of their first use."""
        fields = self.structs[kind]
        for field in [f for f in fields if f.is_data] + [f for f in fields if not f.is_data]:
            inner = value.get(field.name)
            if field.is_data or field.form == "List(UInt32)":
                names = [inner] if field.is_data else inner or []
                # A number in the place of a name stands for itself, as the value of a property may.
                for name in names if field.is_name else []:
                    if not isinstance(name, int):
                        self.known.setdefault("" if name is None else name)
            elif field.form in self.structs:
                self.note(field.form, inner or {})
            elif field.form[5:-1] in self.structs:
                for one in inner or []:
                    self.note(field.form[5:-1], one)

    def take(self, words):
        at = len(self.bytes)
        self.bytes += bytes(8 * words)
        return at

    def point(self, at, target, low, high):
        struct.pack_into("<2I", self.bytes, at, (target - at - 8) // 8 << 2 | low, high)

    def number(self, field, value):
        if value is None:
            value = "" if field.is_name and "" in self.numbers else 0
        return value if isinstance(value, int) else self.numbers[value]

    def put_struct(self, at, kind, value, may_be_zero):
        if may_be_zero and not value:
            return
        data, pointers = sections(self.structs[kind])
        target = self.take(data + pointers)
        self.point(at, target, 0, data | pointers << 16)
        self.put_fields(target, kind, value)

    def put_fields(self, at, kind, value):
        unknown = set(value) - {f.name for f in self.structs[kind]}
        assert not unknown, f"{kind} has no {unknown}"
        data, _ = sections(self.structs[kind])
        for field in [f for f in self.structs[kind] if f.is_data]:
            struct.pack_into("<I", self.bytes, at + 4 * field.slot, self.number(field, value.get(field.name)))
        for field in [f for f in self.structs[kind] if not f.is_data]:
            self.put_pointer(at + 8 * (data + field.slot), field, value.get(field.name))

    def put_pointer(self, at, field, value):
        if field.form in self.structs:
            # A struct with one list and nothing else is left out where the list is empty, and so is one that isn't given.
            self.put_struct(at, field.form, value or {}, field.form in ("PropertyMap", "Constants"))
        elif not value:
            return
        elif field.form == "Text":
            self.put_text(at, value)
        elif field.form == "List(Text)":
            target = self.take(len(value))
            self.point(at, target, 1, 6 | len(value) << 3)
            for i, text in enumerate(value):
                self.put_text(target + 8 * i, text)
        elif field.form == "List(UInt32)":
            target = self.take((len(value) + 1) // 2)
            self.point(at, target, 1, 4 | len(value) << 3)
            struct.pack_into(f"<{len(value)}I", self.bytes, target, *[self.number(field, v) for v in value])
        else:
            self.put_list(at, field.form[5:-1], value)

    def put_text(self, at, text):
        if text:
            raw = text.encode() + b"\0"
            target = self.take((len(raw) + 7) // 8)
            self.point(at, target, 1, 2 | len(raw) << 3)
            self.bytes[target:target + len(raw)] = raw

    def put_list(self, at, kind, values):
        data, pointers = sections(self.structs[kind])
        size = data + pointers
        target = self.take(1 + len(values) * size)
        self.point(at, target, 1, 7 | len(values) * size << 3)
        struct.pack_into("<2I", self.bytes, target, len(values) << 2, data | pointers << 16)
        for i, value in enumerate(values):
            self.put_fields(target + 8 + 8 * i * size, kind, value)

    def file(self):
        return struct.pack("<2I", 0, len(self.bytes) // 8) + bytes(self.bytes)


class Reader:
    """Reads a message of one segment, and notes where each field stands."""

    def __init__(self, structs, root, data):
        segments, words = struct.unpack_from("<2I", data)
        assert segments == 0 and len(data) == 8 + 8 * words, "not a message of one segment"
        self.structs, self.data, self.places, self.counts = structs, data, [], {}
        strings = next(f for f in structs[root] if f.name == "strList")
        start = self.target(8)
        self.strings = self.texts(start[0] + 8 * (start[1] + strings.slot))
        self.value = self.struct(8, root)

    def target(self, at):
        """Where the object behind a pointer begins, and the two numbers of its high half; None for a zero pointer."""
        low, high = struct.unpack_from("<2I", self.data, at)
        if low == high == 0:
            return None
        distance = low >> 2 if low < 1 << 31 else (low >> 2) - (1 << 30)
        return at + 8 + 8 * distance, high & 0xFFFF, high >> 16, high

    def texts(self, at):
        found = self.target(at)
        return [self.text(found[0] + 8 * i) for i in range(found[3] >> 3)] if found else []

    def text(self, at):
        found = self.target(at)
        return self.data[found[0]:found[0] + (found[3] >> 3) - 1].decode() if found else ""

    def struct(self, at, kind):
        found = self.target(at)
        return self.fields(*found[:3], kind) if found else None

    def name(self, field, number):
        return self.strings[number] if field.is_name and number < len(self.strings) else number

    def fields(self, at, data, pointers, kind):
        which = self.counts.get(kind, 0)
        self.counts[kind] = which + 1
        value, fields = {}, self.structs[kind]
        for field in [f for f in fields if f.is_data and f.slot < 2 * data]:
            self.places.append((at + 4 * field.slot, kind, field.name, which))
            number = struct.unpack_from("<I", self.data, at + 4 * field.slot)[0]
            if number or field.is_name:
                value[field.name] = self.name(field, number)
        for field in [f for f in fields if not f.is_data and f.slot < pointers]:
            place = at + 8 * (data + field.slot)
            self.places.append((place, kind, field.name, which))
            inner = None if field.form == "AnyPointer" else self.pointer(place, field, kind, which)
            if inner and field.name != "strList":
                value[field.name] = inner
        return value

    def pointer(self, at, field, kind, which):
        if field.form == "Text":
            return self.text(at)
        if field.form == "List(Text)":
            return self.texts(at)
        if field.form in self.structs:
            return self.struct(at, field.form)
        found = self.target(at)
        if found is None:
            return None
        if field.form == "List(UInt32)":
            places = [found[0] + 4 * i for i in range(found[3] >> 3)]
            self.places += [(place, kind, field.name, which) for place in places]
            return [self.name(field, struct.unpack_from("<I", self.data, place)[0]) for place in places]
        count, data, pointers = struct.unpack_from("<I2H", self.data, found[0])
        size = 8 * (data + pointers)
        return [self.fields(found[0] + 8 + i * size, data, pointers, field.form[5:-1]) for i in range(count >> 2)]


def encode(schema, value):
    return Writer(*read_schema(schema), value).file()


def main():
    words = [word for word in sys.argv[1:] if word != "--hex"]
    in_hex = len(words) < len(sys.argv) - 1
    if len(words) != 2 or words[0] not in ("encode", "decode", "places"):
        sys.exit(__doc__)
    if words[0] == "encode":
        file = encode(words[1], json.load(sys.stdin))
        sys.stdout.buffer.write(re.sub("(.{16})(?!$)", r"\1 ", file.hex()).encode() + b"\n" if in_hex else file)
        return
    data = sys.stdin.buffer.read()
    found = Reader(*read_schema(words[1]), bytes.fromhex(data.decode()) if in_hex else data)
    if words[0] == "decode":
        json.dump(found.value, sys.stdout, indent=1, ensure_ascii=False)
        print()
    else:
        for place, kind, field, which in sorted(found.places):
            print(place, f"{kind}.{field} {which}")


if __name__ == "__main__":
    main()
