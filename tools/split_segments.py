#!/usr/bin/env python3
"""Splits a Cap'n Proto message of one segment into several, by the encoding specification alone.

usage: split_segments.py SEGMENTS MODE < MESSAGE > SPLIT

Each object goes to the next of SEGMENTS segments in turn, and the pointer to it becomes

    one    a far pointer to a pad of one word in front of the object
    two    a far pointer to a pad of two words, which stands in another segment than the object
    mixed  these two in turn, and a plain pointer where the object is in the pointer's own segment

With one segment the message is laid out anew; MODE `two` then has pads of two words in the one segment.
"""
import struct
import sys


def words_of(data):
    return list(struct.unpack("<%dQ" % (len(data) // 8), data))


def signed_offset(word):
    offset = word >> 2 & 0x3FFFFFFF
    return offset - (1 << 30) if offset >> 29 else offset


def read_pointer(words, at):
    """The object behind a pointer of a one-segment message: None, a struct, or a list."""
    word = words[at]
    if word == 0:
        return None
    start = at + 1 + signed_offset(word)
    if word & 3 == 0:
        return ("struct", read_struct(words, start, word >> 32 & 0xFFFF, word >> 48))
    assert word & 3 == 1, "a message of one segment has no far pointers"
    size, count = word >> 32 & 7, word >> 35
    if size == 7:
        tag = words[start]
        data, pointers = tag >> 32 & 0xFFFF, tag >> 48
        elements = tag >> 2 & 0x3FFFFFFF
        step = data + pointers
        return ("structs", count, tag, [read_struct(words, start + 1 + i * step, data, pointers) for i in range(elements)])
    if size == 6:
        return ("pointers", [read_pointer(words, start + i) for i in range(count)])
    bits = (0, 1, 8, 16, 32, 64)[size]
    return ("plain", size, count, words[start:start + (bits * count + 63) // 64])


def read_struct(words, start, data, pointers):
    return (words[start:start + data], [read_pointer(words, start + data + i) for i in range(pointers)])


class Splitter:
    def __init__(self, count, mode):
        self.segments = [[] for _ in range(count)]
        self.mode = mode
        self.turn = 0

    def next_segment(self):
        self.turn += 1
        return self.turn % len(self.segments)

    def place(self, segment, words):
        """Puts words at the end of a segment, and answers where they begin."""
        start = len(self.segments[segment])
        self.segments[segment].extend(words)
        return start

    def put(self, segment, at, found):
        """Sets the pointer at a word of a segment to an object, which is placed by the mode."""
        if found is None:
            return
        mode = self.mode
        if mode == "mixed":
            mode = ("one", "two", "near")[self.turn % 3]
        home = segment if mode == "near" else self.next_segment()
        if mode == "one":
            pad = self.place(home, [0])
            start, described = self.body(home, found)
            self.segments[home][pad] = near(pad, start, described)
            self.segments[segment][at] = far(0, pad, home)
        elif mode == "two":
            start, described = self.body(home, found)
            pad_home = self.next_segment()
            pad = self.place(pad_home, [far(0, start, home), described])
            self.segments[segment][at] = far(1, pad, pad_home)
        else:
            start, described = self.body(home, found)
            self.segments[segment][at] = near(at, start, described)

    def body(self, segment, found):
        """Places an object's own words, then what it points to; answers its start, and its pointer without an offset."""
        if found[0] == "struct":
            data, pointers = found[1]
            start = self.place(segment, data + [0] * len(pointers))
            self.fill(segment, start, found[1])
            return start, len(data) << 32 | len(pointers) << 48
        if found[0] == "structs":
            _, words, tag, elements = found
            start = self.place(segment, [tag] + [0] * words)
            at = start + 1
            for element in elements:
                self.segments[segment][at:at + len(element[0])] = element[0]
                self.fill(segment, at, element)
                at += len(element[0]) + len(element[1])
            return start, 1 | 7 << 32 | words << 35
        if found[0] == "pointers":
            start = self.place(segment, [0] * len(found[1]))
            for i, element in enumerate(found[1]):
                self.put(segment, start + i, element)
            return start, 1 | 6 << 32 | len(found[1]) << 35
        _, size, count, words = found
        return self.place(segment, words), 1 | size << 32 | count << 35

    def fill(self, segment, start, element):
        data, pointers = element
        for i, pointer in enumerate(pointers):
            self.put(segment, start + len(data) + i, pointer)

    def file(self):
        head = struct.pack("<I", len(self.segments) - 1)
        head += b"".join(struct.pack("<I", len(s)) for s in self.segments)
        head += b"\0" * (-len(head) % 8)
        return head + b"".join(struct.pack("<%dQ" % len(s), *s) for s in self.segments)


def near(at, start, described):
    """A plain pointer. One to a struct without words just behind it would be a zero word: it points at itself instead."""
    if described == 0:
        start = at
    return described | ((start - at - 1) & 0x3FFFFFFF) << 2


def far(two, word, segment):
    return 2 | two << 2 | word << 3 | segment << 32


def main():
    count, mode = int(sys.argv[1]), sys.argv[2]
    words = words_of(sys.stdin.buffer.read())
    assert words[0] & 0xFFFFFFFF == 0 and words[0] >> 32 == len(words) - 1, "not a message of one segment"
    splitter = Splitter(count, mode)
    splitter.place(0, [0])
    splitter.put(0, 0, read_pointer(words[1:], 0))
    sys.stdout.buffer.write(splitter.file())


main()
