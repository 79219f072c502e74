#!/usr/bin/env python3
"""Writes a design of structs and texts that `flow` accepts: its top has no instances, and nothing has ports.

usage: make_design.py MEGABYTES > DESIGN

Half of the message is the string table, a quarter are declarations, and a quarter are instances that nothing uses. It is one
segment, laid out as an encoder would: the root, then the objects of its pointers in the order of its slots.
"""
import array
import struct
import sys


def struct_pointer(offset, data, pointers):
    return (offset & 0x3FFFFFFF) << 2 | data << 32 | pointers << 48


def list_pointer(offset, size, count):
    return (offset & 0x3FFFFFFF) << 2 | 1 | size << 32 | count << 35


def tag(count, data, pointers):
    return count << 2 | data << 32 | pointers << 48


def main():
    words = int(float(sys.argv[1]) * 1_000_000) // 8
    # A text takes a pointer and two words, a declaration or an instance two words.
    texts, declarations, instances = words // 6, words // 8, words // 8
    root = 1  # the root pointer is word 0
    string_table = root + 8
    first_text = string_table + texts
    declaration_tag = first_text + 2 * texts
    instance_tag = declaration_tag + 1 + 2 * declarations
    cell_tag = instance_tag + 1 + 2 * instances
    end = cell_tag + 1 + 3

    out = array.array("Q", [0]) * end
    out[0] = struct_pointer(0, 0, 8)
    out[root + 3] = list_pointer(string_table - root - 4, 6, texts)
    out[root + 4] = list_pointer(declaration_tag - root - 5, 7, 2 * declarations)
    out[root + 6] = list_pointer(instance_tag - root - 7, 7, 2 * instances)
    out[root + 7] = list_pointer(cell_tag - root - 8, 7, 3)
    for i in range(texts):
        # Names of 8 to 15 letters.
        name = b"name_%03d" % (i % 1000) + b"abcdefg"[: i % 8]
        at = first_text + 2 * i
        out[string_table + i] = list_pointer(at - (string_table + i) - 1, 2, len(name) + 1)
        out[at], out[at + 1] = struct.unpack("<2Q", name.ljust(16, b"\0"))
    out[declaration_tag] = tag(declarations, 1, 1)
    for i in range(declarations):
        out[declaration_tag + 1 + 2 * i] = i % texts
    out[instance_tag] = tag(instances, 1, 1)
    for i in range(instances):
        out[instance_tag + 1 + 2 * i] = i * 7 % texts | (i % declarations) << 32
    out[cell_tag] = tag(1, 1, 2)
    sys.stdout.buffer.write(struct.pack("<2I", 0, end))
    out.tofile(sys.stdout.buffer)


main()
