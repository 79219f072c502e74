"""What the scripts share that write large messages."""
import struct


class Objects:
    """The words of a message of one segment, in which pointers lead to its end."""

    def __init__(self, root_pointers):
        self.words = bytearray(8 * (1 + root_pointers))
        struct.pack_into("<2I", self.words, 0, 0, root_pointers << 16)

    def point(self, at, size, count):
        """Leads a pointer to the end, where a list is to stand."""
        struct.pack_into("<2I", self.words, at, (len(self.words) - at - 8) // 8 << 2 | 1, size | count << 3)

    def texts(self, at, texts):
        self.point(at, 6, len(texts))
        table = len(self.words)
        self.words += bytes(8 * len(texts))
        for i, text in enumerate(texts):
            raw = text.encode() + b"\0"
            self.point(table + 8 * i, 2, len(raw))
            self.words += raw + bytes(-len(raw) % 8)

    def numbers(self, at, numbers):
        self.point(at, 4, len(numbers))
        self.words += struct.pack(f"<{len(numbers)}I", *numbers) + bytes(len(numbers) % 2 * 4)

    def structs(self, at, count, data, pointers):
        """A list of zeros; gives where its first struct stands."""
        self.point(at, 7, count * (data + pointers))
        self.words += struct.pack("<2I", count << 2, data | pointers << 16)
        first = len(self.words)
        self.words += bytes(8 * count * (data + pointers))
        return first

    def struct(self, at, data, pointers):
        """A struct of zeros; gives where it stands."""
        struct.pack_into("<2I", self.words, at, (len(self.words) - at - 8) // 8 << 2, data | pointers << 16)
        place = len(self.words)
        self.words += bytes(8 * (data + pointers))
        return place

    def file(self):
        return struct.pack("<2I", 0, len(self.words) // 8) + self.words
