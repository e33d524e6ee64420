"""The entries of a record, by docs/FORMATS.md. Nothing here is the program's."""
import struct


class Reader:
    def __init__(self, data):
        self.data, self.at = data, 0

    def number(self, form):
        value = struct.unpack_from(form, self.data, self.at)[0]
        self.at += struct.calcsize(form)
        return value

    def uvarint(self):
        value, shift = 0, 0
        while True:
            byte = self.data[self.at]
            self.at += 1
            value |= (byte & 127) << shift
            shift += 7
            if byte < 128:
                return value

    def varint(self):
        value = self.uvarint()
        return value >> 1 if value & 1 == 0 else -(value + 1 >> 1)

    def text(self):
        length = self.uvarint()
        self.at += length
        return self.data[self.at - length : self.at]

    def is_done(self):
        return self.at >= len(self.data)


def entries_of(record):
    """Returns the type of a record and its entries."""
    kind, reader, entries = record[0] if record else 0, Reader(record[1:]), []
    if kind == 1:
        while not reader.is_done():
            reference, many = reader.number(">Q"), reader.uvarint()
            entries.append((reference, tuple((reader.text(), reader.text()) for _ in range(many))))
    elif kind == 2 and not reader.is_done():
        base, time = reader.number(">Q"), reader.number(">q")
        while not reader.is_done():
            entries.append((base + reader.varint(), time + reader.varint(), reader.number(">Q")))
    elif kind == 3:
        while not reader.is_done():
            entries.append((reader.number(">Q"), reader.varint(), reader.varint()))
    return kind, entries
