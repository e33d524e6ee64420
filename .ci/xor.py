#!/usr/bin/env python3
"""Reads chunks in Prometheus' XOR encoding: a reader of its own, which shares nothing with the crates.

xor.py BLOCK           prints the samples of the chunk files of a block, one a line: the time, and the 64 bits of the value in hexadecimal
xor.py --vectors FILE  reads the vectors of crates/format_tests/src/xor.rt, and compares the samples; and the bytes there that are no chunk
xor.py --lines         the same of the lines that `xor_vectors.go lists` prints, on standard input

As a module: `decode(data)` gives the samples of a chunk, `chunks(path)` the chunks of a file, and `samples(block)` the samples of a block; each
raises `Bad`. It is strict: a chunk with too few bits, with a window of more than 64 bits, or with anything behind the last sample but fewer than
eight zeros, or eight, is an error.
"""

import os
import re
import sys

MASK = (1 << 64) - 1


class Bad(Exception):
    """The bytes are not what the format has there."""


class Bits:
    """The bits of bytes, the highest of each byte first."""

    def __init__(self, data):
        self.number = int.from_bytes(data, "big")
        self.left = 8 * len(data)

    def take(self, count):
        if count > self.left:
            raise Bad("too few bits")
        self.left -= count
        taken = self.number >> self.left
        self.number &= (1 << self.left) - 1
        return taken

    def uvarint(self):
        number = 0
        for place in range(0, 70, 7):
            byte = self.take(8)
            number |= (byte & 127) << place
            if byte < 128:
                if number > MASK:
                    break
                return number
        raise Bad("a number of more than 64 bits")


def signed(number):
    """The signed number of these 64 bits."""
    return number - (1 << 64) if number >> 63 else number


def step(bits):
    """The difference of two differences of times."""
    for size in (0, 14, 17, 20):
        if bits.take(1) == 0:
            number = bits.take(size) if size else 0
            return number - (1 << size) if size and number > 1 << (size - 1) else number
    return bits.take(64)


class Value:
    """The bits of a value, and the window of the last one that differed: the zeros before it, and its width."""

    def __init__(self, bits):
        self.now = bits.take(64)
        self.window = (0, 64)

    def change(self, bits):
        if bits.take(1) == 0:
            return
        if bits.take(1) == 1:
            leading = bits.take(5)
            self.window = (leading, bits.take(6) or 64)
        leading, width = self.window
        if leading + width > 64:
            raise Bad("a window of more than 64 bits")
        self.now ^= bits.take(width) << (64 - leading - width)


def decode(data):
    """The samples of a chunk: times, and the 64 bits of values."""
    bits = Bits(data)
    count = bits.take(16)
    found = []
    time, delta, value = 0, 0, None
    for at in range(count):
        if at == 0:
            zigzag = bits.uvarint()
            time = ((zigzag >> 1) ^ -(zigzag & 1)) & MASK
            value = Value(bits)
        else:
            delta = bits.uvarint() if at == 1 else (delta + step(bits)) & MASK
            time = (time + delta) & MASK
            value.change(bits)
        found.append((signed(time), value.now))
    if bits.left > 8 or bits.number:
        raise Bad("bits behind the last sample")
    return found


def crc_of(byte):
    for _ in range(8):
        byte = byte >> 1 ^ (0x82F63B78 if byte & 1 else 0)
    return byte


TABLE = [crc_of(byte) for byte in range(256)]


def crc32c(data):
    rest = 0xFFFFFFFF
    for byte in data:
        rest = rest >> 8 ^ TABLE[(rest ^ byte) & 255]
    return rest ^ 0xFFFFFFFF


def chunks(path):
    """The chunks of a file: where each begins, and its data."""
    with open(path, "rb") as file:
        text = file.read()
    if text[:8] != bytes.fromhex("85BD40DD01000000"):
        raise Bad("not a file of chunks")
    at = 8
    while at < len(text):
        bits = Bits(text[at : at + 10])
        length = bits.uvarint()
        start = at + min(10, len(text) - at) - bits.left // 8
        body, end = text[start : start + 1 + length], start + 1 + length + 4
        if end > len(text):
            raise Bad(f"a chunk at {at} is cut off")
        if crc32c(body) != int.from_bytes(text[end - 4 : end], "big"):
            raise Bad(f"the checksum of the chunk at {at} is another")
        if body[0] != 1:
            raise Bad(f"the chunk at {at} has encoding {body[0]}")
        yield at, body[1:]
        at = end


def samples(block):
    """The samples of a block's chunks, file by file."""
    folder = os.path.join(block, "chunks")
    for name in sorted(os.listdir(folder)):
        for _, data in chunks(os.path.join(folder, name)):
            yield from decode(data)


def listed(words):
    """The samples of a list as `xor_vectors.go` writes them."""
    time, value, found = 0, 0, []
    for word in words.split():
        word, _, count = word.partition("*")
        times, changed, values = word.partition("/")
        for _ in range(int(count or 1)):
            time = signed((int(times.removeprefix("+")) + (time if times[0] == "+" else 0)) & MASK)
            if changed:
                bits = int(values.lstrip("+^"), 16)
                value = (bits + value) & MASK if values[0] == "+" else bits ^ value if values[0] == "^" else bits
            found.append((time, value))
    return found


def compare(pairs):
    """Compares the samples of each list with those of its chunk."""
    count, long = 0, 0
    for words, chunk in pairs:
        if " " in chunk:
            long += 1
            continue
        if decode(bytes.fromhex(chunk)) != listed(words):
            sys.exit(f"xor.py: {chunk} is read otherwise than as {words}")
        count += 1
    print(f"{count} chunks are read as their lists; {long} are told by a checksum alone")
    if count == 0:
        sys.exit("xor.py: no chunk")


def refuse(pairs):
    """Compares whether bytes are read with what `decode` and `decode_exact` say of them."""
    for data, said in pairs:
        loose, exact = said.split()
        try:
            found = str(len(decode(bytes.fromhex(data))))
        except Bad:
            found = "no chunk"
        # A chunk that is not canonical may be read, since numbers may be longer here than they need to be.
        wanted = {exact} if exact.isdigit() else {loose, "no chunk"} if loose.isdigit() else {"no chunk"}
        if found not in wanted:
            sys.exit(f"xor.py: {data} is read as {found}, and not as {said}")


def table(text, name):
    """The lines of a table of a file of tests."""
    found = re.search(rf"const {name}.*?\n\];", text, re.DOTALL)
    return re.findall(r'"([^"=]*) = ([^"]*)"', found.group() if found else "")


def main(words):
    if len(words) == 2 and words[0] == "--vectors":
        with open(words[1], encoding="utf-8") as file:
            text = file.read()
        compare(table(text, "CHUNKS"))
        refuse(table(text, "BYTES"))
    elif words == ["--lines"]:
        compare(line.rstrip("\n").split("\t") for line in sys.stdin)
    elif len(words) == 1 and not words[0].startswith("-"):
        for time, value in samples(words[0]):
            print(time, f"{value:016X}")
    else:
        sys.exit(__doc__)


if __name__ == "__main__":
    try:
        main(sys.argv[1:])
    except (Bad, OSError) as error:
        sys.exit(f"xor.py: {error}")
