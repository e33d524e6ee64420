"""Logs made by the formats of docs/FORMATS.md, without the program, and a folder in which a program runs over them."""
import functools
import os
import shutil
import struct
import subprocess
import sys
import tempfile
from array import array

PAGE = 32768
HEADER = 7
FLAWLESS = "damage none"


def stepped(sum, steps):
    """Returns what a sum becomes by steps of the CRC-32C, one bit a step."""
    for _ in range(steps):
        sum = sum >> 1 ^ (0x82F63B78 if sum & 1 else 0)
    return sum


@functools.cache
def stepped_halves():
    """Returns what each low half, and each high half, of a sum becomes by 32 steps. Those of several bits are made of those of one."""
    halves = array("I", [0]) * 65536, array("I", [0]) * 65536
    for shift, half in zip((0, 16), halves):
        for bits in range(1, 65536):
            rest = bits & bits - 1
            half[bits] = half[rest] ^ half[bits ^ rest] if rest else stepped(bits << shift, 32)
    return halves


def crc32c(data):
    """Returns the CRC-32C of bytes, four of them at a time."""
    sum, (low, high), whole = 0xFFFFFFFF, stepped_halves(), len(data) // 4
    for word in struct.unpack_from(f"<{whole}I", data):
        sum ^= word
        sum = low[sum & 0xFFFF] ^ high[sum >> 16]
    for byte in data[4 * whole :]:
        sum = stepped(sum ^ byte, 8)
    return sum ^ 0xFFFFFFFF


def fragment(kind, data):
    return struct.pack(">BHI", kind, len(data), crc32c(data)) + data


def full(*records):
    """Returns a segment of records that are one fragment each."""
    return b"".join(fragment(1, record) for record in records)


def uvarint(number):
    return bytes([number]) if number < 128 else bytes([number & 127 | 128]) + uvarint(number >> 7)


@functools.cache
def varint(number):
    return uvarint(2 * number if number >= 0 else -2 * number - 1)


def text(data):
    return uvarint(len(data)) + data


def series(*entries):
    """Returns a record of references with one label each: (reference, name, value)."""
    return b"\x01" + b"".join(struct.pack(">QB", it[0], 1) + text(it[1]) + text(it[2]) for it in entries)


def wrapped(number):
    """Returns a number modulo 2^64, as a signed one."""
    return (number + 2**63) % 2**64 - 2**63


def samples(*entries):
    """Returns a record of (reference, time, value)."""
    base, time = entries[0][:2]
    rows = (varint(wrapped(it[0] - base)) + varint(wrapped(it[1] - time)) + struct.pack(">q", it[2]) for it in entries)
    return b"\x02" + struct.pack(">Qq", base, time) + b"".join(rows)


def stones(*entries):
    """Returns a record of deletions: (reference, least time, greatest time)."""
    return b"\x03" + b"".join(struct.pack(">Q", it[0]) + varint(it[1]) + varint(it[2]) for it in entries)


def changed(data, at, bits):
    """Returns bytes, one of them exclusive or these bits."""
    return data[:at] + bytes([data[at] ^ bits]) + data[at + 1 :]


class Walk:
    """A program, and an empty folder for each of its runs."""

    def __init__(self, name, program):
        self.name, self.program, self.room, self.runs = name, os.path.realpath(program), tempfile.mkdtemp(), 0

    def folder(self, files=(), copy=None):
        """Makes the folder anew, with these files by their names, which may be in folders of their own, or as a copy."""
        here = f"{self.room}/here"
        shutil.rmtree(here, ignore_errors=True)
        if copy:
            shutil.copytree(copy, here)
        else:
            os.mkdir(here)
        for name, data in dict(files).items():
            os.makedirs(os.path.dirname(f"{here}/{name}"), exist_ok=True)
            write(here, name, data)
        return here

    def run(self, *words, under=(), env=None):
        """Returns the exit status, standard output and standard error of a run."""
        self.runs += 1
        ran = subprocess.run([*under, self.program, *words], stdin=subprocess.DEVNULL, capture_output=True, timeout=60, env=env)
        return ran.returncode, ran.stdout.decode(), ran.stderr.decode().replace(f"{self.room}/", "")

    def equal(self, case, found, wanted):
        if found != wanted:
            sys.exit(f"{self.name}: {case}: wanted {wanted!r}, found {found!r}")

    def close(self):
        shutil.rmtree(self.room, ignore_errors=True)


def write(folder, name, data):
    with open(f"{folder}/{name}", "wb") as it:
        it.write(data)


def walk_through(name, words, found):
    """Runs the tables of a script, the functions `test_..` among what was found in it, or those that are named behind the program."""
    if not words:
        sys.exit(f"usage: {name} PROGRAM [NAME ..]")
    tables = {it[len("test_") :]: table for it, table in found.items() if it.startswith("test_")}
    walk = Walk(name, words[0])
    try:
        for it in words[1:] or tables:
            tables[it](walk)
    finally:
        walk.close()
    print(f"{name}: {walk.runs} runs of {len(words[1:] or tables)} tables passed")
