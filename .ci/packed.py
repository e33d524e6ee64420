"""Files of a log with compressed records, read by themselves: what `unpack` is to write, and to tell.

Snappy's blocks and the marks of fragments are as docs/FORMATS.md and docs/DEFINITIONS.md say. Nothing here is the program's.
"""
import struct

from logs import HEADER, PAGE, crc32c, fragment

NAMES = ["Reserved", "Compressed", "BadType", "BadPad", "Crosses", "Torn", "BadSum", "Sequence", "BadRecord"]


class Bad(Exception):
    """Why something is not read."""


def kind(name):
    return f"kind {NAMES.index(name) + 1} {name}"


def block_fault(why):
    return Bad(f"not a block of Snappy: {why}")


def uvarint_at(data, at):
    """Returns a number and where it ends, or None if it is cut off or past 64 bits."""
    number = 0
    for i in range(10):
        if at + i >= len(data):
            return None
        byte = data[at + i]
        if i == 9 and byte > 1:
            return None
        number |= (byte & 127) << 7 * i
        if byte < 128:
            return number, at + i + 1
    return None


def head_at(block, at):
    """Returns an element's head: whether it is a literal, its length, its offset, and where what follows it begins."""
    tag, form = block[at], block[at] & 3
    wide = {0: max(0, (tag >> 2) - 59), 1: 1, 2: 2, 3: 4}[form]
    if at + 1 + wide > len(block):
        raise block_fault("cut off within an element")
    number, end = int.from_bytes(block[at + 1 : at + 1 + wide], "little"), at + 1 + wide
    if form == 0:
        return True, (number if wide else tag >> 2) + 1, 0, end
    if form == 1:
        return False, (tag >> 2 & 7) + 4, (tag >> 5) * 256 + number, end
    return False, (tag >> 2) + 1, number, end


def plain_of(block):
    """Returns what a block stands for."""
    found = uvarint_at(block, 0)
    if found is None or found[0] >= 1 << 32:
        raise block_fault("no length below 2^32")
    most, at = found
    made = bytearray()
    while at < len(block):
        literal, count, offset, at = head_at(block, at)
        if literal and at + count > len(block):
            raise block_fault("cut off within an element")
        if not literal and not 0 < offset <= len(made):
            raise block_fault("a copy of bytes that there are not")
        if len(made) + count > most:
            raise block_fault("more bytes than the length says")
        if literal:
            made += block[at : at + count]
            at += count
        else:
            for _ in range(count):
                made.append(made[-offset])
    if len(made) < most:
        raise block_fault("fewer bytes than the length says")
    return bytes(made)


def labels_end(data, at):
    """Returns where the labels at this place end, or None."""
    found, before = uvarint_at(data, at), None
    if found is None:
        return None
    count, at = found
    for _ in range(count):
        texts = []
        for _ in range(2):
            found = uvarint_at(data, at)
            if found is None or found[1] + found[0] > len(data):
                return None
            texts.append(data[found[1] : found[1] + found[0]])
            at = found[1] + found[0]
        if not texts[0] or (before is not None and texts[0] <= before):
            return None
        before = texts[0]
    return at


def entry_end(form, data, at):
    """Returns where the entry at this place ends, or None: of series, samples or deletions."""
    if form == 1:
        return labels_end(data, at + 8) if at + 8 <= len(data) else None
    wide, varints = (8, 2) if form == 3 else (0, 2)
    at += wide
    for _ in range(varints):
        found = uvarint_at(data, at)
        if found is None:
            return None
        at = found[1]
    at += 8 if form == 2 else 0
    return at if at <= len(data) else None


def is_record(data):
    """Returns whether bytes spell a record."""
    if not data or data[0] not in (1, 2, 3):
        return True
    at = 1
    if data[0] == 2:
        if len(data) == 1:
            return True
        at = 17
        if len(data) < at:
            return False
    while at < len(data):
        at = entry_end(data[0], data, at)
        if at is None:
            return False
    return True


def fragment_at(data, at):
    """Returns the part, the mark and the data of the fragment at this place, or None where its page has ended."""
    end = min(len(data), at - at % PAGE + PAGE)
    first, full = data[at], at - at % PAGE + PAGE
    low = first & 7
    if first & 0xE0:
        raise Bad(kind("Reserved"))
    if first & 0x10:
        raise Bad(f"{kind('Compressed')} by zstd, which is not read")
    if low > 4:
        raise Bad(kind("BadType"))
    if low == 0:
        if any(data[at + 1 : end]):
            raise Bad(kind("BadPad"))
        return None
    if full - at < HEADER:
        raise Bad(kind("Crosses"))
    if end - at < HEADER:
        raise Bad(kind("Torn"))
    length, wanted = struct.unpack(">HI", data[at + 1 : at + HEADER])
    if HEADER + length > full - at:
        raise Bad(kind("Crosses"))
    if HEADER + length > end - at:
        raise Bad(kind("Torn"))
    here = data[at + HEADER : at + HEADER + length]
    if crc32c(here) != wanted:
        raise Bad(kind("BadSum"))
    return low, bool(first & 8), here


def fragments(data):
    """Gives the place of each fragment and what is there, up to the first that is at fault, and then its place and the fault."""
    at = 0
    while at < len(data):
        try:
            found = fragment_at(data, at)
        except Bad as fault:
            yield at, fault
            return
        if found is None:
            at += PAGE - at % PAGE
            continue
        yield at, found
        at += HEADER + len(found[2])


def record_of(parts):
    """Returns the record that these fragments are: their marks and their data."""
    marks, joined = {mark for mark, _ in parts}, b"".join(here for _, here in parts)
    if len(marks) > 1:
        raise Bad("only a part of a record is marked as compressed")
    # a mark without any byte is the record of no bytes, as a server reads it
    plain = plain_of(joined) if True in marks and joined else joined
    if not is_record(plain):
        raise Bad(kind("BadRecord"))
    return plain


def read(data):
    """Returns the records of a file up to its first damage, and that: its place and why, or None."""
    records, parts, begun = [], [], 0
    for at, found in fragments(data):
        if isinstance(found, Bad):
            return records, (at, str(found))
        part, mark, here = found
        if bool(parts) != (part in (3, 4)):
            return records, (at, kind("Sequence"))
        begun = begun if parts else at
        parts.append((mark, here))
        if part in (1, 4):
            try:
                records.append(record_of(parts))
            except Bad as fault:
                return records, (begun, str(fault))
            parts = []
    return records, (len(data), kind("Torn")) if parts else None


def text_of(records, mark=0):
    """Returns the text of a file of records, as a writer makes it: with a mark of 8 one of blocks."""
    text = bytearray()
    for record in records:
        first = True
        while True:
            room = PAGE - len(text) % PAGE - HEADER
            here, record = record[:room], record[room:]
            text += fragment(mark + ((1 if first else 4) if not record else 2 if first else 3), here)
            first = False
            if not record:
                break
        if PAGE - len(text) % PAGE < HEADER:
            text += bytes(PAGE - len(text) % PAGE)
    return bytes(text)
