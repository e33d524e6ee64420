"""What can be read of a log file before its damages and behind them, by the words of docs/FORMATS.md. Nothing here is the program's."""
import functools
import struct

from logs import HEADER, PAGE, crc32c
from packed import Bad, is_record, kind, plain_of

FULL, FIRST, MIDDLE, LAST = 1, 2, 3, 4


sum_of = functools.lru_cache(20000)(crc32c)


def at_place(data, place):
    """Returns the part, the mark and the data of the fragment at a place, None where its page ends, or why there is neither."""
    page_end = place - place % PAGE + PAGE
    end, form = min(len(data), page_end), data[place]
    if form >= 32:
        return kind("Reserved")
    if form >= 16:
        return f"{kind('Compressed')} by zstd, which is not read"
    if form & 7 > 4:
        return kind("BadType")
    if form & 7 == 0:
        return kind("BadPad") if any(data[place + 1 : end]) else None
    head_end = place + HEADER
    if head_end > page_end:
        return kind("Crosses")
    if head_end > end:
        return kind("Torn")
    length, wanted = struct.unpack(">HI", data[place + 1 : head_end])
    if head_end + length > page_end:
        return kind("Crosses")
    if head_end + length > end:
        return kind("Torn")
    here = data[head_end : head_end + length]
    return (form & 7, form >= 8, here) if sum_of(here) == wanted else kind("BadSum")


def behind_sum(data, place):
    """Returns where the fragment that follows one with a wrong checksum stands in the same page, or the next page."""
    next_page = place - place % PAGE + PAGE
    after = place + HEADER + struct.unpack(">H", data[place + 1 : place + 3])[0]
    return after if after < min(next_page, len(data)) and isinstance(at_place(data, after), tuple) else next_page


def runs(data):
    """Returns the runs of a file: the fragments up to what breaks off the reading, each as its offset, part, mark and data, and that: its offset and why, or None at the file's end."""
    found, fragments, place, goes_on = [], [], 0, False
    content = len(data.rstrip(b"\0"))
    while place < len(data):
        here, next_page = at_place(data, place), place - place % PAGE + PAGE
        if isinstance(here, tuple):
            fragments.append((place, *here))
            place, goes_on = place + HEADER + len(here[2]), here[0] in (FIRST, MIDDLE)
            continue
        is_hole = here is None and (place % PAGE == 0 or goes_on) and next_page < content
        if here is not None or is_hole:
            found.append((fragments, (place, here or "a hole")))
            fragments = []
        place, goes_on = behind_sum(data, place) if here == kind("BadSum") else next_page, False
    return found + [(fragments, None)]


def stretches(data):
    """Returns the stretches of a file: where each begins, its pieces, where it ends, and what ends it, as of a run. A piece is its offset, its marks and its data."""
    found = []
    for fragments, ending in runs(data):
        while True:
            while found and fragments and fragments[0][1] in (MIDDLE, LAST):
                fragments = fragments[1:]
            at_end = ending[0] if ending else len(data)
            begins = 0 if not found else fragments[0][0] if fragments else at_end
            pieces, begun, last, rest = [], [], ending, None
            for number, (at, part, mark, here) in enumerate(fragments):
                if (part in (FULL, FIRST)) == bool(begun):
                    last, rest = (at, kind("Sequence")), fragments[number + 1 :]
                    break
                begun.append((at, mark, here))
                if part in (FULL, LAST):
                    pieces.append((begun[0][0], {it[1] for it in begun}, b"".join(it[2] for it in begun)))
                    begun = []
            if rest is None and ending is None and begun:
                last = len(data), kind("Torn")
            ends = begun[0][0] if begun else last[0] if last else len(data)
            found.append((begins, pieces, ends, last))
            if rest is None:
                break
            fragments = rest
    return found


@functools.lru_cache(20000)
def record_of(marks, data):
    """Returns the record of a piece, or why it stands for none."""
    if len(marks) > 1:
        return "only a part of a record is marked as compressed"
    try:
        plain = plain_of(data) if True in marks and data else data
    except Bad as fault:
        return str(fault)
    return plain if is_record(plain) else kind("BadRecord")


def salvage(data):
    """Returns the records that can be read of a file, in order, and what is passed over: its offset, how many bytes, and why."""
    found, records, passed = stretches(data), [], []
    for number, (_, pieces, ends, ending) in enumerate(found):
        for at, marks, here in pieces:
            record = record_of(frozenset(marks), here)
            if isinstance(record, bytes):
                records.append(record)
            else:
                passed.append((at, len(here), record))
        if ending:
            behind = found[number + 1][0] if number + 1 < len(found) else len(data)
            passed.append((ending[0], max(0, behind - ends), ending[1]))
    return records, passed
