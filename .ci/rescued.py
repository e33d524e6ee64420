"""What a log holds, as far as it can be read, by the words of docs/FORMATS.md and docs/DEFINITIONS.md. Nothing here is the program's."""
import os
import re

from plain_records import entries_of
from stretches import salvage


def files_of(log):
    """Returns the files of the newest checkpoint and the segments past it, in order: whether each is the checkpoint's, its number, and its path."""
    checkpoints = [(int(it[11:]), it) for it in os.listdir(log) if re.fullmatch(r"checkpoint\.\d+", it)]
    newest, name = max(checkpoints, default=(-1, None))
    inner = [(True, int(it), f"{log}/{name}/{it}") for it in os.listdir(f"{log}/{name}") if it.isdigit()] if name else []
    segments = [(False, int(it), f"{log}/{it}") for it in os.listdir(log) if it.isdigit() and int(it) > newest]
    return sorted(inner) + sorted(segments)


def read_bytes(path):
    """Returns the bytes of a file, or none if it cannot be read."""
    if not os.path.isfile(path):
        return b""
    with open(path, "rb") as it:
        return it.read()


def records_in(log):
    """Returns the records of a log that can be read, in order, each as its type and its entries."""
    return [entries_of(record) for _, _, path in files_of(log) for record in salvage(read_bytes(path))[0]]


def held(records, least=-(2**63)):
    """Returns the accepted samples of each label set, those that no deletion hides, and how many samples have no series."""
    owners, latest, accepted, runs, unknown = {}, {}, {}, {}, 0
    for kind, entries in records:
        for entry in entries:
            if kind == 1:
                owners[entry[0]] = entry[1]
                accepted.setdefault(entry[1], {})
                continue
            owner = owners.get(entry[0])
            if kind == 2 and entry[1] >= least:
                if owner is None:
                    unknown += 1
                elif latest.get(owner, entry[1] - 1) < entry[1]:
                    latest[owner] = entry[1]
                    accepted[owner][entry[1]] = entry[2]
            elif kind == 3 and owner is not None and entry[2] >= least:
                runs.setdefault(owner, []).append(entry[1:])
    shown = {
        owner: {at: bits for at, bits in those.items() if not any(first <= at <= last for first, last in runs.get(owner, ()))} for owner, those in accepted.items()
    }
    return accepted, shown, unknown
