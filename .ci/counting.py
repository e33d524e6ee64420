"""What `replay` and `series` are to say of a log, by a plain count of its records, one entry after another.

A record is its type and its entries: of series (reference, ((name, value), ..)), of samples (reference, time, value), of deletions
(reference, least time, greatest time). One of any other type has none.
"""

NAMES = """series_records sample_records stone_records skipped_records series_entries series accepted stale unknown hiding empty_stones
unknown_stones expired_samples expired_stones""".split()


def count(records, least):
    """Returns the counts of `replay`, and how many samples each label set has, in the order of first sight."""
    counts, owners, latest, accepted = dict.fromkeys(NAMES, 0), {}, {}, {}
    for kind, entries in records:
        counts[{1: "series_records", 2: "sample_records", 3: "stone_records"}.get(kind, "skipped_records")] += 1
        for entry in entries:
            if kind == 1:
                owners[entry[0]] = entry[1]
                latest.setdefault(entry[1], None)
                accepted.setdefault(entry[1], 0)
                name = "series_entries"
            elif kind == 2 and entry[1] < least:
                name = "expired_samples"
            elif kind == 2 and entry[0] not in owners:
                name = "unknown"
            elif kind == 2:
                owner = owners[entry[0]]
                last = latest[owner]
                name = "accepted" if last is None or last < entry[1] else "stale"
                if name == "accepted":
                    latest[owner] = entry[1]
                    accepted[owner] += 1
            elif entry[2] < least:
                name = "expired_stones"
            elif entry[0] not in owners:
                name = "unknown_stones"
            else:
                name = "hiding" if entry[1] <= entry[2] else "empty_stones"
            counts[name] += 1
    counts["series"] = len(latest)
    return counts, accepted


def text_of(counts):
    """Returns what `replay` prints of counts."""
    return "".join(f"{name} {value}\n" for name, value in counts.items())
