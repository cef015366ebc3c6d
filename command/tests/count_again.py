"""Counts a hearing again, from its records and the lines that were printed for them, and holds a picture to that.

    count_again.py TRACE LINES PICTURE [FROM TO]    FROM and TO in microseconds since the first record

Every count that the picture shows must be the one found here. Of a picture with a mark for each thing there must be as many
marks, less those that it says lie outside; of one with columns, each must say what happened in its time. Counts stand outside
the plot.
"""

import bisect
import re
import sys
import xml.etree.ElementTree as xml

PACKET, TIMER, WRITE, IMMEDIATE = 1, 2, 3, 4
LARGEST = 2**62 - 1
NAMES = ["came", "late", "lost", "marked", "refused", "due1", "due2", "due3", "due4", "due5", "written"]
SVG = "{http://www.w3.org/2000/svg}"


def recount(trace, lines, start, end):
    """What happened, each with its time since the first record or `None`, and how many of it: (name, time, count)."""
    found = []
    origin, largest, cause, firsts, passed = None, -1, 0, [], []
    for line in lines:
        index, result, after = map(int, line.split())
        record = trace[24 * index : 24 * index + 24]
        kind, time = record[0], int.from_bytes(record[16:24], "big")
        whole = len(record) == 24 and PACKET <= kind <= IMMEDIATE and time <= LARGEST
        origin = time if whole and origin is None else origin
        time = time - origin if whole else None
        if result != 0:
            found.append(("refused", time, 1))
        elif kind == WRITE:
            found.append(("written", time, 1))
        elif kind == PACKET:
            number = int.from_bytes(record[8:16], "big")
            if record[1] & 2:
                found.append(("marked", time, 1))
            if number > largest:
                found.append(("came", time, 1))
                # all from the largest on were passed over now
                firsts.append(largest + 1)
                passed.append(["lost", time, number - largest - 1])
                largest = number
            else:
                found.append(("late", time, 1))
                passed[bisect.bisect(firsts, number) - 1][2] -= 1
        if cause == 0 and after != 0:
            found.append((f"due{after}", time, 1))
        cause = after
    found.extend(passed)
    return [thing for thing in found if start is None or thing[1] is not None and start <= thing[1] < end]


def total(things):
    counts = dict.fromkeys(NAMES, 0)
    for name, _, count in things:
        counts[name] += count
    return counts


def micros(text):
    """`1.5 s` in microseconds."""
    number, unit = text.replace(",", "").split()
    return round(float(number) * {"us": 1, "ms": 1_000, "s": 1_000_000}[unit])


def check_columns(columns, things):
    """Each column says what happened from its start on and before its end."""
    starts, said = [], []
    for column in columns:
        times, happened = column.split(": ", 1)
        start, end = map(micros, times.split(" to "))
        assert not starts or starts[-1][1] <= start, f"columns overlap at {times}"
        starts.append((start, end))
        said.append({kind: int(count.replace(",", "")) for kind, count in re.findall(r"([a-z]+\d?) ([\d,]+)", happened)})
    counted = [{} for _ in columns]
    for name, time, count in things:
        place = bisect.bisect(starts, (time, float("inf"))) - 1 if time is not None and count else -1
        if place >= 0 and time < starts[place][1]:
            counted[place][name] = counted[place].get(name, 0) + count
    for times, column, again in zip(starts, said, counted):
        assert column == again, f"the column {times} says {column}, the lines {again}"
    return total((name, None, count) for column in said for name, count in column.items())


def shown(picture):
    """The counts, and how many of each have no place in the picture."""
    found, outside = {}, dict.fromkeys(NAMES, 0)
    for text in picture.iter(f"{SVG}text"):
        for span in text.iter(f"{SVG}tspan"):
            if span.get("data-outside"):
                outside[span.get("data-outside")] = int(span.text.replace(",", ""))
                continue
            name = span.get("data-count")
            assert name not in found, f"{name} stands there twice"
            found[name] = int(span.text.replace(",", ""))
            plot = next(rect for rect in picture.iter(f"{SVG}rect") if rect.get("class") == "plot")
            left, top, width = (float(plot.get(key)) for key in ("x", "y", "width"))
            x, y = float(text.get("x")), float(text.get("y"))
            assert x > left + width or y < top, f"{name} stands in the plot"
    return found, outside


def main():
    trace, lines, name, *part = sys.argv[1:]
    start, end = map(int, part) if part else (None, None)
    with open(trace, "rb") as records, open(lines, encoding="ascii") as printed:
        things = recount(records.read(), printed, start, end)
    counts = total(things)
    picture = xml.parse(name).getroot()
    assert picture.find(f"{SVG}title").text, "no title"
    found, outside = shown(picture)
    assert found == counts, f"the picture says {found}, the lines {counts}"
    counts = {kind: count - outside[kind] for kind, count in counts.items()}
    columns = [title.text for rect in picture.iter(f"{SVG}rect") for title in rect.iter(f"{SVG}title")]
    if columns:
        sums = check_columns(columns, things)
        assert sums == counts, f"the columns add up to {sums}, the lines to {counts}"
    else:
        for kind in ("came", "late", "marked", "due1", "due2", "due3", "due4", "due5", "written"):
            # one more, which says what the mark means
            marks = sum(use.get("href") == f"#{kind}" for use in picture.iter(f"{SVG}use")) - 1
            assert marks == counts[kind], f"{marks} marks for {counts[kind]} {kind}"


try:
    main()
except AssertionError as wrong:
    sys.exit(f"{wrong}")
