"""Holds the picture and the page of a week to the lines that were printed for it.

    week_again.py LINES PICTURE PAGE

Each number of the lines stands in the picture and in the tables, in the same order, beside its name.
"""

import re
import sys
import xml.etree.ElementTree as xml

SVG = "{http://www.w3.org/2000/svg}"


def printed(name):
    """(name, number, full) of each line; `None` for a file that ends early."""
    with open(name, encoding="ascii") as lines:
        lines = lines.read().splitlines()
    if lines == ["2"]:
        return None
    found = [re.fullmatch(r"(.*?) (\d+)( full)?", line).groups() for line in lines]
    return [(name.removeprefix("entries "), int(number), bool(full)) for name, number, full in found]


def number(text):
    found = re.match(r"([\d,]+)( or more)?", text)
    return int(found[1].replace(",", "")), bool(found[2])


def drawn(picture):
    """The texts of each height, from left to right, where there are a name, a letter and a number."""
    rows = {}
    for text in picture.iter(f"{SVG}text"):
        rows.setdefault(round(float(text.get("y"))), []).append((float(text.get("x")), text.text))
    rows = [[words for _, words in sorted(rows[y])] for y in sorted(rows)]
    return [(row[0], *number(row[-1])) for row in rows if len(row) == 3]


def named(name):
    """A refusal stands there with its words."""
    return re.sub(r"^refused (\d+)$", r"\1: ", name)


def main():
    lines, picture, page = sys.argv[1:]
    expected = printed(lines)
    with open(page, encoding="utf-8") as text:
        page = text.read()
    assert "<script" not in page and "http" not in page.replace("http://www.w3.org/2000/svg", ""), "it needs a script or the network"
    picture = xml.parse(picture).getroot()
    assert picture.find(f"{SVG}title").text, "no title"
    if expected is None:
        assert "ends early" in page and not drawn(picture), "totals of a file that ends early"
        return
    found = drawn(picture)
    assert len(found) == len(expected), f"{len(found)} rows for {len(expected)} lines"
    for (name, *is_drawn), (line, *is_printed) in zip(found, expected):
        assert name.startswith(named(line)) and is_drawn == is_printed, f"{name} {is_drawn} is drawn, {line} {is_printed} printed"
    cells = [re.findall(r"<td[^>]*>(.*?)</td>", row) for row in re.findall(r"<tr><td.*</tr>", page)]
    rows = [(row[-3] if not row[0].isdigit() else row[0] + ": ", *number(row[-2])) for row in cells if row[0] != "refused"]
    expected = [(named(line), count, full) for line, count, full in expected]
    assert rows == expected, f"the tables say {rows}, the lines {expected}"


try:
    main()
except AssertionError as wrong:
    sys.exit(f"{wrong}")
