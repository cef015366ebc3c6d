"""Holds the picture of objects to the lines of statuses that it was drawn from.

    strips_again.py LINES PICTURE

Each report's column has the letters of its line from top to bottom, and below them the numbers of its summary.
"""

import re
import sys
import xml.etree.ElementTree as xml

LEFT = 150


def main():
    with open(sys.argv[1], encoding="ascii") as lines:
        found = [re.fullmatch(r" *(\d+)  ([-RLP.]+)  (.*)", line) for line in lines.read().splitlines()]
    said = [(line[2].replace("-", "–").replace(".", "·"), re.findall(r"-?\d+", line[3])) for line in found if line]
    columns = {}
    for text in xml.parse(sys.argv[2]).getroot().iter("{http://www.w3.org/2000/svg}text"):
        if text.get("text-anchor") == "middle" and float(text.get("x")) > LEFT:
            columns.setdefault(text.get("x"), []).append(text.text)
    # the time, a letter for each object, five numbers
    drawn = []
    for column in (column for column in columns.values() if len(column) > 6):
        drawn.append(("".join(column[1:-5]), [number.replace(",", "") for number in column[-5:]]))
    if drawn != said:
        sys.exit(f"drawn: {drawn}\nsaid: {said}")


main()
