"""Holds a page to what a page must be: every element closed, a title, no script, and nothing from elsewhere.

    whole_page.py PAGE
"""

import sys
from html.parser import HTMLParser

EMPTY = {"meta", "br", "hr"}


class Page(HTMLParser):
    def __init__(self):
        super().__init__()
        self.open, self.seen = [], set()

    def handle_starttag(self, tag, attributes):
        self.seen.add(tag)
        for name, value in attributes:
            assert name not in ("src", "srcset") and not (name == "href" and not value.startswith("#")), f"{name}={value}"
        if tag not in EMPTY:
            self.open.append(tag)

    def handle_startendtag(self, tag, attributes):
        self.handle_starttag(tag, attributes)
        if tag not in EMPTY:
            self.open.pop()

    def handle_endtag(self, tag):
        assert self.open and self.open[-1] == tag, f"</{tag}> closes {self.open[-1:]}"
        self.open.pop()


try:
    page = Page()
    with open(sys.argv[1], encoding="utf-8") as text:
        text = text.read()
    page.feed(text)
    assert not page.open, f"{page.open} stay open"
    assert {"title", "svg", "table", "style"} <= page.seen and "script" not in page.seen, page.seen
    assert "url(" not in text and "@import" not in text, "its style needs another file"
    assert "prefers-color-scheme:dark" in text, "it has no dark colours"
except AssertionError as wrong:
    sys.exit(f"{wrong}")
