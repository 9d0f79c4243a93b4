"""The page stands alone: it names no other file and no network, and its text is well formed."""

from __future__ import annotations

import base64
import re
import xml.dom.minidom
from html.parser import HTMLParser

import numpy as np

from .runs import WAIT, RunCase, node

_EMPTY = {"meta", "img", "br"}


class _Parser(HTMLParser):
    """Gathers tags and texts; ends that don't fit their beginnings are faults."""

    def __init__(self) -> None:
        super().__init__()
        self.open: list[str] = []
        self.faults: list[str] = []
        self.sources: list[str] = []
        self.titles: list[str] = []

    def handle_starttag(self, tag: str, attrs: list[tuple[str, str | None]]) -> None:
        given = dict(attrs)
        self.sources += [given[name] or "" for name in ("src", "href", "data", "action") if name in given]
        if tag == "img" and not given.get("alt"):
            self.faults.append("a picture without words")
        if tag not in _EMPTY:
            self.open.append(tag)

    def handle_endtag(self, tag: str) -> None:
        if not self.open or self.open.pop() != tag:
            self.faults.append(f"</{tag}>")

    def handle_data(self, data: str) -> None:
        if self.open and self.open[-1] == "h2":
            self.titles.append(data)


class Pages(RunCase):
    def test_page_stands_alone(self) -> None:
        graph = WAIT + node("st", "stats", hist_size=4, profiles=True) + node("cap", "file", mode="stream", count=9) + "# <b>&\n"
        run = self.run_graph(graph, self.stack(np.arange(96, dtype="u1").reshape(8, 3, 4)))
        page = run.page("--report", run.report)
        self.assertEqual((page.status, page.errors), (0, ""))
        parser = _Parser()
        parser.feed(page.text)
        parser.close()
        self.assertEqual((parser.faults, parser.open), ([], []))
        self.assertEqual(len(parser.sources), 7)
        for source in parser.sources:
            kind, content = source.split(";base64,")
            content = base64.b64decode(content, validate=True)
            if kind == "data:image/png":
                self.assertTrue(content.startswith(b"\x89PNG"))
            else:
                self.assertEqual(kind, "data:image/svg+xml")
                drawing = content.decode("utf-8")
                xml.dom.minidom.parseString(drawing)
                self.assertEqual(re.findall(r'href="(?!#|data:)[^"]*"', drawing), [])
        self.assertNotRegex(page.text.replace("http://www.w3.org", ""), r"https?://")
        self.assertIn("# &lt;b&gt;&amp;", page.text)
        self.assertEqual(
            parser.titles,
            ["cap: saved arrays", "st: statistics", "Counters", "Queues and drops", "Who did how many frames", "The graph"],
        )

    def test_the_same_outputs_give_the_same_page(self) -> None:
        run = self.run_graph(WAIT + node("cap", "file", mode="single"), self.stack(np.arange(24, dtype="i4").reshape(2, 3, 4)))
        self.assertEqual(run.page().text, run.page().text)
