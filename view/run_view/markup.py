"""Parts of the page's HTML."""

from __future__ import annotations

from html import escape
from typing import Any, Container, Iterable, Sequence

from .drawing import Picture

_LONG_LIST = 400


def figure(picture: Picture, alternative: str, caption: str) -> str:
    """A picture with its words below."""
    image = f'<img alt="{escape(alternative)}" style="width:{picture.share}%" src="{picture.uri}">'
    return f'<figure>{image}<figcaption>{escape(caption)}</figcaption></figure>'


def bullets(lines: Iterable[str]) -> str:
    """Sentences one below the other."""
    return "<ul>" + "".join(f"<li>{escape(line)}</li>" for line in lines) + "</ul>"


def table(head: Sequence[str], rows: Sequence[Sequence[Any]], bad: Container[int] = (), lists: Container[int] = ()) -> str:
    """A table whose first two columns are words. Cells of the columns `bad` stand out where they aren't 0; `lists` may be long texts."""

    def cell(place: int, value: Any) -> str:
        kind = "list" if place in lists else "words" if place < 2 else "bad" if place in bad and value else ""
        text = f"{value:,}" if isinstance(value, int) else str(value)
        if len(text) > _LONG_LIST:
            text = f"<details><summary>{escape(text[:60])} …</summary>{escape(text)}</details>"
        else:
            text = escape(text)
        return f"<td{f' class={chr(34)}{kind}{chr(34)}' if kind else ''}>{text}</td>"


    def title(place: int, word: str) -> str:
        kind = " class=words" if place < 2 else " class=list" if place in lists else ""
        return f"<th{kind}>{escape(word)}</th>"

    titles = "".join(title(place, word) for place, word in enumerate(head))
    lines = ["<tr>" + "".join(cell(place, value) for place, value in enumerate(row)) + "</tr>" for row in rows]
    return f"<table><tr>{titles}</tr>{''.join(lines)}</table>"
