"""The pages of `report.py` and `watch.py`: templates of the folder `pages`, and tables in them."""
import json
import os
from collections.abc import Sequence

from lib.words import count_words, escaped

PAGES = os.path.join(os.path.dirname(os.path.dirname(os.path.abspath(__file__))), "pages")


def file_of(name: str) -> str:
    with open(os.path.join(PAGES, name), encoding="utf-8") as source:
        return source.read()


def assembled(name: str, parts: dict[str, str]) -> str:
    """A page's template, with each @@WORD@@ in it replaced by the part of that name; a word that is a
    file's name stands for the file."""
    pieces = file_of(name).split("@@")
    return "".join(
        piece if place % 2 == 0 else parts[piece] if piece in parts else file_of(piece)
        for place, piece in enumerate(pieces)
    )


def name_words(name: str) -> str:
    return f'<span class="name">{escaped(name)}</span>' if name else "<i>no account yet</i>"


def table(
    name: str, heads: Sequence[str], rows: list[list[str]], limit: int | None = None, sought: str = "",
) -> str:
    """A table of any length, of which the page's script shows one sheet at a time. A head that ends
    with > is of a column of numbers. Where something is sought, rows can be picked by their words."""
    left = len(rows) - limit if limit is not None else 0
    note = f"<p>{count_words(left)} older lines are left out.</p>" if left > 0 else ""
    content = json.dumps(rows[:limit]).replace("<", "\\u003c")
    cells = "".join(
        f'<th class="number">{head[:-1]}</th>' if head.endswith(">") else f"<th>{head}</th>"
        for head in heads
    )
    seeking = f'<p><label>only {sought} <input class="pick" type="search"></label></p>' if sought else ""
    return (
        f'{note}<div class="sheets" id="{name}">{seeking}<div class="wide"><table><thead><tr>{cells}</tr>'
        f'</thead><tbody></tbody></table></div><p class="turn"></p>'
        f'<script type="application/json">{content}</script></div>'
    )
