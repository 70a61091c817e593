"""The functions of a crate as they stand in its files, which rt fmt has laid out."""

from __future__ import annotations

import re
from collections.abc import Iterator
from dataclasses import dataclass
from pathlib import Path

ITEM = re.compile(r"^(?:(?P<impl>impl\b)|(?P<end>\}$)|(?P<indent> *)pub fn (?P<name>\w+))", re.M)


@dataclass
class Function:
    name: str
    place: int  # of its first line, in the file's text
    may_give_up: bool  # it takes `alloc`, and its result is more than a value of its own type


def closing(text: str, place: int, pair: str) -> int:
    """The place of the bracket that closes the one here. An arrow's is none."""
    depth = 0
    for at in range(place, len(text)):
        if text[at] == pair[0]:
            depth += 1
        elif text[at] == pair[1] and text[at - 1] != "-":
            depth -= 1
            if depth == 0:
                return at
    raise ValueError(f"no {pair[1]} closes what stands at {place}")


def owner_of(text: str, place: int) -> str:
    """The type that an `impl` is of."""
    place += len("impl")
    if text[place] == "<":
        place = closing(text, place, "<>") + 1
    head = text[place:text.index("{", place)].split(" for ")[-1]
    return re.search(r"\w+", head).group()


def functions_in(text: str) -> Iterator[Function]:
    """The public functions of a text."""
    owner = ""
    for found in ITEM.finditer(text):
        if found["impl"]:
            owner = owner_of(text, found.start())
        elif found["end"]:
            owner = ""
        else:
            place = found.end()
            if text[place] == "<":
                place = closing(text, place, "<>") + 1
            end = closing(text, place, "()")
            result = re.match(r"\s*->\s*([^{]*?)\s*(?=\{|\n\s*(?:requires|ensures|where)\b)", text[end + 1:])
            returned = result.group(1) if result else ""
            takes = re.search(r"\balloc: ", text[place:end]) is not None
            name = f"{owner}::{found['name']}" if owner else found["name"]
            yield Function(name, found.start(), takes and returned.partition("<")[0] not in ("", "Self", owner))


def functions_of(top: Path, crate: str) -> Iterator[tuple[Path, Function]]:
    """The public functions of a crate, each with its file."""
    for path in sorted((top / "crates" / crate / "src").rglob("*.rt")):
        for each in functions_in(path.read_text()):
            yield path, each


def body_begins(text: str, place: int) -> int:
    """Where the first line of a function's body begins."""
    indent = re.match(" *", text[place:]).group()
    opening = re.compile(rf"^{indent}(?:\{{|\S.*\{{)$", re.M)
    return opening.search(text, place).end() + 1
