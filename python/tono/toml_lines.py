"""On which line a key or an element of a TOML file stands. The file was read before, so that its form is right."""
from __future__ import annotations

import re
from typing import Any, Dict, List, Tuple

Path = Tuple[Any, ...]
_BARE = re.compile(r"[A-Za-z0-9_-]+")
_SCALAR = re.compile(r"[^\s,\]}#]+(?: [0-9][^\s,\]}#]*)?")


class _Scanner:
    """Reads a file from its begin to its end and notes the line of each path."""

    def __init__(self, text: str) -> None:
        self.text, self.at, self.lines = text, 0, {}  # type: str, int, Dict[Path, int]
        self.counts: Dict[Path, int] = {}
        self.counted = (0, 1)

    def line(self) -> int:
        at, line = self.counted
        self.counted = self.at, line + self.text.count("\n", at, self.at)
        return self.counted[1]

    def skip(self, across: bool = True) -> None:
        """Skips blanks and comments, and line ends too where they mean nothing."""
        while self.at < len(self.text):
            c = self.text[self.at]
            if c == "#":
                end = self.text.find("\n", self.at)
                self.at = len(self.text) if end < 0 else end
            elif c in " \t" or across and c in "\r\n":
                self.at += 1
            else:
                return

    def string(self) -> str:
        quote = self.text[self.at]
        triple = quote * 3
        if self.text.startswith(triple, self.at):
            end = self.at + 3
            while not self.text.startswith(triple, end):
                end += 2 if quote == '"' and self.text[end] == "\\" else 1
            while self.text.startswith(triple, end + 1):
                end += 1
            found, self.at = self.text[self.at + 3:end], end + 3
            return found
        end = self.at + 1
        while self.text[end] != quote:
            end += 2 if quote == '"' and self.text[end] == "\\" else 1
        found, self.at = self.text[self.at + 1:end], end + 1
        return found

    def key(self) -> Path:
        """A key, with the parts between its dots."""
        parts: List[str] = []
        while True:
            self.skip(False)
            if self.text[self.at] in "\"'":
                parts.append(self.string())
            else:
                found = _BARE.match(self.text, self.at)
                assert found is not None
                parts.append(found[0])
                self.at = found.end()
            self.skip(False)
            if self.text[self.at] != ".":
                return tuple(parts)
            self.at += 1

    def value(self, path: Path) -> None:
        self.lines.setdefault(path, self.line())
        c = self.text[self.at]
        if c in "\"'":
            self.string()
        elif c == "[":
            self.items(path)
        elif c == "{":
            self.table(path)
        else:
            found = _SCALAR.match(self.text, self.at)
            assert found is not None
            self.at = found.end()

    def items(self, path: Path) -> None:
        self.at += 1
        place = 0
        while True:
            self.skip()
            if self.text[self.at] == "]":
                self.at += 1
                return
            self.value((*path, place))
            place += 1
            self.skip()
            if self.text[self.at] == ",":
                self.at += 1

    def table(self, path: Path) -> None:
        self.at += 1
        while True:
            self.skip()
            if self.text[self.at] == "}":
                self.at += 1
                return
            if self.text[self.at] == ",":
                self.at += 1
                continue
            self.pair(path)

    def pair(self, path: Path) -> None:
        line = self.line()
        whole = (*path, *self.key())
        self.lines[whole] = line
        self.at += 1
        self.skip()
        self.value(whole)

    def header(self) -> Path:
        """The path of a line [a.b] or [[a.b]]."""
        line, twice = self.line(), self.text.startswith("[[", self.at)
        self.at += 2 if twice else 1
        path: Path = ()
        for part in self.key():
            path = (*path, part)
            if path in self.counts:
                path = (*path, self.counts[path])
        if twice:
            name = path if path not in self.counts else path
            if path and isinstance(path[-1], int):
                name = path[:-1]
            self.counts[name] = self.counts.get(name, -1) + 1
            path = (*name, self.counts[name])
        self.lines.setdefault(path, line)
        self.at = self.text.index("\n", self.at) if "\n" in self.text[self.at:] else len(self.text)
        return path

    def run(self) -> Dict[Path, int]:
        here: Path = ()
        while True:
            self.skip()
            if self.at >= len(self.text):
                return self.lines
            if self.text[self.at] == "[":
                here = self.header()
            else:
                self.pair(here)


def lines_of(text: str) -> Dict[Path, int]:
    """The line of each key and element, by its path, as ('voice', 0, 'notes', 2)."""
    return _Scanner(text).run()


def line_of(text: str, path: Path) -> int:
    """The line of a path, or of the nearest one above it that stands in the file."""
    try:
        lines = lines_of(text)
    except (IndexError, AssertionError):
        return 1
    while path and path not in lines:
        path = path[:-1]
    return lines.get(path, 1)
