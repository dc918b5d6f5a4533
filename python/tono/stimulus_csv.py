"""A pitch curve from a column of a CSV file, as a tracker writes it."""
from __future__ import annotations

import array
import csv
from decimal import Decimal, InvalidOperation
from typing import List, Optional, Union

from .decimals import narrow
from .singles import nearest
from .stimulus_fields import StimulusError


def _is_decimal(text: str) -> bool:
    try:
        Decimal(text.strip())
        return True
    except InvalidOperation:
        return False


def _place(name: str, head: Optional[List[str]], wide: int, column: Union[str, int, None]) -> int:
    """The place of a column, by its name in the first row or its number from 1; the last one if none is given."""
    if column is None:
        return wide - 1
    if isinstance(column, int):
        if not 1 <= column <= wide:
            raise StimulusError(f"{name}:1: there is no column {column}; expected a number from 1 to {wide}")
        return column - 1
    names = [cell.strip() for cell in head or []]
    if column not in names:
        said = f"; it has {', '.join(names)}" if names else "; its first row has no names, so give the column's number from 1"
        raise StimulusError(f"{name}:1: there is no column {column!r}{nearest(str(column), names) or said}")
    return names.index(str(column))


def read_column(path: str, column: Union[str, int, None]) -> "array.array[float]":
    """The values of a column as 32-bit floats, each narrowed once. Rows after a first one of names are numbers; lines that
    begin with # and empty ones are skipped."""
    made, head, place = array.array("f"), None, -1
    with open(path, encoding="utf-8-sig", newline="") as file:
        text = file.read()
    dialect = "\t" if "\t" in text.split("\n", 1)[0] else ";" if ";" in text.split("\n", 1)[0] else ","
    rows = csv.reader(text.splitlines(), delimiter=dialect)
    for row in rows:
        line = rows.line_num
        if not row or not "".join(row).strip() or row[0].lstrip().startswith("#"):
            continue
        if place < 0:
            if not all(_is_decimal(cell) for cell in row if cell.strip()):
                head = row
            place = _place(path, head, len(row), column)
            if head is not None:
                continue
        cell = row[place].strip() if place < len(row) else ""
        if not _is_decimal(cell):
            said = "is empty" if not cell else f"has {cell!r}"
            raise StimulusError(f"{path}:{line}: column {place + 1} {said}; expected a number of hertz (a frame without a pitch needs "
                                "one too: write that of the frame before it)")
        made.append(narrow(Decimal(cell)))
    if not made:
        raise StimulusError(f"{path}:1: there is no number in it; expected a column of hertz")
    return made
