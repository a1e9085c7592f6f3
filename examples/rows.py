#!/usr/bin/env python3
"""Prints the rows that a SELECT answers over a database file: rows.py LIBRARY IMAGE SQL, where LIBRARY is libseleq.so."""

from __future__ import annotations

import ctypes
import sys
from collections.abc import Iterator
from pathlib import Path

NULL, INTEGER, TEXT, BLOB = range(4)
END, CACHE = 100, 256


class Image(ctypes.Structure):
    """An image; all zero it is closed."""

    _fields_ = [("at", ctypes.c_void_p), ("live", ctypes.c_bool)]


class Value(ctypes.Structure):
    """A value, whose bytes lie in the image until the next call on that."""

    _fields_ = [("kind", ctypes.c_uint8), ("number", ctypes.c_int64), ("at", ctypes.c_void_p), ("length", ctypes.c_size_t)]

    # What a value without bytes points to, since its pointer is never null.
    blank = ctypes.create_string_buffer(b"")

    def __init__(self) -> None:
        super().__init__(0, 0, ctypes.addressof(self.blank), 0)

    def held(self) -> int | str | bytes | None:
        """A copy of what it holds."""
        if self.kind == INTEGER:
            return self.number
        held = ctypes.string_at(self.at, self.length)
        return {NULL: None, TEXT: held.decode() if self.kind == TEXT else "", BLOB: held}[self.kind]


def loaded(path: str) -> ctypes.CDLL:
    """The library, with the types of its functions: without these a pointer would be passed as an int."""
    library = ctypes.CDLL(path)
    image, value, slot, size = ctypes.POINTER(Image), ctypes.POINTER(Value), ctypes.c_uint8, ctypes.c_size_t
    types = {
        "seleq_open": [image, ctypes.c_char_p, size, size],
        "seleq_start": [image, slot, ctypes.c_char_p, size],
        "seleq_step": [image, slot],
        "seleq_end": [image, slot],
        "seleq_columns": [image, slot, ctypes.POINTER(size)],
        "seleq_name": [image, slot, size, value],
        "seleq_column": [image, slot, size, value],
        "seleq_fault": [image, value, value],
    }
    for name, parameters in types.items():
        function = getattr(library, name)
        function.argtypes, function.restype = parameters, ctypes.c_uint8
    library.seleq_close.argtypes, library.seleq_close.restype = [image], None
    return library


def rows_of(library: ctypes.CDLL, image: Image, sql: bytes) -> Iterator[list]:
    """The rows of a statement, each as a list of values."""
    count, value = ctypes.c_size_t(), Value()
    status = library.seleq_start(image, 0, sql, len(sql)) or library.seleq_step(image, 0)
    while status == 0:
        library.seleq_columns(image, 0, count)
        row = []
        for column in range(count.value):
            library.seleq_column(image, 0, column, value)
            row.append(value.held())
        yield row
        status = library.seleq_step(image, 0)
    if status != END:
        raise ValueError(fault_of(library, image, status))


def fault_of(library: ctypes.CDLL, image: Image, status: int) -> str:
    """The line of a fault."""
    name, carried = Value(), Value()
    library.seleq_fault(image, name, carried)
    words = [f"fault {status}:", name.held(), carried.held()]
    return " ".join(str(word) for word in words if word is not None)


def literal(value: int | str | bytes | None) -> str:
    """A value as SQL writes it."""
    if value is None:
        return "NULL"
    if isinstance(value, bytes):
        return f"X'{value.hex().upper()}'"
    return str(value) if isinstance(value, int) else "'" + value.replace("'", "''") + "'"


def main() -> int:
    """Answers the command line."""
    whole, sql = Path(sys.argv[2]).read_bytes(), sys.argv[3].encode()
    library, image = loaded(sys.argv[1]), Image()
    try:
        status = library.seleq_open(image, whole, len(whole), CACHE)
        if status:
            raise ValueError(fault_of(library, image, status))
        for row in rows_of(library, image, sql):
            sys.stdout.write(",".join(map(literal, row)) + "\n")
    except ValueError as fault:
        print(fault, file=sys.stderr)
        return 1
    finally:
        library.seleq_close(image)
    return 0


if __name__ == "__main__":
    sys.exit(main())
