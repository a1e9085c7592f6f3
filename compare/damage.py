"""Damaged files: the program answers what SQLite reads of them, or refuses them in one line, within time and memory."""

from __future__ import annotations

import sqlite3
from collections.abc import Callable
from pathlib import Path
from random import Random

from oracle import Reader
from pages import (
    INDEX_INTERIOR, INDEX_LEAF, LEAF, cell_place, cell_places, interior_pages, number_at, page_count, page_start, pages_of_kinds,
    pointer_places, set_number, size_of_page, tree_pages,
)
from program import Run, Tally, fault_line, refusal_problem, rows_of, run
from recipes import fill, make_file, random_text
from sound import answer_problem
from witness import WITNESSED, Reading, read_varint

# A damage changes the bytes, and tells what it did.
Damage = Callable[[bytearray, Random], str]

# What opening and preparing may answer of a file whose header is sound.
OPENING_FAULTS = {*range(11, 27), 31, 32}
# Faults of pages, trees, values and entries that `PRAGMA integrity_check` finds too. It counts no values and reads no
# characters.
SEEN_BY_SQLITE = {11, 12, 13, 15, 16, 18, 23, 24, 25}
# Where SQLite can't read a damaged file. A message with bytes of the damage may be none that Python can read.
UNREADABLE = (sqlite3.Error, UnicodeDecodeError, MemoryError)


def random_page(image: bytearray, rng: Random) -> int:
    """The number of some page, often of the first ones."""
    return rng.randint(1, max(1, rng.choice((4, page_count(image))) if page_count(image) > 4 else page_count(image)))


def odd_page(image: bytearray, own: int, rng: Random) -> int:
    """A number that a child or a chain shouldn't have."""
    pages = page_count(image)
    return rng.choice((0, 1, 2, own, pages, pages + 1, 2**31, 2**32 - 1, rng.randint(1, pages), rng.randint(1, pages)))


def swap(image: bytearray, first: int, second: int, size: int) -> None:
    """Exchanges so many bytes at two places."""
    held = image[first : first + size]
    image[first : first + size] = image[second : second + size]
    image[second : second + size] = held


def flip_bit(image: bytearray, rng: Random) -> str:
    place = rng.randrange(len(image))
    image[place] ^= 1 << rng.randrange(8)
    return f"a bit of byte {place} flipped"


def set_header_byte(image: bytearray, rng: Random) -> str:
    place = rng.randrange(100)
    image[place] = rng.choice((0, 1, 2, 255, rng.randrange(256)))
    return f"byte {place} set to {image[place]}"


def set_page_header(image: bytearray, rng: Random) -> str:
    place = page_start(image, random_page(image, rng)) + rng.randrange(12)
    image[place] = rng.choice((0, 2, 5, 10, 13, 255, rng.randrange(256)))
    return f"byte {place} of a page's header set to {image[place]}"


def fill_page(image: bytearray, rng: Random) -> str:
    size, page = size_of_page(image), random_page(image, rng)
    bytes_ = rng.choice((bytes(size), b"\xff" * size, rng.randbytes(size)))
    image[(page - 1) * size : page * size] = bytes_
    return f"page {page} filled from {bytes_[:4].hex()} on"


def copy_page(image: bytearray, rng: Random) -> str:
    size, source, target = size_of_page(image), rng.randint(1, page_count(image)), rng.randint(1, page_count(image))
    image[(target - 1) * size : target * size] = image[(source - 1) * size : source * size]
    return f"page {source} copied over page {target}"


def swap_pages(image: bytearray, rng: Random) -> str:
    size, pages = size_of_page(image), tree_pages(image)
    first, second = (rng.choice(pages) for _ in range(2))
    swap(image, (first - 1) * size, (second - 1) * size, size)
    return f"pages {first} and {second} swapped"


def cut_file(image: bytearray, rng: Random) -> str:
    del image[rng.randrange(len(image)) :]
    return f"cut to {len(image)} bytes"


def cut_pages(image: bytearray, rng: Random) -> str:
    pages = rng.randint(1, page_count(image))
    del image[pages * size_of_page(image) :]
    set_number(image, 28, 4, pages)
    return f"cut to {pages} pages, as the header then says"


def cross_child(image: bytearray, rng: Random) -> str:
    page = rng.choice(interior_pages(image) or [1])
    place = rng.choice(pointer_places(image, page))
    set_number(image, place, 4, odd_page(image, page, rng))
    return f"the child at byte {place} of page {page} is {int.from_bytes(image[place : place + 4], 'big')}"


def swap_children(image: bytearray, rng: Random) -> str:
    places = [place for page in interior_pages(image) for place in pointer_places(image, page)]
    if not places:
        return "no children to swap"
    first, second = (rng.choice(places) for _ in range(2))
    swap(image, first, second, 4)
    return f"the children at bytes {first} and {second} swapped"


def cross_chain(image: bytearray, rng: Random) -> str:
    size, page = size_of_page(image), random_page(image, rng)
    set_number(image, (page - 1) * size, 4, odd_page(image, page, rng))
    return f"page {page} begins with {image[(page - 1) * size : (page - 1) * size + 4].hex()}"


def swap_cells(image: bytearray, rng: Random) -> str:
    page = rng.choice(tree_pages(image))
    places = cell_places(image, page)
    if not places:
        return "no cells to swap"
    first, second = (rng.choice(places) for _ in range(2))
    swap(image, first, second, 2)
    return f"two cells of page {page} swapped"


def move_cell(image: bytearray, rng: Random) -> str:
    page = rng.choice(tree_pages(image))
    places = cell_places(image, page)
    if not places:
        return "no cell to move"
    place = rng.choice(places)
    old = int.from_bytes(image[place : place + 2], "big")
    set_number(image, place, 2, rng.choice((0, 65535, (old + rng.randint(-4, 4)) % 65536, rng.randrange(65536))))
    return f"a cell of page {page} moved to {image[place : place + 2].hex()}"


def spoil_cell(image: bytearray, rng: Random) -> str:
    page = rng.choice(tree_pages(image))
    places = cell_places(image, page)
    if not places:
        return "no cell to spoil"
    start = cell_place(image, page, rng.choice(places)) + rng.randrange(12)
    patch = rng.choice((b"\0", b"\x7f", b"\x81\x00", b"\xff" * 9, rng.randbytes(1), rng.randbytes(3)))[: len(image) - start]
    image[start : start + len(patch)] = patch
    return f"byte {start} and on of a cell of page {page} are {patch.hex()}"


def retype(image: bytearray, rng: Random) -> str:
    """Gives a value of a record another type."""
    page = rng.choice(pages_of_kinds(image, LEAF, INDEX_LEAF, INDEX_INTERIOR) or [1])
    places = cell_places(image, page)
    if not places:
        return "no value to retype"
    place = cell_place(image, page, rng.choice(places)) + (4 if image[page_start(image, page)] == INDEX_INTERIOR else 0)
    # Behind the payload's size, the rowid and the header's length.
    for _ in range(3 if image[page_start(image, page)] == LEAF else 2):
        place = (read_varint(image, place, len(image)) or (0, place))[1]
    place = min(place + rng.choice((0, 0, 1, 1, 2, 3)), len(image) - 1)
    old, image[place] = image[place], rng.choice((0, 1, 6, 7, 7, 8, 9, 10, 11, 12, 13, image[place] ^ 1))
    return f"the type at {place} of page {page} is {image[place]}, not {old}"


def set_count(image: bytearray, rng: Random) -> str:
    page = rng.choice(tree_pages(image))
    place = page_start(image, page) + 3
    old = int.from_bytes(image[place : place + 2], "big")
    set_number(image, place, 2, rng.choice((0, max(0, old - 1), min(old + 1, 65535), 65535, rng.randrange(65536))))
    return f"page {page} says {image[place : place + 2].hex()} cells"


def respell(image: bytearray, rng: Random) -> str:
    places = [place for place in range(size_of_page(image)) if image.startswith(b"CREATE", place)]
    if not places:
        return "no text to respell"
    place = min(rng.choice(places) + rng.randrange(80), len(image) - 1)
    image[place] = rng.choice(b" ,()'\"[]`/*-;xTNI0_\n\xc3\0")
    return f"byte {place} of the schema is {bytes(image[place : place + 1])!r}"


def trunk_pages(image: bytearray) -> list[int]:
    """The trunk pages of a freelist, as far as they are pages and none of them comes again."""
    found, page = [], number_at(image, 32, 4)
    while 1 <= page <= page_count(image) and page not in found:
        found.append(page)
        page = number_at(image, (page - 1) * size_of_page(image), 4)
    return found


def set_free(image: bytearray, rng: Random) -> str:
    place = rng.choice((32, 36))
    old = number_at(image, place, 4)
    odd = odd_page(image, old, rng) if place == 32 else rng.choice((0, max(0, old - 1), old + 1, page_count(image), 2**32 - 1))
    set_number(image, place, 4, odd % 2**32)
    return f"the number at {place} of the header is {number_at(image, place, 4)}, not {old}"


def spoil_trunk(image: bytearray, rng: Random) -> str:
    trunks = trunk_pages(image)
    if not trunks:
        return "no freelist to spoil"
    page = rng.choice(trunks)
    start = (page - 1) * size_of_page(image)
    count = min(number_at(image, start + 4, 4), (size_of_page(image) - 8) // 4)
    place = rng.choice((0, 4, 4, 8 + 4 * rng.randrange(count or 1), 8 + 4 * rng.randrange(count or 1)))
    old = number_at(image, start + place, 4)
    most = size_of_page(image) // 4
    odd = rng.choice((0, max(0, old - 1), old + 1, most - 2, most - 1, 2**32 - 1)) if place == 4 else odd_page(image, page, rng)
    set_number(image, start + place, 4, odd % 2**32)
    return f"the number at {place} of trunk page {page} is {number_at(image, start + place, 4)}, not {old}"


def free_page(image: bytearray, rng: Random) -> str:
    """Gives a page to the freelist, whatever else uses it, so that its counts agree."""
    trunks = trunk_pages(image)
    if not trunks:
        return "no freelist to give a page to"
    start, page = (rng.choice(trunks) - 1) * size_of_page(image), random_page(image, rng)
    count = number_at(image, start + 4, 4)
    if 12 + 4 * count > size_of_page(image):
        return "a trunk page without room"
    for place, number in ((start + 8 + 4 * count, page), (start + 4, count + 1), (36, (number_at(image, 36, 4) + 1) % 2**32)):
        set_number(image, place, 4, number)
    return f"the freelist names page {page} too"


def take_free_page(image: bytearray, rng: Random) -> str:
    """Takes the last page from a trunk page, so that the counts agree."""
    trunks = trunk_pages(image)
    start = (rng.choice(trunks or [1]) - 1) * size_of_page(image)
    count, total = number_at(image, start + 4, 4), number_at(image, 36, 4)
    if not trunks or count == 0 or total == 0:
        return "no free page to take"
    set_number(image, start + 4, 4, count - 1)
    set_number(image, 36, 4, total - 1)
    return f"the freelist forgets the last page at {start}"


DAMAGES: list[Damage] = [
    flip_bit, flip_bit, set_header_byte, set_page_header, fill_page, copy_page, swap_pages, cut_file, cut_pages, cross_child,
    cross_child, swap_children, cross_chain, swap_cells, move_cell, spoil_cell, spoil_cell, retype, retype, set_count, respell,
    set_free, spoil_trunk, spoil_trunk, free_page, take_free_page,
]  # fmt: skip


def header_fault(image: bytes) -> int:
    """The first condition of the header that is broken, as docs/FAULTS.md has them; 0 where none is."""
    if len(image) < 100:
        return 1
    size = size_of_page(image)

    def word(place: int) -> int:
        return int.from_bytes(image[place : place + 4], "big")

    sound = {
        2: image[:16] == b"SQLite format 3\0",
        3: size in (512 << power for power in range(8)) and size - image[20] >= 480,
        4: image[18] in (1, 2) and image[19] in (1, 2) and image[21:24] == b"\x40\x20\x20",
        5: image[18] != 2 and image[19] != 2,
        6: word(56) == 1,
        7: word(52) == 0 and word(64) == 0,
        8: word(44) == 4,
        9: word(28) != 0 and word(24) == word(92) and word(28) * size == len(image),
        10: len(image) <= 1 << 30,
    }
    return next((number for number, holds in sound.items() if not holds), 0)


def witness_problem(reading: Reading, answer: Run) -> str:
    """What a reading of an image by other code says against what is told of it. A condition that the reading looks for is one that it
    finds broken, with this page; an image that was opened has none. It says nothing where it can't read a text of the schema."""
    lines, number = reading.lines(), answer.fault()
    is_well = answer.err in lines if number in WITNESSED else number in range(21, 27) or not lines
    return "" if is_well or not reading.is_known else f"{answer}; a reading of the file finds {sorted(lines)[:9]}"


def refused_problem(path: Path, answer: Run) -> str:
    """What is wrong with a refusal of a damaged file whose header is sound."""
    number = answer.fault()
    if number not in OPENING_FAULTS or answer.out:
        return f"{answer}; wanted whole rows or one fault of opening or preparing, and nothing else"
    reading = Reading(path.read_bytes())
    if problem := witness_problem(reading, answer):
        return problem
    # Of the schema's own columns SQLite tests no types.
    if number not in SEEN_BY_SQLITE or (number == 23 and answer.err in reading.lines()):
        return ""
    try:
        with Reader(path) as reader:
            found = not reader.is_sound()
    except UNREADABLE:
        found = True
    return "" if found else f"{answer}; SQLite's own check finds nothing"


def damaged_problem(path: Path, table: str, answer: Run) -> str:
    """What is wrong with an answer over a damaged file. Where the program and SQLite both answer, they answer the same."""
    wanted = header_fault(path.read_bytes())
    if wanted:
        return refusal_problem(answer, fault_line(wanted))
    if answer.status != 0:
        return refused_problem(path, answer)
    if problem := witness_problem(Reading(path.read_bytes()), answer):
        return problem
    try:
        with Reader(path) as reader:
            rows = reader.lines(table, reader.columns(table))
    except UNREADABLE:
        whole = rows_of(answer.out) is not None and answer.err == b""
        return "" if whole else f"{answer}; wanted whole rows and nothing else"
    return answer_problem(answer, rows)


def two_tables(connection: sqlite3.Connection, rng: Random) -> None:
    """Two tables of one shape, of three levels and of two, with keys of nine bytes."""
    for table, rows in (("item", 700), ("other", 40)):
        connection.execute(f"CREATE TABLE {table}(id INTEGER PRIMARY KEY, a INT, b TEXT NOT NULL) STRICT")
        keys = rng.sample(range(2**60), rows)
        fill(connection, table, ((key, key >> rng.randint(0, 60), random_text(rng, 60)) for key in keys))


def with_chains(connection: sqlite3.Connection, rng: Random) -> None:
    """A table whose texts and blobs go on in overflow pages, and a freelist."""
    connection.execute("CREATE TABLE item(a TEXT, b BLOB, c INTEGER) STRICT")
    fill(connection, "item", ((random_text(rng, 2000), rng.randbytes(rng.choice((0, 3000))), row) for row in range(40)))
    connection.execute("DELETE FROM item WHERE c % 5 = 0")


def with_indexes(connection: sqlite3.Connection, rng: Random) -> None:
    """A table with indexes of some levels, one of which descends, has entries with overflow pages, or is unique."""
    connection.execute("CREATE TABLE item(id INTEGER PRIMARY KEY, a INT, b TEXT NOT NULL) STRICT")
    connection.execute("CREATE INDEX by_a ON item(a DESC)")
    connection.execute("CREATE INDEX by_b ON item(b, a)")
    connection.execute("CREATE UNIQUE INDEX by_id ON item(a, id)")
    keys = rng.sample(range(2**60), 300)
    fill(connection, "item", ((key, key >> rng.randint(0, 60), random_text(rng, rng.choice((20, 20, 300)))) for key in keys))
    connection.execute("DELETE FROM item WHERE id % 5 = 0")


def without_rowids(connection: sqlite3.Connection, rng: Random) -> None:
    """A table without rowids of some levels, whose rows go on in overflow pages on its interior pages too, with an index; and one
    of the same shape."""
    for table, rows in (("item", 250), ("other", 30)):
        connection.execute(f"CREATE TABLE {table}(a INT, b TEXT, c BLOB, PRIMARY KEY (b, a)) STRICT, WITHOUT ROWID")
        fill(connection, table, ((row, random_text(rng, rng.choice((9, 60, 400))), rng.randbytes(rng.choice((2, 90)))) for row in range(rows)))
    connection.execute("CREATE INDEX by_c ON item(c DESC)")
    connection.execute("CREATE UNIQUE INDEX once ON item(a, c)")
    connection.execute("DELETE FROM item WHERE a % 5 = 0")


def with_keys(connection: sqlite3.Connection, rng: Random) -> None:
    """A table with indexes for its keys, partial ones, one of which is unique, and one that descends; and one of the same shape."""
    columns = "a TEXT PRIMARY KEY, b INT UNIQUE, c BLOB, d INT NOT NULL, UNIQUE (d, a)"
    for table, rows in (("item", 160), ("other", 20)):
        connection.execute(f"CREATE TABLE {table}({columns}) STRICT")
        numbers = rng.sample(range(-(2**40), 2**40), rows)
        texts = (f"{number} {random_text(rng, rng.choice((9, 9, 200)))}" for number in numbers)
        fill(connection, table, ((text, number, rng.randbytes(4), number % 9) for text, number in zip(texts, numbers)))
    connection.execute("CREATE INDEX few ON item(c DESC, d) WHERE b > 0 AND d <> 3")
    connection.execute("CREATE UNIQUE INDEX once ON item(b DESC) WHERE d BETWEEN 2 AND 5")
    connection.execute("CREATE INDEX down ON item(d DESC, b)")
    connection.execute("DELETE FROM item WHERE abs(b % 6) = 1")


def altered(connection: sqlite3.Connection, rng: Random) -> None:
    """A table that got columns, with and without a DEFAULT, before its first row and behind some, with indexes on them; some of its
    rows were changed since, and its names were others. One without rowids that got a column."""
    connection.execute("CREATE TABLE old(id INTEGER PRIMARY KEY, name TEXT, gone INT) STRICT")
    connection.execute("ALTER TABLE old ADD COLUMN early INT")
    fill(connection, "old", ((row, random_text(rng, 40), row, row * row) for row in range(60)))
    connection.execute("ALTER TABLE old ADD COLUMN tag TEXT DEFAULT 'none'")
    connection.execute("ALTER TABLE old DROP COLUMN gone")
    connection.execute("ALTER TABLE old RENAME TO item")
    fill(connection, "item", ((row, random_text(rng, 40), None, random_text(rng, 4)) for row in range(60, 90)))
    connection.execute("ALTER TABLE item ADD COLUMN lot INT NOT NULL DEFAULT -7")
    connection.execute("ALTER TABLE item RENAME COLUMN name TO label")
    connection.execute("CREATE INDEX by_tag ON item(tag, lot DESC)")
    connection.execute("CREATE INDEX by_lot ON item(label) WHERE lot = -7")
    connection.execute("UPDATE item SET lot = id WHERE id % 7 = 0")
    connection.execute("CREATE TABLE other(a INT, b TEXT, PRIMARY KEY (b, a)) STRICT, WITHOUT ROWID")
    fill(connection, "other", ((row, random_text(rng, 30)) for row in range(40)))
    connection.execute("ALTER TABLE other ADD COLUMN c BLOB DEFAULT x'00ff'")
    connection.execute("CREATE INDEX by_c ON other(c, a DESC)")


def with_trunks(connection: sqlite3.Connection, rng: Random) -> None:
    """A table most of whose rows are gone, so that the freelist has some trunk pages where a page is short."""
    connection.execute("CREATE TABLE item(id INTEGER PRIMARY KEY, a TEXT, b BLOB) STRICT")
    fill(connection, "item", ((row, random_text(rng, 40), rng.randbytes(rng.choice((5, 700)))) for row in range(400)))
    connection.execute("DELETE FROM item WHERE id % 8 > 0 OR id > 300")


def vacuumed(connection: sqlite3.Connection, rng: Random) -> None:
    """Tables and indexes of which rows were deleted, made anew by VACUUM, and some rows that were deleted since."""
    with_indexes(connection, rng)
    connection.execute("CREATE TABLE gone(a TEXT) STRICT")
    fill(connection, "gone", ((random_text(rng, 90),) for _ in range(60)))
    connection.execute("DROP TABLE gone")
    connection.execute("VACUUM")
    connection.execute("DELETE FROM item WHERE id % 7 = 0")


def one_leaf(connection: sqlite3.Connection, rng: Random) -> None:
    """A few rows, so that most damages meet the schema or one leaf."""
    connection.execute("CREATE TABLE item(id INTEGER PRIMARY KEY, a TEXT, b BLOB, c INT NOT NULL) STRICT")
    fill(connection, "item", ((row, random_text(rng, 8), rng.randbytes(3), row * row) for row in range(6)))


BASES = [
    *((two_tables, 512), (with_chains, 512), (one_leaf, 512), (with_indexes, 512), (two_tables, 1024), (with_chains, 4096)),
    *((with_indexes, 2048), (one_leaf, 65536), (without_rowids, 512), (without_rowids, 4096), (with_keys, 512), (with_keys, 1024)),
    *((altered, 512), (altered, 2048), (with_trunks, 512), (with_trunks, 1024), (vacuumed, 512), (vacuumed, 4096)),
]


def damaged(images: list[bytes], seed: str) -> tuple[bytes, str]:
    """A damaged image, and how it came about."""
    rng = Random(seed)
    base = rng.randrange(len(images))
    image = bytearray(images[base])
    done = []
    for _ in range(rng.choice((1, 1, 1, 2, 4))):
        if header_fault(image) == 0:
            done.append(rng.choice(DAMAGES)(image, rng))
    return bytes(image), f"{BASES[base][0].__name__}, page size {BASES[base][1]}: {'; '.join(done)}"


def try_damage(tally: Tally, folder: Path, seed: int, rounds: range) -> None:
    """Tries so many damaged files, each by a seed of its own."""
    path = folder / "damaged.db"
    images = []
    for make, size in BASES:
        make_file(path, make, size, Random(f"{seed}/{make.__name__}/{size}"))
        images.append(path.read_bytes())
    for number in rounds:
        image, how = damaged(images, f"{seed}/damage/{number}")
        path.write_bytes(image)
        answer = run(*(["--cache", "1"] if number % 3 == 0 else []), path, "SELECT * FROM item")
        tally.add(f"--seed {seed} --damage {number}, {how}", damaged_problem(path, "item", answer))
