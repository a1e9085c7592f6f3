"""The parts of an image that damages aim at."""

from __future__ import annotations

# The flags of the pages of a table and of an index.
INTERIOR, LEAF = 5, 13
INDEX_INTERIOR, INDEX_LEAF = 2, 10


def number_at(image: bytes | bytearray, place: int, width: int) -> int:
    """A big-endian number."""
    return int.from_bytes(image[place : place + width], "big")


def set_number(image: bytearray, place: int, width: int, number: int) -> None:
    """Writes a big-endian number."""
    image[place : place + width] = number.to_bytes(width, "big")


def size_of_page(image: bytes | bytearray) -> int:
    """The page size that the header says."""
    stored = number_at(image, 16, 2)
    return 65536 if stored == 1 else stored


def page_count(image: bytes | bytearray) -> int:
    """How many pages the bytes have."""
    return len(image) // size_of_page(image)


def page_start(image: bytes | bytearray, page: int) -> int:
    """Where the header of a tree page begins; that of page 1 stands behind the image's own."""
    return 100 if page == 1 else (page - 1) * size_of_page(image)


def pages_of_kinds(image: bytes | bytearray, *kinds: int) -> list[int]:
    """The pages that begin with one of these flags."""
    return [page for page in range(1, page_count(image) + 1) if image[page_start(image, page)] in kinds]


def tree_pages(image: bytes | bytearray) -> list[int]:
    """The pages that look like those of a tree; page 1 where there is none."""
    return pages_of_kinds(image, INTERIOR, LEAF, INDEX_INTERIOR, INDEX_LEAF) or [1]


def interior_pages(image: bytes | bytearray) -> list[int]:
    """The pages that look like interior ones of a tree."""
    return pages_of_kinds(image, INTERIOR, INDEX_INTERIOR)


def cell_places(image: bytes | bytearray, page: int) -> list[int]:
    """Where a page says the places of its cells, as far as they lie in the page."""
    start = page_start(image, page)
    first = start + (12 if image[start] in (INTERIOR, INDEX_INTERIOR) else 8)
    end = min(first + 2 * number_at(image, start + 3, 2), page * size_of_page(image) - 1)
    return list(range(first, end, 2))


def cell_place(image: bytes | bytearray, page: int, place: int) -> int:
    """Where the cell begins whose place stands here, held within the image."""
    start = (page - 1) * size_of_page(image) + number_at(image, place, 2)
    return min(start, len(image) - 16)


def pointer_places(image: bytes | bytearray, page: int) -> list[int]:
    """Where an interior page names its children: in its header, and at the front of its cells."""
    cells = [cell_place(image, page, place) for place in cell_places(image, page)]
    return [page_start(image, page) + 8, *cells]


def tree_levels(image: bytes | bytearray, root: int) -> int:
    """How many levels a sound tree has."""
    levels, page = 1, root
    while image[page_start(image, page)] == INTERIOR:
        levels, page = levels + 1, number_at(image, page_start(image, page) + 8, 4)
    return levels
