"""A listing of a file: one field a line, with its offset and bytes."""

from skodderym_fields import CELLS, Raw
from skodderym_places import File
from skodderym_to_text import hex_text

BYTES_A_LINE = 16


def listing(data):
    """The listing of a byte string."""
    file = File(data)
    rows = list(part_rows(file, data, file.outer, 0))
    wide = max(len(shown) for _, shown, _ in rows)
    lines = (f"{at:5}  {shown:{wide}}  {words}".rstrip()
             for at, shown, words in rows)
    return "".join(line + "\n" for line in lines)


def part_rows(file, data, part, level):
    """Rows of (offset, bytes, words) for a part and what it holds."""
    if isinstance(part, Raw):
        yield from byte_rows(part.at, part.data, level, "raw bytes")
        return
    end = part.at + 3 + len(part.payload)
    if part.parts:
        end = part.parts[0].at
    yield from byte_rows(part.at, data[part.at:end], level,
                         words_of(file, part))
    for item in part.parts:
        yield from part_rows(file, data, item, level + 1)


def byte_rows(at, data, level, words):
    """Bytes on as many rows as they need; the words stand on the first."""
    for start in range(0, max(1, len(data)), BYTES_A_LINE):
        piece = data[start:start + BYTES_A_LINE]
        yield at + start, "  " * level + hex_text(piece), words
        words = ""


def words_of(file, part):
    """What a field is, without what it holds."""
    text = file.what(part)
    if part.tag in CELLS:
        number = file.names.cell_numbers.get(part.at)
        return text if number is None else f"c{number} = {text}"
    return text
