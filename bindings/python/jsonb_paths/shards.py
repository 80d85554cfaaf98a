"""Shards: files that hold columns, which processes map into memory.

A shard is a header of 64 bytes, then the offsets, the validity bitmap and the bytes of a column. Processes of one machine share the
mapped memory, so a query sends only a file name.

>>> import tempfile
>>> from jsonb_paths import Column, dumps
>>> with tempfile.TemporaryDirectory() as folder:
...     files = write_shards(Column(map(dumps, range(100))), folder, 4)
...     len(files), read_shard(files[0])
(4, <Column: 25 rows, 249 bytes>)
"""

from __future__ import annotations

import mmap
import os
import struct
from typing import List

from .column import Column
from .errors import BadOffsets

__all__ = ["read_shard", "write_shard", "write_shards"]
_HEADER = struct.Struct("<8sQQQ32x")
_MAGIC = b"JSONBCL1"


def write_shard(column: Column, file: str) -> str:
    """Writes a column to a file, and returns its name. The file is renamed into place when it is complete."""
    data, offsets = column.packed()
    validity = column.validity or b""
    part = f"{file}.{os.getpid()}.part"
    with open(part, "wb") as out:
        out.write(_HEADER.pack(_MAGIC, len(column), len(validity), len(data)))
        out.write(offsets.cast("B"))
        out.write(validity)
        out.write(data)
    os.replace(part, file)
    return file


def write_shards(column: Column, folder: str, shards: int) -> List[str]:
    """Writes a column as files, whose numbers of rows differ by at most one, and returns their names."""
    os.makedirs(folder, exist_ok=True)
    ends = [len(column) * it // shards for it in range(shards + 1)]
    return [write_shard(column[first:end], os.path.join(folder, f"{it:05}.jsonb")) for it, (first, end) in enumerate(zip(ends, ends[1:]))]


def read_shard(file: str) -> Column:
    """Returns the column of a file, which stays mapped as long as the column exists. Raises BadOffsets for another file."""
    with open(file, "rb") as source:
        size = os.fstat(source.fileno()).st_size
        mapped = memoryview(mmap.mmap(source.fileno(), 0, access=mmap.ACCESS_READ) if size else b"")
    magic, rows, bits, length = _HEADER.unpack_from(mapped) if size >= _HEADER.size else (b"", 0, 0, 0)
    at = _HEADER.size + 8 * (rows + 1)
    if magic != _MAGIC or size != at + bits + length:
        raise BadOffsets(f"{file} is not a whole shard")
    return Column.from_buffers(mapped[at + bits :], mapped[_HEADER.size : at].cast("q"), mapped[at : at + bits] if bits else None)
