"""Prepared paths. An error in a path is raised when the object is created, not at the first document.

>>> from jsonb_paths import dumps
>>> grown_up = Path("$.age > 40")
>>> grown_up.match(dumps({"age": 47})), grown_up
(True, Path('$.age > 40'))
>>> KeyPath("{a")
Traceback (most recent call last):
    ...
jsonb_paths.errors.InvalidKeyPath: byte 2: not a key path such as {a,0}: '{a'

A path from an untrusted source gets a limit. A call fails if and only if `most_items` is above it:

>>> Path("$.**.**.**", limit=400).exists(dumps([[[[[1]]]]]))
Traceback (most recent call last):
    ...
jsonb_paths.errors.LimitExceeded: the path may list or compare more items of the document than its limit: '$.**.**.**'
>>> Path("$.**.**.**").most_items(dumps([[[[[1]]]]]))
431
"""

from __future__ import annotations

from ._core import KeyPath, Path

__all__ = ["KeyPath", "Path"]


def _path(text: str, strict: int, limit: int = 2**64 - 1) -> Path:
    return Path(text, strict=bool(strict), limit=limit)


def _key_path(text: str, *_: int) -> KeyPath:
    return KeyPath(text)
