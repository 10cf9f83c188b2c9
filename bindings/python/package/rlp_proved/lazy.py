"""Lists whose items are decoded when they are asked for."""

from __future__ import annotations

from collections.abc import Sequence

from ._core import decode_part, split_part


class LazyList(Sequence):
    """The items of a list: bytes, and lazy lists. Faults within an item are found when it is asked for.

    >>> from rlp_proved import decode_lazy
    >>> items = decode_lazy(b"\\xc3\\x05\\xc1\\x06")
    >>> len(items), items[0], list(items[1])
    (2, b'\\x05', [b'\\x06'])
    """

    __slots__ = ("_places", "_rlp")

    def __init__(self, rlp: bytes, start: int, stop: int) -> None:
        self._rlp = rlp
        self._places = split_part(rlp, start, stop)

    def __len__(self) -> int:
        return len(self._places)

    def __getitem__(self, index):
        if isinstance(index, slice):
            return [self[place] for place in range(*index.indices(len(self)))]
        start, stop, is_list = self._places[index]
        return LazyList(self._rlp, start, stop) if is_list else decode_part(self._rlp, start, stop)

    def __repr__(self) -> str:
        return f"LazyList of {len(self)} items"


def decode_lazy(rlp: bytes) -> bytes | LazyList:
    """Return the string whose encoding the bytes are, or a lazy list of the items of the list that they are.

    Raise DecodingError where the bytes are neither. The items of a list within are checked when they are asked for.
    """
    rlp = bytes(rlp)
    if rlp[:1] >= b"\xc0":
        return LazyList(rlp, 0, len(rlp))
    return decode_part(rlp, 0, len(rlp))
