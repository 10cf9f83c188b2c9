"""Why bytes or values are refused."""

from __future__ import annotations

# The faults that a status of the library tells, and what they mean.
FAULTS = {
    1: ("RlpIsTooBig", "bytes follow the item"),
    2: ("RlpIsTooShort", "the bytes end before the item does"),
    3: ("RlpExpectedToBeList", "there is no list"),
    4: ("RlpExpectedToBeData", "there is a list in place of a string"),
    5: ("RlpIncorrectListLen", "there is a field too few or too many"),
    6: ("RlpDataLenWithZeroPrefix", "the length of a string begins with a zero byte"),
    7: ("RlpListLenWithZeroPrefix", "the length of a list begins with a zero byte"),
    8: ("RlpInvalidIndirection", "there is a shorter encoding"),
    9: ("RlpInconsistentLengthAndData", "the bytes end before the string does"),
    10: ("RlpInvalidLength", "a header and its string are 2^64 bytes or more"),
    11: ("RlpInvalidSignature", "a number of a signature is out of range"),
    14: ("RlpTooDeep", "there are more lists, one in the other, than allowed"),
    15: ("RlpBadItems", "the items describe no tree"),
    16: ("RlpUnknownType", "the type of the transaction isn't known"),
}


class RLPException(Exception):
    """Bytes or a value were refused."""


class EncodingError(RLPException, TypeError):
    """A value has no encoding. `obj` is the value, or the part of it that has none."""

    def __init__(self, message: str, obj: object) -> None:
        super().__init__(message)
        self.obj = obj


class DecodingError(RLPException, ValueError):
    """Bytes are no canonical encoding.

    `rlp` is the bytes, `name` the name of the fault, and `place` where in the bytes the item begins that has it.
    """

    def __init__(self, message: str, rlp: object, name: str | None = None, place: int | None = None) -> None:
        super().__init__(message)
        self.rlp = rlp
        self.name = name
        self.place = place


def decoding_error(status: int, place: int, rlp: object) -> DecodingError:
    """Return the error of a status of the library."""
    name, why = FAULTS[status]
    return DecodingError(f"{name} at {place}: {why}", rlp, name, place)
