"""The Recursive Length Prefix format of Ethereum, over a library that is proved.

For bytes and nested lists it stands in for the package `rlp`:

>>> import rlp_proved as rlp
>>> rlp.encode([b"cat", [b"dog", b""]])
b'\\xca\\x83cat\\xc5\\x83dog\\x80'
>>> rlp.decode(b"\\xca\\x83cat\\xc5\\x83dog\\x80")
[b'cat', [b'dog', b'']]
>>> rlp.decode(b"\\xc2\\x81\\x05")
Traceback (most recent call last):
    ...
rlp_proved.exceptions.DecodingError: RlpInvalidIndirection at 1: there is a shorter encoding
"""

from . import exceptions
from ._core import decode, decode_header, decode_transaction, encode, is_canonical
from .exceptions import DecodingError, EncodingError, RLPException
from .lazy import LazyList, decode_lazy

__all__ = [
    "DecodingError",
    "EncodingError",
    "LazyList",
    "RLPException",
    "decode",
    "decode_header",
    "decode_lazy",
    "decode_transaction",
    "encode",
    "exceptions",
    "is_canonical",
]
