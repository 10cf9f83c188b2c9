"""Strings and lists that are read strictly, and the text of node records."""

import base64
import re

from answers import Answered, framing


def strict_string(data):
    """The string that is all of data, or its fault."""
    if not data:
        raise Answered("RlpIsTooShort")
    first = data[0]
    if first >= 0xC0:
        raise Answered("RlpExpectedToBeData")
    if first < 0x80:
        begin, size = 0, 1
    elif first < 0xB8:
        begin, size = 1, first - 0x80
        if len(data) < begin + size:
            raise Answered("RlpInconsistentLengthAndData")
        if size == 1 and data[1] < 0x80:
            raise Answered("RlpInvalidIndirection")
    else:
        begin = first - 0xB6
        if len(data) < begin:
            raise Answered("RlpInconsistentLengthAndData")
        size = int.from_bytes(data[1:begin], "big")
        if data[1] == 0 or size <= 55:
            raise Answered("RlpInvalidIndirection")
        if begin + size >= 1 << 64:
            raise Answered("RlpInvalidLength")
        if len(data) < begin + size:
            raise Answered("RlpInconsistentLengthAndData")
    if len(data) > begin + size:
        raise Answered("RlpIsTooBig")
    return data[begin : begin + size]


def strict_items(data):
    """The items of the list that is all of data, or its fault."""
    if not data or data[0] < 0xC0:
        raise Answered("RlpExpectedToBeList")
    place, end = framing(data, 0, len(data))
    if end < len(data):
        raise Answered("RlpIsTooBig")
    items = []
    while place < end:
        _, stop = framing(data, place, end)
        items.append(data[place:stop])
        place = stop
    return items


def node_text(data):
    """The text of a node record of these bytes."""
    return "enr:" + base64.urlsafe_b64encode(data).decode().rstrip("=")


def bytes_of_node_text(text):
    """The bytes of the text of a node record, or None for another text."""
    if not re.fullmatch("enr:[0-9A-Za-z_-]*", text) or len(text) % 4 == 1:
        return None
    data = base64.urlsafe_b64decode(text[4:] + "=" * (-len(text) % 4))
    return data if node_text(data) == text else None
