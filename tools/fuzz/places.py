"""The answers of `rlp_show --bytes`, by a second implementation: the lines of a record, each beside its bytes."""

from answers import framing


class Derived(str):
    """A line of what isn't in the encoding, such as its hash."""


class TypeByte(str):
    """The line of the number of a type, which stands in front of a payload."""


class Payload(str):
    """The line of the bytes after that number."""


class Encoding(str):
    """The line of the encoding of a list, whose items have no lines."""


def row(data, place, begin, end, what):
    """The row of a header and a payload."""
    return f"{place} {data[place:begin].hex() or '-'} {data[begin:end].hex() or '-'} {what}"


def rows(data, lines):
    """A row for each line, and for each header of a list that has items, or of the string of a typed record."""
    place, found = 0, []
    for line in lines:
        own = bytes.fromhex(line.split(": 0x")[1]) if isinstance(line, Encoding) else None
        while not isinstance(line, Payload) and place < len(data) and data[place] > 0xC0 and not (own and data.startswith(own, place)):
            begin = framing(data, place, len(data))[0]
            found.append(row(data, place, begin, begin, "list"))
            place = begin
        begin = end = place
        if isinstance(line, Payload):
            end = place + len(line.split("0x")[1]) // 2
        elif isinstance(line, TypeByte):
            if data[place] > 0x81:
                begin = framing(data, place, len(data))[0]
                found.append(row(data, place, begin, begin, "envelope"))
                place = begin
            end = place + 1
        elif not isinstance(line, Derived):
            begin, end = framing(data, place, len(data))
        found.append(f"- - - {line}" if end == place else row(data, place, begin, end, line))
        place = end
    return found
