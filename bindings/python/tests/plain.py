"""A plain second implementation, which shares no code with the library."""


class Fault(Exception):
    """The name of a fault, and where the item begins that has it."""


def header(data, place, end):
    """Where the payload begins and ends of the item at a place, which ends before `end`."""
    if place == end:
        raise Fault("RlpIsTooShort", place)
    first = data[place]
    if first < 0x80:
        return place, place + 1
    base = 0x80 if first < 0xC0 else 0xC0
    start, length = place + 1, first - base
    if length > 55:
        if start == end:
            raise Fault("RlpIsTooShort", place)
        if data[start] == 0:
            raise Fault("RlpDataLenWithZeroPrefix" if base == 0x80 else "RlpListLenWithZeroPrefix", place)
        start += length - 55
        if start > end:
            raise Fault("RlpIsTooShort", place)
        length = int.from_bytes(data[place + 1 : start], "big")
        if length <= 55:
            raise Fault("RlpInvalidIndirection", place)
    if start + length > end:
        raise Fault("RlpIsTooShort", place)
    return start, start + length


def item(data, place, end, lists):
    """The value of the item at a place, and where it ends."""
    start, stop = header(data, place, end)
    if data[place] < 0xC0:
        if stop - start == 1 and start > place and data[start] < 0x80:
            raise Fault("RlpInvalidIndirection", place)
        return data[start:stop], stop
    if lists == 0:
        raise Fault("RlpTooDeep", place)
    values = []
    while start < stop:
        value, start = item(data, start, stop, lists - 1)
        values.append(value)
    return values, stop


def decode(data, max_depth=256):
    """The value whose canonical encoding the bytes are."""
    if header(data, 0, len(data))[1] < len(data):
        raise Fault("RlpIsTooBig", 0)
    return item(data, 0, len(data), max_depth)[0]


def written_header(base, length):
    """The header of a payload of this length."""
    if length <= 55:
        return bytes([base + length])
    digits = length.to_bytes((length.bit_length() + 7) // 8, "big")
    return bytes([base + 55 + len(digits)]) + digits


def encode(value):
    """The encoding of bytes, or of a list of values."""
    if isinstance(value, bytes):
        if len(value) == 1 and value[0] < 0x80:
            return value
        return written_header(0x80, len(value)) + value
    payload = b"".join([encode(each) for each in value])
    return written_header(0xC0, len(payload)) + payload


# The order of the group of secp256k1, in SEC 2.
ORDER = 0xFFFFFFFFFFFFFFFFFFFFFFFFFFFFFFFEBAAEDCE6AF48A03BBFD25E8CD0364141

# The kinds of the fields of each record: a number of at most so many bytes, a string of so many, 0 or 1, a number of a
# signature, an address or nothing, any string, and in brackets a list of fields, or of any number of one kind behind
# "each".
ACCESS_LIST = ["each", [20, ["each", 32]]]
AUTHORIZATIONS = ["each", ["n32", 20, "n8", "n1", "n32", "n32"]]
SIGNED = ["bit", "scalar", "scalar"]
FEES = ["n8", "n8", "n32", "n32", "n8"]
TRANSACTIONS = {
    0: ["n8", "n32", "n8", "to", "n32", "any", "n32", "scalar", "scalar"],
    1: ["n8", "n8", "n32", "n8", "to", "n32", "any", ACCESS_LIST, *SIGNED],
    2: [*FEES, "to", "n32", "any", ACCESS_LIST, *SIGNED],
    3: [*FEES, 20, "n32", "any", ACCESS_LIST, "n32", ["each", 32], *SIGNED],
    4: [*FEES, 20, "n32", "any", ACCESS_LIST, AUTHORIZATIONS, *SIGNED],
}
HEADER = [32, 32, 20, 32, 32, 32, 256, "n32", "n8", "n8", "n8", "n8", "any", 32, 8, "n32", 32, "n8", "n8", 32, 32, 32, "n8"]


def check_string(string, kind):
    """Raises the fault of a field's string."""
    if isinstance(kind, int) or kind == "to" and string:
        length = 20 if kind == "to" else kind
        if len(string) != length:
            raise Fault("RlpIsTooShort" if len(string) < length else "RlpIsTooBig", 0)
    elif kind not in ("to", "any"):
        if len(string) > ({"bit": 1, "scalar": 32}.get(kind) or int(kind[1:])):
            raise Fault("RlpIsTooBig", 0)
        if string[:1] == b"\0":
            raise Fault("RlpInvalidIndirection", 0)
        value = int.from_bytes(string, "big")
        if kind == "bit" and value > 1 or kind == "scalar" and not 0 < value < ORDER:
            raise Fault("RlpInvalidSignature", 0)


def check_fields(data, place, end, kinds):
    """Raises the fault of the fields from a place on, with the place of its field: first that their number is wrong."""
    places = [place]
    while places[-1] < end:
        places.append(header(data, places[-1], end)[1])
    count = len(places) - 1
    if count not in ((15, 16, 17, 20, 21, 22, 23) if kinds is HEADER else (count,) if kinds[0] == "each" else (len(kinds),)):
        raise Fault("RlpIncorrectListLen", places[min(count, len(kinds))])
    for at, (place, stop) in enumerate(zip(places, places[1:])):
        kind = kinds[1] if kinds[0] == "each" else kinds[at]
        try:
            if not isinstance(kind, list):
                if data[place] >= 0xC0:
                    raise Fault("RlpExpectedToBeData", 0)
                check_string(item(data, place, stop, 0)[0], kind)
            elif data[place] < 0xC0:
                raise Fault("RlpExpectedToBeList", 0)
            else:
                check_fields(data, *header(data, place, stop), kind)
        except Fault as fault:
            raise Fault(fault.args[0], place) from None


def record(data, start, kinds):
    """The values of the fields of a record that begins at a place."""
    try:
        if start == len(data) or data[start] < 0xC0:
            raise Fault("RlpExpectedToBeList", 0)
        first, end = header(data, start, len(data))
        if end < len(data):
            raise Fault("RlpIsTooBig", 0)
        place = first
        while place < end:
            place = header(data, place, end)[1]
    except Fault as fault:
        raise Fault(fault.args[0], 0) from None
    check_fields(data, first, end, kinds)
    return item(data, start, end, 256)[0]


def decode_header(data):
    """The fields of a header."""
    return record(data, 0, HEADER)


def decode_transaction(data):
    """The type and the fields of a transaction."""
    if data == b"":
        raise Fault("RlpIsTooShort", 0)
    number = 0 if data[0] >= 0xC0 else data[0] or 256
    if number not in TRANSACTIONS:
        raise Fault("RlpUnknownType", 0)
    return number, record(data, int(number > 0), TRANSACTIONS[number])
