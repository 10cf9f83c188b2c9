"""A plain second implementation of the answers of the program, after docs/DEFINITIONS.md.

It shares no code with the program, and says things as the definitions do: a list's bytes are cut into items, a stream
is a stack of payloads. It looks at no speed but what a million lines need.
"""

import re

LONGEST_LINE = 131_072
DEEPEST_LIST = 256
LENGTHS = 1 << 64
DIGITS = re.compile(r"(?:0x)?((?:[0-9a-fA-F]{2})*)\Z")
RAW = re.compile(r"r:([0-9]+):(.*)\Z", re.DOTALL)
BEGIN = re.compile(r"l:([0-9]+)\Z")


class Answered(Exception):
    """What a line is answered in place of the text or the bytes that it asks for."""


def header(data, place, end):
    """The lengths of the header and of the value at the front of data[place:end], or the fault as an `Answered`."""
    if place == end:
        raise Answered("RlpIsTooShort")
    first = data[place]
    if first < 0x80:
        return 0, 1
    base = 0x80 if first < 0xC0 else 0xC0
    if first <= base + 55:
        return 1, first - base
    if place + 1 == end:
        raise Answered("RlpIsTooShort")
    if data[place + 1] == 0:
        raise Answered("RlpDataLenWithZeroPrefix" if base == 0x80 else "RlpListLenWithZeroPrefix")
    digits = first - base - 55
    if place + 1 + digits > end:
        raise Answered("RlpIsTooShort")
    length = int.from_bytes(data[place + 1 : place + 1 + digits], "big")
    if length <= 55:
        raise Answered("RlpInvalidIndirection")
    return 1 + digits, length


def framing(data, place, end):
    """Where the value at the front of data[place:end] begins and ends, or the fault as an `Answered`."""
    before, length = header(data, place, end)
    if place + before + length > end:
        raise Answered("RlpIsTooShort")
    return place + before, place + before + length


def text(data, place, end, lists_left):
    """The text of the framed item at the front of data[place:end], and where it ends."""
    begin, stop = framing(data, place, end)
    if data[place] < 0xC0:
        return '"0x' + data[begin:stop].hex() + '"', stop
    if lists_left == 0:
        raise Answered("error deep")
    texts = []
    while begin < stop:
        try:
            framing(data, begin, stop)
        except Answered:
            break
        one, begin = text(data, begin, stop, lists_left - 1)
        texts.append(one)
    return "[" + ", ".join(texts) + "]", stop


def text_of_view(data):
    """The text of the view of these bytes, or that its lists nest too deep."""
    if not data:
        return "null"
    try:
        return text(data, 0, len(data), DEEPEST_LIST)[0]
    except Answered as answered:
        return str(answered)


def written_header(base, length):
    """The header of a payload of so many bytes."""
    if length <= 55:
        return bytes([base + length])
    digits = length.to_bytes((length.bit_length() + 7) // 8, "big")
    return bytes([base + 55 + len(digits)]) + digits


def encoded_string(data):
    """The encoding of a byte string."""
    if len(data) == 1 and data[0] < 0x80:
        return data
    return written_header(0x80, len(data)) + data


def encoded_list(items):
    """The encoding of a list of encoded items."""
    payload = b"".join(items)
    return written_header(0xC0, len(payload)) + payload


def canonical_end(data, place, end, lists_left):
    """Where the canonical item at the front of data[place:end] ends, or an `Answered` where none within so many lists
    stands there."""
    begin, stop = framing(data, place, end)
    if data[place] < 0xC0:
        if encoded_string(data[begin:stop]) != data[place:stop]:
            raise Answered("another spelling")
        return stop
    if lists_left == 0:
        raise Answered("error deep")
    while begin < stop:
        begin = canonical_end(data, begin, stop, lists_left - 1)
    return stop


def are_raw_items(data, items):
    """Whether the bytes are the joined canonical encodings of so many items, each within the deepest list."""
    place = count = 0
    try:
        while place < len(data):
            place = canonical_end(data, place, len(data), DEEPEST_LIST)
            count += 1
    except Answered:
        return False
    return count == items


class Stack:
    """The payload at the top and those of the open lists, from the outside in, with what each list awaits: a number
    of items, or None without a bound."""

    def __init__(self):
        self.payloads = [bytearray()]
        self.awaited = []

    def put(self, data):
        self.payloads[-1] += data

    def shut(self):
        payload = self.payloads.pop()
        self.awaited.pop()
        self.put(encoded_list([payload]))

    def count(self, items):
        while self.awaited and self.awaited[-1] is not None:
            self.awaited[-1] -= items
            if self.awaited[-1] > 0:
                return
            self.shut()
            items = 1

    def begin(self, items):
        self.payloads.append(bytearray())
        self.awaited.append(items)

    def raw(self):
        """The top, and for each open list a byte 0 and its payload."""
        return b"\0".join(self.payloads)

    def closed_size(self):
        """The length of the top once every list is shut."""
        inner = 0
        for payload in reversed(self.payloads[1:]):
            inner += len(payload)
            inner += len(written_header(0xC0, inner))
        return len(self.payloads[0]) + inner


def bytes_of(digits):
    """The bytes of these digits, with or without `0x` in front, or None for any other text."""
    found = DIGITS.match(digits)
    return None if found is None else bytes.fromhex(found[1])


def number_of(digits):
    """The number, if it is below 2^64."""
    digits = digits.lstrip("0")
    if len(digits) > len(str(LENGTHS)):
        return None
    number = int(digits or "0")
    return number if number < LENGTHS else None


def call_of(piece):
    """The call that a piece of a script is: its letter and what it brings. None where it is no call."""
    if piece in ("u", "e", "c"):
        return piece, None, None
    if piece.startswith("d:"):
        data = bytes_of(piece[2:])
        return None if data is None else ("d", data, None)
    found = RAW.match(piece)
    if found:
        items, data = number_of(found[1]), bytes_of(found[2])
        return None if items is None or data is None else ("r", data, items)
    found = BEGIN.match(piece)
    if found:
        items = number_of(found[1])
        return None if items is None else ("l", None, items)
    return None


def make(stack, call, place):
    """Makes a call on a stack, or raises what is answered where it is refused."""
    kind, data, items = call
    if kind == "d":
        stack.put(encoded_string(data))
        stack.count(1)
    elif kind == "r":
        if stack.awaited and stack.awaited[-1] is not None and stack.awaited[-1] < items:
            raise Answered(f"error too many items at {place}")
        if not are_raw_items(data, items):
            raise Answered(f"error raw not items at {place}")
        stack.put(data)
        stack.count(items)
    elif kind == "l" and items == 0:
        stack.put(b"\xc0")
        stack.count(1)
    elif kind == "l":
        stack.begin(items)
    elif kind == "u":
        stack.begin(None)
    elif kind == "e":
        if not stack.awaited or stack.awaited[-1] is not None:
            raise Answered(f"error nothing to finish at {place}")
        stack.shut()
        stack.count(1)
    else:
        stack.__init__()


def answer_to_calls(script):
    """What is answered to a line of calls."""
    calls = []
    for place, piece in enumerate(script.split(" ") if script else [], 1):
        call = call_of(piece)
        if call is None:
            return f"error syntax at {place}"
        calls.append(call)
    stack = Stack()
    try:
        for place, call in enumerate(calls, 1):
            make(stack, call, place)
    except Answered as answered:
        return str(answered)
    if stack.awaited:
        return f"open {stack.closed_size()} {stack.raw().hex()}"
    finished = stack.payloads[0].hex()
    return f"out {finished}" if finished else "out"


def answer(line):
    """What is answered to a line, without its newline."""
    if len(line) > LONGEST_LINE:
        return "error long line"
    if line.endswith("\r"):
        line = line[:-1]
    if line.startswith("+"):
        return answer_to_calls(line[1:])
    data = bytes_of(line)
    return "error hex" if data is None else text_of_view(data)
