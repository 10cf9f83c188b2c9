"""The kind of a record that isn't named, after crates/rlp_show/CALLING.md."""

from answers import Answered, framing
from strict import strict_items

# The first bytes of the encodings of strings of 20 and of 32 bytes, and from which on they have more than 55.
ADDRESS, HASH, LONG = 0x94, 0xA0, 0xB8


def head_in(data):
    """The first byte of the first item of a list, or 0 if it has none that is framed."""
    try:
        place, end = framing(data, 0, len(data))
        framing(data, place, end)
    except Answered:
        return 0
    return data[place]


def guess_lists(count, inner):
    """The kind of a list whose first item is a list. The first item of that begins with the byte `inner`."""
    if inner == ADDRESS:
        return "access_list"
    if count == 17:
        return "node"
    if count in (3, 4) and inner == HASH:
        return "block"
    return "body" if count in (2, 3) else None


def guess_strings(heads):
    """The kind of a list whose first item is a string, by the first bytes of its items."""
    count = len(heads)
    if count == 2:
        return "node"
    if count == 4:
        by_third = {HASH: "account", ADDRESS: "withdrawal"}
        return by_third.get(heads[2], "record" if heads[2] < LONG else "receipt")
    if count == 6 and heads[1] == ADDRESS:
        return "authorization"
    if count == 9:
        return "transaction"
    if 15 <= count <= 23 and heads[2] == ADDRESS:
        return "header"
    if count == 17:
        return "node"
    return "record" if count >= 6 and count % 2 == 0 else None


def guess(data):
    """The kind of a record, or None if no rule applies. Raises what is wrong with a list."""
    if not data:
        return None
    if data[0] < 0x80:
        try:
            return "receipt" if len(strict_items(data[1:])) == 4 else "transaction"
        except Answered:
            return "transaction"
    if data[0] < 0xC0:
        return "node" if data[0] == 0x80 else None
    items = strict_items(data)
    if not items:
        return "access_list"
    if items[0][0] >= 0xC0:
        return guess_lists(len(items), head_in(items[0]))
    return guess_strings([item[0] for item in items])
