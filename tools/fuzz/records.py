"""Records of Ethereum: lines with their encodings, well formed and spoiled, and a plain second implementation of the
answers of `rlp_show`, after crates/rlp_show/CALLING.md. It shares no code with the program.
"""

import ipaddress
import json
import re
import sys

import messages
import objects
from answers import Answered, bytes_of, canonical_end, encoded_list, encoded_string, framing, text_of_view
from guess import guess
from keccak import keccak256
from lines import digits, spoiled
from places import Derived, Encoding, Payload, TypeByte, rows
from strict import bytes_of_node_text, node_text, strict_items, strict_string

# ---- types: how an item is shown under a name, and how a random one is written


class Wrong(Exception):
    """What is wrong with an item: the place of the field of the outermost record, the item's name, and the fault."""

    def __init__(self, name, fault):
        self.place, self.name, self.fault = None, name, fault

    def __str__(self):
        if self.place is not None:
            return f"field {self.place} ({self.name}): {self.fault}"
        return f"{self.name}: {self.fault}" if self.name else str(self.fault)


class Text:
    """A type that is read from one string, by what makes a text of the string, and by what makes a random string."""

    def __init__(self, text, some):
        self.text, self.some = text, some

    def lines(self, name, data):
        try:
            return [f"{name}: {self.text(strict_string(data))}"]
        except Answered as answered:
            raise Wrong(name, answered) from None

    def written(self, dice):
        return encoded_string(self.some(dice))


def number_text(width, shown=str):
    """The text of numbers of at most so many bytes."""

    def text(string):
        if len(string) > width:
            raise Answered("RlpIsTooBig")
        if string[:1] == b"\0":
            raise Answered("RlpInvalidIndirection")
        return shown(int.from_bytes(string, "big"))

    return text


def fixed_text(size):
    """The text of strings of so many bytes."""

    def text(string):
        if len(string) != size:
            raise Answered("RlpIsTooShort" if len(string) < size else "RlpIsTooBig")
        return "0x" + string.hex()

    return text


def truth_text(string):
    if len(string) == 1 and string[0] > 1:
        raise Answered('Custom("invalid boolean value")')
    return number_text(1)(string)


def number(width, shown=str, often=()):
    def some(dice):
        value = dice.getrandbits(8 * dice.choice((0, 1, 1, 2, width, width)))
        if often and dice.random() < 0.7:
            value = dice.choice(often)
        return value.to_bytes((value.bit_length() + 7) // 8, "big")

    return Text(number_text(width, shown), some)


def v_text(value):
    """The `v` of a transaction without a type, and what it says."""
    if value in (27, 28):
        return f"{value} (parity {value - 27})"
    chain, parity = divmod(value - 35, 2)
    return f"{value} (chain {chain}, parity {parity})" if 0 <= chain < 1 << 64 else str(value)


def sparse_text(size):
    """The text of strings of so many bytes, in short if all are zero."""

    def text(string):
        return f"{size} zero bytes" if string == bytes(size) else fixed_text(size)(string)

    return text


def scalar_text(string):
    """The text of a number of a signature: from 1 to below the order of the group of secp256k1."""
    text = number_text(32, hex)(string)
    if not 0 < int.from_bytes(string, "big") < ORDER:
        raise Answered('Custom("not a scalar of a signature")')
    return text


def some_scalar(dice):
    """A number of a signature, and now and then one at the ends of the range, or outside."""
    value = dice.randrange(1, ORDER) if dice.random() < 0.9 else dice.choice((0, 0, 1, ORDER - 1, ORDER, ORDER + 1, (1 << 256) - 1, 1 << 256))
    return value.to_bytes((value.bit_length() + 7) // 8, "big")


def version_text(string):
    """The text of the version of the list that holds a transaction and its blobs, since EIP-7594."""
    if string != b"\1":
        raise Answered('Custom("unknown wrapper version")')
    return "1"


def status_text(string):
    """The text of the status of a receipt."""
    if string not in (b"", b"\1") and len(string) != 32:
        raise Answered('Custom("unknown receipt status")')
    return "0x" + string.hex()


def some_blob(dice):
    """Bytes that are mostly zero: as many as a blob has, or another number."""
    size = BLOB_SIZE if dice.random() < 0.7 else dice.choice((0, 48, BLOB_SIZE - 1, BLOB_SIZE + 1))
    others = dice.randbytes(min(size, dice.choice((0, 0, 1, 40))))
    before = bytes(dice.randint(0, size - len(others)))
    return before + others + bytes(size - len(before) - len(others))


def fixed(size):
    return Text(fixed_text(size), lambda dice: dice.randbytes(size))


# The order of the group of secp256k1, in SEC 2.
ORDER = 0xFFFFFFFFFFFFFFFFFFFFFFFFFFFFFFFEBAAEDCE6AF48A03BBFD25E8CD0364141
HASH, ADDRESS = fixed(32), fixed(20)
BLOOM = Text(sparse_text(256), lambda dice: bytes(256) if dice.random() < 0.5 else dice.randbytes(256))
STRING = Text(lambda string: "0x" + string.hex(), lambda dice: dice.randbytes(dice.choice((0, 1, 4, 32, 60))))
TRUTH = Text(truth_text, lambda dice: dice.choice((b"", b"\1")))
RECIPIENT = Text(lambda s: fixed_text(20)(s) if s else "0x", lambda dice: dice.randbytes(dice.choice((0, 20))))
STATUS = Text(status_text, lambda dice: dice.choice((b"", b"\1", dice.randbytes(32), dice.randbytes(1))))
# 4096 numbers of 32 bytes, as in EIP-4844.
BLOB_SIZE = 4096 * 32
BLOB = Text(sparse_text(BLOB_SIZE), some_blob)
VERSION = Text(version_text, lambda dice: b"\1" if dice.random() < 0.9 else dice.choice((b"", b"\0", b"\2", b"\0\1")))


def written_list(dice, items):
    """The list of these items, sometimes with one of them spoiled."""
    if items and dice.random() < 0.15:
        place = dice.randrange(len(items))
        items = items[:place] + [spoiled(dice, items[place])] + items[place + 1 :]
    return encoded_list(items)


class ListOf:
    """A list of items of one type. A random one has one of the numbers of items in `counts`."""

    def __init__(self, one, counts=(0, 1, 1, 2, 3)):
        self.one, self.counts = one, counts

    def lines(self, name, data):
        try:
            items = strict_items(data)
        except Answered as answered:
            raise Wrong(name, answered) from None
        if not items:
            return [f"{name}: []"]
        return [line for place, item in enumerate(items) for line in self.one.lines(f"{name}[{place}]", item)]

    def written(self, dice):
        return written_list(dice, [self.one.written(dice) for _ in range(dice.choice(self.counts))])


class Alone:
    """What is shown under this name, also by itself."""

    def __init__(self, name, one):
        self.name, self.one = name, one
        self.written = one.written

    def lines(self, _, data):
        return self.one.lines(self.name, data)


class Record:
    """A list of named fields. Where `counts` is given, only the first of them are there, as many as one of its numbers."""

    def __init__(self, fields, counts=None):
        self.fields, self.counts = fields, (len(fields),) if counts is None else counts

    def lines(self, name, data):
        try:
            items = strict_items(data)
            if len(items) not in self.counts:
                raise Answered("RlpIncorrectListLen")
        except Answered as answered:
            raise Wrong(name, answered) from None
        before, lines = name + "." if name else "", []
        for place, ((field, one), item) in enumerate(zip(self.fields, items)):
            try:
                lines += one.lines(before + field, item)
            except Wrong as wrong:
                wrong.place = place
                raise
        return lines

    def written(self, dice):
        count = dice.choice(self.counts)
        if dice.random() < 0.05:
            count = max(0, count + dice.choice((-1, 1)))
        return written_list(dice, [(self.fields + self.fields)[place][1].written(dice) for place in range(count)])


class Hashed:
    """The hash of the bytes of an item, or of other bytes that `form` makes of them, and then the item."""

    def __init__(self, one, form=lambda data: data):
        self.one, self.form, self.written = one, form, one.written

    def lines(self, name, data):
        lines = self.one.lines(name, data)
        before = f"{name}." if name else ""
        return [Derived(f"{before}hash: 0x{keccak256(self.form(data)).hex()}")] + lines


def chain_of(v):
    """What EIP-155 adds to what is signed, by the `v` of the signature; None if it says nothing."""
    chain = (v - 35) // 2
    if v in (27, 28):
        return b""
    return encoded_string(chain.to_bytes((chain.bit_length() + 7) // 8, "big")) + b"\x80\x80" if 0 <= chain < 1 << 64 else None


class Signed:
    """A record with a signature, and then the hash of what is signed: a byte and the list of the other fields. Without a byte it is the list of
    six fields, and of what EIP-155 adds."""

    def __init__(self, front, one):
        self.front, self.one, self.written = front, one, one.written

    def lines(self, name, data):
        lines, items = self.one.lines(name, data), strict_items(data)
        added = b"" if self.front else chain_of(int.from_bytes(strict_string(items[6]), "big"))
        if added is None:
            return lines
        return lines + [signing_line(name, self.front + encoded_list([*items[:-3], added]))]


def signing_line(name, signed):
    """The line of the hash of what is signed."""
    return Derived(f"{name + '.' if name else ''}signing_hash: 0x{keccak256(signed).hex()}")


class Zero:
    """The number 0, which isn't shown."""

    def lines(self, name, data):
        if data != b"\x80":
            raise Wrong(name, "another number")
        return []

    def written(self, dice):
        return b"\x80"


class Whole:
    """A transaction by itself: the bytes that are signed, or else a signed transaction."""

    def __init__(self, unsigned, signed):
        self.unsigned, self.signed = unsigned, signed

    def lines(self, name, data):
        try:
            return self.unsigned.lines(name, data) + [signing_line(name, data)]
        except Wrong:
            return self.signed.lines(name, data)

    def written(self, dice):
        return dice.choice((self.signed, self.signed, self.unsigned)).written(dice)


class Typed:
    """An envelope of EIP-2718 by its first byte, or else a record without a type. `unknown` is an envelope of another type."""

    def __init__(self, types, other, unknown):
        self.types, self.other, self.unknown = types, other, unknown

    def lines(self, name, data):
        if data and data[0] in self.types:
            return [TypeByte(f"{name + '.' if name else ''}type: {data[0]}")] + self.types[data[0]].lines(name, data[1:])
        return (self.other if data and data[0] >= 0xC0 else self.unknown).lines(name, data)

    def written(self, dice):
        kind = dice.choice([None, *self.types])
        if kind is None:
            return self.other.written(dice)
        return bytes([kind if dice.random() < 0.97 else dice.randint(0, 255)]) + self.types[kind].written(dice)


class Unknown:
    """The envelope of a transaction whose type isn't known, which is always at fault."""

    def lines(self, name, data):
        raise Wrong(name, 'Custom("unknown transaction type")' if data else "RlpIsTooShort")

    def written(self, dice):
        return dice.randbytes(dice.choice((0, 1, 40)))


class Kept(Unknown):
    """The envelope of a transaction or a receipt: a type from 6 to 0x7f is shown, and the bytes after it. EIP-2718 excludes 0, and 5 stands
    before authorizations."""

    def lines(self, name, data):
        if not data or not 6 <= data[0] < 0x80:
            return super().lines(name, data)
        before = f"{name}." if name else ""
        return [TypeByte(f"{before}type: {data[0]}"), Payload(f"{before}payload: 0x{data[1:].hex()}")]


class Held:
    """An item of a block's list: a list is a record without a type, and a string holds an envelope."""

    def __init__(self, types, other, unknown):
        self.alone, self.typed = Typed(types, other, unknown), Typed(types, unknown, unknown)

    def lines(self, name, data):
        if data and data[0] >= 0xC0:
            return self.hashed(self.alone.other).lines(name, data)
        try:
            held = strict_string(data)
        except Answered as answered:
            raise Wrong(name, answered) from None
        return self.hashed(self.typed).lines(name, held)

    def hashed(self, one):
        return Hashed(one)

    def written(self, dice):
        if dice.random() < 0.3:
            return self.alone.other.written(dice)
        return encoded_string(self.typed.written(dice))


class Beside:
    """A record whose fields stand beside those of the record that has it. Only the name of a fault has its name."""

    def __init__(self, one):
        self.one, self.written = one, one.written

    def lines(self, name, data):
        try:
            return self.one.lines(name.rpartition(".")[0], data)
        except Wrong:
            return self.one.lines(name, data)


class WithBlobs:
    """A transaction of type 3 with its blobs: a list of four items, as in EIP-4844, or else of five, as in EIP-7594. A random one is now and
    then the transaction alone, which is neither."""

    def __init__(self, alone):
        self.alone, first = alone, [("transaction", Beside(alone))]
        self.four = Record(first + fields("blobs:blobs commitments:points proofs:points", TYPES))
        self.five = Record(first + fields("wrapper_version:version blobs:blobs commitments:points cell_proofs:points", TYPES))

    def lines(self, name, data):
        try:
            has_four = len(strict_items(data)) == 4
        except Answered:
            has_four = False
        return (self.four if has_four else self.five).lines(name, data)

    def written(self, dice):
        return (self.alone if dice.random() < 0.05 else dice.choice((self.four, self.five))).written(dice)


def without_blobs(data):
    """The bytes of a transaction as it stands in a block, by those with which it is sent."""
    return data[:1] + strict_items(data[1:])[0] if data[0] == 3 else data


class Sent(Held):
    """A transaction as it is sent to other nodes, which is hashed without its blobs. Random ones often have type 3."""

    def hashed(self, one):
        return Hashed(one, without_blobs)

    def written(self, dice):
        return encoded_string(b"\3" + self.typed.types[3].written(dice)) if dice.random() < 0.4 else super().written(dice)


class AnyItem:
    """An item of any kind, which is canonical and of at most 256 nested lists. A fault is that of the whole item. A list that has
    items and is in 16 lists of the item is shown as its encoding, any other list item by item."""

    def lines(self, name, data):
        try:
            canonical_end(data, 0, len(data), 256)
        except Answered:
            is_deep = text_of_view(data) == "error deep"
            raise Wrong(name, f'Custom("{"item nests too deep" if is_deep else "item is not canonical"}")') from None
        return self.shown(name, data, 16)

    def shown(self, name, data, most):
        """The lines of an item, through at most so many lists."""
        if data[0] < 0xC0:
            return STRING.lines(name, data)
        if most == 0 and data != b"\xc0":
            return [Encoding(f"{name}.encoding: 0x{data.hex()}")]
        return self.list_shown(name, strict_items(data), most - 1)

    def list_shown(self, name, items, most):
        """The lines of a list, whose items are shown through at most so many lists."""
        return [line for place, item in enumerate(items) for line in AnyItem().shown(f"{name}[{place}]", item, most)] or [f"{name}: []"]

    def written(self, dice):
        if dice.random() < 0.02:
            data = dice.choice((b"", b"", b"\5\xc0\x80", b"\xc1\xc0\6"))
            for _ in range(dice.choice((14, 15, 16, 16, 17, 18, 255, 256, 256, 257))):
                data = encoded_list([data])
            return data
        if dice.random() < 0.6:
            return STRING.written(dice)
        return written_list(dice, [self.written(dice) for _ in range(dice.choice((0, 1, 1, 2)))])


def items_of_whole(data, most=None):
    """The items of a list that is all of data, and has at most so many bytes. That data is one item is tested first."""
    if framing(data, 0, len(data))[1] < len(data) or (most and len(data) > most):
        raise Answered("RlpIsTooBig")
    return strict_items(data)


def is_word(string):
    """Whether a string is lower-case letters and digits, with a letter first."""
    return re.fullmatch(rb"[a-z][a-z0-9]*", string) is not None


def word_text(string):
    return string.decode("ascii") if is_word(string) else "0x" + string.hex()


def known_text(key, string):
    """The text of the value of a key that EIP-778 defines, or None for another value."""
    if key == b"id" and is_word(string):
        return word_text(string)
    if key == b"ip" and len(string) == 4:
        return ".".join(map(str, string))
    if key == b"ip6" and len(string) == 16:
        mapped = ipaddress.IPv6Address(string).ipv4_mapped
        return str(ipaddress.IPv6Address(string)) if mapped is None else f"::ffff:{mapped}"
    if key in (b"tcp", b"udp", b"tcp6", b"udp6") and len(string) <= 2 and string[:1] != b"\0":
        return str(int.from_bytes(string, "big"))
    return None


class NodeValue:
    """The value of a key: its text, or an item of any kind."""

    def __init__(self, key):
        self.key = key

    def lines(self, name, data):
        try:
            text = known_text(strict_string(self.key), strict_string(data))
        except Answered:
            text = None
        return AnyItem().lines(name, data) if text is None else [f"{name}: {text}"]


NODE_KEY = Text(word_text, None)
NODE_VALUES = {b"id": (b"v4", b"v4", b"V4"), b"ip": (b"\x7f\0\0\1", b"\7"), b"udp": (b"", b"\0", b"\x76\x5f", b"123"), b"tcp6": (b"P",)}
NODE_VALUES[b"ip6"] = (bytes(15) + b"\1", bytes(10) + b"\xff\xff\x7f\0\0\1", b"\x20\1\r\xb8" + bytes(4) + b"\1" * 8)


class NodeRecord:
    """A list of a signature, a number, and then keys and values: at most 300 bytes, and keys in order with `id`."""

    first = Record([("signature", STRING), ("sequence", number(8))])

    def lines(self, name, data):
        try:
            items = items_of_whole(data, 300)
            if len(items) < 2 or len(items) % 2 == 1:
                raise Answered("RlpIncorrectListLen")
        except Answered as answered:
            raise Wrong(name, answered) from None
        before, lines = name + "." if name else "", []
        for place, item in enumerate(items):
            pair = f"pairs[{place // 2 - 1}]."
            field, one = (
                self.first.fields[place]
                if place < 2
                else (pair + "key", NODE_KEY) if place % 2 == 0 else (pair + "value", NodeValue(items[place - 1]))
            )
            try:
                lines += one.lines(before + field, item)
            except Wrong as wrong:
                wrong.place = place
                raise
        keys = [strict_string(key) for key in items[2::2]]
        if keys != sorted(set(keys)):
            raise Wrong(name, Answered('Custom("keys are not in order")'))
        if b"id" not in keys:
            raise Wrong(name, Answered('Custom("key id is missing")'))
        return lines

    def written(self, dice):
        items = [one.written(dice) for _, one in self.first.fields]
        keys = sorted({dice.randbytes(dice.randint(0, 2)) for _ in range(dice.randint(0, 2))} | {b"id", dice.choice([*NODE_VALUES])})
        if dice.random() < 0.2:
            keys = [dice.choice(keys + [b"ie"]) for _ in keys]
        for key in keys:
            known = NODE_VALUES.get(key) if dice.random() < 0.8 else None
            items += [encoded_string(key), encoded_string(dice.choice(known)) if known else AnyItem().written(dice)]
        if dice.random() < 0.05:
            items = items[: dice.randint(0, len(items))]
        return written_list(dice, items)


def path_text(string):
    if not string or string[0] not in (0x00, *range(0x10, 0x21), *range(0x30, 0x40)):
        raise Answered('Custom("path is not hex-prefix encoded")')
    digits = string.hex()
    return f"0x{digits} (nibbles [{digits[1 if string[0] & 0x10 else 2 :]}])"


def some_path(*firsts):
    """Random paths, mostly with one of these first bytes."""

    def some(dice):
        first = dice.choice(firsts) if dice.random() < 0.9 else dice.randrange(256)
        return bytes([first]) + dice.randbytes(dice.choice((0, 1, 31)))

    return some


def extension_path_text(string):
    if string == b"\x00":
        raise Answered('Custom("path of an extension is empty")')
    return path_text(string)


PATH = Text(path_text, some_path(0x20, 0x20, 0x3F))
EXTENSION_PATH = Text(extension_path_text, some_path(0x00, 0x13, 0x1A))


def kind_line(name, kind):
    """The line of the kind of a node."""
    return Derived(f"{name + '.' if name else ''}node: {kind}")


class KeptNode(AnyItem):
    """A node that is kept in its parent: an item of any kind, which is shown as a node if it has the form of one."""

    def list_shown(self, name, items, most):
        if len(items) == 17:
            children = [line for place, item in enumerate(items[:16]) for line in self.shown(f"{name}.children[{place}]", item, most)]
            return [kind_line(name, "branch"), *children, *AnyItem().shown(f"{name}.value", items[16], most)]
        try:
            path = strict_string(items[0])
            line = f"{name}.path: {path_text(path)}"
        except (Answered, IndexError):
            return super().list_shown(name, items, most)
        if len(items) != 2:
            return super().list_shown(name, items, most)
        if path[0] < 0x20:
            return [kind_line(name, "extension"), line, *self.shown(f"{name}.child", items[1], most)]
        return [kind_line(name, "leaf"), line, *AnyItem().shown(f"{name}.value", items[1], most)]


class Child:
    """A child of a node of the trie: a list of fewer than 32 bytes, or a hash."""

    hash = Text(fixed_text(32), lambda dice: dice.randbytes(dice.choice((0, 32, 32, 32))))
    often_kept = 0.5

    def lines(self, name, data):
        if not data or data[0] < 0xC0:
            return self.hash.lines(name, data)
        if len(data) >= 32:
            raise Wrong(name, "RlpIsTooBig")
        return KeptNode().lines(name, data)

    def written(self, dice):
        if dice.random() > self.often_kept:
            return self.hash.written(dice)
        if dice.random() < 0.3:
            return written_list(dice, [encoded_string(b"\x1a"), Child().written(dice)])
        if dice.random() < 0.1:
            return written_list(dice, [self.hash.written(dice) if dice.random() < 0.1 else b"\x80" for _ in range(17)])
        value = encoded_string(dice.randbytes(dice.choice((1, 1, 1, 20, 28, 28, 29, 40))))
        return written_list(dice, [encoded_string(dice.choice((b"\x20", b"\x20", b"\x00"))), value])


class BranchChild(Child):
    """A child at a place of a branch, or no bytes."""

    hash = Text(lambda s: fixed_text(32)(s) if s else "0x", lambda dice: dice.randbytes(dice.choice((0, 32))))
    often_kept = 0.05


class Node:
    """A node of the trie: a branch of 17 items, or a leaf or an extension, which the path tells apart; or the empty trie."""

    branch = Record([(f"children[{digit}]", BranchChild()) for digit in range(16)] + [("value", STRING)])
    extension = Record([("path", EXTENSION_PATH), ("child", Child())])
    leaf = Record([("path", PATH), ("value", STRING)])

    def lines(self, name, data):
        if data == b"\x80":
            return [kind_line(name, "empty")]
        try:
            items = items_of_whole(data)
            if len(items) not in (2, 17):
                raise Answered("RlpIncorrectListLen")
        except Answered as answered:
            raise Wrong(name, answered) from None
        kind = "branch"
        if len(items) == 2:
            try:
                kind = "leaf" if strict_string(items[0])[:1] >= b"\x20" else "extension"
            except Answered:
                kind = "extension"
        return [kind_line(name, kind)] + getattr(self, kind).lines(name, data)

    def written(self, dice):
        if dice.random() < 0.05:
            return b"\x80"
        return dice.choice((self.branch, self.leaf, self.extension)).written(dice)


# ---- the records


def fields(text, types):
    """Fields by their names, each before a colon, and the name of its type."""
    return [(pair.split(":")[0], types[pair.split(":")[1]]) for pair in text.split()]


TYPES = {"u8": number(1), "u64": number(8), "u256": number(32), "hash": HASH, "address": ADDRESS, "bloom": BLOOM, "string": STRING}
TYPES |= {"scalar": Text(scalar_text, some_scalar), "any_scalar": Text(number_text(32, hex), some_scalar), "v": number(32, v_text, (27, 28, 35, 36, 37, 38, (2 << 64) + 34, (2 << 64) + 35))}
TYPES |= {"zero": Zero(), "truth": TRUTH, "recipient": RECIPIENT, "status": STATUS, "nonce": fixed(8), "hashes": ListOf(HASH)}
TYPES["log"] = Record(fields("address:address topics:hashes data:string", TYPES))
TYPES["access"] = Record(fields("address:address storage_keys:hashes", TYPES))
# EIP-7702 bounds an authorization by widths alone: y_parity < 2**8, r < 2**256 and s < 2**256.
TYPES["authorization"] = Signed(b"\5", Record(fields("chain_id:u256 address:address nonce:u64 y_parity:u8 r:any_scalar s:any_scalar", TYPES)))
TYPES |= {"logs": ListOf(TYPES["log"]), "access_list": ListOf(TYPES["access"])}
TYPES["authorizations"] = ListOf(TYPES["authorization"])

HEADER = """parent_hash:hash ommers_hash:hash beneficiary:address state_root:hash transactions_root:hash
    receipts_root:hash logs_bloom:bloom difficulty:u256 number:u64 gas_limit:u64 gas_used:u64 timestamp:u64
    extra_data:string mix_hash:hash nonce:nonce base_fee_per_gas:u256 withdrawals_root:hash blob_gas_used:u64
    excess_blob_gas:u64 parent_beacon_block_root:hash requests_hash:hash
    block_access_list_hash:hash slot_number:u64"""
CALL = "gas_limit:u64 to:recipient value:u256 data:string"
POINT = "y_parity:truth r:scalar s:scalar"
SIX = f"nonce:u64 gas_price:u256 {CALL}"
TYPE_1 = f"chain_id:u64 nonce:u64 gas_price:u256 {CALL} access_list:access_list"
FEES = "chain_id:u64 nonce:u64 max_priority_fee_per_gas:u256 max_fee_per_gas:u256"
TYPE_2 = f"{FEES} {CALL} access_list:access_list"
TYPE_3 = f"""{FEES} gas_limit:u64 to:address value:u256 data:string access_list:access_list max_fee_per_blob_gas:u256
    blob_versioned_hashes:hashes"""
TYPE_4 = f"""{FEES} gas_limit:u64 destination:address value:u256 data:string access_list:access_list
    authorization_list:authorizations"""
TYPES["header"] = Hashed(Record(fields(HEADER, TYPES), counts=(15, 16, 17, 20, 21, 22, 23)))
TYPES["withdrawal"] = Record(fields("index:u64 validator_index:u64 address:address amount:u64", TYPES))
TYPED = dict(enumerate((TYPE_1, TYPE_2, TYPE_3, TYPE_4), 1))
PAYLOADS = {kind: Signed(bytes([kind]), Record(fields(f"{text} {POINT}", TYPES))) for kind, text in TYPED.items()}
UNTYPED = Signed(b"", Record(fields(f"{SIX} v:v r:scalar s:scalar", TYPES)))
TRANSACTION = Typed(PAYLOADS, UNTYPED, Kept())
# What is signed: without a type six fields, or after EIP-155 nine.
WITHOUT_TYPE = Record(fields(f"{SIX} chain_id:u64 first:zero second:zero", TYPES), counts=(6, 9))
UNSIGNED = Typed({kind: Record(fields(text, TYPES)) for kind, text in TYPED.items()}, WITHOUT_TYPE, Unknown())
TYPES["transactions"] = ListOf(Held(PAYLOADS, UNTYPED, Kept()))
TYPES |= {"blobs": ListOf(BLOB, counts=(0,) * 9 + (1,)), "points": ListOf(fixed(48)), "version": VERSION}
TYPES["sent_transactions"] = ListOf(Sent(PAYLOADS | {3: WithBlobs(PAYLOADS[3])}, UNTYPED, Unknown()))
TYPES |= {"headers": ListOf(TYPES["header"]), "withdrawals": ListOf(TYPES["withdrawal"])}
BLOCK = "header:header transactions:transactions ommers:headers withdrawals:withdrawals"
RECEIPT = Record(fields("status_or_state_root:status cumulative_gas_used:u64 logs_bloom:bloom logs:logs", TYPES))

KINDS = {
    "access_list": Alone("access_list", TYPES["access_list"]),
    "account": Record(fields("nonce:u64 balance:u256 storage_root:hash code_hash:hash", TYPES)),
    "authorization": TYPES["authorization"],
    "block": Record(fields(BLOCK, TYPES), counts=(3, 4)),
    "body": Record(fields(BLOCK, TYPES)[1:], counts=(2, 3)),
    "header": TYPES["header"],
    "node": Hashed(Node()),
    "receipt": Typed(dict.fromkeys((1, 2, 3, 4), RECEIPT), RECEIPT, Kept()),
    "record": NodeRecord(),
    "transaction": Whole(UNSIGNED, Hashed(TRANSACTION)),
    "withdrawal": TYPES["withdrawal"],
}
KINDS |= messages.classes(sys.modules[__name__])


# ---- lines and their answers


def line(dice, kind):
    """A line for a kind, or for a guessed one, without its newline."""
    kind = kind or dice.choice(list(KINDS))
    data = KINDS[kind].written(dice)
    for _ in range(dice.choice((0, 0, 0, 0, 1))):
        data = spoiled(dice, data)
    text = digits(dice, data)
    if dice.random() < (0.5 if kind == "record" else 0.02):
        text = node_text(data)
    if dice.random() < 0.03:
        text += dice.choice(("\r", "\r\r", " ", "0", "g", "="))
    return text


def guessed(data):
    """The kind of a record whose kind isn't named."""
    try:
        kind = guess(data)
    except Answered as answered:
        raise Wrong("", answered) from None
    if kind is None:
        raise Wrong("", 'Custom("unknown kind")')
    return kind


def fault(form, wrong):
    """What is answered to a line at fault."""
    if form != "--json":
        return f"error {wrong}\n"
    place = {} if wrong.place is None else {"field": wrong.place}
    text = re.fullmatch(r'Custom\("(.*)"\)', str(wrong.fault))
    members = {**place, "name": wrong.name, "fault": text.group(1) if text else str(wrong.fault)}
    return json.dumps({"error": members}, separators=(",", ":")) + "\n"


def answer(kind, text, form):
    """What is answered to a line, as one text: the lines or rows of the record and an empty line, or one line of JSON, or the fault."""
    if len(text) > 32 << 20:
        return fault(form, Wrong("", "long line"))
    text = text[:-1] if text.endswith("\r") else text
    data = bytes_of(text)
    if data is None:
        data = bytes_of_node_text(text)
    if data is None:
        return fault(form, Wrong("", "base64" if text.startswith("enr:") else "hex"))
    try:
        own = kind or guessed(data)
        lines = KINDS[own].lines(own if form == "--json" or not kind else "", data)
        if form == "--json":
            return objects.answer(own, data, lines) + "\n"
        return "".join(line + "\n" for line in (rows(data, lines) if form == "--bytes" else lines)) + "\n"
    except Wrong as wrong:
        return fault(form, wrong)


def answers_in(output):
    """The answers that an output joins, each as one text."""
    found, lines = [], []
    for one in output.split("\n")[:-1]:
        lines.append(one)
        if not one or (len(lines) == 1 and one.startswith(("error ", "{"))):
            found.append("\n".join(lines) + "\n")
            lines = []
    return found + (["\n".join(lines)] if lines else [])
