"""run.py SEED N: the tests of the package, with N random encodings. It ends with `N passed, M failed`."""

import doctest
import gc
import inspect
import pathlib
import random
import sys
import tracemalloc
import unittest

import plain
import rlp_proved as rlp

VECTORS = pathlib.Path(__file__).resolve().parent.parent.parent / "vectors"
RECORDS = VECTORS.parent / "records"
OFTEN = (0, 0x37, 0x38, 0x7F, 0x80, 0x81, 0xB7, 0xB8, 0xBF, 0xC0, 0xF7, 0xF8, 0xFF)
LENGTHS = (0, 1, 1, 2, 3, 8, 20, 32, 54, 55, 56, 57, 255, 256, 300)
SEED, COUNT = int(sys.argv[1]), int(sys.argv[2])


def text(value):
    """A value as text: strings as digits, lists in brackets."""
    if isinstance(value, bytes):
        return f'"0x{value.hex()}"'
    return f"[{', '.join(map(text, value))}]"


def told(call, data, *args):
    """What a call gives, or the name and the place of its fault."""
    try:
        return call(data, *args)
    except rlp.DecodingError as error:
        return error.name, error.place
    except plain.Fault as fault:
        return fault.args


def all_of(lazy):
    """The value that a lazy list, or bytes, stands for."""
    return lazy if isinstance(lazy, bytes) else [all_of(each) for each in lazy]


def random_value(source, depth):
    """Bytes or a list, of at most this depth."""
    if depth == 0 or source.random() < 0.5:
        return source.randbytes(source.choice(LENGTHS))
    return [random_value(source, depth - 1) for _ in range(source.choice((0, 1, 2, 3, 9)))]


def odd(source, value):
    """An encoding in which one header in sixteen is in front of a byte that needs none, or has a needless length."""
    if source.random() < 15 / 16 and isinstance(value, bytes):
        return plain.encode(value)
    base = 0x80 if isinstance(value, bytes) else 0xC0
    payload = value if base == 0x80 else b"".join([odd(source, each) for each in value])
    if len(payload) > 55 or base == 0xC0 and source.random() < 15 / 16:
        return plain.written_header(base, len(payload)) + payload
    header = source.choice(([base + len(payload)], [base + 56, len(payload)], [base + 57, 0, len(payload)]))
    return bytes(header) + payload


def spoiled(source, data):
    """The bytes with one changed, dropped or added, or cut."""
    at, kind = source.randrange(len(data)), source.randrange(8)
    byte = bytes([source.choice(OFTEN) if source.random() < 0.5 else source.randrange(256)])
    if kind == 7:
        return data[:at]
    return data[:at] + byte * (kind != 6) + data[at + (kind != 5) :]


class Vectors(unittest.TestCase):
    def test_public_vectors(self):
        rows = [line.split(" => ") for line in VECTORS.read_text().splitlines() if line[0] != "#"]
        for digits, wanted in rows:
            data = bytes.fromhex(digits)
            found = told(rlp.decode, data)
            with self.subTest(digits[:99]):
                if " at " in wanted:
                    name, place = wanted.split(" at ")
                    self.assertEqual(found, (name, int(place)))
                else:
                    self.assertEqual(text(found), wanted)
                    self.assertEqual(rlp.encode(found), data)
                self.assertEqual(rlp.is_canonical(data), " at " not in wanted)
        self.assertGreater(len(rows), 80)


class Random(unittest.TestCase):
    def test_random_encodings(self):
        source = random.Random(SEED)
        for _ in range(COUNT):
            value = random_value(source, source.randrange(6))
            data = rlp.encode(value)
            self.assertEqual(data, plain.encode(value))
            if source.random() < 0.25:
                data = odd(source, value)
            if source.random() < 0.25:
                data = spoiled(source, data)
            max_depth = 256 if source.random() < 0.75 else source.randrange(5)
            wanted = told(plain.decode, data, max_depth)
            found = told(lambda data: rlp.decode(data, max_depth=max_depth), data)
            self.assertEqual(found, wanted, data.hex())
            is_value = not isinstance(wanted, tuple)
            self.assertEqual(rlp.is_canonical(data, max_depth=max_depth), is_value, data.hex())
            if is_value:
                self.assertEqual(all_of(rlp.decode_lazy(data)), wanted)
                self.assertEqual(rlp.decode(data + b"\0", strict=False), wanted)


class Records(unittest.TestCase):
    CALLS = {
        "transaction": (rlp.decode_transaction, plain.decode_transaction),
        "header": (rlp.decode_header, plain.decode_header),
    }

    def rows(self):
        for line in RECORDS.read_text().splitlines():
            if line[0] != "#":
                call, rest = line.split(" ", 1)
                digits, wanted = rest.split(" => ")
                yield self.CALLS[call], bytes.fromhex(digits), wanted

    def test_rows(self):
        for (call, model), data, wanted in self.rows():
            with self.subTest(data.hex()[:99], wanted=wanted):
                found = told(call, data)
                if " at " in wanted:
                    self.assertEqual(found[0], wanted.split(" at ")[0])
                else:
                    fields = found[1] if isinstance(found, tuple) else found
                    number = f"type {found[0]}, " if isinstance(found, tuple) else ""
                    self.assertEqual(f"{number}{len(fields)} fields", wanted)
                self.assertEqual(found, told(model, data))

    def test_spoiled_rows(self):
        source = random.Random(SEED)
        rows = [row for row in self.rows() if row[1]]
        for _ in range(COUNT):
            (call, model), data, _ = source.choice(rows)
            for _ in range(source.choice((1, 1, 2))):
                data = spoiled(source, data) or b"\xc0"
            self.assertEqual(told(call, data), told(model, data), data.hex())


class Faults(unittest.TestCase):
    def test_each_fault(self):
        for digits, fault in {
            "c005": ("RlpIsTooBig", 0),
            "c28205": ("RlpIsTooShort", 1),
            "c2b800": ("RlpDataLenWithZeroPrefix", 1),
            "c2f800": ("RlpListLenWithZeroPrefix", 1),
            "c205": ("RlpIsTooShort", 0),
            "c3058105": ("RlpInvalidIndirection", 2),
            "": ("RlpIsTooShort", 0),
        }.items():
            self.assertEqual(told(rlp.decode, bytes.fromhex(digits)), fault)
        self.assertEqual(told(lambda data: rlp.decode(data, max_depth=1), b"\xc2\xc1\xc0"), ("RlpTooDeep", 1))

    def test_errors(self):
        data = b"\xc2\x81\x05"
        with self.assertRaises(rlp.DecodingError) as caught:
            rlp.decode(data)
        self.assertIs(caught.exception.rlp, data)
        self.assertIsInstance(caught.exception, (rlp.RLPException, ValueError))
        self.assertEqual(str(caught.exception), "RlpInvalidIndirection at 1: there is a shorter encoding")
        for value, part in ((-1, -1), ([b"", None], None), ([1.5], 1.5), ({1: 2}, {1: 2})):
            with self.assertRaises(rlp.EncodingError) as caught:
                rlp.encode(value)
            self.assertEqual(caught.exception.obj, part)
        for call in (rlp.decode_transaction, rlp.decode_header):
            self.assertRaises(TypeError, call, "text")
        for call in (rlp.decode, rlp.is_canonical):
            self.assertRaises(TypeError, call, "text")
            self.assertRaises(TypeError, call)
            self.assertRaises(TypeError, call, b"", max_depth="9")
            self.assertRaises(ValueError, call, b"", max_depth=-1)

    def test_lazy_faults(self):
        lazy = rlp.decode_lazy(b"\xc5\x05\xc3\x06\x81\x07")
        self.assertEqual((len(lazy), lazy[0], lazy[-2]), (2, b"\x05", b"\x05"))
        self.assertEqual(lazy[1][:1], [b"\x06"])
        self.assertEqual(told(all_of, lazy), ("RlpInvalidIndirection", 4))
        self.assertRaises(IndexError, lambda: lazy[2])
        self.assertEqual(told(rlp.decode_lazy, b"\xc2\x05\x82"), ("RlpIsTooShort", 2))
        self.assertEqual(told(rlp.decode_lazy, b"\xc1\x05\x06"), ("RlpIsTooBig", 0))
        self.assertEqual(told(rlp.decode_lazy, b""), ("RlpIsTooShort", 0))
        self.assertEqual(rlp.decode_lazy(b"\x83cat"), b"cat")


class Values(unittest.TestCase):
    def test_other_values(self):
        for shift in range(130):
            for value in (1 << shift, (1 << shift) - 1):
                self.assertEqual(rlp.encode(value), plain.encode(value.to_bytes((value.bit_length() + 7) // 8, "big")))
        for value, same in (
            (0, b""), (1000, b"\x03\xe8"), (1 << 256, b"\x01" + bytes(32)), (True, b"\x01"), (False, b""),
            ("cat", b"cat"), (bytearray(b"cat"), b"cat"), (memoryview(b"cat"), b"cat"), ((1, ("x",)), [b"\x01", [b"x"]]),
        ):
            self.assertEqual(rlp.encode(value), plain.encode(same))
        self.assertEqual(rlp.decode(bytearray(b"\x83cat")), b"cat")
        self.assertEqual(rlp.decode(memoryview(b"\x83cat!")[:4]), b"cat")

    def test_sizes(self):
        for size in (0, 1, 63, 64, 65, 1000, 40_000):
            for value in (b"\0" * size, [b"\x05"] * size, [[b""] * 3] * size):
                data = plain.encode(value)
                self.assertEqual(rlp.encode(value), data)
                self.assertEqual(rlp.decode(data), value)

    def test_depth(self):
        value = []
        for depth in range(1, 257):
            data = rlp.encode(value)
            self.assertEqual(rlp.decode(data, max_depth=depth), value)
            self.assertEqual(told(lambda data: rlp.decode(data, max_depth=depth - 1), data)[0], "RlpTooDeep")
            value = [value]
        self.assertRaises(rlp.EncodingError, rlp.encode, value)
        value.append(value)
        self.assertRaises(rlp.EncodingError, rlp.encode, value)

    def test_memory_is_given_back(self):
        rows = [*Records().rows()]
        calls = [
            lambda: rlp.decode(rlp.encode([[b"x" * 99] * 500, 1 << 99])),
            lambda: told(rlp.decode, plain.encode([[b"x"] * 500])[:-1] + b"\x80"),
            lambda: all_of(rlp.decode_lazy(rlp.encode([[b"x" * 99] * 500]))),
            lambda: self.assertRaises(rlp.EncodingError, rlp.encode, [b"x" * 5000, [None]]),
            lambda: [told(call, data) for (call, _), data, _ in rows],
        ]
        sizes = []
        for _ in range(3):
            for call in calls * 200:
                call()
            gc.collect()
            tracemalloc.start() if not tracemalloc.is_tracing() else None
            sizes.append(tracemalloc.get_traced_memory()[0])
        tracemalloc.stop()
        self.assertLess(sizes[2] - sizes[1], 10_000)


class Pages(unittest.TestCase):
    def test_docstrings(self):
        for module in (rlp, rlp.lazy):
            self.assertEqual(doctest.testmod(module).failed, 0)
        for name in rlp.__all__:
            self.assertTrue(inspect.getdoc(getattr(rlp, name)))


if __name__ == "__main__":
    ran = unittest.main(argv=[sys.argv[0]], exit=False).result
    failed = len(ran.failures) + len(ran.errors)
    print(f"{ran.testsRun - failed} passed, {failed} failed")
    sys.exit(failed > 0)
