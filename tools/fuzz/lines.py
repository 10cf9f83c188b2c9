"""Makes lines that break codecs: random bytes, encodings with a byte changed, cut or added, and scripts."""

from answers import encoded_list, encoded_string

# First bytes at the edges of the table of headers.
EDGES = bytes.fromhex("00017f8081b7b8b9bfc0c1c2f7f8f9ff")
LETTERS = "0123456789abcdefABCDEFxX+:dlruecgz \r\t-."
NUMBERS = [0, 1, 1, 1, 2, 2, 3, 5, 55, 56, 255, 256, (1 << 64) - 1, 1 << 64, (1 << 64) + 1]


def some_bytes(dice, most):
    """Up to so many bytes, the first ones often at the edges."""
    data = bytearray(dice.randbytes(dice.randint(0, most)))
    for place in range(min(3, len(data))):
        if dice.random() < 0.5:
            data[place] = dice.choice(EDGES)
    return bytes(data)


def string(dice):
    """A byte string of a length that a header can go wrong at."""
    kind = dice.random()
    if kind < 0.6:
        return dice.randbytes(dice.randint(0, 4))
    if kind < 0.97:
        return dice.randbytes(dice.choice((1, 1, 2, 8, 20, 32, 33, 54, 55, 56, 57)))
    return dice.randbytes(dice.choice((255, 256, 257)))


def item(dice, depth):
    """The encoding of an item that nests no deeper."""
    if depth == 0 or dice.random() < 0.5:
        return encoded_string(string(dice))
    return encoded_list([item(dice, depth - 1) for _ in range(dice.choice((0, 1, 1, 2, 2, 3, 4)))])


def deep(dice):
    """Lists in one another, about as deep as is printed."""
    data = b""
    for _ in range(dice.choice((2, 20, 100, 255, 256, 257, 300))):
        data = encoded_list([data])
    return data


def spoiled(dice, data):
    """The bytes with one changed, cut or added."""
    place = dice.randint(0, len(data))
    kind = dice.random()
    if kind < 0.5 and place < len(data):
        byte = dice.choice(EDGES) if dice.random() < 0.5 else dice.randint(0, 255)
        return data[:place] + bytes([byte]) + data[place + 1 :]
    if kind < 0.6:
        return data[:place]
    if kind < 0.8:
        return data[:place] + data[place + 1 :]
    return data[:place] + dice.randbytes(1) + data[place:]


def digits(dice, data):
    """The digits of bytes, in either case, sometimes with `0x` in front."""
    text = data.hex()
    if dice.random() < 0.1:
        text = "0x" + text.upper() if dice.random() < 0.5 else "0x" + text
    return text


def line_of_bytes(dice):
    return digits(dice, some_bytes(dice, dice.choice((2, 3, 8, 20, 70))))


def line_of_item(dice):
    data = deep(dice) if dice.random() < 0.01 else item(dice, dice.randint(0, 4))
    if dice.random() < 0.8:
        data = spoiled(dice, data)
    return digits(dice, data)


def line_of_letters(dice):
    if dice.random() < 0.1:
        return dice.randbytes(dice.randint(0, 8)).replace(b"\n", b"").decode("latin-1")
    return "".join(dice.choices(LETTERS, k=dice.randint(0, 8)))


def long_line(dice):
    """About as long as a line may be."""
    size = dice.randint(131_069, 131_075)
    start = dice.choice(("+", "+d:", "+l:", "+r:1:", "0x", "", ""))
    return start + dice.choice("0c ") * (size - len(start))


def call(dice, awaited):
    """A call that is mostly admitted, and what the open lists await after it; None stands for no bound."""
    kind = dice.random()
    inner = awaited[-1] if awaited else None
    if kind < 0.4:
        return "d:" + digits(dice, string(dice)), filled(awaited, 1)
    if kind < 0.55:
        count = dice.randint(0, 3 if inner is None else min(inner, 3))
        if dice.random() < 0.03:
            count = dice.choice(NUMBERS)
        data = b"".join([item(dice, 2) for _ in range(count)]) if count <= 3 else some_bytes(dice, 60)
        if dice.random() < 0.1:
            data = spoiled(dice, data)
        return f"r:{count}:" + digits(dice, data), filled(awaited, count)
    if kind < 0.75:
        count = dice.choice(NUMBERS) if dice.random() < 0.1 else dice.randint(0, 3)
        after = awaited + [count] if count else filled(awaited, 1)
        return f"l:{'0' if dice.random() < 0.02 else ''}{count}", after
    if kind < 0.85:
        return "u", awaited + [None]
    if kind < 0.99:
        if awaited and inner is None:
            return "e", filled(awaited[:-1], 1)
        return ("e", awaited) if dice.random() < 0.03 else ("u", awaited + [None])
    return "c", []


def filled(awaited, count):
    """What the open lists await once so many items were counted."""
    while awaited and awaited[-1] is not None:
        if awaited[-1] > count:
            return awaited[:-1] + [awaited[-1] - count]
        awaited, count = awaited[:-1], 1
    return awaited


def script(dice):
    """Calls, of which most are admitted; then perhaps those that close what is open."""
    pieces, awaited = [], []
    for _ in range(dice.choice((0, 1, 2, 3, 5, 8, 13, 30))):
        piece, awaited = call(dice, awaited)
        pieces.append(piece)
    if dice.random() < 0.6:
        for _ in range(200):
            if not awaited:
                break
            if awaited[-1] is None:
                pieces.append("e")
                awaited = filled(awaited[:-1], 1)
            else:
                pieces.append("d:01")
                awaited = filled(awaited, 1)
    return pieces


def line_of_calls(dice):
    text = "+" + " ".join(script(dice))
    if dice.random() < 0.2:
        place = dice.randint(0, len(text))
        text = text[:place] + dice.choice(("", dice.choice(LETTERS))) + text[place + dice.randint(0, 1) :]
    return text


def line(dice):
    """A line, without its newline."""
    kind = dice.random()
    if kind < 0.25:
        text = line_of_bytes(dice)
    elif kind < 0.55:
        text = line_of_item(dice)
    elif kind < 0.9:
        text = line_of_calls(dice)
    elif kind < 0.9999:
        text = line_of_letters(dice)
    else:
        text = long_line(dice)
    if dice.random() < 0.02:
        text += dice.choice(("\r", "\r\r", " ", "0"))
    return text
