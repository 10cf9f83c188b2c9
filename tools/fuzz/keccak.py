"""A plain second implementation of Keccak-256, after FIPS 202."""

WORD = (1 << 64) - 1
RATE = 136


def rotated(lane, places):
    """A lane of 64 bits, rotated to the left."""
    places %= 64
    return (lane << places | lane >> (64 - places)) & WORD


def round_constants():
    """The constants of the 24 rounds, from the register of 8 bits of section 3.2.5."""
    register, constants = 1, []
    for _ in range(24):
        constant = 0
        for power in range(7):
            if register & 1:
                constant |= 1 << ((1 << power) - 1)
            register <<= 1
            if register & 0x100:
                register ^= 0x171
        constants.append(constant)
    return constants


CONSTANTS = round_constants()


def permuted(state):
    """The state after Keccak-f[1600]; its lanes are by x and then y."""
    for constant in CONSTANTS:
        parity = [state[x][0] ^ state[x][1] ^ state[x][2] ^ state[x][3] ^ state[x][4] for x in range(5)]
        mixed = [parity[(x - 1) % 5] ^ rotated(parity[(x + 1) % 5], 1) for x in range(5)]
        state = [[state[x][y] ^ mixed[x] for y in range(5)] for x in range(5)]
        x, y, lane = 1, 0, state[1][0]
        for step in range(24):
            x, y = y, (2 * x + 3 * y) % 5
            lane, state[x][y] = state[x][y], rotated(lane, (step + 1) * (step + 2) // 2)
        for y in range(5):
            row = [state[x][y] for x in range(5)]
            for x in range(5):
                state[x][y] = row[x] ^ (~row[(x + 1) % 5] & WORD & row[(x + 2) % 5])
        state[0][0] ^= constant
    return state


def keccak256(data):
    """The Keccak-256 hash of bytes."""
    pad = RATE - len(data) % RATE
    data += b"\x81" if pad == 1 else b"\x01" + bytes(pad - 2) + b"\x80"
    state = [[0] * 5 for _ in range(5)]
    for start in range(0, len(data), RATE):
        for place in range(RATE // 8):
            lane = data[start + 8 * place : start + 8 * place + 8]
            state[place % 5][place // 5] ^= int.from_bytes(lane, "little")
        state = permuted(state)
    return b"".join(state[place][0].to_bytes(8, "little") for place in range(4))
