"""Blocks of Ethereum, made at random by published averages, with their receipts and with nodes of the trie of the state.

usage: blocks.py [BLOCKS]

It writes BLOCKS blocks, or those of a day, as `rlp_bench day` reads them. Each block is three lines of a letter, a space and digits: `b`
and the block, `r` and the list of its receipts, `n` and the list of the nodes on the way to the accounts of its senders. The seed is
fixed. What is called chosen has no published average here.
"""

import random
import sys

from kinds import list_of, number, string

SEED = 20151007
# One block in 12 seconds: SECONDS_PER_SLOT of Ethereum's consensus specs.
A_DAY = 7_200
# About 1.2 million transactions a day in 2024: etherscan.io/chart/tx.
TRANSACTIONS = 165
# About 36 million gas at most early in 2025: etherscan.io/chart/gaslimit. About half of it is used: the target of EIP-1559.
GAS_LIMIT = 36_000_000
# 16 withdrawals a block: MAX_WITHDRAWALS_PER_PAYLOAD of the consensus specs.
WITHDRAWALS = 16
# Three blobs a block: the target of EIP-4844.
BLOBS = 3
# About 300 million accounts in 2025: etherscan.io/chart/address. So nearly each account is a leaf below seven branches.
ACCOUNTS = 300_000_000
BRANCHES = 7
# The types of the other transactions: chosen, most of them type 2.
TYPES = {2: 75, 0: 21, 1: 3, 4: 1}
# What a transaction does: ether alone, a transfer of EIP-20, a call, or a call with much data. The shares, the most words of data and the
# most logs are chosen, so that a block has about 100 KB, as at etherscan.io/chart/blocksize, and a receipt some 1.8 logs.
ACTIONS = {(0, 0): 40, (2, 1): 30, (30, 9): 28, (1_000, 9): 2}


def chosen(source, shares):
    return source.choices(list(shares), list(shares.values()))[0]


def numeral(value):
    return string(value.to_bytes((value.bit_length() + 7) // 8, "big"))


def numbers(source, *most):
    """Numbers of at most so many bytes."""
    return [string(number(source, each)) for each in most]


def hash_of(source):
    return string(source.randbytes(32))


def address(source):
    return string(source.randbytes(20))


def scalar(source):
    """A number of a signature."""
    return string(source.randbytes(32).lstrip(b"\0"))


def listed(source, most, make):
    """A list of one to `most` items."""
    return list_of([make(source) for _ in range(source.randint(1, most))])


def access(source):
    """An account and its keys, as in EIP-2930."""
    return list_of([address(source), listed(source, 4, hash_of)])


def authorization(source):
    """An authorization of EIP-7702, with its signature."""
    return list_of([numeral(1), address(source), *numbers(source, 2), numeral(source.randint(0, 1)), scalar(source), scalar(source)])


def data_of(source, words):
    """None, or the four bytes of a function and words."""
    if words < 3:
        return string(source.randbytes(4 + 32 * words) if words else b"")
    return string(source.randbytes(4 + 32 * source.randint(words // 3, words)))


def transaction(source, kind, words):
    """A signed transaction of a type, as in a block."""
    data = data_of(source, words)
    to, signature = [numeral(source.randint(21_000, 500_000)), address(source), *numbers(source, 9), data], [scalar(source), scalar(source)]
    if kind == 0:
        return list_of([*numbers(source, 3, 5), *to, numeral(37 + source.randint(0, 1)), *signature])
    begin = [numeral(1), *numbers(source, 3, *([5] if kind == 1 else [4, 5])), *to]
    end = [listed(source, 3, access) if kind == 1 else list_of([])]
    if kind == 3:
        end += [*numbers(source, 4), list_of([hash_of(source) for _ in range(BLOBS)])]
    if kind == 4:
        end.append(listed(source, 2, authorization))
    return string(bytes([kind]) + list_of([*begin, *end, numeral(source.randint(0, 1)), *signature]))


def log(source):
    """A log with two topics beside that of its event, as of EIP-20, and a word or more of data."""
    return list_of([address(source), list_of([hash_of(source) for _ in range(3)]), string(source.randbytes(32 * source.choice((1, 1, 2, 4))))])


def filter_of(source, logs):
    """A filter with three bits for each address and each topic."""
    bits = 0
    for _ in range(12 * logs):
        bits |= 1 << source.randrange(2048)
    return bits


def receipt(source, kind, gas, logs):
    """The receipt of a transaction of a type, and its filter."""
    bits = filter_of(source, logs)
    payload = list_of([numeral(source.random() < 0.98), numeral(gas), string(bits.to_bytes(256, "big")), list_of([log(source) for _ in range(logs)])])
    return string(bytes([kind]) + payload) if kind else payload, bits


def header(source, place, bits):
    """A header of 21 fields, as since Prague."""
    gas = [numeral(place), numeral(GAS_LIMIT), numeral(source.randint(GAS_LIMIT // 4, GAS_LIMIT * 3 // 4)), numeral(1_750_000_000 + 12 * place)]
    roots = [hash_of(source), hash_of(source), address(source), *(hash_of(source) for _ in range(3))]
    end = [string(source.randbytes(source.randint(10, 32))), hash_of(source), string(bytes(8)), *numbers(source, 5), hash_of(source)]
    return list_of([*roots, string(bits.to_bytes(256, "big")), numeral(0), *gas, *end, numeral(BLOBS << 17), *numbers(source, 4), hash_of(source), hash_of(source)])


def withdrawal(source, place):
    return list_of([numeral(80_000_000 + place), *numbers(source, 3), address(source), *numbers(source, 4)])


def branch(source, depth):
    """A branch. In the lowest ones some children are missing."""
    share, hashes = 1 - (1 - 1 / 16) ** (ACCOUNTS / 16**depth), source.randbytes(16 * 32)
    children = [string(hashes[place : place + 32]) if source.random() < share else b"\x80" for place in range(0, len(hashes), 32)]
    return list_of([*children, b"\x80"])


def leaf(source):
    """The leaf of an account below the branches: an odd path, and the account of a user."""
    path = bytes([0x30 | source.randrange(16)]) + source.randbytes((64 - BRANCHES) // 2)
    return list_of([string(path), string(list_of([*numbers(source, 2, 9), hash_of(source), hash_of(source)]))])


def nodes(source, senders):
    """The nodes on the way to accounts: branches, those of the same digits once, and leaves."""
    paths = [source.randbytes(4).hex() for _ in range(senders)]
    begins = dict.fromkeys(path[:depth] for path in paths for depth in range(BRANCHES))
    return [*(branch(source, len(begin)) for begin in begins), *(leaf(source) for _ in paths)]


def made(blocks):
    """For each block the three lines, and the numbers of blocks, transactions, receipts, logs, nodes and bytes in them."""
    for place in range(blocks):
        source = random.Random(f"{SEED} {place}")
        kinds = [3, *(chosen(source, TYPES) for _ in range(max(0, round(source.gauss(TRANSACTIONS, 40)) - 1)))]
        actions = [chosen(source, ACTIONS) for _ in kinds]
        logs = [most if most < 2 else source.randint(1, most) for _, most in actions]
        receipts = [receipt(source, kind, 90_000 * (turn + 1), count) for turn, (kind, count) in enumerate(zip(kinds, logs))]
        bits = 0
        for _, each in receipts:
            bits |= each
        found = nodes(source, len(kinds))
        sent = list_of([transaction(source, kind, words) for kind, (words, _) in zip(kinds, actions)])
        paid = list_of([withdrawal(source, WITHDRAWALS * place + each) for each in range(WITHDRAWALS)])
        parts = [list_of([header(source, place, bits), sent, list_of([]), paid]), list_of([each for each, _ in receipts]), list_of(found)]
        lines = "".join(f"{letter} {part.hex()}\n" for letter, part in zip("brn", parts))
        yield lines, (1, len(kinds), len(receipts), sum(logs), len(found), sum(map(len, parts)))


def main():
    for lines, _ in made(int(sys.argv[1]) if len(sys.argv) > 1 else A_DAY):
        sys.stdout.write(lines)


if __name__ == "__main__":
    main()
