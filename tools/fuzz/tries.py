"""Roots of the tries of ordered lists, and proofs of what the tries have: a plain second implementation, which puts one pair after
another into a trie, as the description of the Merkle Patricia trie does. It shares no code with the crates.
"""

from answers import encoded_list, encoded_string
from keccak import keccak256

# A node is None, or a leaf ("leaf", path, value), or an extension ("extension", path, node), or a branch ("branch", sixteen nodes, value).
# Paths are lists of nibbles.


def nibbles_of(key):
    """The nibbles of a key, two of each byte."""
    return [nibble for byte in key for nibble in (byte >> 4, byte & 15)]


def compact(path, ends):
    """A path with its flags, two nibbles in a byte. `ends` says that the path ends in a leaf."""
    odd = len(path) % 2
    whole = [2 * ends + odd] + ([] if odd else [0]) + path
    return bytes(high << 4 | low for high, low in zip(whole[::2], whole[1::2]))


def split_at(path, other):
    """The number of nibbles with which both paths begin."""
    count = 0
    while count < min(len(path), len(other)) and path[count] == other[count]:
        count += 1
    return count


def hung(path, node):
    """A node below a path."""
    return ("extension", path, node) if path else node


def put(node, path, value):
    """The node after a value is put at a path."""
    if node is None:
        return ("leaf", path, value)
    if node[0] == "branch":
        _, below, own = node
        if not path:
            return ("branch", below, value)
        below = list(below)
        below[path[0]] = put(below[path[0]], path[1:], value)
        return ("branch", below, own)
    kind, own, inner = node
    count = split_at(path, own)
    if kind == "leaf" and path == own:
        return ("leaf", path, value)
    if kind == "extension" and count == len(own):
        return ("extension", own, put(inner, path[count:], value))
    branch = ("branch", [None] * 16, b"")
    if kind == "leaf":
        branch = put(branch, own[count:], inner)
    else:
        below = [None] * 16
        below[own[count]] = hung(own[count + 1 :], inner)
        branch = ("branch", below, b"")
    return hung(own[:count], put(branch, path[count:], value))


def encoding(node):
    """The encoding of a node."""
    if node is None:
        return b"\x80"
    if node[0] == "leaf":
        return encoded_list([encoded_string(compact(node[1], True)), encoded_string(node[2])])
    if node[0] == "extension":
        return encoded_list([encoded_string(compact(node[1], False)), reference(node[2])])
    return encoded_list([reference(one) for one in node[1]] + [encoded_string(node[2])])


def reference(node):
    """What stands for a node in its parent: the node, or the string of its hash."""
    whole = encoding(node)
    return whole if len(whole) < 32 else encoded_string(keccak256(whole))


def number(place):
    """The encoding of a number."""
    return encoded_string(place.to_bytes((place.bit_length() + 7) // 8, "big"))


def trie_of(pairs):
    """The trie of keys and their values."""
    node = None
    for key, value in pairs:
        node = put(node, nibbles_of(key), value)
    return node


def trie(values):
    """The trie of an ordered list."""
    return trie_of((number(place), value) for place, value in enumerate(values))


def root(values):
    """The root of the trie of an ordered list."""
    return keccak256(encoding(trie(values)))


def proof(node, path):
    """The encodings of the nodes from a node down a path, but for the nodes that are kept in their parents."""
    nodes = [encoding(node)]
    while node is not None and node[0] != "leaf":
        if node[0] == "branch":
            if not path:
                break
            node, path = node[1][path[0]], path[1:]
        elif path[: len(node[1])] == node[1]:
            node, path = node[2], path[len(node[1]) :]
        else:
            break
        if len(encoding(node)) >= 32:
            nodes.append(encoding(node))
    return nodes


def made(count):
    """A list of values, as the rows of roots make it: the byte 1, and the list of the place."""
    return [b"\x01" + encoded_list([number(place)]) for place in range(count)]
