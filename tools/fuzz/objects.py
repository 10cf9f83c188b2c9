"""The answers of `rlp_show --json`, by a second implementation: the lines of a record as one object, by the names of the execution API."""

import json
import re

from strict import strict_items

EXCEPTIONS = {"ommers_hash": "sha3Uncles", "beneficiary": "miner", "storage_root": "storageHash", "destination": "to", "cell_proofs": "proofs"}
IN_TRANSACTIONS = {"gas_limit": "gas", "data": "input"}
# The names of whole transactions and receipts.
TRANSACTION = re.compile(r"transaction|(.*\.)?transactions\[\d+\]|pooled_transactions\.content\[\d+\]")
RECEIPT = re.compile(r"receipt|receipts68\.content\[\d+\]\[\d+\]")
# What a `v` says.
SAID = re.compile(r"\d+ \((?:chain (\d+), )?parity (\d)\)")


def name_of(name, text, in_transaction):
    """The name of a field in JSON."""
    if name == "status_or_state_root":
        return "root" if len(text) == 66 else "status"
    if in_transaction and name in IN_TRANSACTIONS:
        return IN_TRANSACTIONS[name]
    first, *others = name.split("_")
    return EXCEPTIONS.get(name, first + "".join(map(str.capitalize, others)))


def value_of(name, text):
    """The value of a field in JSON."""
    if text == "[]":
        return []
    word = text.split(" ")[0]
    if text.endswith(" zero bytes"):
        return "0x" + "00" * int(word)
    if name == "to" and text == "0x":
        return None
    if name == "status_or_state_root" and len(text) < 5:
        return hex(int("0" + text[2:], 16))
    if text.startswith("0x"):
        return word
    if re.fullmatch("[0-9]+", word) and int(word) < 1 << 256:
        return hex(int(word))
    return text


def put(place, steps, value):
    """Puts a value at the end of some steps, the names of fields and the numbers of places. What lies between is made."""
    for step, after in zip(steps, steps[1:]):
        new = [] if isinstance(after, int) else {}
        if isinstance(step, int):
            if step == len(place):
                place.append(new)
            place = place[step]
        else:
            place = place.setdefault(step, new)
    if isinstance(steps[-1], int):
        place.append(value)
    else:
        place[steps[-1]] = value


def members_after(name, text, in_transaction):
    """The members after that of a line which no line has: what `v` says, `v` after a parity, and the nibbles of a path."""
    said = SAID.fullmatch(text) if name == "v" else None
    if said:
        return ([("chainId", hex(int(said[1])))] if said[1] else []) + [("yParity", hex(int(said[2])))]
    if name == "y_parity" and in_transaction:
        return [("v", hex(int(text)))]
    return [("nibbles", text.split("[")[1].rstrip("])"))] if name == "path" else []


def add_block(block, data):
    """Adds the members of a block that no line has: the hashes of its ommers, and the number of its bytes."""
    block["uncles"] = [ommer["hash"] for ommer in block["ommers"]]
    block["size"] = hex(len(data))


def answer(kind, data, lines):
    """The lines of a record as one object."""
    whole, typed = {}, set()
    for line in lines:
        path, text = line.split(": ", 1)
        path = re.sub(r"^((?:new_block\.)?block)\.header\.", r"\1.", path)
        owner, last = path.rpartition(".")[0], re.findall(r"[a-z]\w*", path)[-1]
        in_transaction = bool(TRANSACTION.fullmatch(owner))
        steps = [name_of(name, text, in_transaction) if name else int(place) for name, place in re.findall(r"([a-z]\w*)|\[(\d+)\]", path)]
        if last == "type":
            typed.add(owner)
        elif owner not in typed and (in_transaction and last == "nonce" or RECEIPT.fullmatch(owner) and last == "status_or_state_root"):
            put(whole, steps[:-1] + ["type"], "0x0")
        put(whole, steps, value_of(last, text))
        for name, value in members_after(last, text, in_transaction):
            put(whole, steps[:-1] + [name], value)
    if kind == "block":
        add_block(whole["block"], data)
    if kind == "new_block":
        add_block(whole["newBlock"]["block"], strict_items(data)[0])
    return json.dumps(whole or {kind: {}}, separators=(",", ":"), ensure_ascii=False)
