"""Messages between Ethereum's clients: the types of their bodies, for `records`."""

from answers import Answered
from strict import strict_items


def classes(records):
    """The kinds of messages, made of the types of `records`."""
    wrong, record, fields, list_of, types = records.Wrong, records.Record, records.fields, records.ListOf, dict(records.TYPES)

    class Disconnect:
        """The number of a reason: in a list, which may have none, or alone."""

        listed = record([("reason", types["u8"])], (0, 1))

        def lines(self, name, data):
            if data and data[0] >= 0xC0:
                return self.listed.lines(name, data)
            try:
                return types["u8"].lines(f"{name}.reason" if name else "reason", data)
            except wrong as fault:
                # Alone, the reason is the whole message.
                raise wrong(name, fault.fault) from None

        def written(self, dice):
            return (self.listed if dice.random() < 0.5 else types["u8"]).written(dice)

    class Empty(record):
        """A list of no fields, or now and then of one."""

        def written(self, dice):
            return records.written_list(dice, [types["u8"].written(dice)] if dice.random() < 0.1 else [])

    class Hello:
        """Five fields, and then any items."""

        def lines(self, name, data):
            try:
                items = strict_items(data)
                if len(items) < 5:
                    raise Answered("RlpIncorrectListLen")
            except Answered as answered:
                raise wrong(name, answered) from None
            more = [(f"further[{place}]", records.AnyItem()) for place in range(len(items) - 5)]
            return record(FIRST + more).lines(name, data)

        def written(self, dice):
            items = [one.written(dice) for _, one in FIRST] + [records.AnyItem().written(dice) for _ in range(dice.choice((0, 0, 1, 2)))]
            return records.written_list(dice, items if dice.random() < 0.95 else items[: dice.randint(0, 5)])

    class HeldReceipt(records.Held):
        """An item of a block's receipts: a list is a receipt without a type, and a string holds an envelope."""

        def __init__(self):
            super().__init__(dict.fromkeys((1, 2, 3, 4), records.RECEIPT), records.RECEIPT, records.Kept())

        def hashed(self, one):
            return one

    def hash_or_number(string):
        return "0x" + string.hex() if len(string) == 32 else records.number_text(8)(string)

    def request(one):
        return record([("request_id", types["u64"]), ("content", one)])

    types["word"] = records.Text(records.word_text, lambda dice: dice.choice((b"eth", b"snap", b"Eth", b"", dice.randbytes(3))))
    types["capabilities"] = list_of(record(fields("name:word version:u64", types)))
    types["node_id"] = records.fixed(64)
    FIRST = fields("protocol_version:u64 client_id:string capabilities:capabilities listen_port:u64 node_id:node_id", types)
    types["start"] = records.Text(hash_or_number, lambda dice: dice.choice((dice.randbytes(32), dice.randbytes(31), b"", b"\5", dice.randbytes(8))))
    types["fork_hash"] = records.fixed(4)
    types["fork_id"] = record(fields("fork_hash:fork_hash fork_next:u64", types))
    types["sizes"] = list_of(types["u64"])
    types["block"] = records.KINDS["block"]
    receipt69 = record(fields("transaction_type:u8 status_or_state_root:status cumulative_gas_used:u64 logs:logs", types))
    range_of = "earliest_block:u64 latest_block:u64 latest_block_hash:hash"
    headers = record(fields("start_block:start limit:u64 skip:u64 reverse:truth", types))
    return {
        "hello": Hello(),
        "disconnect": Disconnect(),
        "ping": Empty([]),
        "pong": Empty([]),
        "status68": record(fields("version:u64 network_id:u64 total_difficulty:u256 block_hash:hash genesis_hash:hash fork_id:fork_id", types)),
        "status69": record(fields(f"version:u64 network_id:u64 genesis_hash:hash fork_id:fork_id {range_of}", types)),
        "new_block_hashes": records.Alone("new_block_hashes", list_of(record(fields("hash:hash number:u64", types)))),
        "transactions": records.Alone("transactions", types["transactions"]),
        "get_block_headers": request(headers),
        "block_headers": request(types["headers"]),
        "get_block_bodies": request(types["hashes"]),
        "block_bodies": request(list_of(records.KINDS["body"])),
        "new_block": record(fields("block:block total_difficulty:u256", types)),
        "new_pooled_transaction_hashes": record(fields("types:string sizes:sizes hashes:hashes", types)),
        "get_pooled_transactions": request(types["hashes"]),
        "pooled_transactions": request(types["sent_transactions"]),
        "get_receipts": request(types["hashes"]),
        "receipts68": request(list_of(list_of(HeldReceipt()))),
        "receipts69": request(list_of(list_of(receipt69))),
        "block_range_update": record(fields(range_of, types)),
    }
