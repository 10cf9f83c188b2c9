"""What the Rust crate `rlp` 0.6.1 exports, and what of this one docs/DIFFERENCES.md has to name."""

import re

from sources import Crate

# The items of the Rust crate, and the methods of each type.
UPSTREAM = {
    "": "encode encode_list decode decode_list NULL_RLP EMPTY_LIST_RLP DecoderError Prototype RlpIterator",
    "Rlp": "new as_raw prototype payload_info data item_count size at at_with_offset is_null is_empty is_list is_data is_int iter as_val as_list val_at list_at decoder",
    "PayloadInfo": "from total",
    "RlpStream": "new new_with_buffer new_list new_list_with_buffer append append_iter append_list append_internal append_empty_data append_raw append_raw_checked "
    "begin_list begin_unbounded_list finalize_unbounded_list clear len is_empty estimate_size is_finished as_raw out encoder",
    "BasicEncoder": "encode_value encode_iter",
    "BasicDecoder": "new decode_value",
    "Encodable": "rlp_append rlp_bytes",
    "Decodable": "decode",
}


def upstream():
    """The headings of the items and methods of the Rust crate."""
    for kind, names in UPSTREAM.items():
        yield from [kind] if kind else []
        yield from (f"{kind}::{name}" if kind else name for name in names.split())


def differences_unnamed(root):
    """Items and methods of `rlp` that the Rust crate hasn't and the page doesn't name, and those that this crate hasn't."""
    page = (root / "docs" / "DIFFERENCES.md").read_text(encoding="utf-8")
    named = set(re.findall(r"\w+", " ".join(re.findall(r"`([^`\n]*)`", page))))
    headings = [item.heading for item in Crate(root, "rlp").items() if not item.heading.startswith("laws::")]
    for heading in headings:
        kind, _, name = heading.rpartition("::")
        # The methods of a type that is named need no row of their own.
        if heading not in set(upstream()) and not {name, kind} & (named - {"Rlp", "RlpStream", "PayloadInfo"}):
            yield f"docs/DIFFERENCES.md doesn't name `{heading}`, which the Rust crate hasn't"
    for heading in upstream():
        if heading not in headings and heading.split("::")[-1] not in named:
            yield f"docs/DIFFERENCES.md doesn't name `{heading}`, which this crate hasn't"
