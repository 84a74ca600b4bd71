"""Images of stores for tests and benches, by docs/FORMATS.md ("Store image")."""
import os
import sys

sys.path.insert(0, os.path.join(os.path.dirname(os.path.dirname(os.path.abspath(__file__))), "tools"))
from caldrouz import stores, table, wire  # noqa: E402


def image(store: stores.Store) -> bytes:
    """The bytes of a store: each value stands in copy A."""

    def entry(it: wire.Entry) -> bytes:
        return it.term.to_bytes(4, "little") + bytes.fromhex(it.unique_id) + bytes([it.node, it.origin])

    values = {
        table.KEY_VERSION: bytes([table.NEWEST]),
        table.KEY_TERM: store.term.to_bytes(4, "little"),
        table.KEY_VOTE: bytes([store.vote]),
        table.KEY_LAST: bytes([len(store.entries)]),
        table.KEY_COMMIT: bytes([store.commit]),
        **{table.KEY_FIRST_ENTRY + at: entry(it) for at, it in enumerate(store.entries)},
    }
    whole = bytearray(table.IMAGE)
    for key, value in values.items():
        at = key * table.KEY_SIZE + 1
        whole[at : at + 1 + len(value)] = bytes([len(value)]) + value
    return bytes(whole)
