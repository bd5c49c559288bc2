"""A small segment, and faults that are put into one."""

VALUES = [0, 1, 2, 3, 0x08, 0x20, 0x7F, 0x80, 0x81, 0x82, 0xA5, 0xFF]  # of a byte that is changed

# The document `a` with the title `Red Fox` and the body `the quick red fox`, as docs/FORMAT.md spells it out.
SMALL = bytes.fromhex(
    "0000000000000001 000000000000000a 0000000000000005 000000000000004d"
    "01 01 09 01 61"
    "00 01 44 01 01 00"
    "00 02 4e61 01 01 00"
    "00 01 53 01 01 00"
    "00 01 54 01 01 00"
    "00 04 57666f78 02 02 00"
    "01 05 717569636b 01 01 00"
    "01 03 726564 02 02 00"
    "01 03 746865 01 01 00"
    "00 04 58466f78 01 01 00"
    "01 03 526564 01 01 00"
    "09 01 01 04 0305 06 0205 05 03 02"
)


def damaged(chance, content):
    """A segment with some bytes changed, put in, or taken out. Mostly the head's lengths follow what is put in or out."""
    content = bytearray(content)
    for _ in range(chance.choice([1, 1, 2, 2, 3, 5])):
        at = chance.randrange(len(content))
        byte = chance.choice([chance.randrange(256), content[at] ^ 1, content[at] ^ 128, chance.choice(VALUES)])
        kind = chance.choice(["change"] * 7 + ["put", "take", "cut"])
        if kind == "change":
            content[at] = byte
        elif kind == "cut":
            del content[max(1, at) :]
        elif len(content) > 64:
            documents, terms = (int.from_bytes(content[i : i + 8], "big") for i in (16, 24))
            field = 16 if at < 32 + documents else 24
            content[at : at + (kind == "take")] = [byte] if kind == "put" else []
            length = int.from_bytes(content[field : field + 8], "big") + (1 if kind == "put" else -1)
            if 32 <= at < 32 + documents + terms and 0 <= length < 2**64 and chance.random() < 0.7:
                content[field : field + 8] = length.to_bytes(8, "big")
    return bytes(content)
