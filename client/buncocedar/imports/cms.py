"""What is signed inside of an S/MIME part: the content of a signed-data of CMS (RFC 5652), which holds it as it stands."""

# Python's standard library reads no ASN.1. Of its encoding (BER, X.690) only elements are needed here: a tag, a length, and the
# content, where a length that is not given ends at two zeros. Nothing is verified: this is a search, and a reader of mail
# says whose signature it is. What is encrypted stays unread.

from __future__ import annotations

from typing import Iterator, NamedTuple, Optional

SEQUENCE, OBJECT, OCTETS, EXPLICIT = 0x30, 0x06, 0x04, 0xA0
CONSTRUCTED = 0x20  # the bit of a tag whose content is elements
SIGNED_DATA = bytes.fromhex("2a864886f70d010702")  # 1.2.840.113549.1.7.2
DEPTH = 32  # elements that may stand in one another


class Odd(ValueError):
    """It is no element."""


class Element(NamedTuple):
    """An element: its tag, where its content begins and ends, and where the next element begins."""

    tag: int
    begin: int
    end: int
    following: int


def element_at(data: bytes, at: int, depth: int = 0) -> Element:
    """The element that begins here. Raises `Odd`."""
    if at + 2 > len(data) or data[at] & 0x1F == 0x1F or depth > DEPTH:
        raise Odd
    tag, length, begin = data[at], data[at + 1], at + 2
    if length == 0x80 and tag & CONSTRUCTED:
        end = begin
        while data[end : end + 2] != b"\0\0":
            end = element_at(data, end, depth + 1).following
        return Element(tag, begin, end, end + 2)
    if length >= 0x80:
        count = length & 0x7F
        length, begin = int.from_bytes(data[begin : begin + count], "big"), begin + count
    if begin + length > len(data):
        raise Odd
    return Element(tag, begin, begin + length, begin + length)


def inside(data: bytes, outer: Element) -> Iterator[Element]:
    """The elements in an element, in their order."""
    at = outer.begin
    while at < outer.end:
        found = element_at(data, at)
        yield found
        at = found.following


def octets(data: bytes, found: Element, depth: int = 0) -> bytes:
    """The bytes of an octet string, which may be in pieces."""
    if found.tag == OCTETS:
        return data[found.begin : found.end]
    if found.tag != OCTETS | CONSTRUCTED or depth > DEPTH:
        raise Odd
    return b"".join(octets(data, piece, depth + 1) for piece in inside(data, found))


def is_signed(data: bytes) -> bool:
    """Whether this is a signed-data, by its first object identifier."""
    try:
        kind = next(inside(data, element_at(data, 0)))
    except (Odd, StopIteration):
        return False
    return kind.tag == OBJECT and data[kind.begin : kind.end] == SIGNED_DATA


def signed_content(data: bytes) -> Optional[bytes]:
    """The content of a signed-data, None where it has none, or is something else."""
    if not is_signed(data):
        return None
    try:
        # ContentInfo: the type, and the SignedData, which has its version, its digests, and what is signed.
        _, content, *_ = inside(data, element_at(data, 0))
        signed, = inside(data, content)
        _, _, capsule, *_ = inside(data, signed)
        # EncapsulatedContentInfo: the type, and the content where it is not kept elsewhere.
        _, *contents = inside(data, capsule)
        text, = inside(data, contents[0]) if contents else ()
        return octets(data, text)
    except ValueError:
        # Among them `Odd`, and that there are not as many elements as there should be.
        return None
