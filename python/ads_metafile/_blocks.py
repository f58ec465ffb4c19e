"""A file in blocks of 512 bytes, for disks that lose single blocks. The library packs and judges; no block is looked at
here.
"""
from __future__ import annotations

from collections.abc import Callable

from ._library import MOST_BYTES, accepted
from ._memory import BytesLike, Lent, anonymous, view
from ._numbers import NO_ROOM, Refused

BLOCK_BYTES = 512
BLOCK_DATA = 504


def pack(data: BytesLike) -> bytes:
    """The packed file of any bytes: a block of 512 for each started 504 of them, and one for no bytes.

    Refused with 11 where there are over 2^30 bytes, with 18 over 1,056,964,608: a packed file has at most 2^30.

    The packed file of no bytes is one block of 512 zeros. So a copy of one block that came back as zeros unpacks as a
    file of no bytes. And a copy whose last blocks are missing, but not all, is itself a packed file. To see such losses
    carry the length beside the copy, and compare it with that of what `unpack` gives.

    >>> import ads_metafile
    >>> packed = ads_metafile.pack(b"abc")
    >>> len(packed), packed[:9].hex(), packed[-2:].hex()
    (512, '000000000003616263', '0129')
    >>> ads_metafile.pack(b"") == bytes(512)
    True
    """
    try:
        return _written("ads_pack", data, lambda length: BLOCK_BYTES * max(-(-length // BLOCK_DATA), 1))
    except Refused as error:
        if error.number != NO_ROOM:
            raise
        raise Refused(NO_ROOM, f"the packed file would have more than {MOST_BYTES:,} bytes") from None


def unpack(blocks: BytesLike) -> bytes:
    """The bytes that were packed. Only what `pack` gives is taken; the first wrong block decides.

    Refused with 11 where there are over 2^30 bytes, with 27 where the sum of a block is wrong, with 28 where its number
    is, with 29 where its use is, where a spare byte isn't zero, or where a block isn't whole or there is none.

    Not every loss is refused: a copy of one block that came back as zeros gives no bytes, and a copy whose last blocks
    are missing, but not all, gives the bytes before them. Compare the length with the one carried beside the copy.

    >>> import ads_metafile
    >>> packed = ads_metafile.pack(b"x" * 1000)
    >>> ads_metafile.unpack(packed) == b"x" * 1000
    True
    >>> ads_metafile.unpack(packed[:512] + bytes(512))
    Traceback (most recent call last):
    ads_metafile._numbers.Refused: refused with 28 (the number of a block is wrong)
    >>> len(ads_metafile.unpack(packed[:512])), ads_metafile.unpack(bytes(512))
    (504, b'')
    """
    return _written("ads_unpack", blocks, lambda length: length // BLOCK_BYTES * BLOCK_DATA)


def _written(name: str, data: BytesLike, most: Callable[[int], int]) -> bytes:
    """What the function writes, into a buffer of that many bytes, but never more than the library takes."""
    with view(data) as given:
        room = min(most(given.nbytes), MOST_BYTES)
        buffer = anonymous(room, filled=True)
        answer = accepted(name, Lent(given), given.nbytes, Lent(buffer, writable=True), room)
    return buffer[:answer.length]
