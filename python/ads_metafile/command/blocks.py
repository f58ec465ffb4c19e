"""`ads pack` and `ads unpack`: a copy of a file in blocks of 512 bytes, and the file again.

The library packs and judges; no block is looked at here.
"""
from __future__ import annotations

from argparse import Namespace

from .. import BLOCK_NUMBER, BLOCK_SUM, BLOCK_USE, Refused, pack, unpack
from .._blocks import BLOCK_BYTES
from ..disk import create, hold_signals, read_file
from .output import Declined, Earned, counted, shown
from .parts import whole_number
from .writing import put_done

NOT_PACKED = "the copy is damaged, or was never a packed file; nothing was written"


def length(text: str) -> int:
    """The length that was carried beside a copy."""
    return whole_number(text, "bytes")


def run_pack(options: Namespace, earned: Earned) -> None:
    data = read_file(options.file).data
    packed = pack(data)
    put_new(options.output, packed)
    put_done(f"{shown(options.file)}: {counted(len(data), 'byte')} packed into {blocks(packed)}; carry the length "
             f"beside the copy: {len(data)}")


def run_unpack(options: Namespace, earned: Earned) -> None:
    packed = read_file(options.file).data
    try:
        data = unpack(packed)
    except Refused as error:
        remark = NOT_PACKED if error.number in (BLOCK_SUM, BLOCK_NUMBER, BLOCK_USE) else None
        raise Refused(error.number, remark) from error
    if options.length not in (None, len(data)):
        raise Declined(f"unpacks to {counted(len(data), 'byte')}, and --length says {options.length:,}: the copy isn't "
                       "whole, or the length is another file's; nothing was written")
    put_new(options.output, data)
    put_done(f"{shown(options.file)}: {blocks(packed)} unpacked into {counted(len(data), 'byte')}")


def put_new(path: str, data: bytes) -> None:
    """Writes the new file, also where there are no links, as on FAT. From its first byte on signals are held back, to
    the end of the command."""
    hold_signals()
    create(path, data, "written", rename=True)


def blocks(packed: bytes | memoryview) -> str:
    """'15 blocks of 512'."""
    return f"{counted(len(packed) // BLOCK_BYTES, 'block')} of {BLOCK_BYTES}"
