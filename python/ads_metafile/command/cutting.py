"""`ads cut-back`: what stands behind a metafile's stop after a power failure, and cutting it off."""
from __future__ import annotations

from argparse import Namespace

from ..disk import Behind, LockedFile, copy_beside, cut, hold_signals, locked, look
from .output import REFUSED, Declined, Earned, counted, put, shown
from .reading import stops
from .writing import put_done

FIRST_BYTES, HEX_LINE = 64, 16
NOT_A_CUT_APPEND = "whole chunks may be among them, which is not what a cut append leaves"


def run(options: Namespace, earned: Earned) -> None:
    with locked(options.file, options.wait) as file:
        behind = look(file)
        if behind.file.clean:
            return put(f"{shown(options.file)}: clean, {counted(len(behind.file), 'chunk')}; nothing is to be cut\n")
        if behind.file.mark is None:
            why = "without a whole header nothing is cut back" if behind.file.length else "there is nothing to cut"
            raise Declined(f"{stops(behind.file)}; {why}")
        if not options.yes:
            earned.add(REFUSED)
            return put(description(options.file, behind))
        if behind.whole_chunks_possible and not options.force:
            raise Declined(f"{stops(behind.file)}; {counted(len(behind.data), 'byte')} stand behind it, and "
                           f"{NOT_A_CUT_APPEND}. Nothing was cut; --force cuts all the same")
        cut_now(file, behind, options.copy)


def cut_now(file: LockedFile, behind: Behind, copied: bool) -> None:
    """Copies what stands behind the stop, unless that isn't wanted, and cuts it off."""
    hold_signals()
    kept = f"a copy is {shown(copy_beside(file, behind))}" if copied else "no copy was made"
    cut(file, behind)
    put_done(f"{shown(file.path)}: cut at byte {behind.file.stop:,}, {counted(len(behind.data), 'byte')} went; {kept}; "
             f"{counted(len(behind.file), 'chunk')} stay")


def description(name: str, behind: Behind) -> str:
    """What would stay and what would go."""
    stop, rows, going = behind.file.stop, counted(len(behind.file), "row"), counted(len(behind.data), "byte")
    lines = [f"{shown(name)}: {stops(behind.file)}",
             f"{rows} would stay, {going} from byte {stop:,} on would go; the first of them:"]
    lines += hex_lines(bytes(behind.data[:FIRST_BYTES]), stop)
    lines.append(f'"Chunk_Header_Length=" stands {counted(behind.labels, "time")} in them')
    if behind.whole_chunks_possible:
        lines.append(f"{NOT_A_CUT_APPEND}: --yes cuts them only with --force")
    else:
        lines.append("--yes copies them beside the file and cuts them off")
    return "\n".join(lines) + "\n"


def hex_lines(data: bytes, place: int) -> list[str]:
    """Bytes as hexadecimal digits and as text."""
    lines = []
    for begin in range(0, len(data), HEX_LINE):
        part = data[begin:begin + HEX_LINE]
        text = "".join(chr(byte) if 32 <= byte < 127 else "." for byte in part)
        lines.append(f"  {place + begin:>13,}  {part.hex(' '):<{3 * HEX_LINE - 1}}  {text}")
    return lines
