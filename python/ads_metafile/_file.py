"""A file in memory: its table of rows, and the calls that ask about a row.

What is right in the bytes, the library says: `ads_read` at the start, then one call for each question.
"""
from __future__ import annotations

from mmap import mmap
from types import TracebackType
from typing import Any, Iterator, NamedTuple, overload

from . import _ancestors, _pricing, _relations, _rows
from ._ancestors import Ancestry
from ._library import MOST_BYTES, Text, accepted, call, size, text
from ._memory import BytesLike, Lent, anonymous, view
from ._numbers import WORDS
from ._pricing import Statement
from ._relations import Checked, Verdict
from ._rows import Record, Row, most_rows

_LISTING_ROOM = 10240
_CLOSED = "the file is closed"
_IN_USE = ("the file can't be closed while a view of its bytes is alive or a call runs: release or delete the views, "
           "or copy them by bytes(view); the file stays open")

# where the header has the strategy, the three digits of the mark's length, and the mark
_STRATEGY = slice(58, 61)
_MARK_LENGTH = slice(61, 64)
_MARK_AT = 65


class Parent(NamedTuple):
    """A parent that was found: its row, and whether the dependency names that row's own sub-format."""

    row: int
    agree: bool


class Dependency(NamedTuple):
    """What a dependency names, and the row that was found for it; None where the parent is missing."""

    serial: str
    sub_format: str
    row: int | None
    agree: bool


class File:
    """A metafile in memory and its table of rows; made by `open` or `read`, closed by `with` or `close`.

    `len(file)`, `file[3]`, `file[-1]`, `file[2:5]` and iteration give its rows. `name` is the path or None, `length`
    the number of bytes. `clean`, `stop`, `number` and `header_good` are what the library answered. A file of no bytes
    has number 0 and stop 0 and isn't clean: ask `clean`, not the number.
    """

    def __init__(self, source: BytesLike, *, length: int | None = None, name: str | None = None,
                 own: mmap | None = None) -> None:
        self._source: BytesLike = source
        self._own: mmap | None = own
        self.name = name
        self._whole = view(source)[:length].toreadonly()
        self.length = self._whole.nbytes
        room = most_rows(min(self.length, MOST_BYTES))
        self._rows: mmap | None = anonymous(room * _rows.RECORD.size)
        reading = call("ads_read", Lent(self._whole), self.length, Lent(self._rows, writable=True), room)
        self.clean: bool = call("ads_is_clean", reading, self.length)
        self.stop: int = reading.stop
        self.number: int = reading.number
        self.header_good: bool = reading.good
        self._count: int = reading.count
        self._index: dict[bytes, int] | None = None

    @property
    def words(self) -> str | None:
        """What stands at `stop`, in words; None where the number is 0."""
        return WORDS.get(self.number, f"number {self.number}") if self.number else None

    @property
    def data(self) -> memoryview:
        """The file's bytes, to be read only and not copied. An opened file can't be closed while it is alive."""
        return self._bytes()[:]

    @property
    def strategy(self) -> str | None:
        """Separator strategy, "LLC" or "NUL"; None where the header isn't whole."""
        return str(self._bytes()[_STRATEGY], "ascii") if self.stop else None

    @property
    def mark(self) -> bytes | None:
        """The mark; None where the header isn't whole."""
        data = self._bytes()
        return bytes(data[_MARK_AT:_MARK_AT + int(bytes(data[_MARK_LENGTH]))]) if self.stop else None

    # ---- rows

    def __len__(self) -> int:
        return self._count

    def __iter__(self) -> Iterator[Row]:
        return (Row(self, index) for index in range(self._count))

    @overload
    def __getitem__(self, index: int) -> Row: ...

    @overload
    def __getitem__(self, index: slice) -> list[Row]: ...

    def __getitem__(self, index: int | slice) -> Row | list[Row]:
        try:
            chosen = range(self._count)[index]
        except IndexError:
            raise IndexError(f"row {index}: the file has {self._count} rows") from None
        return Row(self, chosen) if isinstance(chosen, int) else [Row(self, each) for each in chosen]

    def by_serial(self, serial: Text) -> Row:
        """The row with that serial number, however its check is written; KeyError where there is none.

        The first call makes an index of all rows.
        """
        if self._index is None:
            self._index = {_rows.in_digits(record[0]): index for index, record in enumerate(self.records())}
        wanted = text(serial, "serial")
        try:
            return Row(self, self._index[_rows.in_digits(wanted)])
        except KeyError:
            raise KeyError(wanted) from None

    def records(self) -> Iterator[Record]:
        """The rows as plain tuples, quickly: serial number as bytes, place, header, contents place, bytes, end,
        dependencies, offset, multichunk, good, ending (the number of an `Ending`)."""
        return _rows.records(self._table(), self._count)

    def to_numpy(self) -> Any:
        """The rows as a structured array over the same memory, not copied; to be read only.

        It stays valid when the file is closed. ImportError where numpy isn't there.
        """
        return _rows.array(self._table(), self._count)

    # ---- calls about a row; each reads the file up to that row, ancestors all of it

    def parent(self, row: int, dependency: int) -> Parent | None:
        """The parent that the row's dependency names, both counted from 0; None where it is missing.

        Refused with 13 where there is no such row, with 14 where there is no such dependency. Negative numbers don't
        count from the end here: they raise ValueError, as they do in all calls about a row.
        """
        row, dependency = size(row, "row"), size(dependency, "dependency")
        answer = accepted("ads_parent", Lent(self._bytes()), self.length, row, dependency)
        return Parent(answer.row, answer.agree) if answer.found else None

    def parents(self, row: int) -> list[Dependency]:
        """The row's dependencies in order, each with the row that `parent` finds. Refused with 13 as `parent`."""
        row = size(row, "row")
        if row >= self._count:
            self.parent(row, 0)
        chunk = self[row]
        return [self._dependency(chunk, dependency) for dependency in range(chunk.dependencies)]

    def _dependency(self, chunk: Row, dependency: int) -> Dependency:
        serial, sub_format = _rows.dependency_at(self._bytes(), chunk.place, dependency)
        found = self.parent(chunk.index, dependency)
        return Dependency(serial, sub_format, found.row if found else None, bool(found and found.agree))

    def ancestors(self, row: int) -> Ancestry:
        """Every row that is reached from the row by dependencies, in one or more steps, each once and in rising order,
        without the row itself; and how many dependencies of all these, the row included, name no row.

        Refused with 13 where there is no such row, with 24 where the file has more than 64 rows, with 23 where a chain
        of dependencies from the row comes back to a row on it.

        >>> import ads_metafile
        >>> ads_metafile.read(b"").ancestors(0)
        Traceback (most recent call last):
        ads_metafile._numbers.Refused: refused with 13 (no such row)
        """
        return _ancestors.ancestors_of(self._bytes(), size(row, "row"))

    def contents(self, row: int) -> memoryview:
        """The row's contents as `ads_contents` names them, not copied. Refused with 13 where there is no such row.

        `file[row].contents` gives the same by the table, without reading the file again.
        """
        part = accepted("ads_contents", Lent(self._bytes()), self.length, size(row, "row"))
        return self._bytes()[part.place:part.place + part.bytes]

    def gather(self, row: int, short_id: Text) -> bytes:
        """The data of a MultiChunk's mini-chunks under one short ID, joined in order.

        Refused with 13 where there is no such row, with 14 where it is no MultiChunk or the ID is undeclared.
        """
        row, short_id = size(row, "row"), text(short_id, "short ID")
        room = self[row].bytes if row < self._count else 0
        buffer = anonymous(room)
        answer = accepted("ads_gather", Lent(self._bytes()), self.length, row, short_id, len(short_id),
                          Lent(buffer, writable=True), room)
        return buffer[:answer.length]

    # ---- relations

    def relations_write(self) -> bytes:
        r"""The contents of a relation chunk (ADS\SYS\Relations) for this file: a heading line, then a line for each
        dependency of each row; not of a relation chunk, and not on one.

        >>> import ads_metafile
        >>> with ads_metafile.read(b"") as file:
        ...     file.relations_write().split(b"\t")[0]
        b'ADS Metafile Master Relation Chunk Revision 1.00'
        """
        return _relations.text_of(self._bytes(), sum(record[6] for record in self.records()))

    def relations_check(self, row: int) -> list[Verdict]:
        """What is said of each relation line of the row's contents, in their order; comments are passed over.

        Refused with 13 where there is no such row, with 19 where it isn't a relation chunk, with 20 where its heading
        line differs.
        """
        row = size(row, "row")
        return _relations.verdicts_of(self._bytes(), row, self[row].bytes if row < self._count else 0)

    def relations_check_latest(self) -> Checked:
        """The same of the relation chunk that holds, with its row: the one with the latest writing date, and of equal
        dates the later row. Its sum and its heading aren't asked in choosing.

        Refused with 13 where no row is a relation chunk, with 20 where the heading line of the one that holds differs.

        >>> import ads_metafile
        >>> ads_metafile.read(b"").relations_check_latest()
        Traceback (most recent call last):
        ads_metafile._numbers.Refused: refused with 13 (no such row)
        """
        return _relations.latest_of(self._bytes(), max((record[4] for record in self.records()), default=0))

    # ---- the whole table

    def price(self, chunk: int, kib: int) -> Statement:
        """The price statement: for each row its contents bytes and its cents, and the total.

        A row with a good sum costs `chunk` cents, and `kib` cents for each started 1,024 contents bytes; one with a bad
        sum costs 0. Both are numbers from 0 to 2^64 - 1. Refused with 21 where the total has more than 18 digits.

        >>> import ads_metafile
        >>> ads_metafile.read(b"not a metafile").price(chunk=100, kib=7)
        Statement(text='total 0\\n', header=0, chunks=0, unread=14)
        """
        return _pricing.statement_of(self._bytes(), self._count, chunk, kib)

    def listing(self) -> str:
        """The library's own listing of the table. Of a file over 65,536 bytes it is "end 0 11" and a line feed."""
        buffer = bytearray(_LISTING_ROOM)
        answer = accepted("ads_listing", Lent(self._bytes()), self.length, Lent(buffer, writable=True), len(buffer))
        return buffer[:answer.length].decode("ascii")

    # ---- memory

    def _bytes(self) -> memoryview:
        if self._rows is None:
            raise ValueError(_CLOSED)
        return self._whole

    def _table(self) -> mmap:
        if self._rows is None:
            raise ValueError(_CLOSED)
        return self._rows

    @property
    def closed(self) -> bool:
        """Whether the file was closed."""
        return self._rows is None

    def close(self) -> None:
        """Lets go of the memory. BufferError where a view of the file's bytes is alive; then the file stays open.

        Bytes that were given to `read` are the caller's: they, and views of them, stay as they are.
        """
        if self._rows is None:
            return
        try:
            self._whole.release()
            if self._own is not None:
                self._own.close()
        except BufferError:
            self._whole = view(self._source)[:self.length].toreadonly()
            raise BufferError(_IN_USE) from None
        self._source = b""
        self._own = self._rows = None

    def __enter__(self) -> File:
        return self

    def __exit__(self, kind: type[BaseException] | None, error: BaseException | None,
                 trace: TracebackType | None) -> None:
        """Closes the file. A view that is alive raises only where nothing else was raised."""
        try:
            self.close()
        except BufferError:
            if kind is None:
                raise

    def __repr__(self) -> str:
        stops = f"{self.number} at byte {self.stop}" if self.length else "no bytes"
        state = "closed" if self.closed else "clean" if self.clean else f"not clean, {stops}"
        return f"<ads_metafile.File {self.name!r}: {self._count} rows, {state}>"
