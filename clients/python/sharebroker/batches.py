"""Record batches of Kafka's format 2: how a producer's are written, and how those of a log are read."""

from __future__ import annotations

import struct
from dataclasses import dataclass
from typing import Iterator, List, Optional, Sequence, Tuple

from .checksum import crc32c
from .errors import MalformedReply
from .fields import Reader, Writer

#: A header of a record: its name, and a value or None.
Header = Tuple[str, Optional[bytes]]

#: How many bytes a batch has before its records.
BATCH_OVERHEAD = 61
#: How many bytes a batch may have for the broker.
MAX_BATCH_BYTES = 1048588

# Base offset, batch length, leader epoch, magic, checksum; then what the checksum is of: attributes, last offset
# delta, first and greatest timestamp, producer id, producer epoch, base sequence, number of records.
_FRONT = struct.Struct(">qiibI")
_CHECKED = struct.Struct(">hiqqqhii")


@dataclass(frozen=True)
class StoredRecord:
    """A record of a log: its offset, its time in milliseconds since 1970 (UTC), and what its producer gave."""

    offset: int
    timestamp_ms: int
    key: Optional[bytes]
    value: Optional[bytes]
    headers: Tuple[Header, ...]


def _put_bytes(to: Writer, value: Optional[bytes]) -> None:
    to.zigzag(-1 if value is None else len(value))
    to.raw(value or b"")


def _record(offset_delta: int, timestamp_delta: int, key: Optional[bytes], value: Optional[bytes],
            headers: Sequence[Header]) -> bytes:
    body = Writer()
    body.raw(b"\0")
    body.zigzag(timestamp_delta)
    body.zigzag(offset_delta)
    _put_bytes(body, key)
    _put_bytes(body, value)
    body.zigzag(len(headers))
    for name, content in headers:
        _put_bytes(body, name.encode())
        _put_bytes(body, content)
    whole, record = body.done(), Writer()
    record.zigzag(len(whole))
    record.raw(whole)
    return record.done()


def size_alone(timestamp_ms: int, key: Optional[bytes], value: Optional[bytes], headers: Sequence[Header]) -> int:
    """How many bytes a batch has with this record alone."""
    builder = BatchBuilder()
    builder.add(timestamp_ms, key, value, headers, 1 << 62)
    return builder.size


class BatchBuilder:
    """A batch that records are added to. It isn't compressed, and has no producer id."""

    def __init__(self) -> None:
        self._records: List[bytes] = []
        self._base_timestamp_ms = 0
        self._max_timestamp_ms = 0
        #: How many bytes the batch has by now.
        self.size = BATCH_OVERHEAD

    def __len__(self) -> int:
        return len(self._records)

    def add(self, timestamp_ms: int, key: Optional[bytes], value: Optional[bytes], headers: Sequence[Header],
            most_bytes: int) -> bool:
        """Adds a record where the batch then has at most `most_bytes`. Otherwise it stays as it was, and it is
        False."""
        base = self._base_timestamp_ms if self._records else timestamp_ms
        record = _record(len(self._records), timestamp_ms - base, key, value, headers)
        if self.size + len(record) > most_bytes:
            return False
        self._max_timestamp_ms = max(self._max_timestamp_ms, timestamp_ms) if self._records else timestamp_ms
        self._base_timestamp_ms = base
        self._records.append(record)
        self.size += len(record)
        return True

    def build(self) -> bytes:
        """The batch. There has to be a record."""
        number = len(self._records)
        checked = _CHECKED.pack(0, number - 1, self._base_timestamp_ms, self._max_timestamp_ms, -1, -1, -1, number)
        checked += b"".join(self._records)
        return _FRONT.pack(0, _FRONT.size - 12 + len(checked), 0, 2, crc32c(checked)) + checked


def _take_bytes(source: Reader) -> Optional[bytes]:
    start = source.place
    size = source.varint()
    if size < -1:
        raise MalformedReply("BadLength", start)
    return None if size == -1 else source.raw(size)


def _take_header(source: Reader) -> Header:
    start = source.place
    name = _take_bytes(source)
    if name is None:
        raise MalformedReply("BadLength", start)
    return name.decode(errors="replace"), _take_bytes(source)


def _take_record(source: Reader, base_offset: int, base_timestamp_ms: int) -> StoredRecord:
    start = source.place
    end = source.varint() + source.place
    source.raw(1)
    timestamp_ms = base_timestamp_ms + source.varlong()
    offset = base_offset + source.varint()
    key, value = _take_bytes(source), _take_bytes(source)
    headers = tuple([_take_header(source) for _ in range(source.varint())])
    if source.place != end:
        raise MalformedReply("a record has another length than it says", start)
    return StoredRecord(offset, timestamp_ms, key, value, headers)


def read_batches(data: bytes, check_crcs: bool = True) -> Iterator[StoredRecord]:
    """The records of stored batches, one batch behind another, in order.

    Bytes that are no batch, a checksum that doesn't agree (where it is looked at), and a batch that is compressed are a
    `MalformedReply`, which comes when the records of the batches before have been given.
    """
    place = 0
    while place < len(data):
        if len(data) - place < BATCH_OVERHEAD:
            raise MalformedReply("Short", place)
        base_offset, length, _, magic, checksum = _FRONT.unpack_from(data, place)
        end = place + 12 + length
        if length < BATCH_OVERHEAD - 12 or end > len(data):
            raise MalformedReply("Short", place)
        if magic != 2:
            raise MalformedReply("a batch isn't of format 2", place)
        if check_crcs and crc32c(data[place + _FRONT.size:end]) != checksum:
            raise MalformedReply("the checksum of a batch doesn't agree", place)
        attributes, _, base_timestamp_ms, _, _, _, _, number = _CHECKED.unpack_from(data, place + _FRONT.size)
        if attributes & 7:
            raise MalformedReply("a batch is compressed", place)
        source = Reader(data, place + BATCH_OVERHEAD, end)
        for _ in range(number):
            yield _take_record(source, base_offset, base_timestamp_ms)
        source.end()
        place = end
