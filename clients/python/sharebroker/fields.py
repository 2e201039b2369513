"""Fields of Kafka messages in the flexible encoding (KIP-482), and structures made of them.

Numbers have their high byte first. A length or a number of elements is an unsigned varint, one more than it says, and 0
for null. Each structure ends in tags, which are passed over when they are read and never written.
"""

from __future__ import annotations

import struct
from typing import Any, Callable, Generic, List, Optional, Protocol, Sequence, TypeVar
from uuid import UUID

from .errors import MalformedReply

T = TypeVar("T")


class Writer:
    """Bytes that are written field by field."""

    def __init__(self) -> None:
        self._bytes = bytearray()

    def raw(self, data: bytes) -> None:
        """Writes these bytes as they are."""
        self._bytes += data

    def uvarint(self, value: int) -> None:
        """Writes a number of 0 to 2^32 - 1, seven bits a byte, low ones first, in as few bytes as it can be."""
        while value > 0x7F:
            self._bytes.append(value & 0x7F | 0x80)
            value >>= 7
        self._bytes.append(value)

    def zigzag(self, value: int) -> None:
        """Writes a signed number of up to 64 bits, as record batches have it: 0, -1, 1, -2 are 0, 1, 2, 3."""
        self.uvarint(value << 1 if value >= 0 else (-value << 1) - 1)

    def done(self) -> bytes:
        """All that was written."""
        return bytes(self._bytes)


class Reader:
    """Bytes that are read field by field, from a place on. What can't be read is a `MalformedReply` with its place."""

    def __init__(self, data: bytes, place: int = 0, end: Optional[int] = None) -> None:
        self.place = place
        self._data = data
        self._end = len(data) if end is None else end

    def left(self) -> int:
        """How many bytes are left."""
        return self._end - self.place

    def raw(self, size: int) -> bytes:
        """The next `size` bytes."""
        if size > self.left():
            raise MalformedReply("Short", self.place)
        self.place += size
        return self._data[self.place - size:self.place]

    def _varint(self, most_bytes: int, top: int) -> int:
        start, value = self.place, 0
        for i in range(most_bytes):
            if self.place == self._end:
                self.place = start
                raise MalformedReply("Short", start)
            byte = self._data[self.place]
            self.place += 1
            value |= (byte & 0x7F) << 7 * i
            if byte < 0x80 and value < top:
                return value
        self.place = start
        raise MalformedReply("BadVarint", start)

    def uvarint(self) -> int:
        """An unsigned varint of at most 5 bytes, below 2^32. A longer spelling than need be is read too."""
        return self._varint(5, 1 << 32)

    def varint(self) -> int:
        """A zigzag varint of 32 bits, as record batches have it."""
        value = self._varint(5, 1 << 32)
        return value >> 1 ^ -(value & 1)

    def varlong(self) -> int:
        """A zigzag varint of 64 bits, of at most 10 bytes."""
        value = self._varint(10, 1 << 64)
        return value >> 1 ^ -(value & 1)

    def end(self) -> None:
        """Refuses bytes that are left."""
        if self.left():
            raise MalformedReply("Trailing", self.place)


class Kind(Protocol):
    """How the values of a kind of field are written and read."""

    def write(self, to: Writer, value: Any) -> None:
        """Writes a value."""

    def read(self, source: Reader) -> Any:
        """Reads a value."""


class Int:
    """A signed number of 1, 2, 4 or 8 bytes."""

    def __init__(self, code: str) -> None:
        self._struct = struct.Struct(">" + code)

    def write(self, to: Writer, value: int) -> None:
        to.raw(self._struct.pack(value))

    def read(self, source: Reader) -> int:
        value: int = self._struct.unpack(source.raw(self._struct.size))[0]
        return value


class Bool:
    """A byte: 0 is false, any other is true."""

    def write(self, to: Writer, value: bool) -> None:
        to.raw(b"\1" if value else b"\0")

    def read(self, source: Reader) -> bool:
        return source.raw(1) != b"\0"


class Uuid:
    """16 bytes in the order of the text."""

    def write(self, to: Writer, value: UUID) -> None:
        to.raw(value.bytes)

    def read(self, source: Reader) -> UUID:
        return UUID(bytes=source.raw(16))


class Bytes:
    """A length and that many bytes, or null where that is allowed."""

    def __init__(self, nullable: bool) -> None:
        self._nullable = nullable

    def write(self, to: Writer, value: Optional[bytes]) -> None:
        if value is None:
            if not self._nullable:
                raise ValueError("null isn't allowed here")
            to.uvarint(0)
            return
        to.uvarint(len(value) + 1)
        to.raw(value)

    def read(self, source: Reader) -> Optional[bytes]:
        start = source.place
        size = source.uvarint()
        if size == 0 and self._nullable:
            return None
        if size == 0:
            raise MalformedReply("BadLength", start)
        if size - 1 > source.left():
            raise MalformedReply("Short", start)
        return source.raw(size - 1)


class Text:
    """A length and that many bytes of UTF-8, or null where that is allowed."""

    def __init__(self, nullable: bool) -> None:
        self._bytes = Bytes(nullable)

    def write(self, to: Writer, value: Optional[str]) -> None:
        self._bytes.write(to, None if value is None else value.encode())

    def read(self, source: Reader) -> Optional[str]:
        start = source.place
        value = self._bytes.read(source)
        try:
            return None if value is None else value.decode()
        except UnicodeDecodeError:
            raise MalformedReply("NotUtf8", start) from None


class Array:
    """A number of elements and the elements, or null where that is allowed."""

    def __init__(self, element: Kind, nullable: bool = False) -> None:
        self._element = element
        self._nullable = nullable

    def write(self, to: Writer, value: Optional[Sequence[Any]]) -> None:
        if value is None:
            if not self._nullable:
                raise ValueError("null isn't allowed here")
            to.uvarint(0)
            return
        to.uvarint(len(value) + 1)
        for element in value:
            self._element.write(to, element)

    def read(self, source: Reader) -> Optional[List[Any]]:
        start = source.place
        number = source.uvarint()
        if number == 0 and self._nullable:
            return None
        if number == 0 or number - 1 > source.left():
            raise MalformedReply("BadLength", start)
        return [self._element.read(source) for _ in range(number - 1)]


class Optionally:
    """A structure that may be missing: -1 as a byte for null, or 1 and the structure."""

    def __init__(self, inner: Kind) -> None:
        self._inner = inner

    def write(self, to: Writer, value: Optional[Any]) -> None:
        to.raw(b"\xff" if value is None else b"\1")
        if value is not None:
            self._inner.write(to, value)

    def read(self, source: Reader) -> Optional[Any]:
        start = source.place
        mark = source.raw(1)
        if mark not in (b"\xff", b"\1"):
            raise MalformedReply("BadLength", start)
        return None if mark == b"\xff" else self._inner.read(source)


def skip_tags(source: Reader) -> None:
    """Passes over tags: a number of them, and for each a tag, a size, and that many bytes."""
    for _ in range(source.uvarint()):
        source.uvarint()
        start = source.place
        size = source.uvarint()
        if size > source.left():
            raise MalformedReply("Short", start)
        source.raw(size)


class Structure(Generic[T]):
    """A message, or an element of one: its fields in order, and tags. `make` makes the value from its fields by
    name."""

    def __init__(self, make: Callable[..., T], **fields: Kind) -> None:
        self._make = make
        self._fields = fields

    def write(self, to: Writer, value: T) -> None:
        """Writes a value, without tags."""
        for name, kind in self._fields.items():
            kind.write(to, getattr(value, name))
        to.uvarint(0)

    def read(self, source: Reader) -> T:
        """Reads a value, and passes over its tags."""
        values = {name: kind.read(source) for name, kind in self._fields.items()}
        skip_tags(source)
        return self._make(**values)


INT8 = Int("b")
INT16 = Int("h")
INT32 = Int("i")
INT64 = Int("q")
BOOL = Bool()
UUID_BYTES = Uuid()
BYTES = Bytes(nullable=False)
NULLABLE_BYTES = Bytes(nullable=True)
TEXT = Text(nullable=False)
NULLABLE_TEXT = Text(nullable=True)
