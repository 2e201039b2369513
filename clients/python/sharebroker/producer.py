"""A producer: records are gathered into batches, and sent by a thread of its own."""

from __future__ import annotations

import ssl
import threading
import time
from concurrent.futures import Future
from dataclasses import dataclass
from typing import Optional, Sequence

from .accumulator import Accumulator, RecordMetadata
from .batches import BATCH_OVERHEAD, MAX_BATCH_BYTES, Header
from .checks import check_bytes, check_flag, check_ms, check_text, check_whole
from .errors import BufferFull, Closed, RecordTooLarge, UnknownTopic
from .link import Link, Topics
from .partitioner import partition_of
from .sender import Sender


@dataclass(frozen=True)
class ProducerSettings:
    """The settings of a producer. Names and defaults are those of Kafka's, where it has them."""

    #: What is wanted before a record counts as sent: 1 or -1, that it is stored and synced; 0, nothing.
    acks: int = -1
    #: A batch is sent when it has so many bytes, 61 to 1048588.
    batch_size: int = 16384
    #: How long a batch that isn't full waits for further records, in ms.
    linger_ms: float = 5
    #: How many bytes of records may wait for the broker. Then `send` waits.
    buffer_memory: int = 33554432
    #: How long `send` waits for room and for the topics, in ms. Then it is `BufferFull` or `Unreachable`.
    max_block_ms: int = 60000
    #: How many bytes of batches are sent in a request, but for its first batch.
    max_request_size: int = 1048576
    #: How long a connection and each reply is waited for, in ms.
    request_timeout_ms: int = 30000
    #: How long a batch is tried to be stored, from its first record on, in ms.
    delivery_timeout_ms: int = 120000
    #: The pause before a batch is sent again, in ms: at first, and at most.
    retry_backoff_ms: int = 100
    retry_backoff_max_ms: int = 1000
    #: The pause before a lost connection is made again, in ms: at first, and at most.
    reconnect_backoff_ms: int = 50
    reconnect_backoff_max_ms: int = 1000
    #: A connection that was silent for so long, in ms, is made again before it is used: less than the broker's
    #: `--idle-ms`, after which that one ends it.
    connections_max_idle_ms: float = 540000
    #: What connections are encrypted with, where they are.
    ssl_context: Optional[ssl.SSLContext] = None
    #: Whether a batch that was sent and not answered is sent again. It may then be stored twice: at least once.
    retry_unknown: bool = False
    #: A name that is sent along. The broker doesn't use it.
    client_id: str = "sharebroker-python"

    def check(self) -> None:
        """Settings that make no sense are a `ValueError` or a `TypeError`. The link checks those that it uses."""
        if self.acks not in (-1, 0, 1):
            raise ValueError(f"acks is -1, 0 or 1, and not {self.acks!r}")
        check_whole("batch_size", self.batch_size, BATCH_OVERHEAD, MAX_BATCH_BYTES)
        check_whole("buffer_memory", self.buffer_memory, MAX_BATCH_BYTES, 1 << 62)
        check_whole("max_request_size", self.max_request_size, 1, 8388608)
        check_flag("retry_unknown", self.retry_unknown)
        for name in ("linger_ms", "max_block_ms", "delivery_timeout_ms", "retry_backoff_ms", "retry_backoff_max_ms",
                     "reconnect_backoff_ms", "reconnect_backoff_max_ms", "connections_max_idle_ms"):
            check_ms(name, getattr(self, name))


class Producer:
    """Sends records to topics. Any thread may use it.

    One request is under way at a time, so the records of a partition are stored in the order in which they were sent,
    also where a batch is sent again.

        with Producer("localhost:9092") as producer:
            producer.send("jobs", b"resize picture 7", key=b"picture 7")
    """

    def __init__(self, bootstrap_servers: str, **settings: object) -> None:
        """Begins the thread that sends; nothing is connected to yet.

        `bootstrap_servers` is `HOST:PORT`, or several with commas between them. The settings are the fields of
        `ProducerSettings`. What isn't right in them is a `ValueError` or a `TypeError`.
        """
        self.settings = ProducerSettings(**settings)  # type: ignore[arg-type]
        self.settings.check()
        self._link = Link(bootstrap_servers, self.settings.client_id, self.settings.request_timeout_ms,
                          self.settings.reconnect_backoff_ms, self.settings.reconnect_backoff_max_ms,
                          self.settings.ssl_context, self.settings.connections_max_idle_ms)
        self._changed = threading.Condition()
        self._waiting = Accumulator(self.settings.batch_size, self.settings.linger_ms, self.settings.max_request_size)
        self._sender = Sender(self.settings, self._link, self._waiting, self._changed)
        self._next_partition = 0
        self._closed = False
        self._sender.start()

    def __enter__(self) -> Producer:
        return self

    def __exit__(self, *_: object) -> None:
        self.close()

    def send(self, topic: str, value: Optional[bytes], key: Optional[bytes] = None,
             headers: Sequence[Header] = (), partition: Optional[int] = None,
             timestamp_ms: Optional[int] = None) -> Future[RecordMetadata]:
        """Adds a record to a batch, and gives what will become of it.

        Without a partition a record with a key goes where Kafka's hash of the key says, and one without goes where the
        records without a key gather just now. `timestamp_ms` is the time in ms since 1970 (UTC), else the time now.
        Headers are pairs of a text and bytes or None. An argument of another type or value is a `TypeError` or a
        `ValueError`.

        At once: `UnknownTopic`, `RecordTooLarge`, `BufferFull`, `Unreachable`, `Closed`; then the record isn't sent.

        The future's callbacks run in the thread that sends, so they must not wait for it, as `flush` and `close` do.

        In the future's `result()`: where and at which offset it is stored; or `Refused` (it isn't stored; with code 56
        never, as that is sent again), `OutcomeUnknown` (it may be), `DeliveryTimeout`, `Closed` (it isn't).
        """
        check_text("topic", topic, 0, 32767)
        check_bytes("value", value)
        check_bytes("key", key)
        _check_headers(headers)
        if partition is not None:
            check_whole("partition", partition, 0, 2147483647)
        if timestamp_ms is None:
            timestamp_ms = int(time.time() * 1000)
        check_whole("timestamp_ms", timestamp_ms, 0, (1 << 63) - 1)
        deadline = time.monotonic() + self.settings.max_block_ms / 1000
        with self._changed:
            self._check_open()
            number = self._choose(topic, key, partition, deadline)
            size = len(value or b"") + len(key or b"")
            if size > MAX_BATCH_BYTES:
                raise RecordTooLarge(BATCH_OVERHEAD + size, MAX_BATCH_BYTES)
            self._wait_for_room(size, deadline)
            future = self._waiting.add(topic, number, timestamp_ms, key, value, headers)
            self._changed.notify_all()
        return future

    def flush(self, timeout_ms: Optional[float] = None) -> bool:
        """Sends what was given to `send` before, and waits until it is stored or refused, at most `timeout_ms`.

        It is False where the time was up; what is left is sent all the same. What became of a record is told by its
        future.
        """
        if timeout_ms is not None:
            check_ms("timeout_ms", timeout_ms)
        deadline = None if timeout_ms is None else time.monotonic() + timeout_ms / 1000
        with self._changed:
            batches = self._waiting.hurry()
            self._changed.notify_all()
            while not all(batch.is_done for batch in batches):
                left = None if deadline is None else deadline - time.monotonic()
                if left is not None and left <= 0:
                    return False
                self._changed.wait(left)
        return True

    def close(self, timeout_ms: Optional[float] = None) -> None:
        """Sends what waits, at most `timeout_ms` long, and closes the connection. The futures of what is left are
        `Closed`, and it isn't stored; or `OutcomeUnknown` where it was sent. A second call does nothing."""
        if timeout_ms is not None:
            check_ms("timeout_ms", timeout_ms)
        with self._changed:
            if self._closed:
                return
            self._closed = True
        self.flush(timeout_ms)
        self._sender.stop()

    def partitions_for(self, topic: str) -> int:
        """How many partitions a topic has. `UnknownTopic`, `Unreachable`, `Closed`."""
        check_text("topic", topic, 0, 32767)
        with self._changed:
            self._check_open()
            return self._count(topic, time.monotonic() + self.settings.max_block_ms / 1000)

    def _check_open(self) -> None:
        if self._closed:
            raise Closed("the producer was closed")

    def _count(self, topic: str, deadline: float) -> int:
        known: Optional[Topics] = self._link.topics
        if known is None or topic not in known.by_name:
            known = self._sender.ask_topics(deadline)
        if topic not in known.by_name:
            raise UnknownTopic(f"the broker has no topic {topic!r}")
        return known.by_name[topic].partitions

    def _choose(self, topic: str, key: Optional[bytes], partition: Optional[int], deadline: float) -> int:
        count = self._count(topic, deadline)
        if partition is not None:
            if not 0 <= partition < count:
                raise UnknownTopic(f"the topic {topic!r} has no partition {partition}")
            return partition
        if key is not None:
            return partition_of(key, count)
        return self._waiting.gathering(topic, count)

    def _wait_for_room(self, size: int, deadline: float) -> None:
        while self._waiting.bytes_waiting + size > self.settings.buffer_memory:
            left = deadline - time.monotonic()
            if left <= 0:
                raise BufferFull(f"{self._waiting.bytes_waiting} bytes wait for the broker")
            self._changed.wait(left)
            self._check_open()


def _check_headers(headers: Sequence[Header]) -> None:
    if isinstance(headers, (str, bytes, dict)):
        raise TypeError("headers is a list of pairs of a text and bytes or None")
    for header in headers:
        if not isinstance(header, (tuple, list)) or len(header) != 2 or not isinstance(header[0], str):
            raise TypeError("headers is a list of pairs of a text and bytes or None")
        check_bytes("the value of a header", header[1])
