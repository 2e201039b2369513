"""The batches of a producer that wait to be sent."""

from __future__ import annotations

import time
from collections import deque
from concurrent.futures import Future
from dataclasses import dataclass
from typing import Deque, Dict, List, Optional, Sequence, Tuple

from .batches import BATCH_OVERHEAD, MAX_BATCH_BYTES, BatchBuilder, Header, size_alone
from .errors import RecordTooLarge


@dataclass(frozen=True)
class RecordMetadata:
    """Where a record is stored: its topic, its partition, and its offset, -1 with acks 0.

    `maybe_stored_twice` is True where its batch was sent before, and that sending may have stored it too: it wasn't
    answered, or it was answered with code 56 and a power loss of the broker may have kept it.
    """

    topic: str
    partition: int
    offset: int
    maybe_stored_twice: bool


class Batch:
    """A batch, and what will become of each record of it. `since` is when its first record came (`time.monotonic`)."""

    def __init__(self, topic: str, partition: int) -> None:
        self.topic = topic
        self.partition = partition
        self.builder = BatchBuilder()
        self.futures: List[Future[RecordMetadata]] = []
        self.since = time.monotonic()
        self.not_before = 0.0
        self.tries = 0
        self.is_hurried = False
        self.is_done = False
        #: Why an earlier sending may have stored it, where one may.
        self.doubt: Optional[Exception] = None
        self._bytes: Optional[bytes] = None

    def add(self, timestamp_ms: int, key: Optional[bytes], value: Optional[bytes], headers: Sequence[Header],
            most_bytes: int) -> Optional[Future[RecordMetadata]]:
        """Adds a record where the batch then has at most `most_bytes`."""
        if not self.builder.add(timestamp_ms, key, value, headers, most_bytes):
            return None
        future: Future[RecordMetadata] = Future()
        self.futures.append(future)
        return future

    def records(self) -> bytes:
        """Its bytes. No record is added after this."""
        if self._bytes is None:
            self._bytes = self.builder.build()
        return self._bytes

    def stored(self, base_offset: int) -> None:
        """Tells each record its offset, from the first one on, or -1 where that is -1."""
        for i, future in enumerate(self.futures):
            offset = base_offset if base_offset < 0 else base_offset + i
            if future.set_running_or_notify_cancel():
                future.set_result(RecordMetadata(self.topic, self.partition, offset, self.doubt is not None))

    def failed(self, fault: Exception) -> None:
        """Tells each record why it failed."""
        for future in self.futures:
            if future.set_running_or_notify_cancel():
                future.set_exception(fault)


class Accumulator:
    """The batches that wait, in order for each partition. It isn't guarded: its users hold one lock around each call.

    `bytes_waiting` counts the batches that wait and those that were taken and aren't done.
    """

    def __init__(self, batch_size: int, linger_ms: float, max_request_size: int) -> None:
        self.bytes_waiting = 0
        self._batch_size = batch_size
        self._linger = linger_ms / 1000
        self._max_request_size = max_request_size
        self._queues: Dict[Tuple[str, int], Deque[Batch]] = {}
        self._taken: List[Batch] = []
        self._gathering: Dict[str, int] = {}

    def add(self, topic: str, partition: int, timestamp_ms: int, key: Optional[bytes], value: Optional[bytes],
            headers: Sequence[Header]) -> Future[RecordMetadata]:
        """Adds a record to the last batch of a partition, or to a new one where that is full or has been tried.

        A record that is too long for any batch is a `RecordTooLarge`, and nothing is added.
        """
        queue = self._queues.setdefault((topic, partition), deque())
        future = None
        if queue and not queue[-1].tries:
            future = self._put(queue[-1], timestamp_ms, key, value, headers, self._batch_size)
        if future is None:
            batch = Batch(topic, partition)
            future = self._put(batch, timestamp_ms, key, value, headers, MAX_BATCH_BYTES)
            if future is None:
                raise RecordTooLarge(size_alone(timestamp_ms, key, value, headers), MAX_BATCH_BYTES)
            self.bytes_waiting += BATCH_OVERHEAD
            queue.append(batch)
        return future

    def _put(self, batch: Batch, timestamp_ms: int, key: Optional[bytes], value: Optional[bytes],
             headers: Sequence[Header], most_bytes: int) -> Optional[Future[RecordMetadata]]:
        before = batch.builder.size
        future = batch.add(timestamp_ms, key, value, headers, most_bytes)
        self.bytes_waiting += batch.builder.size - before
        return future

    def gathering(self, topic: str, partitions: int) -> int:
        """The partition where records without a key gather: the same one until its batch is full or taken."""
        number = self._gathering.get(topic, 0) % partitions
        queue = self._queues.get((topic, number))
        if queue is not None and len(queue) > 1:
            number = (number + 1) % partitions
        self._gathering[topic] = number
        return number

    def hurry(self) -> List[Batch]:
        """All batches that aren't done, which are to be sent without waiting for more."""
        batches = [batch for queue in self._queues.values() for batch in queue]
        for batch in batches:
            batch.is_hurried = True
        return batches + self._taken

    def due_at(self, batch: Batch, has_followers: bool) -> float:
        """When a batch that is its partition's first is to be sent (`time.monotonic`)."""
        is_full = has_followers or batch.builder.size >= self._batch_size
        if is_full or batch.is_hurried or batch.tries:
            return batch.not_before
        return max(batch.since + self._linger, batch.not_before)

    def next_due(self) -> Optional[float]:
        """When the next batch is to be sent (`time.monotonic`), or None where none waits."""
        return min((self.due_at(queue[0], len(queue) > 1) for queue in self._queues.values() if queue), default=None)

    def take_due(self, now: float) -> List[Batch]:
        """Takes the batches that are to be sent now in a request: at most one a partition, the oldest first."""
        due = [queue for queue in self._queues.values() if queue and self.due_at(queue[0], len(queue) > 1) <= now]
        due.sort(key=lambda queue: queue[0].since)
        taken: List[Batch] = []
        size = 0
        for queue in due:
            size += queue[0].builder.size
            if taken and size > self._max_request_size:
                break
            taken.append(queue.popleft())
        for batch in taken:
            if self._gathering.get(batch.topic) == batch.partition:
                self._gathering[batch.topic] = batch.partition + 1
        self._taken += taken
        return taken

    def take_older(self, moment: float) -> List[Batch]:
        """Takes the batches that wait and whose first record came at this moment or before (`time.monotonic`)."""
        taken: List[Batch] = []
        for queue in self._queues.values():
            while queue and queue[0].since <= moment:
                taken.append(queue.popleft())
        self._taken += taken
        return taken

    def put_back(self, batch: Batch, not_before: float) -> None:
        """Puts a batch that was taken back as its partition's first, to be sent again from this moment on."""
        self._taken.remove(batch)
        batch.not_before = not_before
        self._queues.setdefault((batch.topic, batch.partition), deque()).appendleft(batch)

    def done(self, batch: Batch) -> None:
        """Forgets a batch that was taken and is stored or failed."""
        self._taken.remove(batch)
        batch.is_done = True
        self.bytes_waiting -= batch.builder.size

    def take_all(self) -> List[Batch]:
        """Takes all that waits."""
        batches = [batch for queue in self._queues.values() for batch in queue]
        self._queues.clear()
        self._taken += batches
        return batches
