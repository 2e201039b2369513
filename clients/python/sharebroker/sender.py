"""The thread of a producer that sends its batches."""

from __future__ import annotations

import threading
import time
from typing import TYPE_CHECKING, Dict, List, Optional, Tuple

from .accumulator import Accumulator, Batch
from .errors import (CORRUPT_MESSAGE, KAFKA_STORAGE_ERROR, Closed, ConnectionLost, DeliveryTimeout, MalformedReply,
                     NotSent, OutcomeUnknown, Refused, ShareBrokerError, Unreachable)
from .link import LOG, Link, Topics
from .messages import (PRODUCE, ProducedPartition, ProducePartition, ProduceRequest, ProduceResponse,
                       ProduceTopic)

if TYPE_CHECKING:
    from .producer import ProducerSettings

#: The codes after which a batch is sent again. With 2 it came in other bytes; with 56 the broker's disk failed.
SENT_AGAIN = (CORRUPT_MESSAGE, KAFKA_STORAGE_ERROR)
#: How long a connection is tried before the batches are looked at again, in seconds.
CONNECT_S = 1.0


class Sender:
    """Sends the batches that are due, one request at a time, and tells their futures what became of them."""

    def __init__(self, settings: ProducerSettings, link: Link, waiting: Accumulator,
                 changed: threading.Condition) -> None:
        self._settings = settings
        self._link = link
        self._waiting = waiting
        self._changed = changed
        self._wants_topics = False
        self._topics_fault: Optional[Exception] = None
        self._ends = False
        self._thread = threading.Thread(target=self._run, name="sharebroker-sender", daemon=True)

    def start(self) -> None:
        """Begins the thread."""
        self._thread.start()

    def stop(self) -> None:
        """Ends the thread at once. What wasn't sent fails with `Closed`."""
        with self._changed:
            self._ends = True
            self._changed.notify_all()
        self._link.close()
        self._thread.join()
        with self._changed:
            left = self._waiting.take_all()
        for batch in left:
            self._fail(batch, Closed("the producer was closed before the batch was stored"))

    def ask_topics(self, deadline: float) -> Topics:
        """Asks the broker for its topics anew. The lock is held, and is given away while this waits.

        `Unreachable` where they weren't told in time; `Closed`; `UnsupportedBroker`.
        """
        self._wants_topics, self._topics_fault = True, None
        self._changed.notify_all()
        while self._wants_topics:
            left = deadline - time.monotonic()
            if left <= 0:
                raise Unreachable("the broker didn't tell its topics in time")
            self._changed.wait(left)
            if self._ends:
                raise Closed("the producer was closed")
        if self._topics_fault is not None:
            raise self._topics_fault
        assert self._link.topics is not None
        return self._link.topics

    def _run(self) -> None:
        while True:
            with self._changed:
                batches = self._next_work()
                wants_topics = self._wants_topics
            if batches:
                self._send(batches)
            if self._ends:
                return
            if wants_topics:
                self._tell_topics()

    def _next_work(self) -> List[Batch]:
        """Waits until batches are due, topics are wanted, or the end is."""
        while not self._ends:
            now = time.monotonic()
            batches = self._waiting.take_due(now)
            if batches or self._wants_topics:
                return batches
            due = self._waiting.next_due()
            self._changed.wait(None if due is None else max(0.0, due - now))
        return []

    def _tell_topics(self) -> None:
        fault: Optional[Exception] = None
        try:
            self._link.refresh_topics(time.monotonic() + CONNECT_S)
        except Unreachable:
            return
        except ShareBrokerError as told:
            fault = told
        with self._changed:
            self._wants_topics, self._topics_fault = False, fault
            self._changed.notify_all()

    def _send(self, batches: List[Batch]) -> None:
        try:
            connection = self._link.connect(time.monotonic() + CONNECT_S)
            request, ordered = self._request(batches)
            if self._settings.acks == 0:
                connection.send_only(PRODUCE, request)
                answers: List[Optional[ProducedPartition]] = [None] * len(ordered)
            else:
                answers = match(ordered, connection.call(PRODUCE, request))
        except (Unreachable, NotSent) as fault:
            if isinstance(fault, NotSent):
                self._link.lost(fault)
            self._again(batches, fault, 0)
            self._fail_old(fault)
        except (ConnectionLost, MalformedReply) as fault:
            self._link.lost(fault)
            for batch in batches:
                self._unknown(batch, fault)
            self._fail_old(fault)
        except ShareBrokerError as fault:
            for batch in batches:
                self._fail(batch, fault)
        else:
            self._link.works()
            for batch, answer in zip(ordered, answers):
                self._answered(batch, answer)

    def _request(self, batches: List[Batch]) -> Tuple[ProduceRequest, List[Batch]]:
        """A request with these batches, and the batches in its order."""
        by_topic: Dict[str, List[Batch]] = {}
        for batch in batches:
            batch.tries += 1
            by_topic.setdefault(batch.topic, []).append(batch)
        topics = [ProduceTopic(topic, [ProducePartition(batch.partition, batch.records()) for batch in of_topic])
                  for topic, of_topic in by_topic.items()]
        ordered = [batch for of_topic in by_topic.values() for batch in of_topic]
        return ProduceRequest(None, self._settings.acks, self._settings.request_timeout_ms, topics), ordered

    def _answered(self, batch: Batch, answer: Optional[ProducedPartition]) -> None:
        if answer is None:
            self._store(batch, -1)
        elif answer.error_code == 0:
            self._store(batch, answer.base_offset)
        else:
            fault = Refused(f"Produce to {batch.topic}/{batch.partition}", answer.error_code)
            if answer.error_code in SENT_AGAIN:
                self._refused_for_now(batch, fault)
            else:
                self._fail(batch, fault)

    def _refused_for_now(self, batch: Batch, fault: Refused) -> None:
        if fault.code == KAFKA_STORAGE_ERROR:
            batch.doubt = fault
            LOG.warning("%s; its %d records are sent again, and if the broker loses power in between, both may be kept",
                        fault, len(batch.futures))
        pause_ms = self._settings.retry_backoff_ms * 2 ** min(batch.tries - 1, 20)
        self._again([batch], fault, min(pause_ms, self._settings.retry_backoff_max_ms))

    def _unknown(self, batch: Batch, fault: Exception) -> None:
        told = OutcomeUnknown(f"{batch.topic}/{batch.partition}: {len(batch.futures)} records were sent, and it isn't "
                              f"known whether they are stored: {fault}")
        if not self._settings.retry_unknown:
            self._fail(batch, told)
            return
        LOG.warning("%s; they are sent again, and may be stored twice", told)
        batch.doubt = told
        self._again([batch], told, 0)

    def _again(self, batches: List[Batch], fault: Exception, pause_ms: float) -> None:
        """Puts batches back to be sent again after a pause, or fails them where their time is up."""
        now = time.monotonic()
        for batch in batches:
            if now < batch.since + self._settings.delivery_timeout_ms / 1000:
                with self._changed:
                    self._waiting.put_back(batch, now + pause_ms / 1000)
            else:
                self._time_is_up(batch, fault)

    def _fail_old(self, fault: Exception) -> None:
        """Fails the batches that wait and whose time is up, where the connection is gone by which they would be
        sent."""
        with self._changed:
            old = self._waiting.take_older(time.monotonic() - self._settings.delivery_timeout_ms / 1000)
        for batch in old:
            self._time_is_up(batch, fault)

    def _time_is_up(self, batch: Batch, fault: Exception) -> None:
        told = DeliveryTimeout(f"{batch.topic}/{batch.partition}: {len(batch.futures)} records couldn't be stored "
                               f"within {self._settings.delivery_timeout_ms} ms: {fault}")
        told.__cause__ = batch.doubt or fault
        self._fail(batch, told)

    def _store(self, batch: Batch, base_offset: int) -> None:
        batch.stored(base_offset)
        self._forget(batch)

    def _fail(self, batch: Batch, fault: Exception) -> None:
        """Fails a batch. One that an earlier sending may have stored isn't told as one that isn't stored."""
        if batch.doubt is not None and not isinstance(fault, (DeliveryTimeout, OutcomeUnknown)):
            told = OutcomeUnknown(f"{batch.doubt}; and when it was sent again: {fault}")
            told.__cause__ = fault
            fault = told
        batch.failed(fault)
        self._forget(batch)

    def _forget(self, batch: Batch) -> None:
        with self._changed:
            self._waiting.done(batch)
            self._changed.notify_all()


def match(batches: List[Batch], reply: ProduceResponse) -> List[Optional[ProducedPartition]]:
    """The answer to each batch of a request. Answers for others are a `MalformedReply`."""
    told = [(topic.name, entry.index) for topic in reply.responses for entry in topic.partition_responses]
    if told != [(batch.topic, batch.partition) for batch in batches]:
        raise MalformedReply("the reply has other partitions than the request", 0)
    return [entry for topic in reply.responses for entry in topic.partition_responses]
