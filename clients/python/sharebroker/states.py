"""What the broker has stored of a share group."""

from __future__ import annotations

import ssl
import time
from dataclasses import dataclass
from enum import IntEnum
from typing import List, Optional, Sequence, Tuple

from .checks import MOST_MS, check_text, check_whole
from .errors import UNKNOWN_TOPIC_OR_PARTITION, MalformedReply, NotSent, Refused, UnknownTopic, Unreachable
from .link import Link, Topic
from .messages import READ_STATE, ReadPartition, ReadResult, ReadShareGroupStateRequest, ReadTopic


class DeliveryState(IntEnum):
    """The stored state of a record, by the numbers of KIP-932. One that is locked just now has its state from
    before."""

    AVAILABLE = 0
    ACKNOWLEDGED = 2
    ARCHIVED = 4


@dataclass(frozen=True)
class StoredRun:
    """Offsets, both ends within, whose records have one state and were delivered equally often."""

    first_offset: int
    last_offset: int
    state: DeliveryState
    delivery_count: int


@dataclass(frozen=True)
class PartitionState:
    """What is stored of a group on a partition. All below `start_offset` is acknowledged, archived or deleted, or came
    before the group, which isn't told apart any more; and what is in none of the runs was never delivered. Where the
    group has never fetched from the partition `start_offset` is None."""

    topic: str
    partition: int
    start_offset: Optional[int]
    runs: Tuple[StoredRun, ...]

    @property
    def done(self) -> int:
        """How many records from `start_offset` on are acknowledged."""
        return self._count(DeliveryState.ACKNOWLEDGED)

    @property
    def given_up(self) -> int:
        """How many records from `start_offset` on are archived: rejected, or released as often as the limit says."""
        return self._count(DeliveryState.ARCHIVED)

    def open_below(self, offset: int) -> int:
        """How many offsets below this one are neither acknowledged nor archived, from `start_offset` on."""
        if self.start_offset is None:
            return max(0, offset)
        closed = sum(min(run.last_offset + 1, offset) - run.first_offset for run in self.runs
                     if run.state is not DeliveryState.AVAILABLE and run.first_offset < offset)
        return max(0, offset - self.start_offset - closed)

    def _count(self, state: DeliveryState) -> int:
        return sum(run.last_offset + 1 - run.first_offset for run in self.runs if run.state is state)


def share_group_state(bootstrap_servers: str, group_id: str, topics: Optional[Sequence[str]] = None,
                      timeout_ms: int = 30000, ssl_context: Optional[ssl.SSLContext] = None) -> List[PartitionState]:
    """What is stored of a group on each partition of these topics, or of all. It changes nothing.

    `Unreachable`, `UnsupportedBroker`, `UnknownTopic`, `ConnectionLost`, `MalformedReply`; `Refused` (code 24: the
    group has no name or a longer one than 255 bytes).
    """
    check_text("group_id", group_id, 0, 32767)
    check_whole("timeout_ms", timeout_ms, 1, MOST_MS)
    if isinstance(topics, (str, bytes)):
        raise TypeError("topics is a list of names, or None for all")
    link = Link(bootstrap_servers, "sharebroker-python", timeout_ms, 50, 1000, ssl_context)
    try:
        connection = link.connect(time.monotonic() + timeout_ms / 1000)
        chosen = _choose(link, topics)
        request = ReadShareGroupStateRequest(group_id, [
            ReadTopic(topic.topic_id, [ReadPartition(number, 0) for number in range(topic.partitions)])
            for topic in chosen])
        try:
            reply = connection.call(READ_STATE, request)
        except NotSent as fault:
            raise Unreachable(str(fault)) from fault
        if [entry.topic_id for entry in reply.results] != [topic.topic_id for topic in chosen]:
            raise MalformedReply("the reply has other topics than the request", 0)
        return [_state_of(topic.name, result) for topic, entry in zip(chosen, reply.results)
                for result in entry.partitions]
    finally:
        link.close()


def _choose(link: Link, names: Optional[Sequence[str]]) -> List[Topic]:
    known = link.topics.by_name if link.topics else {}
    if names is None:
        return list(known.values())
    for name in names:
        if name not in known:
            raise UnknownTopic(f"the broker has no topic {name!r}")
    return [known[name] for name in names]


def _state_of(topic: str, result: ReadResult) -> PartitionState:
    if result.error_code == UNKNOWN_TOPIC_OR_PARTITION:
        return PartitionState(topic, result.partition, None, ())
    if result.error_code:
        raise Refused(f"ReadShareGroupState of {topic}/{result.partition}", result.error_code)
    try:
        runs = tuple(StoredRun(run.first_offset, run.last_offset, DeliveryState(run.delivery_state),
                               run.delivery_count) for run in result.state_batches)
    except ValueError as fault:
        raise MalformedReply(f"a stored run of {topic}/{result.partition}: {fault}", 0) from fault
    return PartitionState(topic, result.partition, result.start_offset, runs)
