"""Deletes records: a log starts at a later offset."""

from __future__ import annotations

import ssl
import time
from dataclasses import dataclass
from typing import Dict, List, Mapping, Optional, Tuple

from .checks import MOST_MS, check_text, check_whole
from .connection import check_versions
from .errors import ConnectionLost, MalformedReply, NotSent, Refused, UnknownTopic, Unreachable
from .link import Link
from .messages import (DELETE_RECORDS, DeletedPartition, DeletePartition, DeleteRecordsRequest, DeleteRecordsResponse,
                       DeleteTopic)

#: In place of an offset: all records that the log has when the broker does it.
LOG_END = -1


@dataclass(frozen=True)
class DeletedRecords:
    """What became of a partition: `low_watermark` is the offset at which its log starts now. Where the broker refused
    it, `error` says why, and `low_watermark` is None."""

    topic: str
    partition: int
    low_watermark: Optional[int]
    error: Optional[Refused]


def delete_records(bootstrap_servers: str, before_offsets: Mapping[Tuple[str, int], int],
                   timeout_ms: int = 30000, ssl_context: Optional[ssl.SSLContext] = None) -> List[DeletedRecords]:
    """Deletes the records below an offset of each of these partitions, given as `{(TOPIC, PARTITION): OFFSET}`, or all
    by the offset `LOG_END`; and gives what became of each, in the same order.

    A log that starts at the offset or behind it stays as it is. No share group is given a record below its log's start
    any more, and none has to be acknowledged: an acknowledgement of one counts as stored. On the broker's disk it takes
    the place that it had.

    Each partition has an outcome of its own. The codes in its `error`: 1, it is no offset of the log (below -1, or
    behind its end); 56, the broker's disk failed, and nothing is deleted.

    `Unreachable`, `UnsupportedBroker`, `UnknownTopic` (also where a topic has no such partition): nothing is deleted.
    `ConnectionLost`, `MalformedReply`: on each partition it is done or not. It may be asked again, as what is deleted
    stays so; but by `LOG_END` that deletes what has come since, too.
    """
    check_whole("timeout_ms", timeout_ms, 1, MOST_MS)
    for place, offset in before_offsets.items():
        if not isinstance(place, tuple) or len(place) != 2:
            raise TypeError("before_offsets has pairs of a topic and a partition, each with an offset")
        check_text("the topic in before_offsets", place[0], 0, 32767)
        check_whole("the partition in before_offsets", place[1], -1 << 31, (1 << 31) - 1)
        check_whole("the offset in before_offsets", offset, -1 << 63, (1 << 63) - 1)
    link = Link(bootstrap_servers, "sharebroker-python", timeout_ms, 50, 1000, ssl_context)
    try:
        connection = link.connect(time.monotonic() + timeout_ms / 1000)
        _check_places(link, before_offsets)
        try:
            # A broker of before serves all but this call.
            check_versions(connection, [DELETE_RECORDS])
        except (NotSent, ConnectionLost) as fault:
            raise Unreachable(str(fault)) from fault
        topics = _by_topic(before_offsets)
        try:
            reply = connection.call(DELETE_RECORDS, DeleteRecordsRequest(topics, timeout_ms))
        except NotSent as fault:
            raise Unreachable(str(fault)) from fault
        told = _match(topics, reply)
        return [_told(place, told[place]) for place in before_offsets]
    finally:
        link.close()


def _check_places(link: Link, before_offsets: Mapping[Tuple[str, int], int]) -> None:
    known = link.topics.by_name if link.topics else {}
    for name, partition in before_offsets:
        if name not in known:
            raise UnknownTopic(f"the broker has no topic {name!r}")
        if not 0 <= partition < known[name].partitions:
            raise UnknownTopic(f"the topic {name!r} has no partition {partition}")


def _by_topic(before_offsets: Mapping[Tuple[str, int], int]) -> List[DeleteTopic]:
    topics: Dict[str, List[DeletePartition]] = {}
    for (name, partition), offset in before_offsets.items():
        topics.setdefault(name, []).append(DeletePartition(partition, offset))
    return [DeleteTopic(name, partitions) for name, partitions in topics.items()]


def _match(topics: List[DeleteTopic], reply: DeleteRecordsResponse) -> Dict[Tuple[str, int], DeletedPartition]:
    """The answer for each partition of a request. Answers for others are a `MalformedReply`."""
    asked = [(topic.name, entry.partition_index) for topic in topics for entry in topic.partitions]
    told = [(topic.name, entry.partition_index) for topic in reply.topics for entry in topic.partitions]
    if told != asked:
        raise MalformedReply("the reply has other partitions than the request", 0)
    return dict(zip(told, [entry for topic in reply.topics for entry in topic.partitions]))


def _told(place: Tuple[str, int], answer: DeletedPartition) -> DeletedRecords:
    topic, partition = place
    if answer.error_code:
        error = Refused(f"DeleteRecords of {topic}/{partition}", answer.error_code)
        return DeletedRecords(topic, partition, None, error)
    return DeletedRecords(topic, partition, answer.low_watermark, None)
