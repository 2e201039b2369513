"""A share session: what one member holds by one connection (KIP-932)."""

from __future__ import annotations

from typing import Dict, Iterable, List, Sequence

from .connection import Connection
from .errors import Refused
from .hand import Part
from .share_messages import (SHARE_ACKNOWLEDGE, SHARE_FETCH, AcknowledgementBatch, AskedPartition, AskedTopic,
                             ShareAcknowledgeRequest, ShareAcknowledgeResponse, ShareFetchRequest, ShareFetchResponse,
                             TopicPartitions)

#: So much later than it was asked to a wait at the broker may end, in ms, as the broker looks once a second.
LATE_MS = 1000

Batches = Dict[Part, List[AcknowledgementBatch]]


def by_topic(parts: Iterable[Part]) -> List[TopicPartitions]:
    """The partitions, each topic once."""
    topics: Dict[object, TopicPartitions] = {}
    for topic_id, number in parts:
        topics.setdefault(topic_id, TopicPartitions(topic_id, [])).partitions.append(number)
    return list(topics.values())


def asked(parts: Iterable[Part], batches: Batches) -> List[AskedTopic]:
    """The partitions with their acknowledgements, each topic once."""
    return [AskedTopic(topic.topic_id, [AskedPartition(number, batches.get((topic.topic_id, number), []))
                                        for number in topic.partitions])
            for topic in by_topic(parts)]


class ShareSession:
    """A session. It is opened by the first fetch, and ends with the connection or with `close`; then the broker
    releases what it holds. A request that is refused as a whole is `Refused`, and changes nothing at the broker."""

    def __init__(self, connection: Connection, group_id: str, member_id: str) -> None:
        self.connection = connection
        self._group_id = group_id
        self._member_id = member_id
        self._epoch = 0
        self._joined: Dict[Part, None] = {}

    @property
    def is_open(self) -> bool:
        """Whether the broker has opened it."""
        return self._epoch > 0 and self.connection.is_open

    def fetch(self, wanted: Sequence[Part], batches: Batches, max_wait_ms: int, max_bytes: int,
              max_records: int) -> ShareFetchResponse:
        """Acknowledges, and acquires records of the wanted partitions. The first fetch has nothing to acknowledge.
        Without acknowledgements the broker waits for a record, at most so long."""
        joining = [part for part in wanted if part not in self._joined and part not in batches]
        known = dict.fromkeys([*self._joined, *batches])
        forgotten = [part for part in known if part not in wanted]
        request = ShareFetchRequest(
            self._group_id, self._member_id, self._epoch, max_wait_ms, 1, max_bytes, max_records, max_records,
            asked([*batches, *joining], batches), by_topic(forgotten))
        reply = self.connection.call(SHARE_FETCH, request, max_wait_ms + LATE_MS if max_wait_ms else 0)
        self._next_epoch("ShareFetch", reply.error_code)
        self._joined = dict.fromkeys(wanted)
        for topic in reply.responses:
            for entry in topic.partitions:
                if entry.error_code in (3, 100):
                    self._joined.pop((topic.topic_id, entry.partition_index), None)
        return reply

    def acknowledge(self, batches: Batches) -> ShareAcknowledgeResponse:
        """Acknowledges, and acquires nothing. The session is open."""
        request = ShareAcknowledgeRequest(self._group_id, self._member_id, self._epoch, asked(batches, batches))
        reply = self.connection.call(SHARE_ACKNOWLEDGE, request)
        self._next_epoch("ShareAcknowledge", reply.error_code)
        return reply

    def close(self) -> None:
        """Closes the session: what it holds is released."""
        request = ShareAcknowledgeRequest(self._group_id, self._member_id, -1, [])
        self.connection.call(SHARE_ACKNOWLEDGE, request)
        self._epoch = 0

    def _next_epoch(self, what: str, code: int) -> None:
        if code:
            raise Refused(what, code)
        self._epoch = 1 if self._epoch == 2147483647 else self._epoch + 1
