"""The messages of share consumers, by the schemas of KIP-932, each at version 1."""

from __future__ import annotations

from dataclasses import dataclass
from typing import List, Optional
from uuid import UUID

from .fields import (INT8, INT16, INT32, INT64, NULLABLE_BYTES, NULLABLE_TEXT, TEXT, UUID_BYTES, Array, Optionally,
                     Structure)
from .messages import NODE, Call, Node


# ShareGroupHeartbeat 1

@dataclass(frozen=True)
class ShareGroupHeartbeatRequest:
    """A member of a group is there. Epoch 0 joins and -1 leaves; topics that are null stay as they are."""

    group_id: str
    member_id: str
    member_epoch: int
    rack_id: Optional[str]
    subscribed_topic_names: Optional[List[str]]


@dataclass(frozen=True)
class TopicPartitions:
    """Partitions of a topic."""

    topic_id: UUID
    partitions: List[int]


@dataclass(frozen=True)
class Assignment:
    """What a member is to read."""

    topic_partitions: List[TopicPartitions]


@dataclass(frozen=True)
class ShareGroupHeartbeatResponse:
    """The member's epoch, when it is to be heard again, and its assignment where that may have changed."""

    throttle_time_ms: int
    error_code: int
    error_message: Optional[str]
    member_id: Optional[str]
    member_epoch: int
    heartbeat_interval_ms: int
    assignment: Optional[Assignment]


TOPIC_PARTITIONS = Structure(TopicPartitions, topic_id=UUID_BYTES, partitions=Array(INT32))

SHARE_GROUP_HEARTBEAT = Call(
    "ShareGroupHeartbeat", 76, 1,
    Structure(ShareGroupHeartbeatRequest, group_id=TEXT, member_id=TEXT, member_epoch=INT32, rack_id=NULLABLE_TEXT,
              subscribed_topic_names=Array(TEXT, nullable=True)),
    Structure(ShareGroupHeartbeatResponse, throttle_time_ms=INT32, error_code=INT16, error_message=NULLABLE_TEXT,
              member_id=NULLABLE_TEXT, member_epoch=INT32, heartbeat_interval_ms=INT32,
              assignment=Optionally(Structure(Assignment, topic_partitions=Array(TOPIC_PARTITIONS)))))


# ShareFetch 1 and ShareAcknowledge 1

@dataclass(frozen=True)
class AcknowledgementBatch:
    """Offsets, both ends within, with one type for all or one for each: 0 gap, 1 accept, 2 release, 3 reject."""

    first_offset: int
    last_offset: int
    acknowledge_types: List[int]


@dataclass(frozen=True)
class AskedPartition:
    """A partition to fetch from or to acknowledge on."""

    partition_index: int
    acknowledgement_batches: List[AcknowledgementBatch]


@dataclass(frozen=True)
class AskedTopic:
    """The partitions of a topic."""

    topic_id: UUID
    partitions: List[AskedPartition]


@dataclass(frozen=True)
class ShareFetchRequest:
    """Acknowledges records, and acquires others. Epoch 0 opens the session, -1 closes it."""

    group_id: Optional[str]
    member_id: Optional[str]
    share_session_epoch: int
    max_wait_ms: int
    min_bytes: int
    max_bytes: int
    max_records: int
    batch_size: int
    topics: List[AskedTopic]
    forgotten_topics_data: List[TopicPartitions]


@dataclass(frozen=True)
class Leader:
    """The broker that leads a partition, and its epoch."""

    leader_id: int
    leader_epoch: int


@dataclass(frozen=True)
class AcquiredRecords:
    """Offsets, both ends within, that were acquired, and how often they were delivered, this time counted."""

    first_offset: int
    last_offset: int
    delivery_count: int


@dataclass(frozen=True)
class FetchedPartition:
    """What was acquired on a partition, and what became of its acknowledgements."""

    partition_index: int
    error_code: int
    error_message: Optional[str]
    acknowledge_error_code: int
    acknowledge_error_message: Optional[str]
    current_leader: Leader
    records: Optional[bytes]
    acquired_records: List[AcquiredRecords]


@dataclass(frozen=True)
class FetchedTopic:
    """What was acquired on the partitions of a topic."""

    topic_id: UUID
    partitions: List[FetchedPartition]


@dataclass(frozen=True)
class ShareFetchResponse:
    """What was acquired, and for how long it is locked."""

    throttle_time_ms: int
    error_code: int
    error_message: Optional[str]
    acquisition_lock_timeout_ms: int
    responses: List[FetchedTopic]
    node_endpoints: List[Node]


@dataclass(frozen=True)
class ShareAcknowledgeRequest:
    """Acknowledges records. Epoch -1 closes the session."""

    group_id: Optional[str]
    member_id: Optional[str]
    share_session_epoch: int
    topics: List[AskedTopic]


@dataclass(frozen=True)
class AcknowledgedPartition:
    """What became of the acknowledgements of a partition."""

    partition_index: int
    error_code: int
    error_message: Optional[str]
    current_leader: Leader


@dataclass(frozen=True)
class AcknowledgedTopic:
    """What became of the acknowledgements of a topic's partitions."""

    topic_id: UUID
    partitions: List[AcknowledgedPartition]


@dataclass(frozen=True)
class ShareAcknowledgeResponse:
    """What became of the acknowledgements, in the order of the request."""

    throttle_time_ms: int
    error_code: int
    error_message: Optional[str]
    responses: List[AcknowledgedTopic]
    node_endpoints: List[Node]


ASKED_TOPICS = Array(Structure(
    AskedTopic, topic_id=UUID_BYTES,
    partitions=Array(Structure(
        AskedPartition, partition_index=INT32,
        acknowledgement_batches=Array(Structure(AcknowledgementBatch, first_offset=INT64, last_offset=INT64,
                                                acknowledge_types=Array(INT8)))))))

LEADER = Structure(Leader, leader_id=INT32, leader_epoch=INT32)

SHARE_FETCH = Call(
    "ShareFetch", 78, 1,
    Structure(ShareFetchRequest, group_id=NULLABLE_TEXT, member_id=NULLABLE_TEXT, share_session_epoch=INT32,
              max_wait_ms=INT32, min_bytes=INT32, max_bytes=INT32, max_records=INT32, batch_size=INT32,
              topics=ASKED_TOPICS, forgotten_topics_data=Array(TOPIC_PARTITIONS)),
    Structure(ShareFetchResponse, throttle_time_ms=INT32, error_code=INT16, error_message=NULLABLE_TEXT,
              acquisition_lock_timeout_ms=INT32,
              responses=Array(Structure(
                  FetchedTopic, topic_id=UUID_BYTES,
                  partitions=Array(Structure(
                      FetchedPartition, partition_index=INT32, error_code=INT16, error_message=NULLABLE_TEXT,
                      acknowledge_error_code=INT16, acknowledge_error_message=NULLABLE_TEXT, current_leader=LEADER,
                      records=NULLABLE_BYTES,
                      acquired_records=Array(Structure(AcquiredRecords, first_offset=INT64, last_offset=INT64,
                                                       delivery_count=INT16)))))),
              node_endpoints=Array(NODE)))

SHARE_ACKNOWLEDGE = Call(
    "ShareAcknowledge", 79, 1,
    Structure(ShareAcknowledgeRequest, group_id=NULLABLE_TEXT, member_id=NULLABLE_TEXT, share_session_epoch=INT32,
              topics=ASKED_TOPICS),
    Structure(ShareAcknowledgeResponse, throttle_time_ms=INT32, error_code=INT16, error_message=NULLABLE_TEXT,
              responses=Array(Structure(
                  AcknowledgedTopic, topic_id=UUID_BYTES,
                  partitions=Array(Structure(AcknowledgedPartition, partition_index=INT32, error_code=INT16,
                                             error_message=NULLABLE_TEXT, current_leader=LEADER)))),
              node_endpoints=Array(NODE)))
