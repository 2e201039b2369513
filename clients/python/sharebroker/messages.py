"""The messages of the calls that this client makes, by Kafka's message schemas, each at the version that the broker
serves.

A message is a dataclass, and a `Structure` beside it that names its fields in the order of the schema. Codes are
Kafka's error codes, epochs and indexes are plain numbers, and what ends in `_ms` is in milliseconds.
"""

from __future__ import annotations

from dataclasses import dataclass
from typing import Generic, List, Optional, TypeVar
from uuid import UUID

from .fields import (BOOL, INT8, INT16, INT32, INT64, NULLABLE_BYTES, NULLABLE_TEXT, TEXT, UUID_BYTES, Array,
                     Structure)

Q = TypeVar("Q")
R = TypeVar("R")


@dataclass(frozen=True)
class Call(Generic[Q, R]):
    """A call: its name, api key and version, and the structures of its request and its reply."""

    name: str
    key: int
    version: int
    request: Structure[Q]
    reply: Structure[R]


# ApiVersions 3

@dataclass(frozen=True)
class ApiVersionsRequest:
    """Asks which calls are served, and says what software asks."""

    client_software_name: str
    client_software_version: str


@dataclass(frozen=True)
class ApiKey:
    """A call that is served, in the versions from the least to the greatest."""

    api_key: int
    min_version: int
    max_version: int


@dataclass(frozen=True)
class ApiVersionsResponse:
    """The calls that are served."""

    error_code: int
    api_keys: List[ApiKey]
    throttle_time_ms: int


API_VERSIONS = Call(
    "ApiVersions", 18, 3,
    Structure(ApiVersionsRequest, client_software_name=TEXT, client_software_version=TEXT),
    Structure(ApiVersionsResponse, error_code=INT16,
              api_keys=Array(Structure(ApiKey, api_key=INT16, min_version=INT16, max_version=INT16)),
              throttle_time_ms=INT32))


# Metadata 12

@dataclass(frozen=True)
class MetadataTopicAsked:
    """A topic that is asked for, by id where the name is null."""

    topic_id: UUID
    name: Optional[str]


@dataclass(frozen=True)
class MetadataRequest:
    """Asks for these topics, or for all where they are null."""

    topics: Optional[List[MetadataTopicAsked]]
    allow_auto_topic_creation: bool
    include_topic_authorized_operations: bool


@dataclass(frozen=True)
class Node:
    """A broker, and where it is reached."""

    node_id: int
    host: str
    port: int
    rack: Optional[str]


@dataclass(frozen=True)
class MetadataPartition:
    """A partition, and which broker leads it."""

    error_code: int
    partition_index: int
    leader_id: int
    leader_epoch: int
    replica_nodes: List[int]
    isr_nodes: List[int]
    offline_replicas: List[int]


@dataclass(frozen=True)
class MetadataTopic:
    """A topic and its partitions."""

    error_code: int
    name: Optional[str]
    topic_id: UUID
    is_internal: bool
    partitions: List[MetadataPartition]
    topic_authorized_operations: int


@dataclass(frozen=True)
class MetadataResponse:
    """The brokers and the topics."""

    throttle_time_ms: int
    brokers: List[Node]
    cluster_id: Optional[str]
    controller_id: int
    topics: List[MetadataTopic]


NODE = Structure(Node, node_id=INT32, host=TEXT, port=INT32, rack=NULLABLE_TEXT)

METADATA = Call(
    "Metadata", 3, 12,
    Structure(MetadataRequest,
              topics=Array(Structure(MetadataTopicAsked, topic_id=UUID_BYTES, name=NULLABLE_TEXT), nullable=True),
              allow_auto_topic_creation=BOOL, include_topic_authorized_operations=BOOL),
    Structure(MetadataResponse, throttle_time_ms=INT32, brokers=Array(NODE), cluster_id=NULLABLE_TEXT,
              controller_id=INT32,
              topics=Array(Structure(
                  MetadataTopic, error_code=INT16, name=NULLABLE_TEXT, topic_id=UUID_BYTES, is_internal=BOOL,
                  partitions=Array(Structure(
                      MetadataPartition, error_code=INT16, partition_index=INT32, leader_id=INT32,
                      leader_epoch=INT32, replica_nodes=Array(INT32), isr_nodes=Array(INT32),
                      offline_replicas=Array(INT32))),
                  topic_authorized_operations=INT32))))


# Produce 9

@dataclass(frozen=True)
class ProducePartition:
    """A record batch for a partition."""

    index: int
    records: Optional[bytes]


@dataclass(frozen=True)
class ProduceTopic:
    """The record batches for a topic."""

    name: str
    partition_data: List[ProducePartition]


@dataclass(frozen=True)
class ProduceRequest:
    """Record batches to store. `acks` is 0 where no reply is wanted, and else 1 or -1."""

    transactional_id: Optional[str]
    acks: int
    timeout_ms: int
    topic_data: List[ProduceTopic]


@dataclass(frozen=True)
class RecordError:
    """A record that was refused."""

    batch_index: int
    batch_index_error_message: Optional[str]


@dataclass(frozen=True)
class ProducedPartition:
    """What became of a batch: its first offset, or a code and -1."""

    index: int
    error_code: int
    base_offset: int
    log_append_time_ms: int
    log_start_offset: int
    record_errors: List[RecordError]
    error_message: Optional[str]


@dataclass(frozen=True)
class ProducedTopic:
    """What became of the batches for a topic."""

    name: str
    partition_responses: List[ProducedPartition]


@dataclass(frozen=True)
class ProduceResponse:
    """What became of each batch, in the order of the request."""

    responses: List[ProducedTopic]
    throttle_time_ms: int


PRODUCE = Call(
    "Produce", 0, 9,
    Structure(ProduceRequest, transactional_id=NULLABLE_TEXT, acks=INT16, timeout_ms=INT32,
              topic_data=Array(Structure(
                  ProduceTopic, name=TEXT,
                  partition_data=Array(Structure(ProducePartition, index=INT32, records=NULLABLE_BYTES))))),
    Structure(ProduceResponse,
              responses=Array(Structure(
                  ProducedTopic, name=TEXT,
                  partition_responses=Array(Structure(
                      ProducedPartition, index=INT32, error_code=INT16, base_offset=INT64, log_append_time_ms=INT64,
                      log_start_offset=INT64,
                      record_errors=Array(Structure(RecordError, batch_index=INT32,
                                                    batch_index_error_message=NULLABLE_TEXT)),
                      error_message=NULLABLE_TEXT)))),
              throttle_time_ms=INT32))


# DeleteRecords 2

@dataclass(frozen=True)
class DeletePartition:
    """A partition whose records below an offset go. The offset -1 stands for the end of its log."""

    partition_index: int
    offset: int


@dataclass(frozen=True)
class DeleteTopic:
    """The partitions of a topic."""

    name: str
    partitions: List[DeletePartition]


@dataclass(frozen=True)
class DeleteRecordsRequest:
    """Deletes the records of partitions below offsets."""

    topics: List[DeleteTopic]
    timeout_ms: int


@dataclass(frozen=True)
class DeletedPartition:
    """Where the log of a partition starts now, or a code and -1."""

    partition_index: int
    low_watermark: int
    error_code: int


@dataclass(frozen=True)
class DeletedTopic:
    """What became of a topic's partitions."""

    name: str
    partitions: List[DeletedPartition]


@dataclass(frozen=True)
class DeleteRecordsResponse:
    """What became of each partition, in the order of the request."""

    throttle_time_ms: int
    topics: List[DeletedTopic]


DELETE_RECORDS = Call(
    "DeleteRecords", 21, 2,
    Structure(DeleteRecordsRequest,
              topics=Array(Structure(
                  DeleteTopic, name=TEXT,
                  partitions=Array(Structure(DeletePartition, partition_index=INT32, offset=INT64)))),
              timeout_ms=INT32),
    Structure(DeleteRecordsResponse, throttle_time_ms=INT32,
              topics=Array(Structure(
                  DeletedTopic, name=TEXT,
                  partitions=Array(Structure(DeletedPartition, partition_index=INT32, low_watermark=INT64,
                                             error_code=INT16))))))


# ReadShareGroupState 0

@dataclass(frozen=True)
class ReadPartition:
    """A partition whose state is asked for."""

    partition: int
    leader_epoch: int


@dataclass(frozen=True)
class ReadTopic:
    """The partitions of a topic."""

    topic_id: UUID
    partitions: List[ReadPartition]


@dataclass(frozen=True)
class ReadShareGroupStateRequest:
    """Asks for the stored states of a share group."""

    group_id: str
    topics: List[ReadTopic]


@dataclass(frozen=True)
class StateBatch:
    """Offsets, both ends within, in one delivery state (0 available, 2 acknowledged, 4 archived) with one count."""

    first_offset: int
    last_offset: int
    delivery_state: int
    delivery_count: int


@dataclass(frozen=True)
class ReadResult:
    """The stored state of a partition, or a code."""

    partition: int
    error_code: int
    error_message: Optional[str]
    state_epoch: int
    start_offset: int
    state_batches: List[StateBatch]


@dataclass(frozen=True)
class ReadTopicResult:
    """The stored states of a topic's partitions."""

    topic_id: UUID
    partitions: List[ReadResult]


@dataclass(frozen=True)
class ReadShareGroupStateResponse:
    """The stored states, in the order of the request."""

    results: List[ReadTopicResult]


READ_STATE = Call(
    "ReadShareGroupState", 84, 0,
    Structure(ReadShareGroupStateRequest, group_id=TEXT,
              topics=Array(Structure(
                  ReadTopic, topic_id=UUID_BYTES,
                  partitions=Array(Structure(ReadPartition, partition=INT32, leader_epoch=INT32))))),
    Structure(ReadShareGroupStateResponse,
              results=Array(Structure(
                  ReadTopicResult, topic_id=UUID_BYTES,
                  partitions=Array(Structure(
                      ReadResult, partition=INT32, error_code=INT16, error_message=NULLABLE_TEXT, state_epoch=INT32,
                      start_offset=INT64,
                      state_batches=Array(Structure(StateBatch, first_offset=INT64, last_offset=INT64,
                                                    delivery_state=INT8, delivery_count=INT16))))))))
